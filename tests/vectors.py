"""What the vector scripts share: their command line, the bundle of cases that a test program reads, and how a made file is settled."""

import argparse
import os
import shutil
import subprocess
import sys

ROOT = os.path.dirname(os.path.dirname(os.path.abspath(__file__)))
BUNDLE = 65_536         # bytes of the longest bundle, as in crates/cases


class Failed(Exception):
    """A check that failed, in words."""


def rt(*words, folder=ROOT):
    """Runs the Rattle toolchain in a folder."""
    if not shutil.which("rt"):
        raise Failed("rt, the Rattle toolchain, is not on the PATH")
    return subprocess.run(["rt", *words], cwd=folder, stdout=subprocess.PIPE, stderr=subprocess.STDOUT, text=True, check=False)


def bundle(cases):
    """What a test program reads on standard input (crates/cases): the length of a case in four bytes, the case, and so on."""
    made = b"".join(len(case).to_bytes(4, "big") + case for case in cases)
    if len(made) > BUNDLE:
        raise Failed(f"the bundle has {len(made)} bytes, and its program has room for {BUNDLE}")
    return made


def stored(path):
    """The bytes of a file of the repository, or nothing where it is missing."""
    try:
        with open(os.path.join(ROOT, path), "rb") as file:
            return file.read()
    except FileNotFoundError:
        return None


def settle(path, made, write):
    """Holds a file of the repository to its bytes, or writes it where it differs."""
    if stored(path) == made:
        return
    if not write:
        raise Failed(f"{path} is not up to date; --write makes it anew")
    with open(os.path.join(ROOT, path), "wb") as file:
        file.write(made)
    print(f"{path} written")


def settle_both(crate, cases, output, write):
    """The same for the two files of a test program: its cases, and what it prints for them."""
    settle(f"crates/{crate}/stdin", bundle(cases), write)
    settle(f"crates/{crate}/stdout", output.encode(), write)


def run(description, make):
    """The command line of a vector script: `make` is told whether to write, and gives the line to end with."""
    parser = argparse.ArgumentParser(description=description, formatter_class=argparse.RawDescriptionHelpFormatter)
    mode = parser.add_mutually_exclusive_group(required=True)
    mode.add_argument("--check", action="store_true", help="say whether the files are up to date, and change none")
    mode.add_argument("--write", action="store_true", help="write the files that are not up to date")
    given = parser.parse_args()
    try:
        print(make(given.write))
        return 0
    except Failed as problem:
        print(f"{os.path.basename(sys.argv[0])}: {problem}", file=sys.stderr)
        return 1
