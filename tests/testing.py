"""What the test scripts share: one check, and their running from the command line."""

import os
import sys


def expect(what, found, due):
    if found != due:
        raise AssertionError(f"{what}: {found}, due is {due}")


def run_tests(name, about, tests):
    """Runs tests, of which each says what it tested. Gives the exit status: 0, 1 where one fails, 2 for bad use."""
    if len(sys.argv) > 1:
        print(about.strip())
        return 0 if sys.argv[1:] in (["-h"], ["--help"]) else 2
    try:
        print(f"{name}: " + ", ".join(test() for test in tests))
        return 0
    except AssertionError as problem:
        print(f"{os.path.basename(sys.argv[0])}: {problem}", file=sys.stderr)
        return 1
