#!/usr/bin/env python3
"""Tests of ./run and of its pictures: tests/run_test.py

Wrong uses get their message and status; reports, means, tables, collections and pictures of the examples come out, from any folder, through a link and
from a pipe. ./run builds what is missing. The exit status is 1 where something fails.
"""

import glob
import os
import subprocess
import sys
import tempfile
import xml.etree.ElementTree

import reference
from reference import Card, River, Sludge
from reference_test import USED_UP, USED_UP_MEANS, status_bench
from testing import expect, run_tests

ROOT = os.path.dirname(os.path.dirname(os.path.realpath(__file__)))
RUN = os.path.join(ROOT, "run")
EXAMPLES = os.path.join(ROOT, "examples")
ACCEPTED = sorted(glob.glob(os.path.join(EXAMPLES, "*.river")))
TOWN = os.path.join(EXAMPLES, "town.river")


def run(*words, given=None, program=RUN, folder=ROOT):
    """Runs ./run: status, standard output, standard error."""
    done = subprocess.run([program, *words], input=given, stdout=subprocess.PIPE, stderr=subprocess.PIPE, cwd=folder, check=False)
    return done.returncode, done.stdout, done.stderr.decode()


def contents(path):
    with open(path, "rb") as source:
        return source.read()


def stored(path, data):
    with open(path, "wb") as file:
        file.write(data)
    return path


def says(what, answer, status, *parts):
    """An answer is this status, with all the parts on standard error, each of whose lines tells whose it is."""
    found, _, said = answer
    if found != status or not all(part in said for part in parts) or not all(line.startswith("run: ") for line in said.splitlines()):
        raise AssertionError(f"{what}: status {found}, '{said}', due is status {status} and {parts}")


def wrong_uses():
    """What cannot be done at all, with status 2 and nothing on standard output."""
    with tempfile.TemporaryDirectory() as folder:
        kept, empty = stored(os.path.join(folder, "town.svg"), contents(TOWN)), os.path.join(folder, "empty")
        os.mkdir(empty)
        cases = (
            ((), ("no file given", "--help")), (("none.river",), ("none.river", "no such file")), (("",), ("no such file",)), (("examples",), ("examples", "folder", "--collection")),
            (("--tables", TOWN), ("unknown option --tables", "--help")), ((TOWN, TOWN), ("one file at a time", "--table")), (("--table",), ("no file given",)),
            (("--table", TOWN, "none.river"), ("none.river", "no such file")), (("--table", "--collection", "examples"), ("--table and --collection",)),
            (("--mean",), ("no file given",)), (("--mean", "none.river"), ("none.river", "no such file")), (("--mean", "examples"), ("examples", "folder")),
            (("--mean", TOWN, TOWN), ("--mean takes one", "2 are given")), (("--mean", "--table", TOWN), ("--mean and --table",)), (("--mean", "--limit", "5.0", TOWN), ("--limit goes with",)),
            (("--limit", "5.0", TOWN), ("--limit goes with",)), (("--table", "--limit"), ("--limit needs",)), (("--table", "--limit", "5,0", TOWN), ("--limit takes", "5,0")),
            (("--collection",), ("no folder given",)), (("--collection", "none"), ("none", "no such folder")), (("--collection", TOWN), (TOWN, "not a folder")),
            (("--collection", "examples", "docs"), ("--collection takes one folder", "2 are given")), (("--picture", "x.svg", TOWN, TOWN), ("--picture takes", "2 files are given")),
            (("--picture",), ("OUT.svg",)), (("--picture", TOWN, "town.svg"), (TOWN, ".svg")), (("--picture", os.path.join(folder, "none", "x.svg"), TOWN), ("cannot be written",)),
            (("--picture", kept, kept), ("town.svg", "river file itself")))
        for words, parts in cases:
            answer = run(*words)
            says(f"./run {' '.join(words)}", answer, 2, *parts)
            expect(f"./run {' '.join(words)}, printed", answer[1], b"")
        expect("the river file given as a picture is left", contents(kept), contents(TOWN))
        expect("a folder without river files", run("--collection", empty)[0], 2)
    return f"{len(cases)} wrong uses"


def refusals():
    """Files that are refused: the report's line, status 1, and the reason on standard error."""
    town = contents(TOWN)
    cases = (
        ("empty", b"", "refused 1 reach 0", ("fewer bytes",)), ("text", contents(TOWN[:-5] + "txt"), "refused 2 reach 0", ("the mark RV", "looks like a text; tools/river make")),
        ("cut factors", town[:4] + b"TH\4\x17\4", "refused 1 reach 0", ("fewer bytes",)), ("trailing newline", town + b"\n", "refused 6 reach 0", ("bytes remain",)), ("cut", town[:-1], "refused 1 reach 5", ("reach 5", "fewer bytes")),
        ("five megabytes", town + bytes(5_000_000), "refused 6 reach 0", ("bytes remain",)), ("zeros", bytes(5_000_000), "refused 2 reach 0", ("the mark RV",)))
    with tempfile.TemporaryDirectory() as folder:
        for name, data, line, parts in cases:
            path, picture = stored(os.path.join(folder, f"{name}.river"), data), os.path.join(folder, "out.svg")
            answer = run(path)
            says(name, answer, 1, name, *parts)
            expect(f"{name}, printed", answer[1].decode(), line + "\n")
            says(f"picture of {name}", run("--picture", picture, path), 1, name, line, *parts)
            status, table, _ = run("--table", path)
            expect(f"table of {name}", (status, line in table.decode(), b"looks like a text" in table, os.path.exists(picture)), (1, True, name == "text", False))
    for path in glob.glob(os.path.join(EXAMPLES, "refused", "*.river")):
        expect(path, run(path)[:2], (1, contents(path[:-5] + "report")))
        number = int(os.path.basename(path).split("-")[0])
        expect(f"{path}: a pointer at the table", "--table FILE" in run(path)[2], number in (4, 5))
    return f"{len(cases)} files refused"


def reports():
    """The reports of the examples, and of a river that comes through a pipe."""
    for path in ACCEPTED:
        expect(path, run(path), (0, contents(path[:-5] + "report"), ""))
    with tempfile.TemporaryDirectory() as folder:
        path = stored(os.path.join(folder, "zeros.river"), contents(TOWN) + b"NT" + bytes(14))
        expect("ammonia of zeros", run(path), (0, contents(TOWN[:-5] + "report").replace(b"\n", b" 0 0\n"), ""))
        path = stored(os.path.join(folder, "ones.river"), contents(TOWN)[:4] + b"TH\3\xe8\3\xe8" + contents(TOWN)[4:])
        expect("rate factors of 1,000", run(path), (0, contents(TOWN[:-5] + "report"), ""))
        for what, river, due in status_bench():
            path = stored(os.path.join(folder, "bench.river"), reference.encode(river))
            expect(what, run(path), (0, due, ""))
    due = contents(TOWN[:-5] + "report")
    expect("a pipe", run("/dev/stdin", given=contents(TOWN)), (0, due, ""))
    expect("another folder", run("town.river", folder=EXAMPLES), (0, due, ""))
    expect("another folder, by a path from there", run("town.river", program=os.path.join("..", "run"), folder=EXAMPLES), (0, due, ""))
    with tempfile.TemporaryDirectory() as folder:
        link, odd = os.path.join(folder, "link"), stored(os.path.join(folder, "-a b\t.river"), contents(TOWN))
        os.symlink(RUN, link)
        expect("a link", run(TOWN, program=link, folder=folder), (0, due, ""))
        expect("a table through a link", run("--table", TOWN, program=link, folder=folder)[0], 0)
        expect("an odd name", run("--", os.path.basename(odd), folder=folder), (0, due, ""))
    expect("--help", (run("--help")[0], b"--picture" in run("-h")[1]), (0, True))
    return f"{len(ACCEPTED)} reports"


def mean_bench():
    """The bench values of the paper on mean oxygen: what they are, the river and the lines that are due."""
    first, second = reference.read(contents(os.path.join(EXAMPLES, "two.river"))).cards
    for volumes, line in (((1_000, 3_000), "river 6875000 0"), ((1_000, 2_001), "river 6999833 1167"), ((0, 1_000), "river 6500000 0")):
        cards = [card._replace(volume=volume) for card, volume in zip((first, second), volumes)]
        yield "volumes of {} and {}".format(*volumes), River(cards), f"1 8000000\n2 6500000\n{line}\n"
    yield "a bed in reach 2", River([first, second._replace(sludge=Sludge(34_560))]), "1 8000000\n2 6450000\nriver 7225000 0\n"
    equal = Card(0, 0, 1_000, 1_000, 864_000, 10_000, 10_000, 14_652, 0)
    bed = equal._replace(inflow_bod=0, sludge=Sludge(1_000))
    for what, card, mean in (("equal rates", equal, 12009589), ("decay alone", equal._replace(k2=0), 10973206), ("a bed with aeration", bed, 14284121),
                             ("a bed without", bed._replace(k2=0), 14152000)):
        yield what, River([card]), f"1 {mean}\nriver {mean} 0\n"


def means():
    """The means of the examples and of the paper's bench values: a line for each reach and one for the river; refusals are those of the report, and 16 for
    a river without volume."""
    for path in ACCEPTED:
        status, said, complaint = run("--mean", path)
        due = contents(path[:-5] + "mean")
        refused = due.startswith(b"refused")
        expect(f"means of {path}", (status, said, complaint != ""), (int(refused), due, refused))
    program = os.path.join(ROOT, "crates", "print_mean")
    due = contents(os.path.join(program, "stdout"))
    expect("the program's own river", run("--mean", os.path.join(program, "stdin")), (0, due, ""))
    expect("means from a pipe", run("--mean", "/dev/stdin", given=contents(os.path.join(program, "stdin"))), (0, due, ""))
    two = contents(os.path.join(EXAMPLES, "two.river"))
    expect("means of two reaches", run("two.river", "--mean", folder=EXAMPLES), (0, b"1 8000000\n2 6500000\nriver 7250000 0\n", ""))
    for path in glob.glob(os.path.join(EXAMPLES, "refused", "*.river")):
        expect(f"means of {path}", run("--mean", path), run(path))
    with tempfile.TemporaryDirectory() as folder:
        path = stored(os.path.join(folder, "no volume.river"), two[:12] + bytes(4) + two[16:38] + bytes(4) + two[42:])
        expect("a report without volume", run(path)[0], 0)
        answer = run("--mean", path)
        says("means without volume", answer, 1, "no volume.river", "and so no mean")
        expect("means without volume, printed", answer[1], b"refused 16 reach 0\n")
        for what, river, due in mean_bench():
            path = stored(os.path.join(folder, "bench.river"), reference.encode(river))
            expect(f"means of {what}", run("--mean", path), (0, due.encode(), ""))
        path = stored(os.path.join(folder, "bench.river"), reference.encode(River(USED_UP)))
        expect("means of oxygen used up", run("--mean", path), (0, USED_UP_MEANS, ""))
    return f"{len(ACCEPTED)} rivers' means"


def tables():
    """A table for each river, and a line for each river of a folder."""
    status, said, complaint = run("--table", "--limit", "5.0", *ACCEPTED)
    expect("tables", (status, said.count(b"lowest oxygen"), complaint), (0, len(ACCEPTED), ""))
    status, said, _ = run("--table", os.path.join(EXAMPLES, "overload.river"))
    expect("oxygen used up in a table", (status, b"used up above" in said), (0, True))
    status, said, _ = run("--table", TOWN, os.path.join(EXAMPLES, "refused", "4-too-warm.river"))
    expect("a table and a refusal", (status, b"temperature is 36, not from 0 to 35" in said), (1, True))
    status, said, _ = run("--table", os.path.join(EXAMPLES, "refused", "4-factor.river"))
    expect("a refusal with reach 0", (status, b"decay factor is 1101, not from 1000 to 1100" in said), (1, True))
    status, said, complaint = run("--collection", "examples")
    expect("the collection of examples", (status, f"{len(ACCEPTED)} rivers: {len(ACCEPTED)} accepted, 0 refused".encode() in said, complaint), (0, True, ""))
    status, said, complaint = run("--collection", "refused", folder=EXAMPLES)
    expect("the collection of refused rivers", (status, b" 0 accepted, " in said, b"DIFFERS" in said, complaint), (1, True, False, ""))
    return "tables, collections"


def drawn(out, what, *words, name, given=None):
    """The root of a picture that is drawn to a file, which is well-formed and names its river."""
    expect(what, run("--picture", out, *words, given=given), (0, b"", ""))
    root = xml.etree.ElementTree.fromstring(contents(out))
    expect(f"{what}: title", (root.tag, root[0].text), ("{http://www.w3.org/2000/svg}svg", name))
    os.remove(out)
    return root


def pictures():
    """A picture of each example, and of a river that comes through a pipe."""
    with tempfile.TemporaryDirectory() as folder:
        out = os.path.join(folder, "out & out.svg")
        for path in ACCEPTED:
            drawn(out, path, path, name=path)
            drawn(out, f"{path} with a limit", path, "--limit", "8.4", name=path)
        drawn(out, "a pipe", "/dev/stdin", given=contents(TOWN), name="/dev/stdin")
        odd = stored(os.path.join(folder, "a<b>&\"c\".river"), contents(TOWN))
        text = "".join(drawn(out, "an odd name", odd, "--limit", "7.0", name=odd).itertext())
        expect("reaches below the limit are named", "2 of 5 below 7.0 mg/L: 4, 5" in text, True)
    return f"{2 * len(ACCEPTED) + 2} pictures"


def picture_contents():
    """What pictures of some examples show: levels of saturation, sludge beds, oxygen used up, rate factors and ammonia."""
    with tempfile.TemporaryDirectory() as folder:
        def picture(name, *words):
            path = os.path.join(EXAMPLES, f"{name}.river")
            return drawn(os.path.join(folder, "out.svg"), name, path, *words, name=path)

        for name, levels in (("two-dam", 1), ("two-pressure", 2)):
            found = sum(element.get("stroke-dasharray") == "5 3" for element in picture(name).iter())
            expect(f"levels of saturation in {name}", found, levels)
        for name, beds in (("two", 0), ("two-sludge", 1), ("old-weir", 3)):
            text = "".join(picture(name).itertext())
            expect(f"sludge beds in {name}", (text.count("sludge bed of reach"), "sludge beds" in text), (beds, beds > 0))
        for name, above, feet in (("two", 0, 2), ("overload", 2, 2)):
            text = "".join(picture(name, "--limit", "5.0").itertext())
            found = text.count("oxygen used up above reach"), "used up above" in text, text.count("foot: oxygen ")
            expect(f"oxygen used up in {name}", found, (above, above > 0, feet))
        for name, factors in (("two", 0), ("two-factors", 1)):
            text = "".join(picture(name, "--limit", "7.0").itertext())
            expect(f"rate factors in {name}", "by 1.047 for decay and 1.024 for aeration" in text, factors == 1)
        for name, feet, nitrifying in (("old-weir", 0, 0), ("two-ammonia", 2, 0), ("upper-stretch", 4, 3)):
            text = "".join(picture(name).itertext())
            found = "nitrogenous BOD, mg/L" in text, text.count("foot: nitrogenous BOD "), text.count("nitrification of reach")
            expect(f"nitrogenous BOD in {name}", found, (feet > 0, feet, nitrifying))
    return "what 12 of them show"


TESTS = (wrong_uses, refusals, reports, means, tables, pictures, picture_contents)


if __name__ == "__main__":
    sys.exit(run_tests("./run", __doc__, TESTS))
