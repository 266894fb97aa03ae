#!/usr/bin/env python3
"""Tests of tools/river: tests/river_test.py

Every example and many generated files come back from their text; wrong uses get their message and status. The exit status is 1 where something fails.
"""

import glob
import os
import subprocess
import sys
import tempfile

import generate
import reference
from testing import expect, run_tests

ROOT = os.path.dirname(os.path.dirname(os.path.realpath(__file__)))
TOOL = os.path.join(ROOT, "tools", "river")
NINE = "0 20 0 0 1000 3000 2000 8000 0"


def river(*words, given=b""):
    """Runs the tool: status, standard output, standard error."""
    done = subprocess.run([TOOL, *words], input=given, stdout=subprocess.PIPE, stderr=subprocess.PIPE, cwd=ROOT, check=False)
    return done.returncode, done.stdout, done.stderr.decode()


def one_line(what, answer, status, *parts):
    """An answer is this status and one line that holds all the parts."""
    found, out, said = answer
    if found != status or out or said.count("\n") != 1 or not all(part in said for part in parts):
        raise AssertionError(f"{what}: status {found}, {out[:80]}, '{said}', due is status {status} and one line with {parts}")


def examples_come_back():
    """Each example: its text makes its file, and the text shown makes it again."""
    texts = sorted(glob.glob(os.path.join(ROOT, "examples", "*.txt")) + glob.glob(os.path.join(ROOT, "examples", "refused", "*.txt")))
    for path in texts:
        with open(path[:-3] + "river", "rb") as source:
            file = source.read()
        expect(path, river("make", path, "-")[:2], (0, file))
        status, shown, _ = river("show", path[:-3] + "river")
        expect(f"{path} shown", (status, river("make", "-", "-", given=shown)[:2]), (0, (0, file)))
    return f"{len(texts)} examples both ways"


def generated_come_back(count=60):
    """Generated files: those that are whole come back, the others get a line."""
    back = 0
    for name, file in generate.files(5, count):
        status, shown, said = river("show", "-", given=file)
        structure = reference.answer(reference.read, file, False)
        if isinstance(structure, reference.Refused):
            expect(name, (status in (1, 2), shown, said.count("\n")), (True, b"", 1))
        else:
            expect(name, (status, river("make", "-", "-", given=shown)[:2]), (0, (0, file)))
            back += 1
    return f"{back} of {count} generated files both ways"


def make(text):
    """The file that a text makes."""
    return river("make", "-", "-", given=text.encode())


def takes():
    """Texts with an irrigation take."""
    both = make(NINE + " dam 5 6 take 7")
    expect("a dam and a take", (both[0], both[1][-14:], both[2]), (0, b"DM\0\5\0\0\0\6WD\0\0\0\7", ""))
    expect("a take and a dam", make(NINE + " take 7 dam 5 6"), both)
    expect("a take of 0", make(NINE + " take 0"), (0, make(NINE)[1] + b"WD\0\0\0\0", ""))
    for text, parts in (
            (NINE + " take", ("line 1", "0 numbers where take has 1")),
            (NINE + " take 5 dam 5 6 take 5", ("line 1", "'take' stands twice")),
            (NINE + " take 4_294_967_296", ("line 1", "take", "0 to 4294967295"))):
        one_line(f"'{text[:60]}'", make(text), 1, *parts)
    return "texts with takes"


def pressures():
    """Texts with an air pressure."""
    all_three = make(NINE + " dam 5 6 take 7 pressure 634")
    expect("dam, take and pressure", (all_three[0], all_three[1][-18:], all_three[2]), (0, b"DM\0\5\0\0\0\6WD\0\0\0\7BP\2\x7a", ""))
    expect("pressure, take and dam", make(NINE + " pressure 634 take 7 dam 5 6"), all_three)
    expect("a pressure of 760", make(NINE + " pressure 760"), (0, make(NINE)[1] + b"BP\2\370", ""))
    shown = river("show", "-", given=all_three[1])[1].decode()
    expect("a text with a pressure", ("[pressure N]" in shown, "  take 7  pressure 634  # 1\n" in shown), (True, True))
    for text, parts in (
            (NINE + " pressure", ("line 1", "0 numbers where pressure has 1")),
            (NINE + " pressure 700 take 5 pressure 700", ("line 1", "'pressure' stands twice")),
            (NINE + " pressure 65_536", ("line 1", "pressure", "0 to 65535"))):
        one_line(f"'{text[:60]}'", make(text), 1, *parts)
    return "texts with pressures"


def beds():
    """Texts with a sludge bed."""
    all_four = make(NINE + " dam 5 6 take 7 pressure 634 sludge 8")
    expect("dam, take, pressure and bed", (all_four[0], all_four[1][-22:], all_four[2]), (0, b"DM\0\5\0\0\0\6WD\0\0\0\7BP\2\x7aSD\0\x08", ""))
    expect("bed, pressure, take and dam", make(NINE + " sludge 8 pressure 634 take 7 dam 5 6"), all_four)
    expect("a bed of 0", make(NINE + " sludge 0"), (0, make(NINE)[1] + b"SD\0\0", ""))
    expect("the largest demand", make(NINE + " sludge 65_535"), (0, make(NINE)[1] + b"SD\xff\xff", ""))
    shown = river("show", "-", given=all_four[1])[1].decode()
    expect("a text with a bed", ("[sludge N]" in shown, "  pressure 634  sludge 8  # 1\n" in shown), (True, True))
    for text, parts in (
            (NINE + " sludge", ("line 1", "0 numbers where sludge has 1")),
            (NINE + " sludge 1 take 5 sludge 1", ("line 1", "'sludge' stands twice")),
            (NINE + " sludge 65_536", ("line 1", "sludge", "0 to 65535"))):
        one_line(f"'{text[:60]}'", make(text), 1, *parts)
    return "texts with beds"


def ammonia():
    """Texts with ammonia."""
    record = b"NT\1\x2c\0\0\x0f\xa0\0\0\0\5\0\0\0\0"
    all_five = make(NINE + " dam 5 6 take 7 pressure 634 sludge 8 ammonia 300 4_000 5")
    expect("every record", (all_five[0], all_five[1][-38:], all_five[2]), (0, b"DM\0\5\0\0\0\6WD\0\0\0\7BP\2\x7aSD\0\x08" + record, ""))
    expect("every record, in another order", make(NINE + " ammonia 300 4_000 5 sludge 8 dam 5 6 pressure 634 take 7"), all_five)
    expect("ammonia of zeros", make(NINE + " ammonia 0 0 0"), (0, make(NINE)[1] + b"NT" + bytes(14), ""))
    expect("the largest load", make(NINE + " ammonia 0 0 4_294_967_295"), (0, make(NINE)[1] + b"NT" + bytes(6) + b"\xff" * 4 + bytes(4), ""))
    shown = river("show", "-", given=all_five[1])[1].decode()
    expect("a text with ammonia", ("[ammonia kn inflow_nitrogenous_bod nitrogenous_load]" in shown, "  sludge 8  ammonia 300 4000 5  # 1\n" in shown), (True, True))
    for text, parts in (
            (NINE + " ammonia 300 4000", ("line 1", "2 numbers where ammonia has 3")),
            (NINE + " ammonia 300 4000 5 0", ("line 1", "4 numbers where ammonia has 3")),
            (NINE + " ammonia 1 2 3 take 5 ammonia 1 2 3", ("line 1", "'ammonia' stands twice")),
            (NINE + " ammonia 65_536 0 0", ("line 1", "kn", "0 to 65535")),
            (NINE + " ammonia 0 0 4294967296", ("line 1", "nitrogenous_load", "0 to 4294967295"))):
        one_line(f"'{text[:60]}'", make(text), 1, *parts)
    return "texts with ammonia"


def factors():
    """Texts with rate factors."""
    plain, usual = make(NINE)[1], "factors 1_047 1_024\n"
    record = b"TH\4\x17\4\0"
    made = make(usual + NINE)
    expect("factors and a reach", made, (0, plain[:4] + record + plain[4:], ""))
    expect("a comment before them", make(f"# a\n\n  {usual}# b\n{NINE}"), made)
    expect("factors of 1,000", make(f"factors 1000 1000\n{NINE}"), (0, plain[:4] + b"TH\3\xe8\3\xe8" + plain[4:], ""))
    status, shown, _ = river("show", "-", given=made[1])
    expect("a text with factors", (status, shown.decode().splitlines()[:2]), (0, ["# factors decay_factor aeration_factor", "factors 1047 1024"]))
    expect("and back", make(shown.decode()), made)
    for text, parts in (
            (f"factors 1047\n{NINE}", ("line 1", "1 number where factors has 2", "decay_factor aeration_factor")),
            (f"factors\n{NINE}", ("line 1", "0 numbers where factors has 2")),
            (f"factors 1047 1024 1000\n{NINE}", ("line 1", "3 numbers where factors has 2")),
            (usual + usual + NINE, ("line 2", "'factors' stands on two lines")),
            (f"{NINE}\n{usual}", ("line 2", "'factors' stands behind a reach")),
            (f"{NINE} factors 1047 1024", ("line 1", "'factors' has a line of its own")),
            (f"factors 1.047 1.024\n{NINE}", ("line 1", "decay_factor", "'1.047'")),
            (f"factors 1000 65_536\n{NINE}", ("line 1", "aeration_factor", "0 to 65535"))):
        one_line(f"'{text[:60]}'", make(text), 1, *parts)
    status, file, said = make(f"#\nfactors 999 1101\n{NINE}")
    expect("factors out of range", (status, file, said.splitlines()), (0, plain[:4] + b"TH\3\xe7\4\x4d" + plain[4:], [
        "river: standard input: warning: line 2: decay_factor is 999, outside 1000 to 1100",
        "river: standard input: warning: line 2: aeration_factor is 1101, outside 1000 to 1100"]))
    expect("shown with their place", "warning: the header: decay_factor is 999, outside 1000 to 1100" in river("show", "-", given=file)[2], True)
    warm = make(f"factors 1000 1000\n{NINE.replace('20', '36', 1)}")
    expect("a reach behind them keeps its line", "line 2: temperature is 36, outside 0 to 35" in warm[2], True)
    return "texts with rate factors"


def texts():
    """Texts that are taken, and texts that are not."""
    plain = make(NINE)[1]
    for same in (f"{NINE}\n", f"# a\n\n  {NINE}  # b\r\n", "\ufeff" + NINE, NINE.replace("1000", "1_000"), NINE.replace(" ", "\t"), NINE.replace("3000", "0003000")):
        expect(f"'{same}'", make(same), (0, plain, ""))
    expect("a load of all bits", make(NINE[:-1] + "4_294_967_295")[0], 0)
    for text, parts in (
            (NINE.replace("20", "256", 1), ("line 1", "temperature", "256", "0 to 255")),
            (f"#\n{NINE}\n" + NINE.replace("8000", "65536"), ("line 3", "inflow_oxygen", "0 to 65535")),
            (NINE[:-1] + "4294967296", ("line 1", "load", "0 to 4294967295")),
            (NINE[:-1] + "9" * 5000, ("line 1", "load", "0 to 4294967295")),
            (NINE.replace("20", "-1", 1), ("line 1", "temperature", "'-1'", "0 to 255")),
            (NINE.replace("20", "1.5", 1), ("line 1", "temperature", "'1.5'")),
            (NINE.replace("20", "1__5", 1), ("line 1", "temperature")),
            (NINE.replace("20", "+5", 1), ("line 1", "temperature")),
            (NINE.replace("20", "２０", 1), ("line 1", "temperature")),
            ("1 2 3", ("line 1", "3 numbers", "9", "outlet")),
            (NINE + " 1", ("line 1", "10 numbers")),
            (NINE + " dam 5", ("line 1", "1 number where dam", "share generating")),
            (NINE + " dam 5 6 dam 5 6", ("line 1", "'dam' stands twice")),
            (NINE + " weir 5 6", ("line 1", "'weir'", "dam, take, pressure, sludge, ammonia")),
            (NINE + " dam 5 65536000000", ("line 1", "generating", "0 to 4294967295"))):
        one_line(f"'{text[:60]}'", make(text), 1, *parts)
    for text, parts in (
            (NINE.replace("20", "36", 1), ("line 1", "temperature", "36", "0 to 35")),
            ("2" + NINE[1:], ("line 1", "outlet", "2", "0 to 0")),
            (f"{NINE}\n{NINE}", ("line 1", "outlet", "0", "2 to 2")),
            (NINE + " dam 1001 0", ("line 1", "share", "1001", "0 to 1000")),
            (NINE + " take 100_000_001", ("line 1", "take", "100000001", "0 to 100000000")),
            (NINE + " pressure 499", ("line 1", "pressure", "499", "500 to 800")),
            (NINE + " pressure 801", ("line 1", "pressure", "801", "500 to 800")),
            (NINE + " ammonia 20_001 0 0", ("line 1", "kn", "20001", "0 to 20000")),
            (NINE + " ammonia 0 1_000_001 0", ("line 1", "inflow_nitrogenous_bod", "1000001", "0 to 1000000")),
            ("", ("count", "0", "1 to 128"))):
        status, file, said = make(text)
        if status or not file or "warning" not in said or not all(part in said for part in parts):
            raise AssertionError(f"'{text}': status {status}, '{said}', due is a warning with {parts}")
    return "texts"


def broken_files():
    """Files without a text."""
    file = river("make", "-", "-", given=f"2{NINE[1:]}\n{NINE} dam 5 6".encode())[1]
    taken = river("make", "-", "-", given=f"{NINE} take 5".encode())[1]
    with_pressure = river("make", "-", "-", given=f"{NINE} pressure 700".encode())[1]
    with_bed = river("make", "-", "-", given=f"{NINE} sludge 700".encode())[1]
    with_ammonia = river("make", "-", "-", given=f"{NINE} ammonia 1 2 3".encode())[1]
    for broken, parts in (
            (b"", ("byte 0", "4 bytes")), (file[:3], ("byte 0", "4 bytes", "are 3")), (file[:40], ("reach 2", "byte 30", "26 bytes", "are 10", "counts 2")),
            (file[:-1], ("reach 2", "byte 56", "8 bytes", "are 7")), (file + b"\n", ("byte 64", "1 byte too many")), (b"XV" + file[2:], ("byte 0", "XV", "RV")),
            (file[:30] + b"RX" + file[32:], ("reach 2", "byte 30", "RX", "RE")), (file[:3] + b"\1" + file[4:], ("byte 30", "34 bytes", "counts 1")),
            (file[:2] + b"\xff\xff" + file[4:], ("reach 3", "byte 64", "counts 65535")), (taken[:-1], ("reach 1", "byte 30", "WD", "6 bytes", "are 5")),
            (taken + taken[30:], ("byte 36", "6 bytes too many")), (taken + file[56:], ("byte 36", "8 bytes too many")),
            (with_pressure[:-1], ("reach 1", "byte 30", "BP", "4 bytes", "are 3")), (with_pressure + taken[30:], ("byte 34", "6 bytes too many")),
            (with_bed[:-1], ("reach 1", "byte 30", "SD", "4 bytes", "are 3")), (with_bed + with_pressure[30:], ("byte 34", "4 bytes too many")),
            (with_ammonia[:-1], ("reach 1", "byte 30", "NT", "16 bytes", "are 15")), (with_ammonia + with_bed[30:], ("byte 46", "4 bytes too many")),
            (with_ammonia[:-1] + b"\1", ("reach 1", "byte 30", "last 4 bytes of NT", "not zero")),
            (taken[:4] + b"TH\4\x17\4", ("byte 4", "TH", "6 bytes", "are 5")), (taken[:4] + b"TH\4\x17\4\0", ("reach 1", "byte 10", "26 bytes", "are 0")),
            (taken[:4] + 2 * b"TH\4\x17\4\0" + taken[4:], ("reach 1", "byte 10", "TH", "RE"))):
        one_line(f"{broken[:40]}", river("show", "-", given=broken), 1, *parts)
    return "broken files"


def wrong_uses():
    """Inputs and outputs that cannot be used."""
    with tempfile.TemporaryDirectory() as folder:
        def path(name, data=None):
            full = os.path.join(folder, name)
            if data is not None:
                with open(full, "wb") as file:
                    file.write(data)
            return full

        good, latin, out = path("good.txt", NINE.encode()), path("latin.txt", f"# \xe4\n{NINE}".encode("latin-1")), path("out.river")
        expect("make to a file", (river("make", good, out), os.path.getsize(out)), ((0, b"", ""), 30))
        one_line("a missing text", river("make", path("none"), out), 2, "none", "No such file")
        one_line("a missing file", river("show", path("none")), 2, "none", "No such file")
        one_line("a folder for a text", river("make", folder, out), 2, folder, "directory")
        one_line("a folder for a file", river("show", folder), 2, folder, "directory")
        one_line("a folder for the output", river("make", good, folder), 2, folder, "directory")
        one_line("an output in a missing folder", river("make", good, path("none/x")), 2, "none/x", "No such file")
        one_line("Latin-1", river("make", latin, out), 2, "latin.txt", "UTF-8")
        one_line("a river file given to make", river("make", out, path("x")), 2, "out.river", "is a river file", "show")
        one_line("a text given to show", river("show", good), 2, "good.txt", "is a text", "make")
        one_line("the text for the output", river("make", good, good), 2, "good.txt", "text itself")
        with open(good, "rb") as file:
            expect("the text is left", file.read(), NINE.encode())
        if os.geteuid():
            os.chmod(good, 0)
            one_line("a text without permission", river("make", good, out), 2, "good.txt", "Permission denied")
        before = os.stat(out).st_mtime_ns
        river("make", path("bad.txt", b"1 2 3"), out)
        expect("an output after an error", os.stat(out).st_mtime_ns, before)
    for words in ((), ("make",), ("make", "a"), ("show",), ("show", "a", "b"), ("turn", "a")):
        expect(f"tools/river {' '.join(words)}", river(*words)[0], 2)
    status, said, _ = river("--help")
    expect("--help", (status, b"outlet temperature" in said), (0, True))
    return "wrong uses"


TESTS = (examples_come_back, generated_come_back, texts, takes, pressures, beds, ammonia, factors, broken_files, wrong_uses)


if __name__ == "__main__":
    sys.exit(run_tests("tools/river", __doc__, TESTS))
