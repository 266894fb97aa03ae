#!/usr/bin/env python3
"""Tests of the reference itself: tests/reference_test.py

The tables of records and the bench values of docs/RIVER-FILE.md; the bounds on oxygen against exact figures; right reports and means are found right, and
many with one thing wrong are found wrong, by wrong rules for the status too; the program's arithmetic (recipe.py) gives the stored reports and means of the
examples and keeps the promised distance; the generated files hold every kind. It needs no program. The exit status is 1 where something fails.
"""

import glob
import math
import os
import random
import re
import sys
from fractions import Fraction

import generate
import recipe
import reference
from reference import (AS_GIVEN, BELOW_ZERO, BITS, INSTANTS, NO_OXYGEN, ORDINARY, SERIES, STANDARD_PRESSURE, USED_UP_ABOVE, Ammonia, Card, Dam, Factors, Point,
                       Pressure, Reach, Record, Refused, River, Sludge, Take, in_force)
from testing import expect, run_tests

ROOT = os.path.dirname(os.path.dirname(os.path.abspath(__file__)))
WORKED = [Card(2, 20, 0, 0, 1_000, 3_000, 2_000, 8_000, 0), Card(0, 20, 0, 0, 1_000, 1_000, 30_000, 2_000, 0)]
WORKED_LINES = b"1 1 3000 2000000 2000000 8000000 0 8000000 8000000 0\n2 2 4000 9000000 9000000 6500000 0 6500000 6500000 0\n"


def answer_line(file):
    """The refusal that a file gets, or 'accepted'."""
    due = reference.answer(reference.accept, file)
    return due.line() if isinstance(due, Refused) else "accepted"


def mean_line(file, room=None):
    """The same of the call that gives the means, with a buffer of so many bytes or a long one."""
    def called():
        reaches = reference.accept_mean(file, room)
        reference.check_volume(reaches, recipe.records_of(reaches))

    due = reference.answer(called)
    return due.line() if isinstance(due, Refused) else "accepted"


def is_right(file, printed, series=SERIES):
    return not reference.check(file, printed, series).wrong


def means_are_right(file, printed, report=None):
    """Beside this report, or the one that the recipe gives."""
    return not reference.check_means(file, printed, recipe.report(file).encode() if report is None else report).wrong


# ---- The paper

def table(text, heading):
    """The rows of the first table of a text whose heading begins so."""
    lines = text[text.index(f"\n| {heading} |") + 1:].split("\n")
    return [[cell.strip().strip("`") for cell in line.split("|")[1:-1]] for line in lines[2:lines.index("")]]


def paper_fields(rows):
    """Mark, offset, width, name and range of each field in the paper's table."""
    mark = None
    for given, at, width, name, numbers, _ in rows:
        mark, width = given or mark, int(width)
        lowest, _, highest = numbers.replace(",", "").partition(" to ")
        name = name.lower().replace(" ", "_").removesuffix("_flow").removesuffix("_demand")
        yield (mark, int(at), width, name, *((int(lowest), int(highest or lowest)) if lowest.isdigit() else (0, reference.most(width))))


def our_fields(kinds):
    """The same from the table of the reference."""
    for kind in kinds:
        at = 2
        for field in kind.fields:
            yield kind.mark.decode(), at, field.width, field.name, field.lowest, field.highest
            at += field.width
        if kind.zeros:
            yield kind.mark.decode(), at, kind.zeros, "zeros", 0, 0


def report_fields(text, mark):
    """The names of the fields of a report's record in the paper, as the reference has them. Their offsets, and the size of the record, add up."""
    size, = map(int, re.findall(rf"^\| at \| bytes \| field of `{mark}`, ([0-9]+) bytes \|", text, re.MULTILINE))
    rows, end = table(text, f"at | bytes | field of `{mark}`, {size} bytes"), 0
    for at, width, name, _ in rows:
        expect(f"where {name} stands", int(at), end)
        end += int(width)
    expect(f"bytes of {mark}", end, size)
    names = [name.replace(" ", "_").replace("nitrogenous_BOD", "nitrogenous").replace("BOD", "bod") for _, _, name, _ in rows]
    return size, tuple({"critical_instant": "instant", "critical_oxygen": "critical"}.get(name, name) for name in names)


def paper_agrees():
    """The tables of records and fields in the paper, and of those of a report, are those of the reference."""
    with open(os.path.join(ROOT, "docs", "RIVER-FILE.md"), encoding="utf-8") as file:
        text = file.read()
    kinds = (reference.HEADER, reference.FACTORS, reference.REACH) + reference.AFTER_REACH
    expect("records", [(row[0], int(row[1])) for row in table(text, "mark")], [(kind.mark.decode(), kind.size) for kind in kinds])
    expect("fields", list(paper_fields(table(text, "record"))), list(our_fields(kinds)))
    expect("a report's record", report_fields(text, "RP"), (30, ("mark",) + Record._fields[:-2]))
    expect("the one after it", report_fields(text, "RN"), (10, ("mark",) + Record._fields[-2:]))
    expect("the longest file", f"{reference.LONGEST:,} bytes" in text and f"at most {reference.LONGEST + 1:,} bytes" in text, True)
    return "tables of the paper"


# ---- Bench values

def bench_values():
    """The bench values of the paper."""
    expect("saturation", [math.floor(reference.saturation(T)) for T in (0, 10, 20, 25, 35)], [14_652_000, 11_271_126, 9_021_808, 8_175_656, 6_748_714])
    expect("the worked example", is_right(reference.encode(River(WORKED)), WORKED_LINES), True)
    dammed = reference.flows(River([WORKED[0], WORKED[1]._replace(dam=Dam(500, 1_000))]))
    sums = 3_000 * 2_000_000, 3_000 * 8_000_000
    expect("below the dam", reference.below_dam(dammed[1], sums[1], math.floor), 8_340_602)
    expect("at the head", reference.head(dammed[1], *sums, math.floor)[1], 6_755_451)

    def one(**fields):
        return reference.encode(River([Card(0, 20, 1_000, 0, 0, 10_000, 0, 0, 0)._replace(**fields)]))

    def chain(n):
        return reference.encode(River([Card(i + 1 if i < n else 0, 20, 0, 0, 0, 1, 0, 0, 0) for i in range(1, n + 1)]))

    for what, file, due in (
            ("volume 3,456,000", one(volume=3_456_000), "accepted"), ("volume 3,456,001", one(volume=3_456_001), "refused 11 reach 1"),
            ("no inflow", one(inflow=0), "refused 7 reach 1"), ("an empty file", b"", "refused 1 reach 0"),
            ("128 reaches", chain(128), "accepted"), ("129 reaches", chain(129), "refused 3 reach 0"),
            ("36 degrees", one(temperature=36), "refused 4 reach 1"), ("outlet to itself", one(outlet=1), "refused 5 reach 1")):
        expect(what, answer_line(file), due)
    reaches = reference.accept(one(temperature=0, k2=1_000, volume=864_000, inflow_bod=10_000, inflow_oxygen=14_652))
    foot = reference.recurrence(reaches, 40)[1][1]
    off = sum(abs(Fraction(exact, foot.over) - figure) for exact, figure in zip(foot.figures, (3_678_794, 10_973_206)))
    expect("the foot at equal rates is off by at most 2 units", off <= 2, True)
    return "bench values"


def takes():
    """The bench values of the paper that have a take."""
    def worked(first, second):
        cards = [card._replace(take=None if take is None else Take(take)) for card, take in zip(WORKED, (first, second))]
        return reference.encode(River(cards))

    first, second = WORKED_LINES.splitlines(keepends=True)
    for what, file, lines in (
            ("a take of 1,000 at reach 1", worked(1_000, None), b"1 1 2000 2000000 2000000 8000000 0 8000000 8000000 0\n2 2 3000 11333333 11333333 6000000 0 6000000 6000000 0\n"),
            ("a take of 1,000 at reach 2", worked(None, 1_000), first + b"2 2 3000 9000000 9000000 6500000 0 6500000 6500000 0\n"),
            ("takes of 0", worked(0, 0), first + second)):
        expect(what, is_right(file, lines), True)
    one = Card(0, 20, 1_000, 0, 3_456_000, 10_000, 0, 0, 0)
    for what, file, due in (
            ("a take of 2,999 at reach 1", worked(2_999, None), "accepted"), ("a take of 3,000 at reach 1", worked(3_000, None), "refused 13 reach 1"),
            ("a take of 1 at the longest reach", reference.encode(River([one._replace(take=Take(1))])), "refused 11 reach 1"),
            ("a take above 100,000,000", worked(100_000_001, None), "refused 4 reach 1"),
            ("a take before a dam", worked(None, 1) + reference.DAM.encode(Dam(0, 0)), "refused 6 reach 0")):
        expect(what, answer_line(file), due)
    cut, = reference.flows(River([Card(0, 20, 0, 0, 0, 3, 999_999, 0, 0, take=Take(2))]))
    expect("M within the limit", (cut.Mm, cut.M), (2_999_997, 999_999))
    feeder, cut = reference.flows(River([Card(2, 20, 0, 0, 0, 1, 999_999, 0, 0), Card(0, 20, 0, 0, 0, 2, 1_000_000, 0, 0, take=Take(2))]))
    expect("M cut to the limit", (feeder.M, cut.Qm, cut.Mm, cut.Q, cut.M), (999_999, 3, 2_999_999, 1, 1_000_000))
    expect("no take and a take of 0", worked(None, None) != worked(0, None) != worked(0, 0), True)
    return "takes"


def saturations():
    """The bench values of the paper on saturation under a pressure."""
    def rounded(*places):
        return [math.floor(reference.saturation(*place)) for place in places]

    expect("saturation at 700 mm", rounded((0, 700), (20, 700), (25, 700), (35, 700)), [13_495_263, 8_309_560, 7_530_209, 6_215_921])
    expect("rounded before the pressure it would be one unit less", rounded((35,))[0] * 700 // STANDARD_PRESSURE, 6_215_920)
    expect("saturation at 20 degrees", rounded((20, 500), (20, 760), (20, 800)), [5_935_400, 9_021_808, 9_496_640])
    for T in range(36):
        thousandths = 14_652_000_000 - 410_220_000 * T + 7_991_000 * T ** 2 - 77_774 * T ** 3
        for pressure in (500, 633, 800):
            expect(f"{T} degrees at {pressure} mm", *rounded((T, pressure)), thousandths * pressure // 760_000)
    return "saturation under a pressure"


def pressures():
    """The bench values of the paper that have a pressure."""
    def worked(first, second, **fields):
        cards = [card._replace(pressure=None if pressure is None else Pressure(pressure)) for card, pressure in zip(WORKED, (first, second))]
        return River([cards[0], cards[1]._replace(**fields)])

    dam, sums = Dam(500, 1_000), (3_000 * 2_000_000, 3_000 * 8_000_000)
    for pressure, below, head in ((700, 8_103_186, 6_577_389), (500, 7_311_800, 5_983_850), (760, 8_340_602, 6_755_451), (800, 8_498_880, 6_874_160)):
        reach = reference.flows(worked(None, pressure, dam=dam))[1]
        expect(f"below the dam at {pressure} mm", reference.below_dam(reach, sums[1], math.floor), below)
        expect(f"at the head at {pressure} mm", reference.head(reach, *sums, math.floor)[1], head)
    reach = reference.flows(worked(700, None, dam=dam))[1]
    expect("the pressure of the reach above plays no part", reference.below_dam(reach, sums[1], math.floor), 8_340_602)
    expect("no dam, rates of 0", is_right(reference.encode(worked(500, 800)), WORKED_LINES), True)

    equal = Card(0, 0, 1_000, 1_000, 864_000, 10_000, 10_000, 14_652, 0, pressure=Pressure(700))
    foot = reference.recurrence(reference.flows(River([equal])), 40)[1][1]
    expect("the foot at equal rates and 700 mm", [figure // foot.over for figure in foot.figures], [3_678_794, 10_242_008, 0])
    printed = right_text(reference.flows(River([equal._replace(pressure=None)])))
    expect("a report by the standard pressure is found", is_right(reference.encode(River([equal])), printed), False)
    standard = River([equal._replace(pressure=Pressure(STANDARD_PRESSURE))])
    expect("a pressure of 760 gives the same figures", is_right(reference.encode(standard), printed), True)
    return "pressures"


def pressure_records():
    """Files with a pressure: where it may stand, and its range."""
    plain, record = reference.encode(River(WORKED)), reference.PRESSURE.encode
    dam, take, pressure = reference.DAM.encode(Dam(500, 1_000)), reference.TAKE.encode(Take(1)), record([700])
    expect("a pressure of 760 is in the file", reference.encode(River([WORKED[0], WORKED[1]._replace(pressure=Pressure(STANDARD_PRESSURE))])), plain + b"BP\2\370")
    for what, file, due in (
            ("500 mm", plain + record([500]), "accepted"), ("800 mm", plain + record([800]), "accepted"), ("499 mm", plain + record([499]), "refused 4 reach 2"),
            ("801 mm at reach 1", plain[:30] + record([801]) + plain[30:], "refused 4 reach 1"), ("a cut pressure", plain + pressure[:3], "refused 1 reach 2"),
            ("two pressures", plain + 2 * pressure, "refused 6 reach 0"), ("two at reach 1", plain[:30] + 2 * pressure + plain[30:], "refused 2 reach 2"),
            ("a pressure before a take", plain + pressure + take, "refused 6 reach 0"), ("a pressure before a dam", plain + pressure + dam, "refused 6 reach 0"),
            ("dam, take and pressure", plain + dam + take + pressure, "accepted"), ("dam, pressure and take", plain + dam + pressure + take, "refused 6 reach 0")):
        expect(what, answer_line(file), due)
    return "records of a pressure"


def beds():
    """The bench values of the paper that have a sludge bed."""
    def worked(first, second):
        cards = [card._replace(sludge=None if sludge is None else Sludge(sludge)) for card, sludge in zip(WORKED, (first, second))]
        return reference.encode(River(cards))

    def one(**fields):
        return reference.encode(River([Card(0, 20, 0, 0, 4_320_000, 10_000, 2_000, 8_000, 0, sludge=Sludge(1_000))._replace(**fields)]))

    first, second = WORKED_LINES.splitlines(keepends=True)
    for what, file, lines in (
            ("a bed of 34,560 at reach 2", worked(None, 34_560), first + b"2 2 4000 9000000 9000000 6500000 1024 6400000 6400000 0\n"),
            ("a bed of 25,920 at reach 1", worked(25_920, None), b"1 1 3000 2000000 2000000 8000000 1024 7900000 7900000 0\n2 2 4000 9000000 9000000 6425000 0 6425000 6425000 0\n"),
            ("beds of 0", worked(0, 0), first + second)):
        expect(what, (is_right(file, lines), recipe.report(file).encode()), (True, lines))
    expect("no bed and a bed of 0", worked(None, None) != worked(0, None) != worked(0, 0), True)
    for what, file, due in (
            ("volume 4,320,000", one(), "accepted"), ("volume 4,320,001", one(volume=4_320_001), "refused 14 reach 1"),
            ("a demand of 1,001", one(sludge=Sludge(1_001)), "refused 14 reach 1"), ("a take of 1", one(take=Take(1)), "refused 14 reach 1"),
            ("both too long", one(k1=801, sludge=Sludge(1_001)), "refused 11 reach 1"), ("no volume", one(sludge=Sludge(65_535), volume=0), "accepted")):
        expect(what, answer_line(file), due)

    aerated = Card(0, 20, 0, 1_000, 864_000, 10_000, 0, 9_000, 0, sludge=Sludge(1_000))
    for what, card, due in (("k2 = 1,000", aerated, 8_381_664), ("k2 = 0", aerated._replace(k2=0), 8_000_000)):
        foot = reference.recurrence(reference.flows(River([card])), 40)[1][1]
        expect(f"the foot at {what}", foot.figures[1] // foot.over, due)
        printed = right_text(reference.flows(River([card._replace(sludge=None)])))
        expect(f"a report without the bed at {what} is found", is_right(reference.encode(River([card])), printed), False)
    return "beds"


def bed_records():
    """Files with a sludge bed: where it may stand, and that every number is in its range."""
    plain, record = reference.encode(River(WORKED)), reference.SLUDGE.encode
    dam, pressure, bed = reference.DAM.encode(Dam(500, 1_000)), reference.PRESSURE.encode([700]), record([7])
    expect("a bed of 0 is in the file", reference.encode(River([WORKED[0], WORKED[1]._replace(sludge=Sludge(0))])), plain + b"SD\0\0")
    for what, file, due in (
            ("a demand of 0", plain + record([0]), "accepted"), ("a demand of 65,535", plain + record([65_535]), "accepted"),
            ("a cut bed", plain + bed[:3], "refused 1 reach 2"), ("two beds", plain + 2 * bed, "refused 6 reach 0"),
            ("two at reach 1", plain[:30] + 2 * bed + plain[30:], "refused 2 reach 2"), ("a bed before a pressure", plain + bed + pressure, "refused 6 reach 0"),
            ("dam, pressure and bed", plain + dam + pressure + bed, "accepted"), ("dam, bed and pressure", plain + dam + bed + pressure, "refused 6 reach 0")):
        expect(what, answer_line(file), due)
    return "records of a bed"


def ammonia():
    """The bench values of the paper that have ammonia."""
    def worked(first, second):
        cards = [card._replace(ammonia=numbers and Ammonia(*numbers)) for card, numbers in zip(WORKED, (first, second))]
        return reference.encode(River(cards))

    def one(**fields):
        return reference.encode(River([Card(0, 20, 0, 0, 3_456_000, 10_000, 600_000, 8_000, 0, ammonia=Ammonia(1_000, 400_000, 0))._replace(**fields)]))

    def lines(*ends):
        return b"".join(line[:-1] + end + b"\n" for line, end in zip(WORKED_LINES.splitlines(keepends=True), ends))

    for what, file, due in (
            ("4,000 in reach 1", worked((0, 4_000, 0), None), lines(b" 4000000 4000000", b" 3000000 3000000")),
            ("a load of 8,000 on reach 2", worked(None, (0, 0, 8_000)), lines(b" 0 0", b" 2000000 2000000")),
            ("zeros on reach 2", worked(None, (0, 0, 0)), lines(b" 0 0", b" 0 0")),
            ("none", worked(None, None), WORKED_LINES)):
        expect(what, (is_right(file, due), recipe.report(file).encode()), (True, due))
    expect("none and zeros", worked(None, None) != worked((0, 0, 0), None) != worked((0, 0, 0), (0, 0, 0)), True)
    for what, file, due in (
            ("volume 3,456,000 and 1,000 mg/L", one(), "accepted"), ("volume 3,456,001", one(volume=3_456_001), "refused 11 reach 1"),
            ("a rate of 1,001", one(ammonia=Ammonia(1_001, 0, 0)), "refused 11 reach 1"), ("a take of 1", one(take=Take(1)), "refused 11 reach 1"),
            ("400,001 of nitrogenous BOD", one(ammonia=Ammonia(0, 400_001, 0)), "refused 10 reach 1"), ("a load of 1", one(load=1), "refused 10 reach 1"),
            ("a nitrogenous load of 1", one(ammonia=Ammonia(0, 400_000, 1)), "refused 10 reach 1"), ("no volume", one(ammonia=Ammonia(20_000, 0, 0), volume=0), "accepted")):
        expect(what, answer_line(file), due)
    return "ammonia"


def nitrification():
    """The bench values of the paper in which ammonia decays."""
    bod = Card(0, 0, 1_000, 1_000, 864_000, 10_000, 10_000, 14_652, 0)
    nitrogenous = bod._replace(k1=0, inflow_bod=0, ammonia=Ammonia(1_000, 10_000, 0))
    both = bod._replace(inflow_bod=4_000, ammonia=Ammonia(1_000, 6_000, 0))
    feet = [reference.recurrence(reference.flows(River([card])), 40)[1][1] for card in (bod, nitrogenous, both)]
    exact = [[Fraction(figure, foot.over) for figure in foot.figures] for foot in feet]
    expect("nitrogenous BOD decays and uses oxygen as BOD does", exact[1], [exact[0][2], exact[0][1], exact[0][0]])
    expect("both at one rate use what they would together", exact[2][1], exact[0][1])
    off = sum(abs(figure - due) for figure, due in zip(exact[1], (0, 10_973_206, 3_678_794)))
    expect("the foot at equal rates is off by at most 2 units", off <= 2, True)
    for what, card in (("another rate", nitrogenous._replace(ammonia=Ammonia(999, 10_000, 0))), ("ammonia that does not decay", nitrogenous._replace(ammonia=Ammonia(0, 10_000, 0)))):
        expect(f"a report by {what} is found", is_right(reference.encode(River([nitrogenous])), right_text(reference.flows(River([card])))), False)
    still = WORKED[0]._replace(outlet=0, ammonia=Ammonia(1, 10_000, 0))
    expect("rates of 0 keep oxygen only without nitrification", Reach(1, still, []).keeps_oxygen(), False)
    expect("they do with ammonia that does not decay", Reach(1, still._replace(ammonia=Ammonia(0, 10_000, 0)), []).keeps_oxygen(), True)
    return "nitrification"


def ammonia_records():
    """Files with ammonia: where it may stand, its ranges and its bytes of zero."""
    plain, record = reference.encode(River(WORKED)), reference.AMMONIA.encode
    dam, bed, ammonia = reference.DAM.encode(Dam(500, 1_000)), reference.SLUDGE.encode([7]), record([300, 4_000, 5])
    expect("ammonia of zeros is in the file", reference.encode(River([WORKED[0], WORKED[1]._replace(ammonia=Ammonia(0, 0, 0))])), plain + b"NT" + bytes(14))
    for what, file, due in (
            ("ammonia", plain + ammonia, "accepted"), ("the largest rate", plain + record([20_000, 0, 0]), "accepted"), ("a rate of 20,001", plain + record([20_001, 0, 0]), "refused 4 reach 2"),
            ("nitrogenous BOD of 1,000,001", plain + record([0, 1_000_001, 0]), "refused 4 reach 2"), ("the largest load", plain + record([0, 0, 2 ** 32 - 1]), "refused 10 reach 2"),
            ("a rate of 20,001 at reach 1", plain[:30] + record([20_001, 0, 0]) + plain[30:], "refused 4 reach 1"),
            ("cut ammonia", plain + ammonia[:15], "refused 1 reach 2"), ("the mark alone", plain + ammonia[:2], "refused 1 reach 2"), ("two of them", plain + 2 * ammonia, "refused 6 reach 0"),
            ("two at reach 1", plain[:30] + 2 * ammonia + plain[30:], "refused 2 reach 2"), ("ammonia before a bed", plain + ammonia + bed, "refused 6 reach 0"),
            ("dam, bed and ammonia", plain + dam + bed + ammonia, "accepted"), ("dam, ammonia and bed", plain + dam + ammonia + bed, "refused 6 reach 0")):
        expect(what, answer_line(file), due)
    for k in range(4):
        zeros = bytearray(ammonia)
        zeros[12 + k] = 1
        expect(f"byte {k} of the zeros is not", answer_line(plain + bytes(zeros)), "refused 4 reach 2")
    return "records of ammonia"


RATE_ROWS = ((1_000, 1_047, 25, 1_258), (1_000, 1_047, 10, 631), (230, 1_047, 0, 91), (2_823, 1_014, 2, 2_197), (20_000, 1_024, 21, 20_480))


def rates_in_force():
    """The bench values of the paper on rates in force."""
    for rate, factor, temperature, due in RATE_ROWS:
        expect(f"a rate of {rate} with {factor} at {temperature} degrees", in_force(rate, factor, temperature), due)
    for rate, factor, temperature in generate.ROUNDED_EACH_DEGREE:
        expect(f"a rate of {rate} with {factor} at {temperature} degrees, rounded only at the end, is one more",
               math.floor(rate * Fraction(factor, 1_000) ** (temperature - 20)), in_force(rate, factor, temperature) + 1)
    for rate in (0, 1, 230, 20_000):
        expect(f"a rate of {rate} with a factor of 1,000", {in_force(rate, 1_000, temperature) for temperature in range(36)}, {rate})
        expect(f"a rate of {rate} at 20 degrees", {in_force(rate, factor, 20) for factor in range(1_000, 1_101)}, {rate})
    for temperature in range(35):
        expect(f"a degree more than {temperature}", in_force(5_000, 1_047, temperature) < in_force(5_000, 1_047, temperature + 1), True)
    expect("the largest rate at the most degrees", in_force(20_000, 1_100, 35), 83_544)
    return "rates in force"


def one_warm(temperature, factors, **fields):
    """A file with rate factors and one reach at some temperature, with rates of 0 but for those given."""
    return reference.encode(River([Card(0, temperature, 0, 0, 0, 10_000, 0, 8_000, 0)._replace(**fields)], Factors(*factors)))


def factors():
    """The bench values of the paper that have rate factors."""
    first, second = Factors(1_024, 1_000), Factors(1_000, 1_024)
    limit = 345_600 * 10_000 // 2_197
    for what, file, due in (
            ("k1 of 20,000 at 21 degrees", one_warm(21, first, k1=20_000), "refused 15 reach 1"), ("at 20 degrees", one_warm(20, first, k1=20_000), "accepted"),
            ("by the other factor", one_warm(21, second, k1=20_000), "accepted"), ("k2 of 20,000", one_warm(21, second, k2=20_000), "refused 15 reach 1"),
            ("k2 by the other factor", one_warm(21, first, k2=20_000), "accepted"),
            ("kn of 20,000", one_warm(21, first, ammonia=Ammonia(20_000, 0, 0)), "refused 15 reach 1"),
            ("kn by the other factor", one_warm(21, second, ammonia=Ammonia(20_000, 0, 0)), "accepted"),
            ("k1 of 19,532", one_warm(21, first, k1=19_532), "accepted"), ("k1 of 19,533", one_warm(21, first, k1=19_533), "refused 15 reach 1"),
            ("15 and 11", one_warm(21, first, k1=20_000, volume=10 ** 9), "refused 15 reach 1"),
            ("15 and 14", one_warm(21, first, k1=20_000, volume=70_000, sludge=Sludge(65_535)), "refused 15 reach 1"),
            ("13 and 15", one_warm(21, first, k1=20_000, take=Take(10_000)), "refused 13 reach 1"),
            ("11 by the rate in force", one_warm(25, (1_047, 1_000), k1=1_000, volume=2_747_218), "refused 11 reach 1"),
            ("a cubic metre less", one_warm(25, (1_047, 1_000), k1=1_000, volume=2_747_217), "accepted"),
            ("11 in cold water", one_warm(10, (1_047, 1_000), k1=1_000, volume=5_477_021), "refused 11 reach 1"),
            ("a cubic metre less there", one_warm(10, (1_047, 1_000), k1=1_000, volume=5_477_020), "accepted"),
            ("rounded only at the end it would be refused", one_warm(2, (1_014, 1_000), k1=2_823, volume=limit), "accepted"),
            ("and with a cubic metre more it is", one_warm(2, (1_014, 1_000), k1=2_823, volume=limit + 1), "refused 11 reach 1")):
        expect(what, answer_line(file), due)
    warm, cool = Card(2, 35, 0, 0, 0, 1, 0, 0, 0), Card(0, 20, 20_000, 20_000, 0, 1, 0, 0, 0)
    expect("the temperature is the reach's own", answer_line(reference.encode(River([warm, cool], Factors(1_100, 1_100)))), "accepted")
    return "rate factors"


def corrected_reports():
    """Reports go by the rates in force: as if these were on the card, and not by those that are."""
    card = Card(0, 25, 1_000, 2_000, 864_000, 10_000, 10_000, 6_000, 0, sludge=Sludge(500), ammonia=Ammonia(700, 4_000, 0))
    usual = Factors(1_047, 1_024)
    for temperature in (25, 10):
        k1, kn, k2 = (in_force(*numbers, temperature) for numbers in ((1_000, 1_047), (700, 1_047), (2_000, 1_024)))
        given = card._replace(temperature=temperature)
        moved = given._replace(k1=k1, k2=k2, ammonia=Ammonia(kn, 4_000, 0))
        file, printed = reference.encode(River([given], usual)), right_text(reference.flows(River([moved])))
        expect(f"at {temperature} degrees", (is_right(file, printed), recipe.report(file)), (True, recipe.report(reference.encode(River([moved])))))
        for what, wrong in (("the rates on the card", given), ("the other factor for kn", moved._replace(ammonia=Ammonia(in_force(700, 1_024, temperature), 4_000, 0))),
                            ("aeration as on the card", moved._replace(k2=2_000))):
            expect(f"a report by {what} is found", is_right(file, right_text(reference.flows(River([wrong])))), False)
    plain = reference.encode(River([card]))
    expect("factors of 1,000 give the same figures", recipe.report(reference.encode(River([card], AS_GIVEN))), recipe.report(plain))
    few = Card(0, 0, 6, 6, 1_000, 3_000, 2_000, 8_000, 0)
    vanishing = River([few], Factors(1_100, 1_100))
    reach, = reference.flows(vanishing)
    expect("rates that come to 0", (reach.rates(), reach.keeps_oxygen(), reach.keeps(reach.bod)), ((0, 0, 0), True, True))
    expect("keep all figures", recipe.report(reference.encode(vanishing)), "1 1 3000 2000000 2000000 8000000 0 8000000 8000000 0\n")
    bed = few._replace(sludge=Sludge(25_920))
    expect("and a bed goes by them", recipe.report(reference.encode(River([bed], Factors(1_100, 1_100)))), "1 1 3000 2000000 2000000 8000000 1024 7900000 7900000 0\n")
    return "reports by rates in force"


def factor_records():
    """Files with rate factors: where they may stand, and their ranges."""
    plain, record = reference.encode(River(WORKED)), reference.FACTORS.encode
    usual = record([1_047, 1_024])
    expect("factors of 1,000 are in the file", reference.encode(River(WORKED, AS_GIVEN)), plain[:4] + b"TH\3\350\3\350" + plain[4:])
    expect("they are another river", reference.read(reference.encode(River(WORKED, AS_GIVEN))) != reference.read(plain), True)

    def after_header(more):
        return plain[:4] + more + plain[4:]

    for what, file, due in (
            ("factors", after_header(usual), "accepted"), ("the smallest", after_header(record([1_000, 1_000])), "accepted"), ("the largest", after_header(record([1_100, 1_100])), "accepted"),
            ("a first of 999", after_header(record([999, 1_000])), "refused 4 reach 0"), ("a first of 1,101", after_header(record([1_101, 1_000])), "refused 4 reach 0"),
            ("a second of 999", after_header(record([1_000, 999])), "refused 4 reach 0"), ("a second of 1,101", after_header(record([1_000, 1_101])), "refused 4 reach 0"),
            ("cut factors", plain[:4] + usual[:5], "refused 1 reach 0"), ("the mark alone", plain[:4] + usual[:2], "refused 1 reach 0"), ("half of it", plain[:4] + usual[:1], "refused 1 reach 1"),
            ("nothing after them", plain[:4] + usual, "refused 1 reach 1"), ("twice", after_header(2 * usual), "refused 2 reach 1"),
            ("after a reach", plain[:30] + usual + plain[30:], "refused 2 reach 2"), ("after the last", plain + usual, "refused 6 reach 0"),
            ("before the header", usual + plain, "refused 2 reach 0"), ("129 reaches first", b"RV\0\x81" + record([0, 0]) + plain[4:], "refused 3 reach 0"),
            ("before a wrong reach", after_header(record([0, 0])).replace(b"RE", b"RX", 1), "refused 4 reach 0")):
        expect(what, answer_line(file), due)

    def written(river, room=100):
        found = reference.answer(reference.write, river, room)
        return found.line() if isinstance(found, Refused) else found

    bad = [WORKED[0]._replace(temperature=36), WORKED[1]]
    for what, found, due in (
            ("written", written(River(WORKED, Factors(1_047, 1_024)), 62), after_header(usual)), ("a byte too few", written(River(WORKED, Factors(1_047, 1_024)), 61), "refused 12 reach 0"),
            ("before the reaches", written(River(bad, Factors(999, 1_000))), "refused 4 reach 0"), ("in range", written(River(bad, AS_GIVEN)), "refused 4 reach 1"),
            ("after the count", written(River([], Factors(999, 1_000))), "refused 3 reach 0")):
        expect(what, found, due)
    return "records of rate factors"


def one_bed(volume, **fields):
    """A reach of 10,000 litres a second and 1 mg/L of oxygen over a bed that takes one unit of it for each cubic metre."""
    return Card(0, 20, 0, 0, volume, 10_000, 0, 1_000, 0, sludge=Sludge(864))._replace(**fields)


# Reach 1 uses up its oxygen, by two units. A reach lies below it, a brook beside that, and the last below both.
USED_UP = [one_bed(1_000_002, outlet=2), Card(4, 20, 0, 0, 1_000, 10_000, 2_000, 9_000, 0), Card(4, 20, 0, 0, 500_001, 5_000, 0, 8_000, 0),
           Card(0, 20, 0, 0, 1_000, 0, 0, 0, 0)]
USED_UP_LINES = (b"1 1 10000 0 0 1000000 1024 -2 -2 1\n2 2 20000 1000000 1000000 0 0 0 0 2\n"
                 b"3 1 5000 0 0 8000000 0 8000000 8000000 0\n4 3 25000 800000 800000 0 0 0 0 2\n")
USED_UP_MEANS = b"1 499999\n2 0\n3 8000000\n4 0\nriver 2999999 500001\n"


def status_bench():
    """The bench values of the paper on the status: what they are, the river and its report."""
    for volume, end in ((1_000_000, b"0 0 0"), (1_000_001, b"-1 -1 1")):
        yield f"a bed in {volume} cubic metres", River([one_bed(volume)]), b"1 1 10000 0 0 1000000 1024 " + end + b"\n"
    yield "oxygen used up", River(USED_UP), USED_UP_LINES
    ends = (b" 0 0", b" 0 0", b" 4000000 4000000", b" 800000 800000")
    yield ("oxygen used up beside ammonia", River(USED_UP[:2] + [USED_UP[2]._replace(ammonia=Ammonia(0, 4_000, 0)), USED_UP[3]]),
           b"".join(line + end + b"\n" for line, end in zip(USED_UP_LINES.splitlines(), ends)))


def statuses():
    """The bench values of the paper on the status."""
    for what, river, lines in status_bench():
        file = reference.encode(river)
        expect(what, (is_right(file, lines), recipe.report(file).encode()), (True, lines))
    file = reference.encode(River(USED_UP))
    expect("means of oxygen used up", (means_are_right(file, USED_UP_MEANS), recipe.means(file).encode()), (True, USED_UP_MEANS))
    above = [sorted(reach.number for reach in one.above) for one in reference.flows(River(USED_UP))]
    expect("the reaches above", above, [[], [1], [], [1, 2, 3]])
    return "statuses"


def worked_volumes(first, second, **fields):
    """The file of the worked example with these volumes, and some fields of its second reach changed."""
    return reference.encode(River([WORKED[0]._replace(volume=first), WORKED[1]._replace(volume=second, **fields)]))


# One reach of a day at equal rates, with 10 mg/L of BOD and no deficit at its head.
EQUAL_RATES = Card(0, 0, 1_000, 1_000, 864_000, 10_000, 10_000, 14_652, 0)


def mean_bench():
    """The bench values of the paper on mean oxygen: the exact means, rounded to the nearest unit, and those of the recipe."""
    two = b"1 8000000\n2 6500000\n"
    for what, file, lines in (
            ("the worked example", worked_volumes(1_000, 1_000), two + b"river 7250000 0\n"),
            ("volumes of 1,000 and 3,000", worked_volumes(1_000, 3_000), two + b"river 6875000 0\n"),
            ("volumes of 1,000 and 2,001", worked_volumes(1_000, 2_001), two + b"river 6999833 1167\n"),
            ("no volume in reach 1", worked_volumes(0, 1_000), two + b"river 6500000 0\n"),
            ("a bed of 34,560 in reach 2", worked_volumes(1_000, 1_000, sludge=Sludge(34_560)), b"1 8000000\n2 6450000\nriver 7225000 0\n"),
            ("no volume in either", worked_volumes(0, 0), b"refused 16 reach 0\n")):
        expect(what, (means_are_right(file, lines), recipe.means(file).encode()), (True, lines))
    for what, card, due in (
            ("equal rates", EQUAL_RATES, 12_009_589), ("nitrogenous BOD at equal rates", EQUAL_RATES._replace(k1=0, inflow_bod=0, ammonia=Ammonia(1_000, 10_000, 0)), 12_009_589),
            ("decay alone", EQUAL_RATES._replace(k2=0), 10_973_206), ("a bed with aeration", EQUAL_RATES._replace(inflow_bod=0, sludge=Sludge(1_000)), 14_284_121),
            ("a bed without", EQUAL_RATES._replace(k2=0, inflow_bod=0, sludge=Sludge(1_000)), 14_152_000)):
        reaches = reference.flows(River([card]))
        point, = reference.exact_means(reaches, 40)
        nearest = (2 * point.figures[0] + point.over) // (2 * point.over)
        expect(f"the mean of {what}", (nearest, recipe.means_of(reaches)), (due, [due]))
    return "bench values of means"


def mean_answers():
    """Who gets which refusal of the call: reporting's first, then 12, then 16."""
    none, some = worked_volumes(0, 0), worked_volumes(0, 1)
    for what, file, room, due in (
            ("eight bytes", some, 8, "accepted"), ("a byte too few", some, 7, "refused 12 reach 0"), ("no bytes", some, 0, "refused 12 reach 0"),
            ("no volume", none, 8, "refused 16 reach 0"), ("12 and 16", none, 7, "refused 12 reach 0"), ("no volume in one reach", one_warm(20, AS_GIVEN), 4, "refused 16 reach 0"),
            ("reading before 12 and 16", none + b"\0", 0, "refused 6 reach 0"), ("the flow check before 12 and 16", worked_volumes(0, 0, take=Take(4_000)), 0, "refused 13 reach 2"),
            ("11 where another has no volume", worked_volumes(0, 10 ** 9, k1=20_000), 8, "refused 11 reach 2")):
        expect(what, mean_line(file, room), due)
    return "refusals of means"


def mean_formulas():
    """The means of S and F, which are sums of their terms, against formulas that others may use."""
    def M(x, N):
        return sum((-x) ** j / math.factorial(j + 1) for j in range(N))

    for x in (Fraction(355, 113), Fraction(4), Fraction(1, 7_919)):
        expect("the mean of S", reference.mean_of(reference.terms(x, 40)), M(x, 40))
        expect("the mean of S from the next S", reference.mean_of(reference.terms(x, 40)) * x, 1 - reference.S(x, 41))
    for k1, k2, sludge, kn in ((301, 700, 50, 450), (700, 700, 0, 0), (301, 0, 50, 0), (0, 700, 9, 700), (0, 0, 50, 3)):
        card = Card(0, 21, k1, k2, 90_000, 1_234, 5_678, 4_321, 99, sludge=Sludge(sludge), ammonia=Ammonia(kn, 0, 0))
        reach = Reach(1, card, [])
        x2, L, C, Ln, Cs = reference.exponent(reach, k2), 11, -13, 17, reach.saturation

        def share(k):
            x = reference.exponent(reach, k)
            return M(x, 41) - reference.S(x, 41) if k == k2 else Fraction(k, k2 - k) * (M(x, 40) - M(x2, 40))

        loss = Fraction(1_000_000 * sludge, k2) * (1 - M(x2, 40)) if k2 else Fraction(1_000_000 * sludge * 90_000, 2 * 86_400 * 1_234)
        due = Cs - share(k1) * L - share(kn) * Ln - M(x2, 40) * (Cs - C) - loss
        expect(f"the mean at rates {k1}, {kn} and {k2} over a bed of {sludge}", reference.mean_along(reach, 40)(L, C, Ln), (due,))
        expect("the head value for volume 0", reference.mean_along(Reach(1, card._replace(volume=0), []), 40)(L, C, Ln), (C,))
    return "means of the formulas"


def allowances():
    """200 units for each step of depth in a river with ammonia, be it of zeros; else 150 in one with a bed, be it of 0; and 100 in any other."""
    zeros, some = Ammonia(0, 0, 0), Ammonia(1, 2, 3)
    for sludges, ammonias, due in (
            ((None, None), (None, None), [100, 200]), ((0, None), (None, None), [150, 300]), ((None, 0), (None, None), [150, 300]), ((3, 4), (None, None), [150, 300]),
            ((None, None), (zeros, None), [200, 400]), ((None, None), (None, zeros), [200, 400]), ((0, None), (None, zeros), [200, 400]), ((3, 4), (some, some), [200, 400])):
        cards = [card._replace(sludge=None if sludge is None else Sludge(sludge), ammonia=one) for card, sludge, one in zip(WORKED, sludges, ammonias)]
        expect(f"allowances with beds {sludges} and ammonia {ammonias}", [reach.allowance for reach in reference.flows(River(cards))], due)
    return "allowances"


# ---- Bounds

def drawn_rivers(rng, count):
    """Accepted rivers of a few reaches, of every style in turn, with their reaches."""
    for style in list(generate.STYLES)[:count]:
        river = generate.accepted_river(rng, style, rng.randint(1, 4))
        yield style, river, reference.flows(river)


def bounds_hold():
    """The bounds on oxygen hold the exact figure, at some instants of rivers of every style."""
    rng, tried = random.Random(2), 0
    for style, _, reaches in drawn_rivers(rng, len(generate.STYLES)):
        for N in SERIES:
            heads, _ = reference.recurrence(reaches, N)
            reach = rng.choice(reaches)
            start = heads[reach.number]
            oxygen, off = reference.oxygen_bounds(reach, start, N)
            for m in (0, INSTANTS, rng.randint(1, INSTANTS - 1)):
                point = reference.through(reference.along(reach, m, N), start)
                distance = abs(oxygen[m] * point.over - (point.figures[1] << BITS))
                expect(f"{style}: bounds at instant {m}", distance <= off * point.over and off < 2 ** 16, True)
                tried += 1
    return f"bounds at {tried} instants"


def exact_values():
    """Points and S against plain fractions."""
    x = Fraction(355, 113)
    expect("S", reference.S(x, 40), sum((-x) ** j / math.factorial(j) for j in range(40)))
    expect("S and its terms", reference.S(x, 41), sum(reference.terms(x, 41)))
    card = Card(0, 21, 301, 700, 90_000, 1_234, 5_678, 4_321, 99, ammonia=Ammonia(450, 0, 0))
    reach, start = Reach(1, card, []), Point(7, [11, -13, 17])
    S1, F, S2 = reference.bod_factors(reach, 300, 40)
    Sn, Fn, _ = reference.demand_factors(reach, 450, 300, 40)
    L, C, Ln, Cs = Fraction(11, 7), Fraction(-13, 7), Fraction(17, 7), reach.saturation

    def figures(card):
        point = reference.through(reference.along(Reach(1, card, []), 300, 40), start)
        return [Fraction(figure, point.over) for figure in point.figures]

    expect("a point", figures(card), [L * S1, Cs - F * L - Fn * Ln - S2 * (Cs - C), Ln * Sn])
    expect("a point without ammonia", figures(card._replace(ammonia=None)), [L * S1, Cs - F * L - S2 * (Cs - C), Ln])
    day = Fraction(card.volume, 86_400 * card.inflow)     # travel time, for rates in thousandths
    for k2, loss in ((700, Fraction(50, 700) * (1 - S2)), (0, 50 * day * Fraction(300, 1_024))):
        bare = card._replace(k2=k2)
        expect(f"the loss at k2 = {k2}", figures(bare)[1] - figures(bare._replace(sludge=Sludge(50)))[1], 1_000_000 * loss)
    return "series and points"


# ---- Right and wrong reports

def right_values(reach, start):
    """Oxygen at each instant without any error but rounding, for these figures at the head."""
    values, _ = reference.oxygen_bounds(reach, Point(1, start), 60)
    return [start[1]] + [start[1] if reach.keeps_oxygen() else value >> BITS for value in values[1:]]


def carried_on(reaches):
    """The records of these reaches without any error but rounding, with oxygen carried on, whatever the status."""
    records = []
    for reach in reaches:
        bod, oxygen, nitrogenous = start = reference.head_over(reach, records)
        (S1, _, _), (Sn, _, _) = (reference.demand_factors(reach, demand.rate, INSTANTS, 60) for demand in reach.demands)
        values = right_values(reach, start)
        records.append(Record(reach.depth, reach.Q, bod, math.floor(bod * S1), oxygen, values.index(min(values)), min(values), values[-1],
                              head_nitrogenous=nitrogenous, foot_nitrogenous=math.floor(nitrogenous * Sn)))
    return records


def right_report(reaches):
    """A report without any error but rounding."""
    return reference.reported(reaches, carried_on(reaches))


def text(reaches, records):
    return reference.report_text(reaches, records).encode()


def right_text(reaches):
    return text(reaches, right_report(reaches))


def nitrogenous_changes(reach, record, far):
    """What can be wrong with the nitrogenous figures."""
    changes = [("head nitrogenous BOD", {"head_nitrogenous": record.head_nitrogenous + 1}),
               ("foot nitrogenous BOD above the head's", {"foot_nitrogenous": record.head_nitrogenous + 1})]
    if record.foot_nitrogenous >= far:
        changes.append(("foot nitrogenous BOD far off", {"foot_nitrogenous": record.foot_nitrogenous - far}))
    if record.foot_nitrogenous and reach.keeps(reach.nitrogenous):
        changes.append(("nitrogenous BOD that moves", {"foot_nitrogenous": record.foot_nitrogenous - 1}))
    return changes


def has_ammonia(reaches):
    return any(reach.card.ammonia for reach in reaches)


def wrong_records(rng, reaches, records):
    """Reports with one thing wrong, each with what that is. Only figures of one reach are changed."""
    reach = rng.choice(reaches)
    record = records[reach.number - 1]
    far = 2 * reach.allowance + 50
    changes = [("depth", {"depth": record.depth + 1}), ("Q", {"Q": record.Q + 1}), ("head BOD", {"head_bod": record.head_bod + 1}),
               ("head oxygen", {"head_oxygen": record.head_oxygen - 1}), ("foot BOD above the head's", {"foot_bod": record.head_bod + 1}),
               ("foot oxygen far off", {"foot_oxygen": record.foot_oxygen + far}), ("critical oxygen above the head's", {"critical": record.head_oxygen + 1}),
               ("critical oxygen too low", {"critical": record.critical - far}), ("an instant past the foot", {"instant": INSTANTS + 1})]
    changes += [(f"status {status}", {"status": status}) for status in range(4) if status != record.status]
    if record.foot_bod >= far:
        changes.append(("foot BOD far off", {"foot_bod": record.foot_bod - far}))
    if record.critical + far <= min(record.head_oxygen, record.foot_oxygen):
        changes.append(("critical oxygen too high", {"critical": record.critical + far}))
    if record.critical == record.head_oxygen:
        changes.append(("not the first instant", {"instant": 1}))
    if record.foot_oxygen != record.critical:
        changes.append(("the foot's instant", {"instant": INSTANTS}))
    if reach.take:
        changes.append(("Q before the take", {"Q": reach.Qm}))
    if reach.keeps_oxygen():
        changes.append(("oxygen that moves", {"critical": record.critical - 1, "foot_oxygen": record.foot_oxygen - 1, "instant": INSTANTS}))
    if has_ammonia(reaches):
        changes += nitrogenous_changes(reach, record, far)
    for what, fields in changes:
        yield what, records[:reach.number - 1] + [record._replace(**fields)] + records[reach.number:]


def without_status(printed):
    """A report as it was before there was a status."""
    return b"".join(b" ".join(words[:9] + words[10:]) + b"\n" for words in (line.split() for line in printed.splitlines()))


def malformed(printed, ammonia):
    """Texts that are no report, among them one that has nitrogenous BOD where the file has no ammonia, or lacks it where it has, and one without a status."""
    lines = printed.splitlines(keepends=True)
    other = b"".join((line.rsplit(b" ", 2)[0] if ammonia else line[:-1] + b" 0 0") + b"\n" for line in lines)
    return [other, without_status(printed), b"", b"\n", printed[:-1], printed + b"\n", lines[0] + printed, b"".join(lines[:-1]), b" " + printed, b"0" + printed,
            printed.replace(b" ", b"  ", 1), printed.replace(b"\n", b" \n", 1), printed.replace(b"\n", b" 0\n", 1), printed.replace(b"\n", b"\r\n"),
            b"refused 7 reach 1\n", b"accepted\n", printed.replace(b"1", b"\xc2\xb9", 1)]


def verdicts():
    """A right report is found right and each wrong one wrong, for rivers of every style."""
    rng, found = random.Random(3), 0
    for style, river, reaches in drawn_rivers(rng, len(generate.STYLES)):
        file = reference.encode(river)
        records = right_report(reaches)
        verdict = reference.check(file, text(reaches, records))
        expect(f"{style}: a right report", verdict.wrong, [])
        for what, wrong in wrong_records(rng, reaches, records):
            expect(f"{style}: {what} is found", is_right(file, text(reaches, wrong), SERIES[:1]), False)
            found += 1
        for wrong in malformed(text(reaches, records), has_ammonia(reaches)):
            expect(f"{style}: {wrong[:60]} is found", is_right(file, wrong), False)
            found += 1
    file = reference.encode(River([WORKED[0]._replace(outlet=1), WORKED[1]]))
    expect("a right refusal", is_right(file, b"refused 5 reach 1\n"), True)
    for wrong in (b"refused 5 reach 2\n", b"refused 4 reach 1\n", b"refused 5 reach 1", b"refused 5 reach 1\n\n", b"Refused 5 reach 1\n", WORKED_LINES):
        expect(f"{wrong} is found", is_right(file, wrong), False)
        found += 1
    return f"{found} wrong reports found"


# ---- Right and wrong means

def carried_means(reaches, carried):
    """Means without any error but rounding, over heads with oxygen carried on, whatever the status."""
    points = [reference.through(reference.mean_along(reach, 60), Point(1, reference.head_over(reach, carried))) for reach in reaches]
    return [point.figures[0] // point.over for point in points]


def right_means(reaches):
    """Means without any error but rounding, and the records of the report beside them."""
    carried = carried_on(reaches)
    records = reference.reported(reaches, carried)
    return reference.reported_means(carried_means(reaches, carried), records), records


def means_and_river(means, units, remainder):
    """Printed means with this mean of the river, right or wrong."""
    return ("".join(f"{reach} {mean}\n" for reach, mean in enumerate(means, 1)) + f"river {units} {remainder}\n").encode()


def means_text(reaches, means, records):
    return reference.means_text(reaches, means, records).encode()


def towards_zero(total, volume):
    """A quotient that is not rounded down below zero, and its remainder."""
    size, remainder = divmod(abs(total), volume)
    return (-size if total < 0 else size), remainder


def volume_of_all(reaches):
    return sum(reach.card.volume for reach in reaches)


def wrong_rivers(reaches, means, records):
    """Printed means with another mean of the river than follows from them."""
    (units, remainder), volume, count = reference.river_mean(reaches, means, records), sum(reference.weights(reaches, records)), len(means)
    others = [("units", (units + 1, remainder)), ("a remainder", (units, remainder + 1)), ("a remainder of the total volume", (units - 1, remainder + volume)),
              ("a remainder below zero", (units + 1, remainder - volume)), ("the unweighted mean", (sum(means) // count, sum(means) % count)),
              ("a mean rounded towards zero", towards_zero(units * volume + remainder, volume)),
              ("a mean over the volume of all", divmod(units * volume + remainder, volume_of_all(reaches)))]
    return [(what, means_and_river(means, *river)) for what, river in others if river != (units, remainder)]


def wrong_means(rng, reaches, means, records):
    """Printed means with one thing wrong, each with what that is."""
    reach = rng.choice(reaches)
    far = 2 * reach.allowance + 50

    def moved(by):
        return means_text(reaches, [mean + by * (number == reach.number) for number, mean in enumerate(means, 1)], records)

    found = wrong_rivers(reaches, means, records) + [("a mean too high", moved(far)), ("a mean too low", moved(-far))]
    return found + ([("a mean that moves", moved(1))] if reach.keeps_oxygen() or records[reach.number - 1].status == USED_UP_ABOVE else [])


def malformed_means(printed):
    """Texts that are no means."""
    lines = printed.splitlines(keepends=True)
    return [b"", b"\n", printed[:-1], printed + b"\n", b"".join(lines[:-1]), lines[0] + printed, b" " + printed, b"0" + printed, printed.replace(b" ", b"  ", 1),
            printed.replace(b"\n", b" \n", 1), printed.replace(b"\n", b" 0\n", 1), printed.replace(b"\n", b"\r\n"), printed.replace(b"river ", b"river +"),
            printed.replace(b"river", b"River"), printed.replace(b"1", b"\xc2\xb9", 1), b"refused 16 reach 0\n", b"refused 12 reach 0\n", b"accepted\n"]


def mean_verdicts():
    """Right means are found right and wrong ones wrong, for rivers of every style that have volume; means are wrong for the others."""
    rng, found = random.Random(7), 0
    for style, river, reaches in drawn_rivers(rng, len(generate.STYLES)):
        file, (means, records) = reference.encode(river), right_means(reaches)
        report = text(reaches, records)
        if not volume_of_all(reaches):
            wrong = [(str(river), means_and_river(means, *river)) for river in ((0, 0), (means[-1], 0), (sum(means) // len(means), 0))]
            expect(f"{style}: 16", means_are_right(file, b"refused 16 reach 0\n", report), True)
        else:
            printed = means_text(reaches, means, records)
            wrong = wrong_means(rng, reaches, means, records) + [(other[:60], other) for other in malformed_means(printed)]
            expect(f"{style}: right means", reference.check_means(file, printed, report).wrong, [])
            expect(f"{style}: right means beside no report", [means_are_right(file, printed, other) for other in (b"", b"refused 7 reach 1\n", report[:-1])], [False] * 3)
        for what, other in wrong:
            expect(f"{style}: {what} is found", means_are_right(file, other, report), False)
            found += 1
    return f"{found} wrong means found"


def means_by_other_rules():
    """Means that a program with one rule wrong would print are found, each at a river where the rule shows."""
    long = Card(0, 20, 20_000, 0, 172_800, 10_000, 1_000_000, 9_000, 0)
    for what, card, rule in (
            ("the mean of the 1,025 values", EQUAL_RATES, lambda values: sum(values) // len(values)),
            ("the mean of head and foot", EQUAL_RATES, lambda values: (values[0] + values[-1]) // 2), ("the value half way", EQUAL_RATES, lambda values: values[512]),
            ("a trapezoid", long, lambda values: (sum(values[:-1]) + sum(values[1:])) // (2 * INSTANTS)), ("no oxygen below zero", long, lambda values: 0)):
        reaches = reference.flows(River([card]))
        values, file, (means, records) = right_values(reaches[0], reference.head_over(reaches[0], [])), reference.encode(River([card])), right_means(reaches)
        expect(f"{what} is found", means_are_right(file, means_text(reaches, [rule(values)], records)), False)
        expect(f"{what} is not due", means_are_right(file, means_text(reaches, means, records)), True)
    still = reference.flows(River([EQUAL_RATES._replace(volume=0, inflow_oxygen=9_000, outlet=2), WORKED[1]._replace(volume=5)]))
    file, (means, records) = reference.encode(River([reach.card for reach in still])), right_means(still)
    for what, other in (("0 in a reach without volume", 0), ("its saturation", 14_652_000), ("a unit more", means[0] + 1)):
        expect(f"{what} is found", means_are_right(file, means_text(still, [other, means[1]], records)), False)
    foul = River([Card(3, 20, 1_000, 0, 700_000, 10_000, 40_000, 0, 0), Card(3, 20, 1_000, 0, 300_001, 10_000, 40_000, 0, 0), Card(0, 20, 0, 0, 9, 0, 0, 0, 0)])
    reaches = reference.flows(foul)
    means, records = right_means(reaches)
    (units, remainder), volume = reference.river_mean(reaches, means, records), sum(reference.weights(reaches, records))
    for what, river, verdict in (("rounded down", (units, remainder), True), ("rounded towards zero", towards_zero(units * volume + remainder, volume), False),
                                 ("not weighted", (sum(means) // 2, sum(means) % 2), False), ("weighted by flow", divmod(sum(means) * 10_000, 20_000), False)):
        expect(f"a mean below zero that is {what}", means_are_right(reference.encode(foul), means_and_river(means, *river)), verdict)
    return "means by other rules"


def means_at_status_2():
    """Means that a program would print which goes on at status 2 are found, each for its reason."""
    file, reaches = reference.encode(River(USED_UP)), reference.flows(River(USED_UP))
    means, records = right_means(reaches)
    report, carried = text(reaches, records), carried_means(reaches, carried_on(reaches))
    total, all_volume = sum(reach.card.volume * mean for reach, mean in zip(reaches, means)), volume_of_all(reaches)
    whole = sum(reach.card.volume * mean for reach, mean in zip(reaches, carried))
    due = "the river's mean is {} units and {}, due are 2999999 and 500001"
    for what, printed, reasons in (
            ("right means", means_text(reaches, means, records), []),
            ("the volume of status 2", means_and_river(means, *divmod(total, all_volume)), [due.format(*divmod(total, all_volume))]),
            ("the mean of reach 2 carried on", means_text(reaches, [means[0], carried[1], *means[2:]], records), ["reach 2: mean oxygen is 4499999, due is 0 at status 2"]),
            ("all carried on", means_and_river(carried, *divmod(whole, all_volume)),
             [f"reach {reach}: mean oxygen is {carried[reach - 1]}, due is 0 at status 2" for reach in (2, 4)] + [due.format(*divmod(whole, all_volume))]),
            ("reach 1 left out too", means_and_river(means, 8_000_000, 0), [due.format(8_000_000, 0)]), ("16", b"refused 16 reach 0\n", ["'refused 16 reach 0' is printed, due is 'accepted'"])):
        expect(what, reference.check_means(file, printed, report, SERIES[:1]).wrong, reasons)
    none = [reference.Record(*record[:8], USED_UP_ABOVE) for record in records]
    expect("check 16 goes by the statuses of the report", means_are_right(file, b"refused 16 reach 0\n", text(reaches, none)), True)
    return "means at status 2"


def mean_limits():
    """A mean that is off by the whole allowance passes, and one unit more does not: the bed takes equal parts, so that the exact mean is whole."""
    file = worked_volumes(1_000, 1_000, sludge=Sludge(34_560))
    reaches = reference.accept(file)
    for off, verdict in ((300, True), (301, False), (-300, True), (-301, False)):
        expect(f"a mean that is off by {off} units at depth 2", means_are_right(file, means_text(reaches, [8_000_000, 6_450_000 + off], right_report(reaches))), verdict)
    return "means on the allowance"


def exact_limits():
    """An error of the whole allowance passes and one unit more does not: both rates 0, so that the exact figures are whole."""
    file = reference.encode(River(WORKED))
    reaches = reference.accept(file)
    records = right_report(reaches)
    for error, verdict in ((200, 0), (201, 1)):
        changed = records[:1] + [records[1]._replace(foot_oxygen=records[1].foot_oxygen + error)]
        judged = reference.Verdict("accepted")
        reference.distances(reaches, changed, 40, False, judged)
        expect(f"an error of {error} units at depth 2", len(judged.wrong), verdict)
        changed = records[:1] + [records[1]._replace(critical=records[1].critical + error)]
        judged = reference.Verdict("accepted")
        reference.distances(reaches, changed, 40, False, judged)
        expect(f"a critical oxygen {error} units too high at depth 2", bool(judged.wrong), bool(verdict))
    reaches = reference.flows(River([WORKED[0]._replace(ammonia=Ammonia(0, 4_000, 0)), WORKED[1]]))
    records = right_report(reaches)
    for bod, oxygen, nitrogenous in ((400, 0, 0), (0, 400, 0), (0, 0, 400), (100, 200, 100)):
        for more, verdict in ((0, 0), (1, 1)):
            last = records[1]
            changed = last._replace(foot_bod=last.foot_bod - bod, foot_oxygen=last.foot_oxygen + oxygen, foot_nitrogenous=last.foot_nitrogenous - nitrogenous - more)
            judged = reference.Verdict("accepted")
            reference.distances(reaches, records[:1] + [changed], 40, False, judged)
            expect(f"errors of {bod}, {oxygen} and {nitrogenous + more} units at depth 2 in a river with ammonia", len(judged.wrong), verdict)
    return "errors on the allowance"


def wrong_at_distance(reaches, records):
    """What the promised distance finds wrong, at one series length."""
    judged = reference.Verdict("accepted")
    reference.distances(reaches, records, SERIES[0], False, judged)
    return judged.wrong


def limits_at_status_2():
    """At status 2 the errors of both BODs, added, have the whole allowance, and oxygen has no part in it."""
    for cards, errors in ((USED_UP, ((300, 0), (-300, 0))),
                          (USED_UP[:2] + [USED_UP[2]._replace(ammonia=Ammonia(0, 4_000, 0)), USED_UP[3]], ((600, 0), (0, -600), (200, 400), (-1, 599)))):
        reaches = reference.flows(River(cards))
        records, reach = right_report(reaches), 4 if has_ammonia(reference.flows(River(cards))) else 2
        record = records[reach - 1]
        for place in ("head", "foot"):
            for bod, nitrogenous in errors:
                for more, verdict in ((0, 0), (1 if bod > 0 else -1, 1)):
                    changed = record._replace(**{f"{place}_bod": record.head_bod + bod + more * (bod != 0),
                                                 f"{place}_nitrogenous": record.head_nitrogenous + nitrogenous + more * (bod == 0)})
                    wrong = wrong_at_distance(reaches, records[:reach - 1] + [changed] + records[reach:])
                    expect(f"errors of {bod} and {nitrogenous} units and {abs(more)} more at the {place} of reach {reach}", len(wrong), verdict)
        for status in (ORDINARY, BELOW_ZERO):
            wrong = wrong_at_distance(reaches, records[:reach - 1] + [record._replace(status=status)] + records[reach:])
            expect(f"no oxygen at status {status}", "the head is off by" in wrong[0], True)
    return "errors at status 2"


# A reach that uses up its oxygen, one below a dam that restores it, a clean brook, a reach below both that uses up its own, and the last below that.
STATUS_RIVER = River([Card(2, 22, 400, 300, 1_500_000, 5_000, 3_000, 8_000, 250_000), Card(4, 10, 400, 300, 400_000, 0, 0, 0, 0, dam=Dam(1_000, 0)),
                      Card(4, 18, 200, 800, 100_000, 2_000, 1_000, 9_200, 0), Card(5, 22, 900, 300, 1_500_000, 1_000, 1_000, 8_000, 200_000),
                      Card(0, 22, 400, 9_000, 200_000, 4_000, 0, 9_000, 0)])


def with_statuses(carried, rule):
    """The records that a program would report which has another rule for the status: it is given the record and the statuses of its feeders."""
    reaches, records = reference.flows(STATUS_RIVER), []
    for reach, record in zip(reaches, carried):
        status = rule(record, [records[feeder.number - 1].status for feeder in reach.feeders])
        records.append(record._replace(status=status, **(NO_OXYGEN if status == USED_UP_ABOVE else {})))
    return records


def statuses_by_other_rules():
    """Reports that a program with another rule for the status would print are found, each for its reason."""
    reaches, file = reference.flows(STATUS_RIVER), reference.encode(STATUS_RIVER)
    carried, records = carried_on(reaches), right_report(reaches)
    expect("statuses", ([record.status for record in records], [record.critical < 0 for record in carried]), ([1, 2, 0, 2, 2], [True, False, False, True, True]))
    for what, rule, reason in (
            ("the nearest feeder alone", lambda record, above: 2 if 1 in above else int(record.critical < 0), "reach 4: status is 1, due is 2"),
            ("1 before 2", lambda record, above: 1 if record.critical < 0 else 2 if any(above) else 0, "reach 4: status is 1, due is 2"),
            ("all feeders but the first", lambda record, above: 2 if any(above[1:]) else int(record.critical < 0), "reach 2: status is 0, due is 2"),
            ("all feeders", lambda record, above: 2 if above and all(above) else int(record.critical < 0), "reach 4: status is 1, due is 2"),
            ("oxygen below zero alone", lambda record, above: int(record.critical < 0), "reach 2: status is 0, due is 2"),
            ("every reach after", lambda record, above: 2 if record is not carried[0] else 1, "reach 3: status is 2, due is 0"),
            ("no status", lambda record, above: 0, "reach 1: status is 0, due is 1")):
        expect(f"by {what}", reference.check(file, text(reaches, with_statuses(carried, rule)), SERIES[:1]).wrong[:1], [reason])
    shown = [record._replace(status=due.status) for record, due in zip(carried, records)]
    names = ", due is 0; ".join(f"reach 2: {name} is {getattr(carried[1], name)}" for name in NO_OXYGEN if getattr(carried[1], name))
    wrong = reference.check(file, text(reaches, shown), SERIES[:1]).wrong
    expect("oxygen left at status 2", "; ".join(part for part in wrong if part.startswith("reach 2")), names + ", due is 0")
    expect("and nothing else", {part.split(":")[0] for part in wrong}, {"reach 2", "reach 4", "reach 5"})
    return "statuses by other rules"


def statuses_one_at_a_time():
    """One figure of the status river is wrong, or zero is taken for below zero, and the verdict has this reason alone."""
    reaches, file = reference.flows(STATUS_RIVER), reference.encode(STATUS_RIVER)
    records = right_report(reaches)
    for reach, fields, reason in (
            (1, {"status": 2}, "reach 1: status is 2, due is 1"), (3, {"status": 1}, "reach 3: status is 1, due is 0"), (4, {"status": 1}, "reach 4: status is 1, due is 2"),
            (5, {"status": 0}, "reach 5: status is 0, due is 2"), (5, {"status": 3}, "reach 5: status is 3, due is 2"), (2, {"instant": 1}, "reach 2: instant is 1, due is 0"),
            (2, {"foot_oxygen": -1}, "reach 2: foot_oxygen is -1, due is 0"), (5, {"critical": -5}, "reach 5: critical is -5, due is 0"),
            (4, {"head_oxygen": 7}, "reach 4: head_oxygen is 7, due is 0"), (4, {"head_bod": 7}, "reach 4: head_bod is 7, due is "),
            (5, {"foot_bod": records[4].foot_bod - 405}, "reach 5: the foot is off by 40")):
        changed = records[:reach - 1] + [records[reach - 1]._replace(**fields)] + records[reach:]
        wrong = reference.check(file, text(reaches, changed), SERIES[:1]).wrong
        expect(f"{fields} in reach {reach}", wrong[0][:len(reason)], reason)
    for volume, status in ((1_000_000, BELOW_ZERO), (1_000_001, ORDINARY)):
        river = River([one_bed(volume)])
        record, = right_report(reference.flows(river))
        wrong = reference.check(reference.encode(river), text(reference.flows(river), [record._replace(status=status)])).wrong
        expect(f"status {status} at critical oxygen {record.critical}", wrong, [f"reach 1: status is {status}, due is {1 - status}"])
    exact = one_bed(1_000_001)
    printed = b"1 1 10000 0 0 1000000 1024 {0} {0} {1}\n"
    for critical, status, verdict in ((0, 0, True), (0, 1, False), (7, 0, True), (-1, 1, True), (-9, 1, True), (-9, 0, False)):
        line = printed.replace(b"{0}", str(critical).encode()).replace(b"{1}", str(status).encode())
        expect(f"the reported critical oxygen {critical} counts, not the exact one, status {status}", is_right(reference.encode(River([exact])), line), verdict)
    return "statuses one at a time"


def same_at_both_speeds():
    """--full gives the same verdict."""
    rng = random.Random(4)
    for style, river, _ in drawn_rivers(rng, 4):
        file = reference.encode(River([river.cards[0]._replace(outlet=0)], river.factors))
        printed = right_text(reference.accept(file))
        expect(f"{style}: both speeds", reference.check(file, printed, full=True).wrong, [])
    return "both speeds"


# ---- The program's arithmetic

def recipe_of_examples():
    """The recipe gives the stored report and the stored means of each example, to the byte; a refused river has no means, by the same refusal."""
    accepted, refused = (sorted(glob.glob(os.path.join(ROOT, "examples", *folder, "*.river"))) for folder in ((), ("refused",)))
    for path in accepted + refused:
        file, stored = reference.content(path), reference.content(path[:-5] + "report").decode()
        expect(path, recipe.report(file), stored)
        expect(f"means of {path}", recipe.means(file), stored if path in refused else reference.content(path[:-5] + "mean").decode())
    return f"recipe of {len(accepted + refused)} examples"


def recipe_of_styles():
    """The recipe's reports and means are found right, for rivers of every style."""
    rng, worst = random.Random(6), [0, 0]
    for style, river, reaches in drawn_rivers(rng, len(generate.STYLES)):
        file, records = reference.encode(river), recipe.records_of(reaches)
        report = text(reaches, records)
        verdicts = reference.check(file, report), reference.check_means(file, recipe.means(file).encode(), report)
        expect(f"{style}: the recipe", [verdict.wrong for verdict in verdicts], [[], []])
        expect(f"{style}: where there is volume, there is some of status 0 or 1", sum(reference.weights(reaches, records)) > 0, volume_of_all(reaches) > 0)
        worst = [max(most, verdict.worst) for most, verdict in zip(worst, verdicts)]
    return "recipe within {} of its allowance, its means within {}".format(*(f"{most // 1_000}.{most % 1_000:03d}" for most in worst))


# ---- Generated files

def every_kind():
    """As many generated files as it takes hold every kind, every refusal of reading and of the flow check, and many accepted rivers."""
    answers, names = [], set()
    for name, file in generate.files(1, generate.every_kind()):
        names.add(name.split("-", 1)[1])
        answers.append(answer_line(file))
    expect("kinds", len(names), len(generate.accepted_kinds()) + len(generate.refused_kinds()))
    numbers = {int(line.split()[1]) for line in answers if line != "accepted"}
    expect("refusals", numbers, set(range(1, 12)) | {13, 14, 15})
    expect("the odd ones are accepted", set(answers[::2]), {"accepted"})
    return f"{len(names)} kinds of generated files"


def kinds_for_means():
    """Kinds of generated files that means need: no volume, in one reach and in several, some reaches without it, sums of more than eight bytes, below zero."""
    rng, kinds = random.Random(8), generate.accepted_kinds()
    drawn = {name: reference.accept(kinds[name](rng)) for name in (
        "no volume in one reach", "no volume in several reaches", "volume in one reach", "largest volumes", "lowest means", "mean below zero")}
    volumes = {name: sorted(reach.card.volume for reach in reaches) for name, reaches in drawn.items()}
    expect("no volume in one reach", volumes["no volume in one reach"], [0])
    expect("no volume in several", (len(volumes["no volume in several reaches"]) > 1, sum(volumes["no volume in several reaches"])), (True, 0))
    expect("volume in one reach", (volumes["volume in one reach"][-1] > 0, sum(volumes["volume in one reach"][:-1])), (True, 0))
    expect("largest volumes", {*volumes["largest volumes"], *volumes["lowest means"]}, {generate.MOST_VOLUME})
    expect("all of them count", {record.status for record in recipe.records_of(drawn["largest volumes"])}, {ORDINARY})
    records, means = recipe.profiles_of(drawn["lowest means"])
    expect("all but the last count", [record.status for record in records], [BELOW_ZERO] * 127 + [USED_UP_ABOVE])
    expect("a sum of more than eight bytes", -2 ** 67 < sum(means) * generate.MOST_VOLUME < -2 ** 66, True)
    records, means = recipe.profiles_of(drawn["mean below zero"])
    units, remainder = reference.river_mean(drawn["mean below zero"], means, records)
    expect("a mean below zero with a remainder", (units < 0, remainder > 0), (True, True))
    return f"{len(drawn)} kinds for means"


# The statuses of the kinds of generated files in which oxygen is used up.
KIND_STATUSES = {"down a chain": [1, 2, 2, 2], "above reaches of any kind": [1, 2, 2, 2, 2], "beside clean brooks": [1, 2, 0, 2, 0, 2], "in a brook": [0, 0, 1, 2, 2],
                 "in two branches": [1, 1, 0, 2, 2], "below a clean reach": [0, 1, 2, 2], "and restored": [1, 2, 2, 2], "twice": [1, 2, 2, 2],
                 "by ammonia": [1, 2, 0, 2, 2], "at the last reach": [0, 0, 1]}


def kinds_for_status():
    """Kinds of generated files that the status needs: status 1 and 2, a side branch that stays 0, with ammonia, and critical oxygen near zero, both ways."""
    rng, kinds, near = random.Random(9), generate.accepted_kinds(), {}
    for name, due in KIND_STATUSES.items():
        for _ in range(2):
            reaches = reference.accept(kinds[f"used up {name}"](rng))
            expect(f"used up {name}", [record.status for record in recipe.records_of(reaches)], due)
    for name in ("near zero by a bed", "near zero by decay"):
        firsts = [recipe.records_of(reference.accept(kinds[name](rng)))[0] for _ in range(12)]
        expect(f"{name}: within some units", max(abs(record.critical) for record in firsts) <= 9, True)
        near[name] = {record.status for record in firsts}
    expect("statuses near zero", near, {name: {ORDINARY, BELOW_ZERO} for name in near})
    records = [record for _ in range(3) for record in recipe.records_of(reference.accept(kinds["no oxygen"](rng)))]
    expect("no oxygen", {(record.head_oxygen, record.critical, record.status) for record in records}, {(0, 0, ORDINARY)})
    return f"{len(KIND_STATUSES) + 3} kinds for the status"


TESTS = (paper_agrees, bench_values, takes, saturations, pressures, pressure_records, beds, bed_records, ammonia, nitrification,
         ammonia_records, rates_in_force, factors, corrected_reports, factor_records, statuses, mean_bench, mean_answers, mean_formulas, allowances, exact_values,
         bounds_hold, exact_limits, limits_at_status_2, verdicts, statuses_by_other_rules, statuses_one_at_a_time, same_at_both_speeds, mean_verdicts,
         means_by_other_rules, means_at_status_2, mean_limits, recipe_of_examples, recipe_of_styles, every_kind, kinds_for_means, kinds_for_status)


if __name__ == "__main__":
    sys.exit(run_tests("reference", __doc__, TESTS))
