#!/usr/bin/env python3
"""Makes stdin and stdout of the crate bench, which shows bench values of the paper: the cases below, and what is due for each.

    tests/bench_vectors.py --check | --write

Refusals and sizes are the reference's. Figures along a reach and means are those of tests/recipe.py, the program's own digits, which the reference
finds right.
"""

import sys

import recipe
import reference
import vectors
from reference import Ammonia, Card, Dam, Pressure, Refused, River, Sludge, Take

CRATE = "bench"
# The kinds of cases, as in its src/given.rt.
REPORT, SIZE, MEANS = range(3)
LINE, NITRIFIED_LINE = 30, 40       # bytes of a reach in a report
UNTOUCHED = 7, 9, 0x01010101        # what the program has in the two numbers and in the buffer for means before a call
EQUAL_FOOT = 3_678_794, 10_973_206  # demand and oxygen at the foot of a reach at equal rates

FIRST = Card(2, 20, 0, 0, 1_000, 3_000, 2_000, 8_000, 0)
SECOND = Card(0, 20, 0, 0, 1_000, 1_000, 30_000, 2_000, 0)
EQUAL = Card(0, 0, 1_000, 1_000, 864_000, 10_000, 10_000, 14_652, 0)
LONG = Card(0, 20, 1_000, 0, 3_456_000, 10_000, 10_000, 9_000, 0)
STILL = Card(0, 20, 0, 0, 0, 1, 0, 0, 0)
BEDDED = Card(0, 20, 0, 1_000, 864_000, 10_000, 0, 9_000, 0, sludge=Sludge(1_000))
THICK = BEDDED._replace(k2=0, volume=4_320_000)
DAYLONG = Card(0, 20, 0, 0, 864_000, 10_000, 5_000, 9_000, 0, ammonia=Ammonia(1_000, 10_000, 0))
FOUL = Card(0, 20, 0, 0, 0, 10_000, 600_000, 9_000, 0, ammonia=Ammonia(0, 400_000, 0))
LONG_AMMONIA = DAYLONG._replace(volume=3_456_000, inflow_bod=0)
USED_UP = [Card(2, 22, 400, 300, 1_500_000, 5_000, 3_000, 8_000, 250_000), Card(4, 22, 400, 1_500, 1_000_000, 1_000, 1_000, 9_000, 0),
           Card(4, 18, 200, 800, 1_000_000, 20_000, 2_000, 9_000, 0), Card(0, 20, 300, 2_000, 2_000_000, 10_000, 1_000, 9_000, 0)]


def file(*cards):
    return reference.encode(River(cards))


def worked(**fields):
    """The worked example, with some fields of its second reach changed."""
    return file(FIRST, SECOND._replace(**fields))


def row(count):
    """Reaches in a row, without volume."""
    return file(*(STILL._replace(outlet=reach + 1 if reach < count else 0) for reach in range(1, count + 1)))


AMMONIA = worked(ammonia=Ammonia(1_000, 4_000, 5))
ZEROS = worked(ammonia=Ammonia(0, 0, 0))


# ---- The cases

class Case:
    """A case: kind, name, file, the room for the answer, how many reaches are shown, whether with the status, and how far equal rates may be off."""

    def __init__(self, name, data, room, kind=REPORT, shown=0, status=False, off=0):
        self.kind, self.name, self.data, self.room, self.shown, self.status, self.off = kind, name, data, room, shown, status, off

    def encoded(self):
        numbers = bytes([self.kind, len(self.name)]) + self.room.to_bytes(2, "big") + bytes([self.shown, self.status]) + self.off.to_bytes(2, "big")
        return numbers + self.name.encode() + self.data


def shown(name, data, **more):
    """A report of which every reach is shown, where the file is accepted."""
    reaches = reference.answer(reference.accept, data)
    return Case(name, data, 3 * NITRIFIED_LINE, shown=0 if isinstance(reaches, Refused) else len(reaches), **more)


CASES = [
    shown("equal rates", file(EQUAL), off=100),
    # Rows of as many reaches as there may be, and of one more.
    Case("128 reaches", row(128), 128 * LINE), Case("128 reaches in 3,839 bytes", row(128), 128 * LINE - 1), Case("129 reaches", row(129), 128 * LINE),
    # Refused files.
    shown("36 degrees", file(EQUAL._replace(temperature=36))), shown("outlet to itself", file(EQUAL._replace(outlet=1), EQUAL)),
    shown("check 11 refuses", file(LONG._replace(volume=3_456_001))), shown("no inflow", file(STILL._replace(inflow=0))),
    shown("dam without feeders", file(SECOND._replace(dam=Dam(500, 0)))), shown("empty file", b""),
    # Accepted files.
    shown("check 11 passes", file(LONG)), shown("dam", worked(dam=Dam(500, 1_000))),
    shown("heavy load", file(Card(2, 25, 4_000, 2_000, 4_000_000, 100_000, 500_000, 20_000, 0), Card(3, 10, 20_000, 300, 1_000_000, 60_000, 1_000, 9_000, 40_000_000),
                             Card(0, 30, 100, 20_000, 1_500_000, 100_000, 0, 0, 0, Dam(1_000, 20_000)))),
    shown("fork", file(Card(3, 15, 500, 900, 2_000_000, 20_000, 8_000, 7_000, 1_000_000), Card(3, 18, 700, 600, 3_000_000, 30_000, 12_000, 20_000, 0),
                       Card(0, 22, 999, 1_000, 9_000_000, 5_000, 3_000, 6_000, 500_000))),
    # Oxygen is used up at reach 1: reach 2 lies below it, reach 3 is a side branch, and reach 4 lies below both.
    shown("oxygen used up", file(*USED_UP), status=True),
    # Takes: the worked example, all of the water of its first reach, and a reach that is too long for what remains.
    shown("take", file(FIRST._replace(take=Take(1_000)), SECOND)), shown("take of all water", file(FIRST._replace(take=Take(3_000)), SECOND)),
    shown("check 11 after a take", file(LONG._replace(take=Take(1)))),
    # Pressures: the worked example with a dam, equal rates, and pressures out of range.
    shown("pressure", worked(dam=Dam(500, 1_000), pressure=Pressure(700))), shown("equal rates at 700 mm", file(EQUAL._replace(pressure=Pressure(700)))),
    shown("499 mm", file(EQUAL._replace(pressure=Pressure(499)))), shown("801 mm", worked(pressure=Pressure(801))),
    # Sludge beds: the worked example with one, and with beds that demand nothing; a reach of a day, with surface aeration and without; check 14.
    shown("bed without aeration", worked(sludge=Sludge(34_560))), shown("beds of no demand", file(FIRST._replace(sludge=Sludge(0)), SECOND._replace(sludge=Sludge(0)))),
    shown("bed and aeration", file(BEDDED)), shown("bed alone", file(BEDDED._replace(k2=0))), shown("check 14 passes", file(THICK)),
    shown("check 14 refuses", file(THICK._replace(volume=4_320_001))), shown("check 14 after a take", file(THICK._replace(take=Take(1)))),
    # Ammonia: the worked example with ammonia that does not decay on reach 1, and with some on reach 2; and the record's last bytes.
    shown("ammonia without decay", file(FIRST._replace(ammonia=Ammonia(0, 4_000, 0)), SECOND)), shown("ammonia of zeros", ZEROS), shown("ammonia in range", AMMONIA),
    shown("a byte that is not zero", AMMONIA[:-1] + b"\x01"), shown("cut ammonia", AMMONIA[:-1]),
    # Ammonia that decays: at the rate of surface aeration, with BOD at that rate too, without surface aeration, and carried by a reach that has none.
    shown("equal rates of ammonia", file(EQUAL._replace(k1=0, inflow_bod=0, ammonia=Ammonia(1_000, 10_000, 0))), off=200),
    shown("both demands at equal rates", file(EQUAL._replace(inflow_bod=4_000, ammonia=Ammonia(1_000, 6_000, 0)))), shown("ammonia without aeration", file(DAYLONG)),
    shown("ammonia carried", file(Card(2, 25, 300, 3_000, 1_500_000, 20_000, 6_000, 8_000, 0, ammonia=Ammonia(2_000, 9_000, 250_000)),
                                  Card(3, 10, 400, 200, 900_000, 30_000, 3_000, 10_000, 0),
                                  Card(0, 18, 250, 900, 2_500_000, 5_000, 1_000, 9_000, 100_000, Dam(400, 10_000), sludge=Sludge(800), ammonia=Ammonia(1_200, 2_000, 0)))),
    # Checks 10 and 11 of rivers with ammonia.
    shown("check 10 by both demands passes", file(FOUL)), shown("check 10 by both demands refuses", file(FOUL._replace(ammonia=Ammonia(0, 400_001, 0)))),
    shown("check 10 by a load", file(FOUL._replace(load=1))), shown("check 10 by a nitrogenous load", file(FOUL._replace(ammonia=Ammonia(0, 400_000, 1)))),
    shown("check 11 by ammonia passes", file(LONG_AMMONIA)), shown("check 11 by ammonia refuses", file(LONG_AMMONIA._replace(volume=3_456_001))),
    shown("check 11 by ammonia after a take", file(LONG_AMMONIA._replace(take=Take(1)))),
    # The room for a report with ammonia, and sizes of a reach.
    Case("ammonia in 80 bytes", ZEROS, 2 * NITRIFIED_LINE), Case("ammonia in 79 bytes", ZEROS, 2 * NITRIFIED_LINE - 1),
    Case("reach with ammonia in its file", ZEROS, 0, SIZE), Case("reach without", worked(), 0, SIZE), Case("reach of an empty file", b"", 0, SIZE),
    # Means: oxygen that stays as it is, whose means fill eight bytes of twelve and do not go into seven; no volume; means below zero.
    Case("constant oxygen", worked(), 12, MEANS, 3), Case("constant oxygen in 7 bytes", worked(), 7, MEANS, 1), Case("no volume", row(2), 8, MEANS, 2),
    Case("no volume in 7 bytes", row(2), 7, MEANS, 1), Case("means below zero", file(USED_UP[0], USED_UP[1]._replace(outlet=0)), 8, MEANS, 2),
]


# ---- What is due

def right(case, verdict):
    """Fails where the reference finds the recipe's figures wrong."""
    if verdict.wrong:
        raise vectors.Failed(f"{case.name}: {verdict.wrong[0]}")


def result(name, refusal):
    return f"{name}: 0 at 0\n" if refusal is None else f"{name}: {refusal.number} at {refusal.reach}\n"


def size_of(data):
    """How many bytes a reach has in the report of a file."""
    river = reference.answer(reference.read, data)
    return 0 if isinstance(river, Refused) else NITRIFIED_LINE if reference.has_record(river, reference.AMMONIA) else LINE


def within(case, record, nitrified):
    """The line of a reach at equal rates whose figures are near enough."""
    found = record.foot_nitrogenous if nitrified else record.foot_bod, record.foot_oxygen
    if sum(abs(figure - due) for figure, due in zip(found, EQUAL_FOOT)) > case.off:
        raise vectors.Failed(f"{case.name}: {found} is not within {case.off} of {EQUAL_FOOT}")
    return f"within {case.off}\n"


def reach_lines(record, case, nitrified):
    """What is shown of a reach."""
    figures = (record.foot_bod, record.foot_oxygen, record.instant, record.critical) + ((record.head_nitrogenous, record.foot_nitrogenous) if nitrified else ())
    return " ".join(map(str, figures)) + "\n" + (f"status {record.status}\n" if case.status else "")


def report_due(case):
    reaches, size = reference.answer(reference.accept, case.data), size_of(case.data)
    if isinstance(reaches, Refused):
        return result(case.name, reaches)
    if case.room < size * len(reaches):
        return result(case.name, Refused(12, 0, ""))
    right(case, reference.check(case.data, recipe.report(case.data).encode()))
    records, nitrified = recipe.records_of(reaches), size == NITRIFIED_LINE
    lines = "".join(reach_lines(record, case, nitrified) for record in records[:case.shown])
    return result(case.name, None) + lines + (within(case, records[0], nitrified) if case.off else "")


def means_due(case):
    """A refusal leaves the numbers and the buffer as they were."""
    def called():
        reaches = reference.accept_mean(case.data, case.room)
        records, means = recipe.profiles_of(reaches)
        reference.check_volume(reaches, records)
        right(case, reference.check_means(case.data, recipe.means(case.data).encode(), recipe.report(case.data).encode()))
        return means, reference.river_mean(reaches, means, records)

    answer = reference.answer(called)
    refusal = answer if isinstance(answer, Refused) else None
    means, river = ([], UNTOUCHED[:2]) if refusal else answer
    means = (means + [UNTOUCHED[2]] * case.shown)[:case.shown]
    return result(case.name, refusal) + "".join(f"{mean}\n" for mean in means) + "{} {}\n".format(*river)


def due(case):
    if case.kind == SIZE:
        return f"{case.name}: {size_of(case.data)} bytes\n"
    return means_due(case) if case.kind == MEANS else report_due(case)


def make(write):
    vectors.settle_both(CRATE, [case.encoded() for case in CASES], "".join(map(due, CASES)), write)
    return f"bench vectors: {len(CASES)} cases are up to date"


if __name__ == "__main__":
    sys.exit(vectors.run(__doc__, make))
