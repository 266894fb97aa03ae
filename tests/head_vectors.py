#!/usr/bin/env python3
"""Makes stdin and stdout of the crate head_vectors, which works flows and heads over given feet, from the reference.

    tests/head_vectors.py --check | --write
"""

import math
import sys

import reference
import vectors
from reference import Ammonia, Card, Dam, Factors, Pressure, Refused, River, Sludge, Take

CRATE = "head_vectors"
OFFSET = 2 ** 31        # the program holds oxygen as units + 2^31


def card(outlet, temperature=20, k1=0, k2=0, volume=1000, inflow=3000, bod=2000, oxygen=8000, load=0, dam=None, take=None, pressure=None, sludge=None,
         ammonia=None):
    return Card(outlet, temperature, k1, k2, volume, inflow, bod, oxygen, load, Dam(*dam) if dam else None, None if take is None else Take(take),
                Pressure(pressure) if pressure else None, None if sludge is None else Sludge(sludge), Ammonia(*ammonia) if ammonia else None)


def two(dam=None, above=None, **more):
    return [card(2, take=above), card(0, inflow=1000, bod=30000, oxygen=2000, dam=dam, **more)]


def confluence(first=None, second=None):
    """Six reaches, two of them with a take where one is given."""
    return [
        card(3, 5, 300, 500, 40000, 1200, 9000, 9500, 7),
        card(3, 11, 100, 900, 20000, 700, 1000, 12000, take=first),
        card(6, 17, 400, 400, 90000, 0, 0, 0, 250, take=second),
        card(5, 35, 20000, 20000, 50, 3, 999999, 1, 0),
        card(6, 0, 1, 2, 3, 4, 5, 6, 3),
        card(0, 23, 250, 700, 1000000, 5000, 3000, 4000, 1000),
    ]


def nitrifying(cards, ammonias):
    """Some of the cards get ammonia: its values by the number of the reach."""
    return [card._replace(ammonia=Ammonia(*ammonias[reach])) if reach in ammonias else card for reach, card in enumerate(cards, 1)]


def factored(cards, decay=1000, aeration=1000):
    """A river with rate factors."""
    return River(cards, Factors(decay, aeration))


def dams():
    """Shares 0, 500 and 1,000, each with a generating flow of 0, part and all of Qu."""
    cards, flow = [], 0
    for n, (share, part) in enumerate([(s, p) for s in (0, 500, 1000) for p in (0, 1, 2)]):
        here = 2 * n + 2
        cards.append(card(here, 3 * n, inflow=1000 + 137 * n, bod=100 * n, oxygen=500 * n))
        flow += cards[-1].inflow
        cards.append(card(0 if n == 8 else here + 2, 35 - 4 * n, inflow=11 * n, oxygen=7000, dam=(share, [0, flow // 3, flow][part])))
        flow += cards[-1].inflow
    return cards


def saturations(*places):
    """A source, and below it a reach at each temperature and pressure, whose dam fills the whole deficit: its head has saturation."""
    return [card(2)] + [card(reach + 1 if reach <= len(places) else 0, temperature, inflow=0, dam=(1000, 0), pressure=pressure)
                        for reach, (temperature, pressure) in enumerate(places, 2)]


def made(star):
    """As many reaches as there may be: a chain, or a star whose last reach all others feed."""
    return [card(0 if i == 127 else 128 if star else i + 2, i % 36, 100, 200, 50, 0x0B00 + i, 2000, 8000, 5) for i in range(128)]


# Cards or a river, the first reach's foot oxygen as the program holds it, and how much it grows with each reach.
LEVEL, HIGH, LOW = OFFSET + 8000000, OFFSET + 19900000, OFFSET - 900000000
GROUPS = {
    "plain": [(two(), LEVEL, 0), (two((500, 1000)), LEVEL, 0), (two((500, 1000), temperature=5), HIGH, 0), (two((1000, 0), temperature=30), HIGH, 7)],
    "takes": [
        (two(above=1000), LEVEL, 0), (two(take=1000), LEVEL, 0), (two((500, 1000), above=1999, take=0), LEVEL, 0),
        ([card(2, inflow=1, bod=999999), card(3, inflow=2, bod=1000000, take=2), card(0, inflow=5, bod=1000000)], LEVEL, 0),
    ],
    "pressures": [
        (two((500, 1000), pressure=700), LEVEL, 0),
        (saturations((0, 700), (20, 700), (25, 700), (35, 700), (20, 500), (20, 760), (20, 800)), LEVEL, 12345),
    ],
    "sludges": [
        (two((500, 1000), pressure=700, sludge=65535), LEVEL, 0),
        ([card(0, inflow=1, volume=1000000000, sludge=0)], LEVEL, 0),
        ([card(0, inflow=10000, volume=4320000, sludge=1000)], LEVEL, 0),
        ([card(0, inflow=10001, volume=4320000, sludge=1000, take=1)], LEVEL, 0),
        ([card(0, inflow=100000000, volume=1000000000, sludge=43200)], LEVEL, 0),
    ],
    "ammonias": [
        (nitrifying(two(), {1: (300, 4000, 5)}), LEVEL, 0),
        (nitrifying(two(), {2: (300, 4000, 5)}), LEVEL, 0),
        (nitrifying(two(), {1: (0, 0, 0)}), LEVEL, 0),
        (nitrifying(two(above=1000, take=1), {1: (20000, 4001, 0), 2: (0, 0, 7)}), LEVEL, 0),
        (nitrifying(two((500, 1000), take=999, pressure=700, sludge=65535), {1: (1, 2, 3), 2: (256, 65537, 66051)}), LEVEL, 0),
        ([card(3, ammonia=(500, 8000, 11)), card(3, inflow=700), card(4, inflow=0, take=1234), card(0, inflow=1)], LEVEL, 0),
        ([card(2, inflow=1, bod=499999, ammonia=(0, 500000, 0)), card(3, inflow=2, bod=0, take=2, ammonia=(0, 1000000, 0)),
          card(0, inflow=5, bod=1000000)], LEVEL, 0),
    ],
    "confluences": [(confluence(), LEVEL, 12345), (confluence(), HIGH, 1), (confluence(), LOW, 1234567)],
    "confluences_taken": [(confluence(333, 1), LOW, 1234567)],
    "confluences_nitrifying": [
        (nitrifying(confluence(), {2: (900, 12345, 0), 3: (0, 999999, 67)}), LEVEL, 12345),
        (nitrifying(confluence(333, 1), {1: (300, 4000, 5), 5: (2, 65536, 2), 6: (20, 1, 1)}), LOW, 1234567),
    ],
    "dams_level": [(dams(), LEVEL, 54321)],
    "dams_high": [(dams(), HIGH, 3)],
    "dams_low": [(dams(), LOW, 777777)],
    "refusals_7_8": [
        ([card(0, inflow=0)], LEVEL, 0),
        ([card(2, inflow=1), card(3, inflow=0), card(0, inflow=0)], LEVEL, 0),
        ([card(0, inflow=100000000)], LEVEL, 0),
        ([card(2, inflow=100000000), card(0, inflow=1)], LEVEL, 0),
        ([card(3, inflow=60000000), card(3, inflow=60000000), card(0, inflow=0, dam=(1, 1))], LEVEL, 0),
        ([card(2, inflow=100000000), card(0, inflow=1, dam=(500, 100000000))], LEVEL, 0),
    ],
    "refusals_9_10": [
        ([card(0, dam=(0, 0))], LEVEL, 0),
        (two((500, 3000)), LEVEL, 0),
        (two((500, 3001)), LEVEL, 0),
        ([card(0, inflow=1, bod=1000000)], LEVEL, 0),
        ([card(0, inflow=1, bod=1000000, load=1)], LEVEL, 0),
        ([card(2, inflow=5, bod=0, load=5000), card(0, inflow=0, load=1)], LEVEL, 0),
        ([card(0, inflow=1, load=4294967295, k1=20000, volume=1000000000)], LEVEL, 0),
    ],
    "refusals_11": [
        ([card(0, inflow=10000, k1=1000, volume=3456000)], LEVEL, 0),
        ([card(0, inflow=10000, k1=1000, volume=3456001)], LEVEL, 0),
        ([card(0, inflow=10000, k2=1000, volume=3456000)], LEVEL, 0),
        ([card(0, inflow=10000, k2=1000, volume=3456001)], LEVEL, 0),
        ([card(2), card(0, k1=20000, k2=20000, volume=1000000000)], LEVEL, 0),
        ([card(0, inflow=10000, k1=1000, volume=3456000, take=1)], LEVEL, 0),
    ],
    "refusals_taken": [
        (two((500, 2001), above=1000), LEVEL, 0),
        ([card(0, inflow=1, load=4294967295, k1=20000, volume=1000000000, take=1)], LEVEL, 0),
        (two(above=2999), LEVEL, 0),
        (two(above=3000), LEVEL, 0),
        (two(take=4000, k1=20000, volume=1000000000), LEVEL, 0),
    ],
    "refusals_14": [
        ([card(0, inflow=10000, volume=4320000, sludge=1001)], LEVEL, 0),
        ([card(0, inflow=10000, volume=4320001, sludge=1000)], LEVEL, 0),
        ([card(0, inflow=10000, volume=4320000, sludge=1000, take=1)], LEVEL, 0),
        ([card(0, inflow=100000000, volume=1000000000, sludge=43201)], LEVEL, 0),
        ([card(0, inflow=10000, k1=1000, volume=4320001, sludge=1000)], LEVEL, 0),
        ([card(0, inflow=10000, k2=1000, volume=4320001, sludge=1000)], LEVEL, 0),
        ([card(2, volume=1000000000, sludge=65535), card(0, inflow=100000000)], LEVEL, 0),
    ],
    "refusals_10_by_both": [
        ([card(0, inflow=1, bod=600000, ammonia=(0, 400000, 0))], LEVEL, 0),
        ([card(0, inflow=1, bod=600000, ammonia=(0, 400001, 0))], LEVEL, 0),
        ([card(0, inflow=1, bod=600000, ammonia=(0, 399000, 1))], LEVEL, 0),
        ([card(0, inflow=1, bod=600001, ammonia=(0, 399000, 1))], LEVEL, 0),
        ([card(0, inflow=100000000, bod=500000, load=4294967295, ammonia=(0, 414100, 4294967295))], LEVEL, 0),
        ([card(0, inflow=100000000, bod=999999, ammonia=(0, 0, 100000))], LEVEL, 0),
        ([card(0, inflow=100000000, bod=999999, ammonia=(0, 0, 100001))], LEVEL, 0),
    ],
    "refusals_10_from_above": [
        ([card(2, inflow=1, bod=0, ammonia=(0, 1000000, 0)), card(0, inflow=0)], LEVEL, 0),
        ([card(2, inflow=1, bod=0, ammonia=(0, 1000000, 0)), card(0, inflow=0, load=1)], LEVEL, 0),
        ([card(2, inflow=1, bod=1000000), card(0, inflow=0, ammonia=(0, 1000000, 1))], LEVEL, 0),
        ([card(0, inflow=1, volume=1000000000, take=1, ammonia=(20000, 1000000, 4294967295))], LEVEL, 0),
    ],
    "refusals_11_by_ammonia": [
        ([card(0, inflow=10000, volume=3456000, ammonia=(1000, 0, 0))], LEVEL, 0),
        ([card(0, inflow=10000, volume=3456001, ammonia=(1000, 0, 0))], LEVEL, 0),
        ([card(0, inflow=10000, volume=3456000, ammonia=(1001, 0, 0))], LEVEL, 0),
        ([card(0, inflow=10000, volume=3456000, take=1, ammonia=(1000, 0, 0))], LEVEL, 0),
        ([card(0, inflow=10000, k1=1000, k2=1000, volume=3456000, ammonia=(1000, 0, 0))], LEVEL, 0),
        ([card(0, inflow=10000, k1=1001, volume=3456000, ammonia=(1000, 0, 0))], LEVEL, 0),
        ([card(2, ammonia=(1, 1, 1)), card(0, volume=1000000000, ammonia=(20000, 0, 0))], LEVEL, 0),
    ],
    "refusals_with_ammonia": [
        ([card(0, inflow=10000, volume=4320001, sludge=1000, ammonia=(1000, 0, 0))], LEVEL, 0),
        ([card(0, inflow=10000, volume=4320001, sludge=1000, ammonia=(1, 0, 0))], LEVEL, 0),
        ([card(0, inflow=10000, volume=4320000, sludge=1000, ammonia=(800, 0, 0))], LEVEL, 0),
        (two(take=4000, volume=1000000000, ammonia=(20000, 0, 0)), LEVEL, 0),
        (two((500, 3001), ammonia=(0, 1000000, 4294967295)), LEVEL, 0),
    ],
    "refusals_15": [
        (factored([card(0, 21, k1=19532)], decay=1024), LEVEL, 0),
        (factored([card(0, 21, k1=19533)], decay=1024), LEVEL, 0),
        (factored([card(0, 21, k2=20000)], aeration=1024), LEVEL, 0),
        (factored([card(0, 21, k1=20000, ammonia=(20000, 0, 0))], aeration=1024), LEVEL, 0),
        (factored([card(0, 21, ammonia=(20000, 0, 0))], decay=1024), LEVEL, 0),
        (factored([card(2, 35), card(0, 20, k1=20000, k2=20000)], 1100, 1100), LEVEL, 0),
        (factored([card(0, 35, k1=20000, k2=20000, ammonia=(20000, 0, 0))], 1100, 1100), LEVEL, 0),
        (factored([card(0, 21, k1=20000, volume=1000000000)], decay=1024), LEVEL, 0),
        (factored(two(take=4000, temperature=21, k1=20000), decay=1024), LEVEL, 0),
    ],
    "refusals_11_in_force": [
        (factored([card(0, 25, inflow=10000, k1=1000, volume=2747217)], decay=1047), LEVEL, 0),
        (factored([card(0, 25, inflow=10000, k1=1000, volume=2747218)], decay=1047), LEVEL, 0),
        (factored([card(0, 10, inflow=10000, volume=5477020, ammonia=(1000, 0, 0))], decay=1047), LEVEL, 0),
        (factored([card(0, 10, inflow=10000, volume=5477021, ammonia=(1000, 0, 0))], decay=1047), LEVEL, 0),
        (factored([card(0, 0, inflow=10000, k2=230, volume=37978021)], aeration=1047), LEVEL, 0),
        (factored([card(0, 0, inflow=10000, k2=230, volume=37978022)], aeration=1047), LEVEL, 0),
        (factored([card(0, 2, inflow=10000, k1=2823, volume=1573054)], decay=1014), LEVEL, 0),
        (factored([card(0, 2, inflow=10000, k1=2823, volume=1573055)], decay=1014), LEVEL, 0),
    ],
}
MADE = [(made(False), 2155483648, 1000), (made(True), 2147000000, 12345)]


def river_of(given):
    """The river of some cards, or itself."""
    return given if isinstance(given, River) else River(given)


def lines(given, first, step):
    """What the program prints: a foot has seven eighths of each demand at the head, rounded up, and the oxygen given."""
    reaches = reference.answer(reference.flows, river_of(given))
    if isinstance(reaches, Refused):
        return [reaches.line()]
    feet, result = {}, []
    for reach in reaches:
        sums = [sum(feeder.Q * feet[feeder.number][figure] for feeder in reach.feeders) for figure in range(3)]
        bod, oxygen, nitrogenous = reference.head_figures(reach, *sums, math.floor)
        result.append(f"{reach.number} {reach.depth} {reach.Q} {reach.M} {bod} {nitrogenous} {oxygen}")
        feet[reach.number] = bod - bod // 8, (first + step * (reach.number - 1)) % 2 ** 32 - OFFSET, nitrogenous - nitrogenous // 8
    return result


def case(given, first, step):
    """A case of the program: the oxygen of the feet, and the file."""
    return first.to_bytes(4, "big") + step.to_bytes(4, "big") + reference.encode(river_of(given))


def make(write):
    rivers = [river for group in GROUPS.values() for river in group] + MADE
    output = "".join(line + "\n" for river in rivers for line in lines(*river))
    vectors.settle_both(CRATE, [case(*river) for river in rivers], output, write)
    return f"head vectors: {len(rivers)} rivers are up to date"


if __name__ == "__main__":
    sys.exit(vectors.run(__doc__, make))
