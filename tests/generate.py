"""Generated river files of every kind: accepted ones of many shapes and sizes, and refused ones for every rule.

`files(seed, total)` gives them one by one, accepted and refused in turn. The kinds of each sort come round in a shuffled order, so that
`every_kind()` files hold all of them. Nothing of the program under test goes into them, and reference.py says which answer is due.
"""

import os
import random
from collections import namedtuple

import reference
from reference import (AFTER_REACH, AMMONIA, AS_GIVEN, DAM, FACTORS, HEADER, LONGEST, MOST_RATE, PRESSURE, REACH, SLUDGE, STANDARD_PRESSURE,
                       STANDARD_TEMPERATURE, TAKE, Ammonia, Card, Dam, Factors, Pressure, Reach, Refused, River, Sludge, Take, in_force)

MOST_FLOW = 100_000_000
MOST_VOLUME = 1_000_000_000
MOST_BOD = 1_000_000
MOST_OXYGEN = 20_000
MOST_LOAD = 2 ** 32 - 1
LEAST_PRESSURE, MOST_PRESSURE = 500, 800
MOST_SLUDGE = 2 ** 16 - 1
LEAST_FACTOR, MOST_FACTOR = 1_000, 1_100
MOST_AMMONIA = Ammonia(MOST_RATE, MOST_BOD, MOST_LOAD)


def pick(rng, most):
    """A number from 0 to `most`: an end, any number, or one with any number of binary digits."""
    way = rng.randrange(4)
    if way == 0:
        return rng.choice((0, min(1, most), most))
    if way == 1:
        return rng.randint(0, most)
    return min(most, rng.getrandbits(rng.randint(1, max(1, most.bit_length()))))


# ---- Accepted rivers

# The outlet of reach i of n, for i < n.
SHAPES = {
    "chain": lambda rng, i, n: i + 1,
    "star": lambda rng, i, n: n,
    "brooks": lambda rng, i, n: i + 1 if i % 2 else min(i + 2, n),      # each second reach is a brook
    "arms": lambda rng, i, n: min(i + 3, n),                            # three chains that meet at the last reach
    "tree": lambda rng, i, n: n - (n - i - 1) // 2,                     # two feeders to a reach
    "near": lambda rng, i, n: rng.randint(i + 1, min(i + 4, n)),
    "any": lambda rng, i, n: rng.randint(i + 1, n),
}

# The inflow of a reach, for a source (a reach without feeders) or another. It is cut to what check 8 leaves, and a source gets at least 1.
FLOWS = {
    "any": lambda rng, source: pick(rng, 1_000_000),
    "ordinary": lambda rng, source: rng.randint(0, 30_000),
    "tiny": lambda rng, source: rng.randint(0, 1),
    "huge": lambda rng, source: rng.choice((MOST_FLOW, MOST_FLOW // 3)),
    "sources": lambda rng, source: rng.randint(1, 30_000) if source else 0,
}

# The two rates. In a river with rate factors they are cut to what check 15 allows, as nitrification rates are.
RATES = {
    "any": lambda rng: (pick(rng, MOST_RATE), pick(rng, MOST_RATE)),
    "ordinary": lambda rng: (rng.randint(100, 500), rng.randint(100, 2_000)),
    "equal": lambda rng: (pick(rng, MOST_RATE),) * 2,
    "near": lambda rng: rng.choice(((0, 1), (1, 0), (1, 2), (700, 701), (701, 700), (MOST_RATE - 1, MOST_RATE), (MOST_RATE, MOST_RATE - 1))),
    "zero": lambda rng: (0, 0),
    "no decay": lambda rng: (0, pick(rng, MOST_RATE)),
    "no aeration": lambda rng: (pick(rng, MOST_RATE), 0),
    "little aeration": lambda rng: (rng.choice((0, 1, 7, 230)), rng.choice((1, 1, 2, 3, 9))),
    "much aeration": lambda rng: (pick(rng, MOST_RATE), MOST_RATE),
    "top": lambda rng: (MOST_RATE, MOST_RATE),
    "few": lambda rng: (rng.randint(0, 9), rng.randint(0, 9)),      # in cold water some of them come to 0
}

# The volume, where `most` is what checks 11 and 14 and the field allow.
VOLUMES = {
    "any": lambda rng, most: pick(rng, most),
    "long": lambda rng, most: most,
    "half": lambda rng, most: most // 2,
    "small": lambda rng, most: min(most, rng.randint(0, 9)),
    "some": lambda rng, most: rng.choice((0, pick(rng, most), most)),
    "zero": lambda rng, most: 0,
}

# Inflow BOD, inflow oxygen, and the load in hundredths of what check 10 leaves room for; ammonia has a part of both demands.
WATERS = {
    "any": lambda rng: (pick(rng, MOST_BOD), pick(rng, MOST_OXYGEN), rng.choice((0, 0, 1, 50, 100))),
    "ordinary": lambda rng: (rng.randint(0, 30_000), rng.randint(0, 14_000), rng.choice((0, 0, 1, 3))),
    "clean": lambda rng: (0, rng.randint(6_000, 12_000), 0),
    "foul": lambda rng: (MOST_BOD, rng.choice((0, rng.randint(0, MOST_OXYGEN))), 100),
    "overload": lambda rng: (rng.randint(20_000, 200_000), rng.randint(0, 9_000), rng.choice((0, 5, 30))),
    "rich": lambda rng: (rng.randint(0, 5_000), rng.randint(14_000, MOST_OXYGEN), 0),       # oxygen above saturation
}

# Share and generating flow of a dam, or None.
DAMS = {
    "none": lambda rng, Qu: None,
    "some": lambda rng, Qu: rng.choice((None, Dam(rng.randint(0, 1_000), rng.randint(0, Qu)))),
    "all": lambda rng, Qu: Dam(pick(rng, 1_000), rng.choice((0, Qu, rng.randint(0, Qu)))),
    "ends": lambda rng, Qu: Dam(rng.choice((0, 1, 999, 1_000)), rng.choice((0, min(1, Qu), Qu - 1, Qu))),
    "full": lambda rng, Qu: Dam(1_000, 0),      # where nothing joins, the head has saturation
}

# The take from a mixed flow, or None.
TAKES = {
    "none": lambda rng, Qm: None,
    "some": lambda rng, Qm: rng.choice((None, Take(rng.randint(0, Qm - 1)))),
    "all": lambda rng, Qm: Take(pick(rng, Qm - 1)),
    "ends": lambda rng, Qm: Take(rng.choice((0, min(1, Qm - 1), Qm - 1))),
}

# The pressure, or None.
PRESSURES = {
    "none": lambda rng: None,
    "some": lambda rng: rng.choice((None, Pressure(rng.randint(LEAST_PRESSURE, MOST_PRESSURE)))),
    "all": lambda rng: Pressure(rng.randint(LEAST_PRESSURE, MOST_PRESSURE)),
    "ends": lambda rng: Pressure(rng.choice((LEAST_PRESSURE, LEAST_PRESSURE + 1, STANDARD_PRESSURE - 1, STANDARD_PRESSURE, STANDARD_PRESSURE + 1, MOST_PRESSURE))),
}

# The demand of the sludge bed, or None, where `most` is what check 14 and the field allow.
SLUDGES = {
    "none": lambda rng, most: None,
    "some": lambda rng, most: rng.choice((None, Sludge(rng.randint(0, most)))),
    "all": lambda rng, most: Sludge(pick(rng, most)),
    "most": lambda rng, most: Sludge(most),
    "small": lambda rng, most: Sludge(min(most, rng.randint(0, 9))),
    "zero": lambda rng, most: Sludge(0),
}

# The nitrification rate and how much of inflow BOD and load is nitrogenous, in hundredths, or None, for a source or another reach with rates k1 and k2.
AMMONIAS = {
    "none": lambda rng, source, k1, k2: None,
    "some": lambda rng, source, k1, k2: rng.choice((None, (pick(rng, MOST_RATE), rng.randint(0, 100)))),
    "all": lambda rng, source, k1, k2: (pick(rng, MOST_RATE), rng.randint(0, 100)),
    "ordinary": lambda rng, source, k1, k2: (rng.randint(50, 600), rng.randint(20, 80)),
    "of sources": lambda rng, source, k1, k2: (pick(rng, MOST_RATE), rng.randint(20, 100)) if source else None,     # the other reaches carry it
    "ends": lambda rng, source, k1, k2: (rng.choice((0, 1, k1, k2, MOST_RATE)), rng.choice((0, 1, 99, 100))),
    "as BOD": lambda rng, source, k1, k2: (k1, 50),
    "as aeration": lambda rng, source, k1, k2: (k2, 50),
    "near": lambda rng, source, k1, k2: (min(MOST_RATE, max(0, rng.choice((k1, k2)) + rng.choice((-1, 1)))), 50),
    "top": lambda rng, source, k1, k2: (MOST_RATE, 50),
    "alone": lambda rng, source, k1, k2: (pick(rng, MOST_RATE), 100),
    "kept": lambda rng, source, k1, k2: (0, rng.choice((50, 100))),
    "zeros": lambda rng, source, k1, k2: (0, 0),
}

TEMPERATURES = {
    "any": lambda rng: rng.randint(0, 35),
    "ends": lambda rng: rng.choice((0, 35)),
    "warm": lambda rng: rng.randint(25, 35),
    "cold": lambda rng: rng.randint(0, 8),
    "about 20": lambda rng: rng.randint(STANDARD_TEMPERATURE - 1, STANDARD_TEMPERATURE + 1),
}

# The rate factors of a river, or None.
RATE_FACTORS = {
    "none": lambda rng: None,
    "any": lambda rng: Factors(rng.randint(LEAST_FACTOR, MOST_FACTOR), rng.randint(LEAST_FACTOR, MOST_FACTOR)),
    "usual": lambda rng: Factors(rng.choice((1_040, 1_047, 1_056)), rng.choice((1_014, 1_016, 1_024))),
    "equal": lambda rng: Factors(*(rng.randint(LEAST_FACTOR, MOST_FACTOR),) * 2),
    "ends": lambda rng: Factors(*(rng.choice((LEAST_FACTOR, LEAST_FACTOR + 1, MOST_FACTOR - 1, MOST_FACTOR)) for _ in range(2))),
    "one at its end": lambda rng: Factors(*rng.choice(((LEAST_FACTOR, MOST_FACTOR), (MOST_FACTOR, LEAST_FACTOR)))),
    "without effect": lambda rng: AS_GIVEN,
    "largest": lambda rng: Factors(MOST_FACTOR, MOST_FACTOR),
}

TABLES = {"shape": SHAPES, "flow": FLOWS, "rates": RATES, "volume": VOLUMES, "water": WATERS, "dams": DAMS, "takes": TAKES, "pressures": PRESSURES,
          "sludges": SLUDGES, "ammonias": AMMONIAS, "temperature": TEMPERATURES, "factors": RATE_FACTORS}
OF_RIVER = ("shape", "factors")     # drawn once for a river in every style

# What a style fixes; the rest is drawn once for a river. "each" draws anew for each reach.
STYLES = {
    "drawn": {},
    "mixed": {name: "each" for name in TABLES if name not in OF_RIVER},
    "ordinary": {"flow": "ordinary", "rates": "ordinary", "volume": "any", "water": "ordinary", "dams": "some"},
    "chain": {"shape": "chain", "volume": "half", "rates": "any"},
    "brooks": {"shape": "brooks"},
    "star": {"shape": "star"},
    "tree": {"shape": "tree"},
    "arms": {"shape": "arms"},
    "dams": {"dams": "all", "shape": "near"},
    "dam ends": {"dams": "ends"},
    "warm dams": {"dams": "all", "temperature": "warm", "water": "rich"},
    "takes": {"takes": "all", "shape": "near"},
    "take ends": {"takes": "ends"},
    "takes at dams": {"takes": "all", "dams": "all", "shape": "chain"},
    "takes of sources": {"takes": "all", "flow": "sources", "volume": "long"},
    "takes and dams at ends": {"takes": "ends", "dams": "ends", "flow": "tiny"},
    "foul takes": {"takes": "some", "water": "foul", "volume": "long"},
    "pressures": {"pressures": "all", "volume": "half"},
    "pressure ends": {"pressures": "ends", "rates": "no decay", "volume": "long"},
    "pressures at dams": {"pressures": "all", "dams": "all", "takes": "none", "shape": "chain"},
    "pressures at full dams": {"pressures": "all", "dams": "full", "flow": "sources", "shape": "brooks"},
    "pressure ends at full dams": {"pressures": "ends", "dams": "full", "flow": "sources", "shape": "chain"},
    "pressures at rich dams": {"pressures": "ends", "dams": "ends", "shape": "near", "water": "rich"},
    "pressures and takes at dams": {"pressures": "all", "takes": "all", "dams": "all", "shape": "near"},
    "some pressures": {"pressures": "some", "dams": "some", "takes": "some", "shape": "near"},
    "beds": {"sludges": "all", "volume": "half"},
    "beds of most demand": {"sludges": "most", "volume": "long"},
    "beds of most demand in chains": {"sludges": "most", "volume": "any", "shape": "chain", "rates": "each"},
    "beds alone": {"sludges": "most", "rates": "zero", "volume": "any"},
    "beds without aeration": {"sludges": "all", "rates": "no aeration", "volume": "long"},
    "beds with little aeration": {"sludges": "most", "rates": "little aeration", "volume": "any"},
    "beds with little aeration, tiny": {"sludges": "most", "rates": "little aeration", "volume": "small", "shape": "chain"},
    "beds with much aeration": {"sludges": "most", "rates": "much aeration", "volume": "long"},
    "beds without decay": {"sludges": "all", "rates": "no decay", "volume": "half"},
    "beds at equal rates": {"sludges": "all", "rates": "equal", "volume": "half"},
    "beds of 0": {"sludges": "zero"},
    "beds of 0 at rates of 0": {"sludges": "zero", "rates": "zero", "volume": "any"},
    "beds in no volume": {"sludges": "all", "volume": "zero"},
    "small beds": {"sludges": "small", "volume": "long"},
    "small beds alone": {"sludges": "small", "rates": "zero", "volume": "long"},
    "some beds": {"sludges": "some", "dams": "some", "takes": "some", "pressures": "some", "shape": "near"},
    "beds below takes": {"sludges": "most", "takes": "all", "volume": "half"},
    "beds at dams": {"sludges": "all", "dams": "all", "pressures": "all", "shape": "near"},
    "foul beds": {"sludges": "most", "water": "foul", "rates": "each", "volume": "long", "shape": "chain"},
    "ammonia": {"ammonias": "all", "volume": "half"},
    "ordinary ammonia": {"ammonias": "ordinary", "flow": "ordinary", "rates": "ordinary", "volume": "any", "water": "ordinary", "dams": "some"},
    "some ammonia": {"ammonias": "some", "sludges": "some", "dams": "some", "takes": "some", "pressures": "some", "shape": "near"},
    "ammonia carried": {"ammonias": "of sources", "shape": "near", "volume": "half"},
    "ammonia carried down a chain": {"ammonias": "of sources", "shape": "chain", "rates": "each"},
    "ammonia at rate ends": {"ammonias": "ends", "volume": "long", "shape": "chain"},
    "ammonia at the rate of BOD": {"ammonias": "as BOD", "volume": "long"},
    "ammonia at the rate of aeration": {"ammonias": "as aeration", "volume": "long"},
    "ammonia at equal rates": {"ammonias": "as BOD", "rates": "equal", "volume": "half"},
    "ammonia at near rates": {"ammonias": "near", "rates": "near", "volume": "long", "water": "foul"},
    "ammonia of the top rate": {"ammonias": "top", "volume": "long", "rates": "each"},
    "ammonia without aeration": {"ammonias": "all", "rates": "no aeration", "volume": "long"},
    "ammonia that alone decays": {"ammonias": "alone", "rates": "zero", "volume": "long"},
    "ammonia and aeration": {"ammonias": "alone", "rates": "no decay", "volume": "half"},
    "ammonia that does not decay": {"ammonias": "kept", "volume": "half"},
    "ammonia of zeros": {"ammonias": "zeros"},
    "ammonia of zeros at rates of 0": {"ammonias": "zeros", "rates": "zero", "volume": "any", "sludges": "none"},
    "ammonia of zeros over beds": {"ammonias": "zeros", "sludges": "all", "volume": "half"},
    "ammonia in no volume": {"ammonias": "all", "volume": "zero"},
    "ammonia below takes": {"ammonias": "all", "takes": "all", "volume": "half"},
    "ammonia at dams": {"ammonias": "all", "dams": "all", "pressures": "all", "sludges": "none", "shape": "near"},
    "ammonia over beds": {"ammonias": "all", "sludges": "all", "volume": "half"},
    "ammonia over beds of most demand": {"ammonias": "ends", "sludges": "most", "rates": "little aeration", "volume": "any", "shape": "chain"},
    "foul ammonia": {"ammonias": "alone", "water": "foul", "rates": "each", "volume": "long", "shape": "chain"},
    "foul ammonia and BOD": {"ammonias": "all", "water": "foul", "rates": "each", "volume": "long"},
    "tiny ammonia": {"ammonias": "all", "flow": "tiny", "volume": "small"},
    "huge ammonia": {"ammonias": "ends", "flow": "huge", "volume": "long"},
    "factors": {"factors": "any", "volume": "half"},
    "usual factors": {"factors": "usual", "flow": "ordinary", "rates": "ordinary", "volume": "any", "water": "ordinary", "dams": "some"},
    "usual factors and ammonia": {"factors": "usual", "ammonias": "ordinary", "rates": "ordinary", "volume": "half", "temperature": "each"},
    "factor ends": {"factors": "ends", "temperature": "ends", "volume": "long"},
    "one factor at its end": {"factors": "one at its end", "ammonias": "as BOD", "temperature": "any", "volume": "long"},
    "factors without effect": {"factors": "without effect", "temperature": "any"},
    "factors about 20 degrees": {"factors": "any", "temperature": "about 20", "volume": "long"},
    "factors in warm water": {"factors": "any", "temperature": "warm", "rates": "top", "volume": "long"},
    "factors in cold water": {"factors": "any", "temperature": "cold", "rates": "top", "volume": "long"},
    "factors at equal rates": {"factors": "equal", "rates": "equal", "volume": "long"},
    "factors at rates that meet": {"factors": "largest", "rates": "near", "temperature": "cold", "volume": "long", "water": "foul"},
    "factors at rates that vanish": {"factors": "largest", "rates": "few", "temperature": "cold", "volume": "any", "sludges": "none", "ammonias": "none"},
    "factors at rates that vanish over beds": {"factors": "largest", "rates": "few", "temperature": "cold", "volume": "any", "sludges": "all"},
    "factors at rates of 0": {"factors": "any", "rates": "zero", "volume": "any"},
    "factors without aeration": {"factors": "any", "rates": "no aeration", "volume": "long"},
    "factors and beds": {"factors": "any", "sludges": "all", "volume": "half"},
    "factors and beds with little aeration": {"factors": "ends", "sludges": "most", "rates": "little aeration", "temperature": "each", "volume": "any"},
    "factors and ammonia": {"factors": "any", "ammonias": "all", "volume": "half"},
    "factors and ammonia at rate ends": {"factors": "ends", "ammonias": "ends", "volume": "long", "shape": "chain"},
    "factors and ammonia at the rate of BOD": {"factors": "any", "ammonias": "as BOD", "volume": "long"},
    "factors and ammonia at the rate of aeration": {"factors": "any", "ammonias": "as aeration", "volume": "long"},
    "factors, takes and dams": {"factors": "any", "takes": "all", "dams": "all", "pressures": "some", "temperature": "each", "shape": "near"},
    "factors in foul chains": {"factors": "any", "water": "foul", "rates": "each", "volume": "long", "shape": "chain"},
    "factors in no volume": {"factors": "ends", "volume": "zero"},
    "no added records": {"dams": "none", "takes": "none", "pressures": "none", "sludges": "none", "ammonias": "none", "factors": "none"},
    "tiny": {"flow": "tiny", "volume": "small"},
    "tiny long": {"flow": "tiny", "volume": "long"},
    "huge": {"flow": "huge", "volume": "long"},
    "huge foul": {"flow": "huge", "water": "foul", "rates": "near"},
    "equal rates": {"rates": "equal", "volume": "long"},
    "near rates": {"rates": "near", "volume": "long"},
    "near rates foul": {"rates": "near", "volume": "long", "water": "foul"},
    "zero rates": {"rates": "zero"},
    "no decay": {"rates": "no decay"},
    "no aeration": {"rates": "no aeration", "volume": "any"},
    "zero volume": {"volume": "zero"},
    "below zero": {"water": "overload", "rates": "no aeration", "volume": "half", "shape": "chain"},
    "below zero and back": {"water": "overload", "rates": "each", "volume": "half"},
    "foul": {"water": "foul", "volume": "long", "rates": "each"},
    "rich": {"water": "rich", "temperature": "warm"},
    "clean": {"water": "clean", "rates": "ordinary"},
    "long reaches": {"volume": "long", "rates": "top"},
    "some volumes": {"volume": "some", "shape": "near"},
    "some volumes in chains": {"volume": "some", "shape": "chain", "rates": "each", "sludges": "some", "ammonias": "some"},
    "some volumes at rates of 0": {"volume": "some", "rates": "zero", "sludges": "some"},
    "foul sources": {"shape": "star", "water": "foul", "rates": "no aeration", "volume": "long", "sludges": "none", "ammonias": "none"},
    "foul sources at equal rates": {"shape": "star", "water": "foul", "rates": "equal", "volume": "long", "sludges": "none", "ammonias": "none"},
}


def size(rng):
    """A number of reaches: mostly few, at times up to 40, seldom up to 128."""
    return rng.choice((1, 2, 3, rng.randint(2, 6), rng.randint(2, 12), rng.randint(2, 12), rng.randint(2, 40))) if rng.randrange(40) else rng.randint(41, 128)


def drawn_way(rng, name):
    """A way of a table. Half of all rivers are to have no sludge bed, and half no ammonia, since either widens the allowance of the whole river; and
    half no rate factors, which move every rate."""
    return "none" if name in ("sludges", "ammonias", "factors") and rng.randrange(2) else rng.choice(list(TABLES[name]))


def accepted_river(rng, style, n):
    """A river of n reaches that is accepted."""
    fixed = {name: STYLES[style].get(name) or drawn_way(rng, name) for name in TABLES}
    outlets = [SHAPES[fixed["shape"]](rng, i, n) for i in range(1, n)] + [0]
    reaches, factors = [], RATE_FACTORS[fixed["factors"]](rng)
    for i in range(1, n + 1):
        feeders = [reach for reach in reaches if reach.card.outlet == i]
        sources_left = sum(k not in outlets[:k - 1] for k in range(i + 1, n + 1))
        room = MOST_FLOW - sum(reach.card.inflow for reach in reaches) - sources_left
        reaches.append(Reach(i, lawful_card(rng, fixed, outlets[i - 1], feeders, room, factors), feeders, factors=factors))
    return River([reach.card for reach in reaches], factors)


Rates = namedtuple("Rates", "k1 kn k2")


def most_on_card(limit, factor, temperature):
    """The largest rate on a card that is at most `limit` in force."""
    low, high = 0, MOST_RATE
    while low < high:
        middle = (low + high + 1) // 2
        low, high = (middle, high) if in_force(middle, factor, temperature) <= limit else (low, middle - 1)
    return low


def most_rates(reach, limit=MOST_RATE):
    """The largest rates for the card of a reach that are at most `limit` in force."""
    decay, aeration = (most_on_card(limit, factor, reach.card.temperature) for factor in reach.factors)
    return Rates(decay, decay, aeration)


def lawful_card(rng, fixed, outlet, feeders, room, factors):
    """A card that passes all checks over these feeders, in a river with these rate factors."""
    def way(name):
        return TABLES[name][rng.choice(list(TABLES[name])) if fixed[name] == "each" else fixed[name]]

    inflow = max(min(way("flow")(rng, not feeders), room), 0 if feeders else 1)
    temperature, rates = way("temperature")(rng), way("rates")(rng)
    limits = [most_on_card(MOST_RATE, factor, temperature) for factor in factors or AS_GIVEN]
    k1, k2 = map(min, rates, limits)
    bod, oxygen, hundredths = way("water")(rng)
    ammonia = way("ammonias")(rng, not feeders, k1, k2)
    if ammonia:
        ammonia = min(ammonia[0], limits[0]), ammonia[1]
    card = with_demands(Card(outlet, temperature, k1, k2, 0, inflow, 0, oxygen, 0), ammonia, bod, 0)
    so_far = Reach(0, card._replace(take=way("takes")(rng, Reach(0, card, feeders).Qm)), feeders, factors=factors)
    load = (1_000_000 * so_far.Qm - so_far.Mm) // 1_000 * hundredths // 100
    volume, sludge = volume_and_bed(rng, way("volume"), way("sludges"), so_far)
    dam = way("dams")(rng, so_far.Qu) if feeders else None
    return with_demands(so_far.card._replace(volume=volume, dam=dam, pressure=way("pressures")(rng), sludge=sludge), ammonia, bod, min(load, MOST_LOAD))


def with_demands(card, ammonia, bod, load):
    """A card with so much inflow BOD and load, of both demands together, for a way of ammonia or None."""
    if ammonia is None:
        return card._replace(inflow_bod=bod, load=load)
    kn, hundredths = ammonia
    part, part_of_load = bod * hundredths // 100, load * hundredths // 100
    return card._replace(inflow_bod=bod - part, load=load - part_of_load, ammonia=Ammonia(kn, part, part_of_load))


def volume_and_bed(rng, volume_way, bed_way, reach):
    """A volume, and a sludge bed or None, that pass checks 11 and 14: either is drawn first, and the other from what it leaves."""
    longest = min(MOST_VOLUME, 345_600 * reach.Q // max(1, *reach.rates()))
    if rng.randrange(2):
        bed = bed_way(rng, MOST_SLUDGE)
        return volume_way(rng, min(longest, 432_000 * reach.Q // max(1, bed.sludge if bed else 0))), bed
    volume = volume_way(rng, longest)
    return volume, bed_way(rng, min(MOST_SLUDGE, 432_000 * reach.Q // max(1, volume)))


# ---- Rivers on a limit and just past it

def replaced(river, i, **fields):
    """The river with some fields of reach i changed, or of its rate factors where i is 0."""
    if i == 0:
        return river._replace(factors=river.factors._replace(**fields))
    cards = list(river.cards)
    cards[i - 1] = cards[i - 1]._replace(**fields)
    return river._replace(cards=cards)


def flow_limit(past, **fields):
    """Check 8 at the reach i; past it only where there are feeders, since the inflow has the same limit."""
    return lambda rng, river, i, reach: reach.Qu >= past and replaced(river, i, inflow=MOST_FLOW - reach.Qu + past, inflow_bod=0, load=0, **fields)


def dam_limit(past):
    """Check 9, for a reach with feeders."""
    return lambda rng, river, i, reach: reach.feeders and replaced(river, i, dam=Dam(rng.randint(0, 1_000), reach.Qu + past))


def with_rate(rng, reach, kn):
    """Ammonia of a reach with another rate, or now and then none where that is 0."""
    return None if kn == 0 and rng.randrange(2) else Ammonia(kn, reach.nitrogenous.inflow, reach.nitrogenous.load)


def with_rates(rng, river, i, reach, rates, **fields):
    """The river with other rates on the card of reach i, and some fields changed."""
    return replaced(river, i, k1=rates.k1, k2=rates.k2, ammonia=with_rate(rng, reach, rates.kn), **fields)


def one_rate(which, rate):
    """The rates of a card with this one and no other."""
    return Rates(0, 0, 0)._replace(**{which: rate})


def rate_in_force(which, reach, rate):
    """Of a rate on the card of a reach."""
    return in_force(rate, reach.factors.aeration_factor if which == "k2" else reach.factors.decay_factor, reach.card.temperature)


def room_for_load(reach):
    """How much more load check 10 leaves room for."""
    return (1_000_000 * reach.Qm - reach.Mm) // 1_000


def bod_limit(past):
    """Check 10, by the load."""
    def change(rng, river, i, reach):
        load = reach.card.load + room_for_load(reach) + past
        return load <= MOST_LOAD and replaced(river, i, load=load)
    return change


def nitrogenous_limit(past):
    """Check 10, by the nitrogenous load: both demands count."""
    def change(rng, river, i, reach):
        load = reach.nitrogenous.load + room_for_load(reach) + past
        kn = reach.card.ammonia.kn if reach.card.ammonia else 0
        return load <= MOST_LOAD and replaced(river, i, ammonia=Ammonia(kn, reach.nitrogenous.inflow, load))
    return change


def length_limit(which, past):
    """Check 11 for one of the rates, without a sludge bed, for which the reach may be too long as well. It goes by the rates in force, of
    which this is the largest."""
    def change(rng, river, i, reach):
        k = rate_in_force(which, reach, rng.randint(1, MOST_RATE))
        if not 1 <= k <= MOST_RATE:
            return False
        rates = Rates(*(most if name == which else rng.choice((0, rng.randint(0, most))) for name, most in most_rates(reach, k)._asdict().items()))
        volume = 345_600 * reach.Q // k + past
        return volume <= MOST_VOLUME and with_rates(rng, river, i, reach, rates, volume=volume, sludge=None)
    return change


def rate_limit(which, past, **fields):
    """Check 15 for one of the rates, where its factor raises it."""
    def change(rng, river, i, reach):
        warm = Reach(i, reach.card._replace(temperature=rng.randint(STANDARD_TEMPERATURE + 1, 35)), reach.feeders, factors=river.factors)
        rate = getattr(most_rates(warm), which)
        return rate < MOST_RATE and with_rates(rng, river, i, warm, one_rate(which, rate + past), temperature=warm.card.temperature, **{"volume": 0, **fields})
    return change


def rate_and_bed(rng, river, i, reach):
    """Checks 15 and 14 are broken, and 11 is not."""
    return rate_limit(rng.choice(("k1", "kn", "k2")), 1, sludge=Sludge(MOST_SLUDGE), volume=min(MOST_VOLUME, 7 * reach.Q))(rng, river, i, reach)


def take_limit(past, **fields):
    """Check 13. The volume is 0, so that check 11 passes whatever is left."""
    def change(rng, river, i, reach):
        take = reach.Qm - 1 + past
        return take <= MOST_FLOW and replaced(river, i, take=Take(take), volume=0, **fields)
    return change


def length_after_take(which, past):
    """Check 11 for one of the rates, where the flow before the take would pass."""
    def change(rng, river, i, reach):
        rate, left = rng.randint(1, MOST_RATE), rng.randint(1, max(1, reach.Qm - 1))
        k = rate_in_force(which, reach, rate)
        volume = 345_600 * left // max(1, k) + past
        return left < reach.Qm and 1 <= k <= MOST_RATE and volume <= MOST_VOLUME and with_rates(
            rng, river, i, reach, one_rate(which, rate), volume=volume, take=Take(reach.Qm - left), sludge=None)
    return change


def rates_below(rng, reach, demand):
    """Rates with which a reach that is not too long for a bed of this demand passes check 11."""
    k1, kn, k2 = (rng.randint(0, most) for most in most_rates(reach, min(MOST_RATE, demand // 2)))
    return {"k1": k1, "k2": k2, "ammonia": with_rate(rng, reach, rng.choice((0, kn)))}


def bed_by_volume(past):
    """Check 14, by the volume to a demand."""
    def change(rng, river, i, reach):
        demand = max(1, pick(rng, MOST_SLUDGE))
        volume = 432_000 * reach.Q // demand + past
        return volume <= MOST_VOLUME and replaced(river, i, sludge=Sludge(demand), volume=volume, **rates_below(rng, reach, demand))
    return change


def bed_by_demand(past):
    """Check 14, by the demand to a volume."""
    def change(rng, river, i, reach):
        volume = rng.randint(7 * reach.Q, 6_000 * reach.Q)
        demand = 432_000 * reach.Q // volume + past
        return volume <= MOST_VOLUME and replaced(river, i, sludge=Sludge(demand), volume=volume, **rates_below(rng, reach, demand))
    return change


def bed_after_take(past):
    """Check 14, where the flow before the take would pass."""
    def change(rng, river, i, reach):
        demand, left = rng.randint(1, MOST_SLUDGE), rng.randint(1, max(1, reach.Qm - 1))
        volume = 432_000 * left // demand + past
        return left < reach.Qm and volume <= MOST_VOLUME and replaced(river, i, sludge=Sludge(demand), volume=volume, take=Take(reach.Qm - left),
                                                                     **rates_below(rng, reach, demand))
    return change


def too_long_for_all(**fields):
    """Check 14 is broken, and check 11 too; with other fields perhaps an earlier check."""
    def change(rng, river, i, reach):
        most = most_rates(reach)
        return reach.Qm < 4_000_000 and replaced(river, i, sludge=Sludge(MOST_SLUDGE), k1=rng.randint(0, most.k1), k2=most.k2, volume=MOST_VOLUME, **fields)
    return change


def first_with_take(rng):
    """A first reach with a take, whose Mm / Qm is mostly no whole number."""
    inflow = rng.randint(2, 10_000)
    return Card(2, 20, 0, 0, 0, inflow, rng.randint(0, MOST_BOD // 2), rng.randint(0, MOST_OXYGEN), rng.randint(0, 500 * inflow),
                take=Take(rng.randint(1, inflow - 1)))


def first_with_cut(rng):
    """One by whose take M is cut: Mm is `few` below 1,000,000 × Qm, so Mm / Qm is rounded to 999,999, and a take of more than `few` would leave
    M above 1,000,000 × Q."""
    few, load = rng.randint(1, 999), rng.randint(1, 9)
    inflow = 1_000 * load + few
    return Card(2, 20, 0, 0, 0, inflow, MOST_BOD - 1, rng.randint(0, MOST_OXYGEN), load, take=Take(rng.randint(few + 1, inflow - 1)))


def first_with_ammonia(rng):
    """One that brings both demands, of which the take takes its part alike."""
    first = first_with_take(rng)
    return first._replace(inflow_bod=first.inflow_bod // 2, ammonia=Ammonia(rng.randint(0, MOST_RATE), rng.randint(0, MOST_BOD // 4), rng.randint(0, 200 * first.inflow)))


def bod_below_take(first_reach, past):
    """Check 10 below a take, to the last digit of M: the second reach brings all the demand that there is room for, the last digits as either."""
    def river(rng):
        first = first_reach(rng)
        above = Reach(1, first, [])
        load, digits = divmod(1_000_000 * (above.Q + 1) - above.M + past, 1_000)
        second = Card(0, 20, 0, 0, 0, 1, digits, rng.randint(0, MOST_OXYGEN), load)
        if rng.randrange(2):
            second = second._replace(inflow_bod=0, ammonia=Ammonia(rng.randint(0, MOST_RATE), digits, 0))
        return River([first, second])
    return river


# Rates with a factor and a temperature at which the rate in force would be one more if it were rounded only at the end, or to the nearest.
ROUNDED_EACH_DEGREE = ((2_823, 1_014, 2), (16_988, 1_009, 0), (3_088, 1_013, 0), (9_697, 1_005, 6), (8_691, 1_040, 35), (3_827, 1_080, 33), (1_213, 1_018, 31),
                       (16_807, 1_017, 25))


def lone_reach(rng, rate, factor, temperature, volume, inflow):
    """A river of one reach, with this as one of its rates and its factor, and no other rate."""
    which = rng.choice(Rates._fields)
    rates = one_rate(which, rate)
    card = Card(0, temperature, rates.k1, rates.k2, volume, inflow, rng.randint(0, MOST_BOD), rng.randint(0, MOST_OXYGEN), 0,
                ammonia=Ammonia(rates.kn, 0, 0) if rates.kn else None)
    return River([card], Factors(LEAST_FACTOR, factor) if which == "k2" else Factors(factor, LEAST_FACTOR))


def rounded_each_degree(past):
    """Check 11, by a rate in force that depends on the rounding: k litres a second and 345,600 cubic metres, or so many times both."""
    def river(rng):
        rate, factor, temperature = rng.choice(ROUNDED_EACH_DEGREE)
        times = rng.randint(1, 1_000)
        return lone_reach(rng, rate, factor, temperature, 345_600 * times + past, in_force(rate, factor, temperature) * times)
    return river


def past_two_bytes(rng):
    """Check 15, by a rate in force of 65,536 and more, of which two bytes would leave a rate in range."""
    return lone_reach(rng, MOST_RATE, rng.randint(MOST_FACTOR - 15, MOST_FACTOR), 35, 0, rng.randint(1, MOST_FLOW))


BELOW_A_TAKE = {"below a take": first_with_take, "below a cut": first_with_cut, "below a take of both": first_with_ammonia}


# Each change is given a river, a reach of it and its flows, and gives a changed river, or a false value where it does not fit.
ON_A_LIMIT = {
    "on check 8": flow_limit(0),
    "on check 9": dam_limit(0),
    "on check 10": bod_limit(0),
    "on check 10 nitrogenous": nitrogenous_limit(0),
    "on check 11 k1": length_limit("k1", 0),
    "on check 11 k2": length_limit("k2", 0),
    "on check 11 kn": length_limit("kn", 0),
    "on check 11 after a take": length_after_take("k1", 0),
    "on check 11 kn after a take": length_after_take("kn", 0),
    "on check 13": take_limit(0),
    "on check 14 volume": bed_by_volume(0),
    "on check 14 demand": bed_by_demand(0),
    "on check 14 after a take": bed_after_take(0),
    "on check 15 k1": rate_limit("k1", 0),
    "on check 15 k2": rate_limit("k2", 0),
    "on check 15 kn": rate_limit("kn", 0),
}
PAST_A_LIMIT = {
    "check 7": lambda rng, river, i, reach: not reach.feeders and replaced(river, i, inflow=0),
    "check 8": flow_limit(1),
    "check 9 no feeders": lambda rng, river, i, reach: not reach.feeders and replaced(river, i, dam=Dam(rng.randint(0, 1_000), 0)),
    "check 9 generating": dam_limit(1),
    "check 10": bod_limit(1),
    "check 10 nitrogenous": nitrogenous_limit(1),
    "check 11 k1": length_limit("k1", 1),
    "check 11 k2": length_limit("k2", 1),
    "check 11 kn": length_limit("kn", 1),
    "check 11 after a take": length_after_take("k1", 1),
    "check 11 kn after a take": length_after_take("kn", 1),
    "check 13": take_limit(1),
    "check 13 one more": take_limit(2),
    "check 14 volume": bed_by_volume(1),
    "check 14 demand": bed_by_demand(1),
    "check 14 after a take": bed_after_take(1),
    "check 15 k1": rate_limit("k1", 1),
    "check 15 k2": rate_limit("k2", 1),
    "check 15 kn": rate_limit("kn", 1),
    # The flow before the take counts.
    "check 8 before a take": flow_limit(1, take=Take(MOST_FLOW)),
    # Two checks are broken, and the first of them is due.
    "check 7 and 9": lambda rng, river, i, reach: not reach.feeders and replaced(river, i, inflow=0, dam=Dam(1, 1)),
    "check 7 and 10": lambda rng, river, i, reach: not reach.feeders and replaced(river, i, inflow=0, load=1),
    "check 8 and 9": flow_limit(1, dam=Dam(1, MOST_FLOW)),
    "check 8 and 10": lambda rng, river, i, reach: reach.feeders and replaced(river, i, inflow=MOST_FLOW, inflow_bod=MOST_BOD, load=MOST_LOAD),
    "check 9 and 10": lambda rng, river, i, reach: reach.Qm < 4_000_000 and replaced(river, i, dam=Dam(1, MOST_FLOW), load=MOST_LOAD),
    "check 7 and 13": lambda rng, river, i, reach: not reach.feeders and replaced(river, i, inflow=0, load=0, take=Take(rng.randint(0, 1))),
    "check 9 and 13": take_limit(1, dam=Dam(1, MOST_FLOW)),
    "check 10 and 13": lambda rng, river, i, reach: reach.Qm < 4_000_000 and replaced(river, i, load=MOST_LOAD, take=Take(reach.Qm)),
    "check 13 and 11": lambda rng, river, i, reach: replaced(river, i, take=Take(reach.Qm), k1=MOST_RATE, volume=MOST_VOLUME),
    "check 10 and 11": lambda rng, river, i, reach: reach.Qm < 4_000_000 and replaced(river, i, load=MOST_LOAD, k1=MOST_RATE, volume=MOST_VOLUME),
    "check 11 and 14": too_long_for_all(),
    "check 13 and 14": lambda rng, river, i, reach: replaced(river, i, take=Take(reach.Qm), k1=0, k2=0, sludge=Sludge(MOST_SLUDGE), volume=MOST_VOLUME),
    "check 10 and 14": too_long_for_all(load=MOST_LOAD),
    "check 9 and 10 nitrogenous": lambda rng, river, i, reach: reach.Qm < 4_000_000 and replaced(river, i, dam=Dam(1, MOST_FLOW), ammonia=MOST_AMMONIA),
    "check 10 nitrogenous and 13": lambda rng, river, i, reach: reach.Qm < 4_000_000 and replaced(river, i, ammonia=MOST_AMMONIA, take=Take(reach.Qm)),
    "check 10 nitrogenous and 11 kn": lambda rng, river, i, reach: reach.Qm < 4_000_000 and replaced(river, i, ammonia=MOST_AMMONIA, volume=MOST_VOLUME),
    "check 13 and 11 kn": lambda rng, river, i, reach: replaced(river, i, take=Take(reach.Qm), ammonia=with_rate(rng, reach, MOST_RATE), volume=MOST_VOLUME),
    "check 11 kn and 14": lambda rng, river, i, reach: reach.Qm < 4_000_000 and with_rates(
        rng, river, i, reach, one_rate("kn", most_rates(reach).kn), sludge=Sludge(MOST_SLUDGE), volume=MOST_VOLUME),
    "check 10 and 15": lambda rng, river, i, reach: reach.Qm < 4_000_000 and rate_limit("k1", 1, load=MOST_LOAD)(rng, river, i, reach),
    "check 13 and 15": lambda rng, river, i, reach: rate_limit("k2", 1, take=Take(reach.Qm))(rng, river, i, reach),
    "check 15 and 11": lambda rng, river, i, reach: reach.Qm < 4_000_000 and rate_limit("k1", 1, volume=MOST_VOLUME)(rng, river, i, reach),
    "check 15 kn and 11": lambda rng, river, i, reach: reach.Qm < 4_000_000 and rate_limit("kn", 1, volume=MOST_VOLUME)(rng, river, i, reach),
    "check 15 and 14": rate_and_bed,
}


def changed_river(rng, change, i_of):
    """The first drawn river that a change fits, changed at the reach that i_of picks."""
    while True:
        river = accepted_river(rng, rng.choice(list(STYLES)), rng.randint(1, 10))
        i = i_of(rng, len(river.cards))
        result = change(rng, river, i, reference.flows(river)[i - 1])
        if result:
            return result


def last(rng, n):
    """The last reach, where a change moves no other reach."""
    return n


def any_reach(rng, n):
    return rng.randint(1, n)


# A record of each kind whose numbers change no result.
WITHOUT_EFFECT = {DAM: Dam(0, 0), TAKE: Take(0), PRESSURE: Pressure(STANDARD_PRESSURE), SLUDGE: Sludge(0), AMMONIA: Ammonia(0, 0, 0)}


def with_all_but_dam(card):
    """A card with every record but a dam: those that it has, and others without effect."""
    return card._replace(**{kind.name: getattr(card, kind.name) or values for kind, values in WITHOUT_EFFECT.items() if kind is not DAM})


def most_reaches(rng):
    """The longest file that is accepted: rate factors and 128 reaches, each with every record, the first without a dam."""
    river = accepted_river(rng, "chain", 128)
    cards = [with_all_but_dam(card) for card in river.cards]
    return River(cards[:1] + [card._replace(dam=Dam(rng.randint(0, 1_000), 0)) for card in cards[1:]], river.factors or AS_GIVEN)


def chain_of(n, first):
    """A chain of n such reaches, of which only the first has inflow."""
    return River([first] + [first._replace(outlet=reach + 1 if reach < n else 0, inflow=0, inflow_bod=0) for reach in range(2, n + 1)])


def lowest_oxygen(rng):
    """Oxygen as low as it can be but for some units: all BOD that may enter is used up, and the bed of each of 128 reaches uses 5 mg/L."""
    inflow = rng.randint(1, 20_000)
    return chain_of(128, Card(2, 35, 8, 0, 43_200 * inflow, inflow, MOST_BOD, 0, 0, sludge=Sludge(10)))


def lowest_by_ammonia(rng):
    """The same, where a part of the BOD is nitrogenous."""
    first, *others = lowest_oxygen(rng).cards
    part = rng.randint(0, MOST_BOD)
    return River([first._replace(inflow_bod=MOST_BOD - part, ammonia=Ammonia(8, part, 0))] + [card._replace(ammonia=Ammonia(8, 0, 0)) for card in others])


def largest_volumes(rng):
    """128 reaches of the largest volume, whose oxygen stays above zero, so that all of them count: the sum of volume × mean needs more than eight bytes
    where oxygen is counted from 2^31 units below zero."""
    return chain_of(128, Card(2, rng.randint(0, 35), rng.randint(0, 9_000), rng.randint(0, 9_000), MOST_VOLUME, MOST_FLOW, rng.randint(0, 5_000),
                              rng.randint(6_000, MOST_OXYGEN), 0))


def star_of(n, source):
    """A river of n - 1 such sources that meet in the last reach, which has no inflow of its own."""
    return River([source._replace(outlet=n)] * (n - 1) + [source._replace(outlet=0, inflow=0, inflow_bod=0)])


def lowest_means(rng):
    """As many sources as there may be, each of the largest volume, with all BOD that may enter: they count, and the sum of volume × mean needs more than
    eight bytes as it is."""
    return star_of(128, Card(0, 35, rng.randint(200, 272), 0, MOST_VOLUME, MOST_FLOW // 127, MOST_BOD, 0, 0, sludge=Sludge(rng.choice((0, 340)))))


def mean_below_zero(rng):
    """A river whose mean is below zero, with a remainder mostly: its sources have much BOD that decays, and no oxygen."""
    inflow = rng.randint(1_000, 30_000)
    source = Card(0, rng.randint(0, 35), rng.randint(500, 5_000), 0, 0, inflow, rng.randint(200_000, MOST_BOD), 0, 0)
    return River([card._replace(volume=rng.randint(1, 69 * inflow)) for card in star_of(rng.randint(3, 7), source).cards])


def one_volume(rng):
    """A river in which one reach alone has any volume, so that its mean is the river's."""
    river = accepted_river(rng, "zero volume", rng.randint(2, 12))
    reach = rng.choice(reference.flows(river))
    most = min(MOST_VOLUME, 345_600 * reach.Q // max(1, *reach.rates()), 432_000 * reach.Q // max(1, reach.sludge))
    return replaced(river, reach.number, volume=rng.randint(1, most))


# ---- Rivers whose oxygen is used up

def foul_reach(rng, outlet, feeders):
    """A reach that uses up its oxygen: over a third of at least 200 mg/L of BOD decays, with little aeration. Check 10 has room for three of them."""
    inflow, k1 = rng.randint(1_000, 20_000), rng.randint(500, 5_000)
    Q = inflow + sum(feeder.Q for feeder in feeders)
    return Card(outlet, rng.randint(0, 35), k1, rng.randint(0, k1 // 4), rng.randint(43_200 * Q // k1 + 1, 345_600 * Q // k1), inflow, 0, rng.randint(0, 2_000),
                rng.randint(200, 300) * Q)


def nitrifying_reach(rng, outlet, feeders):
    """The same by nitrification."""
    foul = foul_reach(rng, outlet, feeders)
    return foul._replace(k1=0, load=0, ammonia=Ammonia(foul.k1, 0, foul.load))


def clean_reach(rng, outlet, feeders):
    """A reach with at least 6 mg/L of oxygen, or saturation where that is less, and at most 2 mg/L of BOD in what joins."""
    inflow, k1, k2 = rng.randint(1_000, 20_000), rng.randint(0, 500), rng.randint(0, 2_000)
    Q = inflow + sum(feeder.Q for feeder in feeders)
    return Card(outlet, rng.randint(0, 35), k1, k2, rng.randint(0, 172 * Q), inflow, rng.randint(0, 2_000), rng.randint(6_000, 12_000), 0)


def restored_reach(rng, outlet, feeders):
    """A reach below a dam that fills the whole deficit, where nothing decays."""
    return Card(outlet, rng.randint(0, 35), 0, rng.randint(0, 2_000), rng.randint(0, 172 * sum(feeder.Q for feeder in feeders)), 0, 0, 0, 0, dam=Dam(1_000, 0))


def reach_of_any_kind(rng, outlet, feeders):
    """A reach with records of any kind."""
    return lawful_card(rng, STYLES["mixed"], outlet, feeders, 1_000_000, None)


def plain_reach(rng, outlet, feeders):
    """A reach without a sludge bed and without ammonia."""
    return lawful_card(rng, STYLES["mixed"] | {"sludges": "none", "ammonias": "none"}, outlet, feeders, 1_000_000, None)


def planned(*plan):
    """Makes a river of reaches that are made one after another: a maker and an outlet for each."""
    def river(rng):
        reaches = []
        for number, (make, outlet) in enumerate(plan, 1):
            feeders = [reach for reach in reaches if reach.card.outlet == number]
            reaches.append(Reach(number, make(rng, outlet, feeders), feeders))
        return River([reach.card for reach in reaches])
    return river


def near_zero_by_bed(rng):
    """A reach whose oxygen falls to some units about zero, exactly: 10,000 litres a second over a bed of 864 lose one unit for each cubic metre. A clean
    reach lies below."""
    times, oxygen = rng.randint(1, 200), rng.randint(1, 4_999)
    first = Card(2, rng.randint(0, 35), 0, 0, times * (1_000 * oxygen + rng.randint(-3, 3)), 10_000 * times, rng.randint(0, 9_000), oxygen, 0, sludge=Sludge(864))
    return River([first, clean_reach(rng, 0, [Reach(1, first, [])])])


def near_zero_by_decay(rng):
    """The same by decay, to some units: with 1,000,000 litres a second a load of one milligram a second brings one unit of BOD."""
    k1, inflow, oxygen = rng.randint(10, 2_000), 1_000_000, rng.randint(1, 9_000)
    first = Card(2, rng.randint(0, 35), k1, 0, min(MOST_VOLUME, rng.randint(8_640 * inflow // k1 + 1, 345_600 * inflow // k1)), inflow, 0, oxygen, 0)
    left, _, _ = reference.bod_factors(Reach(1, first, []), reference.INSTANTS, 40)
    return River([first._replace(load=int((1_000 * oxygen + rng.randint(-1, 5)) / (1 - left))), clean_reach(rng, 0, [Reach(1, first, [])])])


def no_oxygen(rng):
    """A chain whose oxygen is 0 all along, and not below: nothing comes in, and nothing uses any."""
    first = Card(2, rng.randint(0, 35), 0, 0, rng.randint(1, 1_000_000), rng.randint(1, 20_000), rng.randint(0, MOST_BOD), 0, 0)
    return chain_of(rng.randint(2, 5), first) if rng.randrange(4) else River([first._replace(outlet=0, k1=rng.randint(0, MOST_RATE), volume=0)])


# A foul or nitrifying reach has status 1, all below it 2, and the others 0. Near zero the program's own last digits tell whether it is 0 or 1.
USED_UP = {
    "used up down a chain": planned((foul_reach, 2), (plain_reach, 3), (plain_reach, 4), (plain_reach, 0)),
    "used up above reaches of any kind": planned((foul_reach, 2), (reach_of_any_kind, 3), (reach_of_any_kind, 4), (reach_of_any_kind, 5), (reach_of_any_kind, 0)),
    "used up beside clean brooks": planned((foul_reach, 2), (plain_reach, 4), (clean_reach, 4), (plain_reach, 6), (clean_reach, 6), (plain_reach, 0)),
    "used up in a brook": planned((clean_reach, 2), (clean_reach, 4), (foul_reach, 4), (clean_reach, 5), (reach_of_any_kind, 0)),
    "used up in two branches": planned((foul_reach, 4), (foul_reach, 4), (clean_reach, 5), (plain_reach, 5), (clean_reach, 0)),
    "used up below a clean reach": planned((clean_reach, 2), (foul_reach, 3), (clean_reach, 4), (foul_reach, 0)),
    "used up and restored": planned((foul_reach, 2), (restored_reach, 3), (clean_reach, 4), (clean_reach, 0)),
    "used up twice": planned((foul_reach, 2), (foul_reach, 3), (restored_reach, 4), (foul_reach, 0)),
    "used up by ammonia": planned((nitrifying_reach, 2), (clean_reach, 4), (clean_reach, 4), (nitrifying_reach, 5), (reach_of_any_kind, 0)),
    "used up at the last reach": planned((clean_reach, 3), (clean_reach, 3), (foul_reach, 0)),
    "near zero by a bed": near_zero_by_bed,
    "near zero by decay": near_zero_by_decay,
    "no oxygen": no_oxygen,
}


def longest_file(rng):
    """The longest file that is read: rate factors, and every record for every reach of 128. The flow check refuses the dam of the first."""
    river = most_reaches(rng)
    return reference.encode(replaced(river, 1, dam=Dam(0, 0)))


# ---- Files that reading refuses

KINDS = (HEADER, FACTORS, REACH) + AFTER_REACH
OPTIONAL = (FACTORS,) + AFTER_REACH


def base_river(rng):
    """An accepted river with rate factors and every kind of record on its last reach, and each on some other, so that each is met inside and at the
    end."""
    river = accepted_river(rng, "dams", rng.randint(3, 8))
    river = river._replace(factors=river.factors or AS_GIVEN)
    second, n = with_all_but_dam(river.cards[1]), len(river.cards)
    river = replaced(river, 2, **{kind.name: values for kind, values in reference.added_records(second)})
    return replaced(river, n, dam=Dam(rng.randint(0, 1_000), 0), take=Take(0), pressure=Pressure(LEAST_PRESSURE), sludge=Sludge(1), ammonia=Ammonia(1, 0, 0), volume=0)


def starts(river):
    """Where the records of a river's file begin: offsets by kind and by reach, 0 for the header and the rate factors."""
    result, at = {kind.name: {} for kind in KINDS}, HEADER.size
    result[HEADER.name][0] = 0
    if river.factors:
        result[FACTORS.name][0] = at
        at += FACTORS.size
    for reach, card in enumerate(river.cards, 1):
        for kind in [REACH] + [kind for kind, _ in reference.added_records(card)]:
            result[kind.name][reach] = at
            at += kind.size
    return result


def any_start(rng, river, kind):
    """Where some record of a kind begins."""
    return rng.choice(list(starts(river)[kind.name].values()))


def cut(kind, offset):
    """The file ends inside a record."""
    def damage(rng, river):
        return reference.encode(river)[:any_start(rng, river, kind) + offset]
    return damage


def mark(kind, letters):
    """A record has another mark."""
    def damage(rng, river):
        at = any_start(rng, river, kind)
        file = reference.encode(river)
        return file[:at] + letters + file[at + 2:]
    return damage


def count(choose):
    """The header has another count."""
    def damage(rng, river):
        return HEADER.encode([choose(len(river.cards))]) + reference.encode(river)[HEADER.size:]
    return damage


def field(kind, which, number):
    """A field has another number, in some record of its kind."""
    def damage(rng, river):
        i = rng.choice(list(starts(river)[kind.name]))
        if kind in (FACTORS, REACH):
            return reference.encode(replaced(river, i, **{which: number}))
        return reference.encode(replaced(river, i, **{kind.name: getattr(river.cards[i - 1], kind.name)._replace(**{which: number})}))
    return damage


def not_zero(k):
    """One of the bytes of zero at the end of some record of ammonia is another."""
    def damage(rng, river):
        at = any_start(rng, river, AMMONIA) + AMMONIA.size - AMMONIA.zeros + k
        file = reference.encode(river)
        return file[:at] + bytes([rng.choice((1, 128, rng.randint(1, 255)))]) + file[at + 1:]
    return damage


def outlet(reach, number):
    """A wrong outlet; both the reach and the number are reckoned from the count."""
    return lambda rng, river: reference.encode(replaced(river, reach(len(river.cards)), outlet=number(len(river.cards))))


def trailing(more):
    """Bytes after the last record."""
    return lambda rng, river: reference.encode(river) + more(rng, reference.encode(river))


def inserted(where, record):
    """A record more, where it is not due: a kind of record, and whether the new one stands behind it or before it."""
    kind, behind = where

    def damage(rng, river):
        at = any_start(rng, river, kind) + behind * kind.size
        file = reference.encode(river)
        return file[:at] + record + file[at:]
    return damage


def moved_up(second, first):
    """A record before one that is due earlier, after some reach that has both."""
    def damage(rng, river):
        i = rng.choice([i for i in starts(river)[first.name] if i in starts(river)[second.name]])
        without = replaced(river, i, **{second.name: None})
        at, file = starts(without)[first.name][i], reference.encode(without)
        return file[:at] + second.encode(getattr(river.cards[i - 1], second.name)) + file[at:]
    return damage


def two_faults(*changes):
    """Faults that stand in different places, so that their order counts: pairs of a reach, from its count, and fields."""
    def damage(rng, river):
        for reach, fields in changes:
            river = replaced(river, reach(len(river.cards)), **fields)
        return reference.encode(river)
    return damage


def flipped(rng, river):
    """Some bits are changed anywhere, so that the file may still be accepted."""
    file = bytearray(reference.encode(river))
    for _ in range(rng.randint(1, 3)):
        file[rng.randrange(len(file))] ^= 1 << rng.randrange(8)
    return bytes(file)


def noise(rng, river):
    """Bytes that are no file, with or without a lawful header."""
    return rng.choice((b"", HEADER.encode([rng.randint(1, 128)]))) + rng.randbytes(rng.randint(0, 5_000))


def cut_and_marked():
    """Records that are cut, and records with another mark."""
    faults = {f"cut {kind.name} {offset}": cut(kind, offset) for kind in KINDS for offset in range(1 if kind in OPTIONAL else 0, kind.size)}
    for kind in KINDS:
        for letters in [other.mark for other in KINDS if other is not kind] + [b"RX", kind.mark.lower(), kind.mark[::-1], b"\0\0"]:
            if letters != kind.mark:
                faults[f"mark {kind.name} {letters.hex()}"] = mark(kind, letters)
    return faults


def counts_and_fields():
    """Counts and fields that are wrong."""
    faults = {f"count {number}": count(lambda n, number=number: number) for number in (0, 129, 256, 65_535)}
    faults["count one more"] = count(lambda n: n + 1)
    faults["count one less"] = count(lambda n: n - 1)
    for kind in (FACTORS, REACH) + AFTER_REACH:
        for one in kind.fields:
            for number in sorted({one.lowest - 1, one.highest + 1, reference.most(one.width)}):
                if 0 <= number <= reference.most(one.width) and not one.lowest <= number <= one.highest:
                    faults[f"field {one.name} {number}"] = field(kind, one.name, number)
    return faults | {f"zero byte {k} of ammonia": not_zero(k) for k in range(AMMONIA.zeros)}


OUTLETS_AND_ENDS = {
    "outlet own": outlet(lambda n: n - 1, lambda n: n - 1),
    "outlet above": outlet(lambda n: n - 1, lambda n: n - 2),
    "outlet none": outlet(lambda n: 1, lambda n: 0),
    "outlet past": outlet(lambda n: 1, lambda n: n + 1),
    "outlet far": outlet(lambda n: 2, lambda n: 255),
    "outlet of last": outlet(lambda n: n, lambda n: n),
    "outlet of last back": outlet(lambda n: n, lambda n: 1),
    "trailing zero": trailing(lambda rng, file: b"\0"),
    "trailing line end": trailing(lambda rng, file: b"\n"),
    "trailing half mark": trailing(lambda rng, file: rng.choice(KINDS).mark[:1]),
    "trailing mark": trailing(lambda rng, file: rng.choice(KINDS).mark),
    "trailing factors": trailing(lambda rng, file: FACTORS.encode(AS_GIVEN)),
    **{f"trailing {kind.name}": trailing(lambda rng, file, kind=kind: kind.encode(WITHOUT_EFFECT[kind])) for kind in AFTER_REACH},
    "trailing file": trailing(lambda rng, file: file),
    "trailing to one too many": trailing(lambda rng, file: bytes(LONGEST + 1 - len(file))),
    "trailing long": trailing(lambda rng, file: rng.randbytes(LONGEST + rng.randint(0, 9_000))),
}

TWO_FAULTS = {
    "field and outlet": two_faults((lambda n: 2, {"temperature": 36, "outlet": 1})),
    "outlet, then field": two_faults((lambda n: 1, {"outlet": 1}), (lambda n: 2, {"k2": 20_001})),
    "outlet and dam": two_faults((lambda n: n, {"outlet": 1, "dam": Dam(1_001, 0)})),
    "field and dam": two_faults((lambda n: n, {"inflow_bod": 1_000_001, "dam": Dam(1_001, 0)})),
    "dam, then outlet": two_faults((lambda n: 1, {"dam": Dam(0, 100_000_001)}), (lambda n: 2, {"outlet": 0})),
    "outlet and take": two_faults((lambda n: n, {"outlet": 1, "take": Take(100_000_001)})),
    "take, then outlet": two_faults((lambda n: 1, {"take": Take(100_000_001)}), (lambda n: 2, {"outlet": 0})),
    "dam, then take": two_faults((lambda n: n - 1, {"dam": Dam(1_001, 0)}), (lambda n: n, {"take": Take(100_000_001)})),
    "outlet and pressure": two_faults((lambda n: n, {"outlet": 1, "pressure": Pressure(MOST_PRESSURE + 1)})),
    "pressure, then outlet": two_faults((lambda n: 1, {"pressure": Pressure(LEAST_PRESSURE - 1)}), (lambda n: 2, {"outlet": 0})),
    "take, then pressure": two_faults((lambda n: n - 1, {"take": Take(100_000_001)}), (lambda n: n, {"pressure": Pressure(0)})),
    "no flow, then pressure": two_faults((lambda n: 1, {"inflow": 0}), (lambda n: n, {"pressure": Pressure(MOST_PRESSURE + 1)})),
    "thick bed, then pressure": two_faults((lambda n: 1, {"sludge": Sludge(MOST_SLUDGE), "volume": MOST_VOLUME}), (lambda n: n, {"pressure": Pressure(0)})),
    "outlet and ammonia": two_faults((lambda n: n, {"outlet": 1, "ammonia": Ammonia(MOST_RATE + 1, 0, 0)})),
    "ammonia, then outlet": two_faults((lambda n: 1, {"ammonia": Ammonia(0, MOST_BOD + 1, 0)}), (lambda n: 2, {"outlet": 0})),
    "pressure, then ammonia": two_faults((lambda n: n - 1, {"pressure": Pressure(0)}), (lambda n: n, {"ammonia": Ammonia(MOST_RATE + 1, 0, 0)})),
    "foul, then ammonia": two_faults((lambda n: 1, {"load": MOST_LOAD}), (lambda n: n, {"ammonia": Ammonia(MOST_RATE + 1, 0, 0)})),
    "no flow, then field": two_faults((lambda n: 1, {"inflow": 0}), (lambda n: n, {"volume": 1_000_000_001})),
    "factors, then field": two_faults((lambda n: 0, {"decay_factor": LEAST_FACTOR - 1}), (lambda n: 1, {"temperature": 36})),
    "factors, then outlet": two_faults((lambda n: 0, {"aeration_factor": MOST_FACTOR + 1}), (lambda n: 1, {"outlet": 1})),
    "both factors": two_faults((lambda n: 0, {"decay_factor": 0, "aeration_factor": 65_535})),
    "no flow, then factors": two_faults((lambda n: 1, {"inflow": 0}), (lambda n: 0, {"decay_factor": MOST_FACTOR + 1})),
    "count and factors": lambda rng, river: HEADER.encode([rng.choice((0, 129))]) + reference.encode(replaced(river, 0, decay_factor=0))[HEADER.size:],
    "factors, then mark": lambda rng, river: reference.encode(replaced(river, 0, aeration_factor=0)).replace(REACH.mark, b"RX", 1),
    "factors and nothing": lambda rng, river: reference.encode(river)[:HEADER.size + FACTORS.size],
}

def not_due():
    """Records where they are not due: before one that is due earlier, twice, behind one that is due later, before a reach and before the header."""
    faults = {}
    for k, kind in enumerate(AFTER_REACH):
        record = kind.encode(WITHOUT_EFFECT[kind])
        faults |= {f"{kind.name} before {earlier.name}": moved_up(kind, earlier) for earlier in AFTER_REACH[:k]}
        faults |= {f"{kind.name} after {later.name}": inserted((later, True), record) for later in AFTER_REACH[k + 1:]}
        faults |= {f"{kind.name} twice": inserted((kind, True), record), f"{kind.name} before reach": inserted((FACTORS, True), record),
                   f"{kind.name} before factors": inserted((HEADER, True), record)}
    record = FACTORS.encode(AS_GIVEN)
    faults |= {f"factors after {kind.name}": inserted((kind, True), record) for kind in (REACH,) + AFTER_REACH}
    faults |= {"factors twice": inserted((FACTORS, True), record), "factors before header": inserted((HEADER, False), record)}
    return faults | {"take before header": inserted((HEADER, False), TAKE.encode(Take(1))), "unknown record": inserted((TAKE, True), b"XX\0\0\0\1")}


NOISE = {"flipped 1": flipped, "flipped 2": flipped, "flipped 3": flipped, "noise 1": noise, "noise 2": noise}


def reading_faults():
    """The kinds of files that reading refuses (the flipped ones mostly)."""
    return cut_and_marked() | counts_and_fields() | OUTLETS_AND_ENDS | TWO_FAULTS | not_due() | NOISE


# ---- Files in turn

def deck(rng, kinds):
    """The kinds in a shuffled order, again and again."""
    kinds = list(kinds)
    while True:
        rng.shuffle(kinds)
        yield from kinds


def accepted_kinds():
    """Name and maker of every kind of accepted file."""
    kinds = {style: lambda rng, style=style: accepted_river(rng, style, size(rng)) for style in STYLES}
    kinds |= {name: lambda rng, change=change: changed_river(rng, change, last) for name, change in ON_A_LIMIT.items()}
    kinds |= {f"on check 10 {name}": bod_below_take(first, 0) for name, first in BELOW_A_TAKE.items()}
    kinds |= {"on check 11 rounded at each degree": rounded_each_degree(0)}
    kinds |= {"most reaches": most_reaches, "lowest oxygen": lowest_oxygen, "lowest oxygen by ammonia": lowest_by_ammonia}
    kinds |= {"no volume in one reach": lambda rng: accepted_river(rng, "zero volume", 1),
              "no volume in several reaches": lambda rng: accepted_river(rng, "zero volume", rng.randint(2, 12)), "volume in one reach": one_volume,
              "largest volumes": largest_volumes, "lowest means": lowest_means, "mean below zero": mean_below_zero}
    kinds |= USED_UP
    return {name: lambda rng, make=make: reference.encode(make(rng)) for name, make in kinds.items()}


def refused_kinds():
    """Name and maker of every kind of refused file."""
    kinds = {name: lambda rng, damage=damage: damage(rng, base_river(rng)) for name, damage in reading_faults().items()}
    kinds |= {name: lambda rng, change=change: reference.encode(changed_river(rng, change, any_reach)) for name, change in PAST_A_LIMIT.items()}
    kinds |= {f"check 10 {name}": lambda rng, first=first: reference.encode(bod_below_take(first, 1)(rng)) for name, first in BELOW_A_TAKE.items()}
    kinds |= {"check 11 rounded at each degree": lambda rng: reference.encode(rounded_each_degree(1)(rng)),
              "check 15 past two bytes": lambda rng: reference.encode(past_two_bytes(rng))}
    kinds |= {"longest file": longest_file, "longest file and a byte": lambda rng: longest_file(rng) + b"\0"}
    return kinds


def every_kind():
    """The number of files that hold every kind."""
    return 2 * max(len(accepted_kinds()), len(refused_kinds()))


def files(seed, total):
    """Names and bytes of so many generated files."""
    rng = random.Random(seed)
    accepted, refused = accepted_kinds(), refused_kinds()
    good, bad = deck(rng, accepted), deck(rng, refused)
    for k in range(total):
        kind = next(bad if k % 2 else good)
        yield f"{k + 1:05d}-{kind.replace(',', '').replace(' ', '-')}.river", (refused if k % 2 else accepted)[kind](rng)


def write_files(seed, directory, total):
    """Writes generated files to a directory, and MANIFEST with a line for each: its name and the answer due."""
    os.makedirs(directory, exist_ok=True)
    with open(os.path.join(directory, "MANIFEST"), "w", encoding="ascii") as manifest:
        for name, file in files(seed, total):
            with open(os.path.join(directory, name), "wb") as target:
                target.write(file)
            due = reference.answer(reference.accept, file)
            manifest.write(f"{name} {due.line() if isinstance(due, Refused) else 'accepted'}\n")
