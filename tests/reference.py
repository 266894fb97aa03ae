#!/usr/bin/env python3
"""The exact reference for river files and reports, written from docs/RIVER-FILE.md and named after it.

It works with whole numbers and fractions only, so that its verdicts are exact.

    reference.py check FILE [N ...] [--full] < PRINTED              the verdict on a printed report of FILE
    reference.py check-mean FILE REPORT [N ...] < PRINTED           the verdict on its printed means, beside its printed report
    reference.py expect FILE                                        the refusal, or the exact figures, rounded down
    reference.py expect-mean FILE                                   the refusal, or the exact means, rounded down
    reference.py show FILE                                          the rate factors, if any, and the cards, or the refusal
    reference.py gen SEED DIR COUNT                                 generated files of every kind, with the answers in DIR/MANIFEST

A check tries the series lengths N (40 and 41, where none is given). It decides each of the 1,025 instants by bounds, and
works out those that the bounds leave open; --full works out every instant exactly. Means go by the statuses of the printed report and,
where nothing changes along a reach, by its head oxygen. What is expected has the statuses of the exact figures, rounded down. The exit
status of a check is 0 for a right text and 1 for a wrong one; it is 2 for bad use.
"""

import argparse
import math
import re
import sys
from collections import namedtuple
from fractions import Fraction

INSTANTS = 1_024
SERIES = (40, 41)           # the sums S(x) of all longer series lie between those of these two
UNITS_A_STEP = 100          # the allowance for each step of depth, in units
UNITS_WITH_BEDS = 150       # the same in a river whose file has a sludge bed, of demand 0 too
UNITS_WITH_AMMONIA = 200    # the same in a river whose file has ammonia, of zeros too, beds or none
STANDARD_PRESSURE = 760     # mm of mercury, that of a reach without the record
STANDARD_TEMPERATURE = 20   # degrees C, at which rates are given where the file has rate factors
MOST_RATE = 20_000          # thousandths per day, on a card and in force
MEAN_BYTES = 4              # of each reach in the buffer of the call that gives the means
ORDINARY, BELOW_ZERO, USED_UP_ABOVE = 0, 1, 2       # the statuses of a reach


# ---- The river file: the table of records

Field = namedtuple("Field", "name width lowest highest meaning")


def most(width):
    """The largest number that so many bytes hold."""
    return 256 ** width - 1


class Kind:
    """A kind of record: its mark, its name, its fields, and how many bytes of zero end it."""

    def __init__(self, mark, name, *fields, zeros=0):
        self.mark, self.name, self.zeros = mark.encode(), name, zeros
        self.fields = [Field(*field) for field in fields]
        self.size = 2 + sum(field.width for field in self.fields) + zeros
        self.values = namedtuple(name, [field.name for field in self.fields])

    def decode(self, data):
        """The values of a record, from its bytes."""
        numbers, at = [], 2
        for field in self.fields:
            numbers.append(int.from_bytes(data[at:at + field.width], "big"))
            at += field.width
        return self.values(*numbers)

    def encode(self, values):
        """The bytes of a record. A number that its field cannot hold is an OverflowError."""
        return self.mark + b"".join(number.to_bytes(field.width, "big") for field, number in zip(self.fields, values)) + bytes(self.zeros)

    def outside(self, values):
        """The fields whose number is out of range, with that number."""
        return [(field, number) for field, number in zip(self.fields, values) if not field.lowest <= number <= field.highest]


HEADER = Kind("RV", "header",
              ("count", 2, 1, 128, "number of reaches"))
FACTORS = Kind("TH", "factors",
               ("decay_factor", 2, 1_000, 1_100, "k1 and kn are multiplied by it for each degree C above 20 and divided by it for each below, thousandths"),
               ("aeration_factor", 2, 1_000, 1_100, "the same for k2"))
REACH = Kind("RE", "reach",
             ("outlet", 1, 0, most(1), "the reach it flows into, a larger number; 0 for the last"),      # check 5 has the rule
             ("temperature", 1, 0, 35, "degrees C"),
             ("k1", 2, 0, MOST_RATE, "BOD decay rate, thousandths per day"),
             ("k2", 2, 0, MOST_RATE, "surface aeration rate, thousandths per day"),
             ("volume", 4, 0, 1_000_000_000, "cubic metres"),
             ("inflow", 4, 0, 100_000_000, "water that joins at the head, litres a second"),
             ("inflow_bod", 4, 0, 1_000_000, "its BOD, thousandths of mg/L"),
             ("inflow_oxygen", 2, 0, 20_000, "its oxygen, thousandths of mg/L"),
             ("load", 4, 0, most(4), "BOD that joins without water, milligrams a second"))
DAM = Kind("DM", "dam",
           ("share", 2, 0, 1_000, "aeration share, thousandths"),
           ("generating", 4, 0, 100_000_000, "flow through turbines, not aerated, litres a second"))
TAKE = Kind("WD", "take",
            ("take", 4, 0, 100_000_000, "water drawn off at the head, after mixing, litres a second"))
PRESSURE = Kind("BP", "pressure",
                ("pressure", 2, 500, 800, "air pressure as it is at the reach, not reduced to sea level, for its saturation, mm of mercury; 760 without it"))
SLUDGE = Kind("SD", "sludge",
              ("sludge", 2, 0, most(2), "oxygen demand of the sludge bed, thousandths of mg/L a day; 0 without it"))
AMMONIA = Kind("NT", "ammonia",
               ("kn", 2, 0, MOST_RATE, "nitrification rate, thousandths per day; 0 without it"),
               ("inflow_nitrogenous_bod", 4, 0, 1_000_000, "nitrogenous BOD of the inflow, thousandths of mg/L; 0 without it"),
               ("nitrogenous_load", 4, 0, most(4), "nitrogenous BOD that joins without water, milligrams a second; 0 without it"), zeros=4)
AFTER_REACH = (DAM, TAKE, PRESSURE, SLUDGE, AMMONIA)    # the records that may follow a reach, in this order, at most one of a kind

LONGEST = HEADER.size + FACTORS.size + 128 * (REACH.size + sum(kind.size for kind in AFTER_REACH))

# A card has the numbers of its reach, and for each kind of record after it the values or None.
Card = namedtuple("Card", [field.name for field in REACH.fields] + [kind.name for kind in AFTER_REACH], defaults=[None] * len(AFTER_REACH))
Dam, Take, Pressure, Sludge, Ammonia = (kind.values for kind in AFTER_REACH)
Factors = FACTORS.values
AS_GIVEN = Factors(1_000, 1_000)    # what the rates of a river without factors go by: they stay as they are

# A river has its cards, and its rate factors or None.
River = namedtuple("River", "cards factors", defaults=[None])


def reach_values(card):
    """The values of a card's own record."""
    return REACH.values(*card[:len(REACH.fields)])


def added_records(card):
    """The records after a reach, as kinds with their values."""
    return [(kind, getattr(card, kind.name)) for kind in AFTER_REACH if getattr(card, kind.name) is not None]


def encode(river):
    """The bytes of a river, lawful or not."""
    parts = [HEADER.encode([len(river.cards)])] + ([] if river.factors is None else [FACTORS.encode(river.factors)])
    for card in river.cards:
        parts += [kind.encode(values) for kind, values in [(REACH, reach_values(card))] + added_records(card)]
    return b"".join(parts)


# ---- The river file: reading and writing

class Refused(Exception):
    """A refusal: its number, its reach, and what is wrong in words."""

    def __init__(self, number, reach, why):
        super().__init__(number, reach)
        self.number, self.reach, self.why = number, reach, why

    def line(self):
        """As the printing program prints it."""
        return f"refused {self.number} reach {self.reach}"


def counted(number, noun):
    """A number with its noun."""
    return f"{number} {noun}" if number == 1 else f"{number} {noun}s"


def answer(call, *arguments):
    """What a call returns, or the refusal that it raises."""
    try:
        return call(*arguments)
    except Refused as refusal:
        return refusal


def check_range(number, kind, values, reach):
    """Checks 3 and 4: every field is in range."""
    for field, value in kind.outside(values):
        raise Refused(number, reach, f"{field.name} is {value}, not from {field.lowest} to {field.highest}")


def outlet_range(reach, count):
    """The lowest and the highest lawful outlet of a reach."""
    return (0, 0) if reach == count else (reach + 1, count)


def check_outlet(card, reach, count):
    """Check 5."""
    lowest, highest = outlet_range(reach, count)
    if not lowest <= card.outlet <= highest:
        raise Refused(5, reach, f"outlet is {card.outlet}, not from {lowest} to {highest}")


class Reader:
    """A file and how far it has been read."""

    def __init__(self, file):
        self.file, self.at = bytes(file), 0

    def remaining(self):
        return len(self.file) - self.at

    def follows(self, kind):
        """Whether the next two bytes are the mark of this kind."""
        return self.file[self.at:self.at + 2] == kind.mark

    def record(self, kind, reach):
        """The values of the next record, which is to be of this kind: checks 1 and 2, and check 4 of its bytes of zero, which no value holds."""
        mark = kind.mark.decode()
        if self.remaining() < kind.size:
            raise Refused(1, reach, f"byte {self.at}: {mark} needs {kind.size} bytes, and there are {self.remaining()}")
        if not self.follows(kind):
            raise Refused(2, reach, f"byte {self.at}: {self.file[self.at:self.at + 2]} stands where the mark {mark} is due")
        data = self.file[self.at:self.at + kind.size]
        if any(data[kind.size - kind.zeros:]):
            raise Refused(4, reach, f"byte {self.at}: the last {counted(kind.zeros, 'byte')} of {mark} are not zero")
        self.at += kind.size
        return kind.decode(data)


def read(file, ranges=True):
    """The river of a file. Without `ranges` only the structure is checked: 1, 2, 6 and bytes of zero."""
    reader = Reader(file)
    count = reader.record(HEADER, 0).count
    if ranges:
        check_range(3, HEADER, [count], 0)
    factors = reader.record(FACTORS, 0) if reader.follows(FACTORS) else None
    if ranges and factors is not None:
        check_range(4, FACTORS, factors, 0)
    cards = []
    for reach in range(1, count + 1):
        card = Card(*reader.record(REACH, reach))
        if ranges:
            check_range(4, REACH, reach_values(card), reach)
            check_outlet(card, reach, count)
        for kind in AFTER_REACH:
            if reader.follows(kind):
                values = reader.record(kind, reach)
                if ranges:
                    check_range(4, kind, values, reach)
                card = card._replace(**{kind.name: values})
        cards.append(card)
    if reader.remaining():
        raise Refused(6, 0, f"byte {reader.at}: {counted(reader.remaining(), 'byte')} too many, after the last record")
    return River(cards, factors)


def has_record(river, kind):
    """Whether the file of a river has a record of this kind, of zeros too."""
    return any(getattr(card, kind.name) is not None for card in river.cards)


def write(river, room):
    """The file of a river, for a buffer of `room` bytes."""
    count = len(river.cards)
    check_range(3, HEADER, [count], 0)
    if river.factors is not None:
        check_range(4, FACTORS, river.factors, 0)
    for reach, card in enumerate(river.cards, 1):
        check_range(4, REACH, reach_values(card), reach)
        check_outlet(card, reach, count)
        for kind, values in added_records(card):
            check_range(4, kind, values, reach)
    file = encode(river)
    if room < len(file):
        raise Refused(12, 0, f"the buffer has {room} bytes and the file {len(file)}")
    return file


# ---- Rates in force

def in_force(rate, factor, temperature):
    """The rate in force at a temperature, of a rate on a card and its factor, rounded at each degree and at the end."""
    parts = 1_000_000 * rate
    for _ in range(STANDARD_TEMPERATURE, temperature):
        parts = parts * factor // 1_000
    for _ in range(temperature, STANDARD_TEMPERATURE):
        parts = parts * 1_000 // factor
    return parts // 1_000_000


# ---- Flows and depth

# A demand of a reach, BOD or nitrogenous BOD: its rate in force, and what its inflow and its load bring.
Demand = namedtuple("Demand", "rate inflow load")


class Reach:
    """A reach with its feeders and all reaches above it, its rates in force and what flows in it: Qm and Mm at its head, mixed, and Q and M from there
    on, after its take."""

    def __init__(self, number, card, feeders, units=UNITS_A_STEP, factors=None):
        self.number, self.card, self.feeders, self.factors = number, card, feeders, AS_GIVEN if factors is None else factors
        self.above = [reach for feeder in feeders for reach in (feeder, *feeder.above)]
        self.take = 0 if card.take is None else card.take.take
        self.sludge = 0 if card.sludge is None else card.sludge.sludge
        ammonia = card.ammonia or Ammonia(0, 0, 0)
        k1, kn = (in_force(rate, self.factors.decay_factor, card.temperature) for rate in (card.k1, ammonia.kn))
        self.k2 = in_force(card.k2, self.factors.aeration_factor, card.temperature)
        self.bod = Demand(k1, card.inflow_bod, card.load)
        self.nitrogenous = Demand(kn, ammonia.inflow_nitrogenous_bod, ammonia.nitrogenous_load)
        self.demands = self.bod, self.nitrogenous
        self.Qu = sum(feeder.Q for feeder in feeders)
        self.Qm = self.Qu + card.inflow
        self.Mm = sum(feeder.M for feeder in feeders) + sum(card.inflow * demand.inflow + 1_000 * demand.load for demand in self.demands)
        self.Q = self.Qm - self.take
        self.depth = 1 + max((feeder.depth for feeder in feeders), default=0)
        self.allowance = units * self.depth
        self.saturation = saturation(card.temperature, STANDARD_PRESSURE if card.pressure is None else card.pressure.pressure)

    @property
    def M(self):
        """Of a reach that passes the flow check, since it divides by Qm."""
        return min(self.Mm - self.take * (self.Mm // self.Qm), 1_000_000 * self.Q)

    def keeps(self, demand):
        return demand.rate == 0 or self.card.volume == 0

    def rates(self):
        """k1, kn and k2, as they are in force."""
        return *(demand.rate for demand in self.demands), self.k2

    def keeps_oxygen(self):
        return not any(self.rates()) and self.sludge == 0 or self.card.volume == 0


def flow_check(reach):
    """The checks on flows, in their order."""
    card, dam = reach.card, reach.card.dam
    for number, broken, why in (
            (7, reach.Qm == 0, "there is no flow"),
            (8, reach.Qm > 100_000_000, f"the flow is {reach.Qm}"),
            (9, dam is not None and (not reach.feeders or dam.generating > reach.Qu), f"the dam has {reach.Qu} from above"),
            (10, reach.Mm > 1_000_000 * reach.Qm, f"M is {reach.Mm} at a flow of {reach.Qm}"),
            (13, reach.take >= reach.Qm, f"the take is {reach.take} of a flow of {reach.Qm}"),
            (15, max(reach.rates()) > MOST_RATE, f"a rate in force is {max(reach.rates())}"),
            (11, max(reach.rates()) * card.volume > 345_600 * reach.Q, f"the reach is too long for a flow of {reach.Q}"),
            (14, reach.sludge * card.volume > 432_000 * reach.Q, f"the sludge bed is too large for a flow of {reach.Q}")):
        if broken:
            raise Refused(number, reach.number, why)


def step_units(river):
    """The allowance for each step of depth in a river."""
    return UNITS_WITH_AMMONIA if has_record(river, AMMONIA) else UNITS_WITH_BEDS if has_record(river, SLUDGE) else UNITS_A_STEP


def flows(river):
    """The reaches of a river that passes the flow check."""
    reaches, units = [], step_units(river)
    for number, card in enumerate(river.cards, 1):
        reaches.append(Reach(number, card, [feeder for feeder in reaches if feeder.card.outlet == number], units, river.factors))
        flow_check(reaches[-1])
    return reaches


def accept(file):
    """The reaches of an accepted file."""
    return flows(read(file))


def accept_mean(file, room=None):
    """The reaches of a file whose means are given, unless check 16 refuses them, for a buffer of `room` bytes, or for one that is long enough."""
    reaches = accept(file)
    needed = MEAN_BYTES * len(reaches)
    if room is not None and room < needed:
        raise Refused(12, 0, f"the buffer has {room} bytes and the means {needed}")
    return reaches


# ---- Head of a reach

def saturation(T, pressure=STANDARD_PRESSURE):
    """Saturation at T degrees and so many mm of mercury, in units, not rounded."""
    milligrams = Fraction("14.652") - Fraction("0.41022") * T + Fraction("0.007991") * T ** 2 - Fraction("0.000077774") * T ** 3
    return 1_000_000 * milligrams * Fraction(pressure, STANDARD_PRESSURE)


def exactly(figure):
    """Takes the place of rounding in the exact recurrence."""
    return figure


def upstream(reach, foot_sum, rounded):
    """Step 1: the mean of a figure over the feeders' feet. The sum is that of Q × foot value over them; `rounded` is math.floor or `exactly`."""
    return rounded(foot_sum * Fraction(1, reach.Qu)) if reach.feeders else 0


def below_dam(reach, oxygen_sum, rounded):
    """Steps 1 and 2: oxygen of the water from above, below the dam."""
    Qu, dam, C = reach.Qu, reach.card.dam, upstream(reach, oxygen_sum, rounded)
    if dam is None or not reach.feeders:
        return C
    return rounded(C + (rounded(reach.saturation) - C) * Fraction(dam.share * (Qu - dam.generating), 1_000 * Qu))


def head_demand(reach, demand, foot_sum, rounded):
    """Step 3: BOD or nitrogenous BOD at the head, mixed. The take leaves it as it is."""
    above = reach.Qu * upstream(reach, foot_sum, rounded)
    return rounded((above + 1_000 * reach.card.inflow * demand.inflow + 1_000_000 * demand.load) * Fraction(1, reach.Qm))


def head(reach, bod_sum, oxygen_sum, rounded):
    """BOD and oxygen at the head."""
    oxygen = reach.Qu * below_dam(reach, oxygen_sum, rounded) + 1_000 * reach.card.inflow * reach.card.inflow_oxygen
    return head_demand(reach, reach.bod, bod_sum, rounded), rounded(oxygen * Fraction(1, reach.Qm))


def head_nitrogenous(reach, nitrogenous_sum, rounded):
    """Nitrogenous BOD at the head."""
    return head_demand(reach, reach.nitrogenous, nitrogenous_sum, rounded)


def head_figures(reach, bod_sum, oxygen_sum, nitrogenous_sum, rounded):
    """The three figures at the head."""
    return *head(reach, bod_sum, oxygen_sum, rounded), head_nitrogenous(reach, nitrogenous_sum, rounded)


# ---- Along a reach

def exponent(reach, rate):
    """x1, xn or x2 at the foot."""
    return Fraction(rate * reach.card.volume, 86_400 * reach.Q)


def S(x, N):
    """The sum of (−x)^j / j! for j from 0 to N − 1, over the denominator of its last term."""
    n, d, last = x.numerator, x.denominator, N - 1
    parts = math.factorial(last)
    return Fraction(sum((-n) ** j * d ** (last - j) * (parts // math.factorial(j)) for j in range(N)), d ** last * parts)


def demand_factors(reach, rate, m, N):
    """S of a demand with this rate, its F, and S(x2), at instant m."""
    k2 = reach.k2
    x1, x2 = (exponent(reach, k) * Fraction(m, INSTANTS) for k in (rate, k2))
    S1, S2 = S(x1, N), S(x2, N)
    return S1, (x1 * S1 if rate == k2 else Fraction(rate, k2 - rate) * (S1 - S2)), S2


def bod_factors(reach, m, N):
    """S(x1), F and S(x2) at instant m."""
    return demand_factors(reach, reach.bod.rate, m, N)


def bed_in_the_end(reach):
    """Demand / k2, in units: by so much a bed lowers what oxygen tends to, with surface aeration (k2 above 0)."""
    return Fraction(1_000_000 * reach.sludge, reach.k2)


def bed_fall(reach):
    """Demand × volume / (86,400 × Q), in units: what a bed uses down to the foot, all of it lost without surface aeration (k2 = 0)."""
    return Fraction(1_000_000 * reach.sludge * reach.card.volume, 86_400 * reach.Q)


def bed_loss(reach, m, S2):
    """The oxygen lost to the sludge bed by instant m, in units, where S(x2) is S2."""
    return bed_in_the_end(reach) * (1 - S2) if reach.k2 else bed_fall(reach) * Fraction(m, INSTANTS)


def along(reach, m, N):
    """The formula that takes BOD, oxygen and nitrogenous BOD at the head to those at instant m."""
    (S1, F1, S2), (Sn, Fn, _) = (demand_factors(reach, demand.rate, m, N) for demand in reach.demands)
    Cs, loss = reach.saturation, bed_loss(reach, m, S2)
    return lambda L, C, Ln: (L * S1, Cs - F1 * L - Fn * Ln - S2 * (Cs - C) - loss, Ln * Sn)


# The exact figures of a place have one common denominator, which grows by some thousand bits with each reach on the way
# down. It is never reduced: that would take nearly all of the time. The figures are BOD, oxygen and nitrogenous BOD.
Point = namedtuple("Point", "over figures")


def through(formula, point):
    """What a formula gives at a point. Each formula is linear, so its values at 0 and at 1 for each figure tell its fractions."""
    zeros = [0] * len(point.figures)
    start = formula(*zeros)
    slopes = []
    for k in range(len(zeros)):
        slopes.append([value - base for value, base in zip(formula(*zeros[:k], 1, *zeros[k + 1:]), start)])
    common = math.lcm(*(Fraction(fraction).denominator for row in [start] + slopes for fraction in row))
    figures = [int(common * base) * point.over for base in start]
    for slope, figure in zip(slopes, point.figures):
        figures = [total + int(common * fraction) * figure for total, fraction in zip(figures, slope)]
    return Point(common * point.over, figures)


def foot_sums(reach, feet):
    """The sums of Q × foot value over the feeders."""
    over, sums = 1, [0, 0, 0]
    for feeder in reach.feeders:
        foot = feet[feeder.number]
        sums = [total * foot.over + feeder.Q * figure * over for total, figure in zip(sums, foot.figures)]
        over *= foot.over
    return Point(over, sums)


def recurrence(reaches, N):
    """The exact recurrence: the points at the heads and at the feet, by reach number."""
    heads, feet = {}, {}
    for reach in reaches:
        heads[reach.number] = through(lambda *sums: head_figures(reach, *sums, exactly), foot_sums(reach, feet))
        feet[reach.number] = through(along(reach, INSTANTS, N), heads[reach.number])
    return heads, feet


# ---- Along a reach: bounds on the oxygen at every instant

BITS = 128      # with these the bounds leave open only what lies within 2^-110 units of a limit


def terms(x, N):
    """The terms of S(x)."""
    result = [Fraction(1)]
    for j in range(1, N):
        result.append(-result[-1] * x / j)
    return result


def bed_terms(reach, S2):
    """The coefficients of the bed's loss as a polynomial in u = m/1024, where S2 are the terms of S(x2)."""
    if reach.k2 == 0:
        return [0, bed_fall(reach)] + [0] * (len(S2) - 2)
    return [0] + [-bed_in_the_end(reach) * term for term in S2[1:]]


def demand_terms(reach, rate, S2):
    """The coefficients of F of a demand with this rate as a polynomial in u, where S2 are the terms of S(x2) and a zero."""
    k2, x = reach.k2, exponent(reach, rate)
    if rate == k2:
        return [Fraction(0)] + [x * term for term in S2[:-1]]
    return [Fraction(rate, k2 - rate) * (one - two) for one, two in zip(terms(x, len(S2) - 1), S2)] + [Fraction(0)]


def oxygen_bounds(reach, start, N):
    """For each instant a whole number that is within `off` of 2^BITS × the exact oxygen, and `off`. `start` is the point at the head.

    With u = m/1024 the oxygen is a polynomial in u, since the terms of S(x × u) are those of S(x) times powers of u. Its coefficients
    are taken in parts of 2^-BITS. Cutting the figures of the head to whole parts moves the sum by less than the sizes of all
    factors; cutting the coefficients, and each step of the evaluation, by less than one part each.
    """
    S2 = terms(exponent(reach, reach.k2), N) + [Fraction(0)]
    F1, Fn = (demand_terms(reach, demand.rate, S2) for demand in reach.demands)
    L, C, Ln = ((figure << BITS) // start.over for figure in start.figures)
    Cs = reach.saturation * 2 ** BITS
    coefficients = [math.floor(-f1 * L - fn * Ln - s * (Cs - C) - b * 2 ** BITS) for f1, fn, s, b in zip(F1, Fn, S2, bed_terms(reach, S2))]
    coefficients[0] += math.floor(Cs)
    off = math.ceil(sum(map(abs, F1 + Fn + S2))) + 2 * len(coefficients) + 1
    return [evaluated(coefficients, m) for m in range(INSTANTS + 1)], off


def evaluated(coefficients, m):
    """The polynomial with these whole coefficients at m/1024, cut to a whole number at each step."""
    total = 0
    for coefficient in reversed(coefficients):
        total = total * m // INSTANTS + coefficient
    return total


# ---- Oxygen used up

# The figures of a report on a reach. The nitrogenous ones are printed in files with ammonia alone, and are 0 in all others.
Record = namedtuple("Record", "depth Q head_bod foot_bod head_oxygen instant critical foot_oxygen status head_nitrogenous foot_nitrogenous", defaults=[0, 0, 0])
NO_OXYGEN = {"head_oxygen": 0, "instant": 0, "critical": 0, "foot_oxygen": 0}      # what status 2 reports


def status_due(reach, critical, records):
    """The status of a reach with this reported critical oxygen, below reaches with these records."""
    if any(records[above.number - 1].status != ORDINARY for above in reach.above):
        return USED_UP_ABOVE
    return BELOW_ZERO if critical < 0 else ORDINARY


def reported(reaches, carried):
    """The records that are reported, from those with oxygen carried on: each gets its status, and status 2 takes its oxygen away."""
    records = []
    for reach, record in zip(reaches, carried):
        status = status_due(reach, record.critical, records)
        records.append(record._replace(status=status, **(NO_OXYGEN if status == USED_UP_ABOVE else {})))
    return records


def exact_report(reaches, N):
    """The records of the exact figures, rounded down."""
    heads, feet = recurrence(reaches, N)
    carried = []
    for reach in reaches:
        start, end = heads[reach.number], feet[reach.number]
        oxygen, _ = oxygen_bounds(reach, start, N)
        lowest = oxygen.index(min(oxygen))
        points = start, end, through(along(reach, lowest, N), start)
        at_head, at_foot, at_lowest = ([figure // point.over for figure in point.figures] for point in points)
        carried.append(Record(reach.depth, reach.Q, at_head[0], at_foot[0], at_head[1], lowest, at_lowest[1], at_foot[1],
                              head_nitrogenous=at_head[2], foot_nitrogenous=at_foot[2]))
    return reported(reaches, carried)


# ---- Mean oxygen

def weights(reaches, records):
    """By which volumes the means count in the river's mean: none at status 2."""
    return [0 if record.status == USED_UP_ABOVE else reach.card.volume for reach, record in zip(reaches, records)]


def check_volume(reaches, records):
    """Check 16."""
    if sum(weights(reaches, records)) == 0:
        raise Refused(16, 0, "the river has no volume of status 0 or 1, and so no mean")


def mean_of(coefficients):
    """The mean over the travel time of a polynomial in u = m/1024: its integral from 0 to 1, term by term."""
    return sum(Fraction(coefficient) / (j + 1) for j, coefficient in enumerate(coefficients))


def mean_along(reach, N):
    """The formula that takes BOD, oxygen and nitrogenous BOD at the head to the mean oxygen. For volume 0 every polynomial is the constant that it
    has at the head, and the mean is the head value."""
    S2 = terms(exponent(reach, reach.k2), N) + [Fraction(0)]
    F1, Fn = (mean_of(demand_terms(reach, demand.rate, S2)) for demand in reach.demands)
    Cs, kept, loss = reach.saturation, mean_of(S2), mean_of(bed_terms(reach, S2))
    return lambda L, C, Ln: (Cs - F1 * L - Fn * Ln - kept * (Cs - C) - loss,)


def exact_means(reaches, N):
    """The exact mean oxygen of each reach, as a point."""
    heads, _ = recurrence(reaches, N)
    return [through(mean_along(reach, N), heads[reach.number]) for reach in reaches]


def reported_means(means, records):
    """The means that are given, from those with oxygen carried on: 0 at status 2."""
    return [0 if record.status == USED_UP_ABOVE else mean for mean, record in zip(means, records)]


def river_mean(reaches, means, records):
    """Units and remainder of the mean of these means, weighted by the volumes that count."""
    volumes = weights(reaches, records)
    return divmod(sum(volume * mean for volume, mean in zip(volumes, means)), sum(volumes))


# ---- The printing program: a printed report

SIGNED = ("head_oxygen", "critical", "foot_oxygen")


def printed_names(reaches):
    """The figures of a record that a line has after the number of its reach, in the report on these reaches."""
    return Record._fields if any(reach.card.ammonia is not None for reach in reaches) else Record._fields[:-2]


def report_text(reaches, records):
    """The printed report that has these records."""
    count = len(printed_names(reaches))
    return "".join(" ".join(map(str, (reach, *record[:count]))) + "\n" for reach, record in enumerate(records, 1))


def line_form(reaches):
    """The regular expression of a line."""
    signs = ["-?" if name in SIGNED else "" for name in printed_names(reaches)]
    return re.compile(" ".join(f"(0|{sign}[1-9][0-9]*)" for sign in [""] + signs))


class Malformed(Exception):
    """A printed text that is neither a report nor means."""


def printed_lines(printed):
    """The lines of a printed text."""
    try:
        text = printed.decode("ascii")
    except UnicodeDecodeError:
        raise Malformed("the printed text is not ASCII") from None
    if not text.endswith("\n"):
        raise Malformed("the printed text does not end with a line end")
    return text[:-1].split("\n")


def printed_records(lines, reaches):
    """The records of a printed report on these reaches."""
    if len(lines) != len(reaches):
        raise Malformed(f"{len(lines)} lines are printed for {len(reaches)} reaches")
    records, form = [], line_form(reaches)
    for reach, line in enumerate(lines, 1):
        found = form.fullmatch(line)
        if not found or len(line) > 200:
            raise Malformed(f"line {reach} is no line of a report: {line[:100]}")
        number, *figures = map(int, found.groups())
        if number != reach:
            raise Malformed(f"line {reach} is that of reach {number}")
        records.append(Record(*figures))
    return records


# ---- The printing program: printed means

MEAN_LINE = re.compile("([1-9][0-9]*) (0|-?[1-9][0-9]*)")
RIVER_LINE = re.compile("river (0|-?[1-9][0-9]*) (0|[1-9][0-9]*)")


def means_text(reaches, means, records):
    """The printed text of these means and of the river's mean, beside a report with these records."""
    units, remainder = river_mean(reaches, means, records)
    return "".join(f"{reach} {mean}\n" for reach, mean in enumerate(means, 1)) + f"river {units} {remainder}\n"


def printed_numbers(form, line, place):
    """The two numbers of a line of this form."""
    found = form.fullmatch(line)
    if not found or len(line) > 100:
        raise Malformed(f"{place} is no line of means: {line[:100]}")
    return tuple(map(int, found.groups()))


def printed_means(lines, reaches):
    """The means of a printed text on these reaches, and the river's mean: units and remainder."""
    if len(lines) != len(reaches) + 1:
        raise Malformed(f"{len(lines)} lines are printed for the means of {len(reaches)} reaches and that of the river")
    numbers = [printed_numbers(MEAN_LINE, line, f"line {place}") for place, line in enumerate(lines[:-1], 1)]
    for reach, (number, _) in enumerate(numbers, 1):
        if number != reach:
            raise Malformed(f"line {reach} is that of reach {number}")
    return [mean for _, mean in numbers], printed_numbers(RIVER_LINE, lines[-1], "the last line")


# ---- The verdict on what was printed

class Verdict:
    """What is due, what is wrong, and the largest error as a share of its allowance, in thousandths."""

    def __init__(self, due, wrong=()):
        self.due, self.wrong, self.worst = due, list(wrong), 0

    def note(self, reach, what, error, over, N):
        """Notes an error of a reach, a whole number over another, and tells whether it is allowed."""
        allowed = reach.allowance * over
        self.worst = max(self.worst, 1_000 * error // allowed)
        if error > allowed:
            self.wrong.append(f"reach {reach.number}: {what} is off by {error // over} units, allowed are {reach.allowance} (N = {N})")
        return error <= allowed

    def lines(self):
        return self.wrong + [f"{self.due}: {len(self.wrong)} wrong; largest error {self.worst // 1_000}.{self.worst % 1_000:03d} of its allowance"]


def verdict_on(due, printed, judge):
    """The verdict on a printed text, where a refusal is due or, with anything else, none. `judge` is given the verdict and the lines of a text that is
    no refusal, where none is due."""
    refused = isinstance(due, Refused)
    verdict = Verdict(due.line() if refused else "accepted")
    try:
        lines = printed_lines(printed)
        if not refused and not lines[0].startswith("refused"):
            judge(verdict, lines)
        elif lines != [verdict.due]:
            raise Malformed(f"'{lines[0][:100]}' is printed, due is '{verdict.due}'")
    except Malformed as problem:
        verdict.wrong.append(str(problem))
    return verdict


def check(file, printed, series=SERIES, full=False):
    """The verdict on the report that was printed for a file."""
    reaches = answer(accept, file)

    def judge(verdict, lines):
        records = printed_records(lines, reaches)
        for reach in reaches:
            verdict.wrong += [f"reach {reach.number}: {text}" for text in determined(reach, records) + tied(reach, records[reach.number - 1])]
        for N in series:
            distances(reaches, records, N, full, verdict)

    return verdict_on(reaches, printed, judge)


def head_over(reach, records):
    """The three figures at the head, from the records of the reaches above."""
    above = [(feeder.Q, records[feeder.number - 1]) for feeder in reach.feeders]
    sums = (sum(Q * getattr(record, name) for Q, record in above) for name in ("foot_bod", "foot_oxygen", "foot_nitrogenous"))
    return head_figures(reach, *sums, math.floor)


def determined(reach, records):
    """What is wrong with the figures that follow exactly: depth, Q, the head from the reported feet of the feeders, the status from the reported critical
    oxygen and the statuses above, and no oxygen at status 2."""
    record = records[reach.number - 1]
    bod, oxygen, nitrogenous = head_over(reach, records)
    due = {"depth": reach.depth, "Q": reach.Q, "head_bod": bod, "head_nitrogenous": nitrogenous, "status": status_due(reach, record.critical, records)}
    due |= NO_OXYGEN if due["status"] == USED_UP_ABOVE else {"head_oxygen": oxygen}
    return [f"{name} is {getattr(record, name)}, due is {number}" for name, number in due.items() if getattr(record, name) != number]


def tied(reach, record):
    """Which ties of a record are broken. At status 2 those of its oxygen say nothing."""
    demands = (("BOD", reach.bod, record.head_bod, record.foot_bod), ("nitrogenous BOD", reach.nitrogenous, record.head_nitrogenous, record.foot_nitrogenous))
    rules = [rule for name, demand, at_head, at_foot in demands for rule in (
        (at_foot <= at_head, f"foot {name} is above head {name}"),
        (at_foot == at_head or not reach.keeps(demand), f"foot {name} is not head {name}, though nothing decays"))]
    rules += oxygen_rules(reach, record) if record.status != USED_UP_ABOVE else []
    return [f"{text}: {' '.join(map(str, record))}" for holds, text in rules if not holds]


def oxygen_rules(reach, record):
    """The ties of oxygen and the rules of the critical point: whether each holds, and what is wrong where it does not."""
    kept = (record.critical, record.foot_oxygen, record.instant) == (record.head_oxygen, record.head_oxygen, 0)
    return [
        (kept or not reach.keeps_oxygen(), "oxygen is not that of the head throughout, though nothing moves it"),
        (record.instant <= INSTANTS, "critical instant is above 1024"),
        (record.critical <= record.head_oxygen, "critical oxygen is above head oxygen"),
        (record.critical <= record.foot_oxygen, "critical oxygen is above foot oxygen"),
        (record.critical == record.head_oxygen or record.instant != 0, "critical oxygen at instant 0 is not head oxygen"),
        (record.critical == record.foot_oxygen or record.instant != INSTANTS, "critical oxygen at instant 1024 is not foot oxygen"),
        (record.critical != record.head_oxygen or record.instant == 0, "critical instant is not the first, since the head has critical oxygen"),
    ]


def covered(record, figures):
    """Of BOD, oxygen and nitrogenous BOD those that the distance covers: not oxygen at status 2."""
    return (figures[0], figures[2]) if record.status == USED_UP_ABOVE else figures


def distances(reaches, records, N, full, verdict):
    """Holds every reach to the promised distance for the series length N."""
    heads, feet = recurrence(reaches, N)
    for reach, record in zip(reaches, records):
        def judge(what, error, over):
            return verdict.note(reach, what, error, over, N)

        start, end = heads[reach.number], feet[reach.number]
        for place, point, figures in (("head", start, (record.head_bod, record.head_oxygen, record.head_nitrogenous)),
                                      ("foot", end, (record.foot_bod, record.foot_oxygen, record.foot_nitrogenous))):
            pairs = zip(covered(record, figures), covered(record, point.figures))
            judge(f"the {place}", sum(abs(figure * point.over - exact) for figure, exact in pairs), point.over)
        if record.status == USED_UP_ABOVE or record.instant > INSTANTS:
            continue
        point = through(along(reach, record.instant, N), start)
        judge("critical oxygen", abs(record.critical * point.over - point.figures[1]), point.over)
        for m in lower_instants(reach, record, start, N, full):
            point = through(along(reach, m, N), start)
            if not judge(f"critical oxygen against instant {m}", record.critical * point.over - point.figures[1], point.over):
                break


def lower_instants(reach, record, start, N, full):
    """The instants, lowest first, at which the exact oxygen may lie below the critical oxygen by more than the allowance."""
    oxygen, off = oxygen_bounds(reach, start, N)
    limit = (record.critical - reach.allowance) << BITS
    return sorted((m for m in range(INSTANTS + 1) if full or oxygen[m] - off < limit), key=oxygen.__getitem__)


# ---- The verdict on printed means

def records_beside(report, reaches):
    """The records of the printed report that lies beside printed means."""
    try:
        return printed_records(printed_lines(report), reaches)
    except Malformed as problem:
        raise Malformed(f"the report beside the means: {problem}") from None


def check_means(file, printed, report, series=SERIES):
    """The verdict on the means that were printed for a file, beside its printed report."""
    def due():
        reaches = accept_mean(file)
        records = records_beside(report, reaches)
        check_volume(reaches, records)
        return reaches, records

    def judge(verdict, lines):
        reaches, records = found
        means, river = printed_means(lines, reaches)
        verdict.wrong += fixed(reaches, means, records) + weighted(reaches, means, records, river)
        for N in series:
            for reach, record, mean, point in zip(reaches, records, means, exact_means(reaches, N)):
                if record.status != USED_UP_ABOVE:
                    verdict.note(reach, "mean oxygen", abs(mean * point.over - point.figures[0]), point.over, N)

    try:
        found = answer(due)
    except Malformed as problem:
        return Verdict("accepted", [str(problem)])
    return verdict_on(found, printed, judge)


def fixed(reaches, means, records):
    """What is wrong with the means that follow exactly: 0 at status 2, else head oxygen where oxygen does not change along the reach."""
    wrong = []
    for reach, mean, record in zip(reaches, means, records):
        if record.status == USED_UP_ABOVE and mean != 0:
            wrong.append(f"reach {reach.number}: mean oxygen is {mean}, due is 0 at status 2")
        elif reach.keeps_oxygen() and mean != record.head_oxygen:
            wrong.append(f"reach {reach.number}: mean oxygen is {mean}, though oxygen is {record.head_oxygen} all along")
    return wrong


def weighted(reaches, means, records, river):
    """What is wrong with the river's mean, which follows exactly from the means of the reaches and their statuses."""
    due = river_mean(reaches, means, records)
    return [] if river == due else ["the river's mean is {} units and {}, due are {} and {}".format(*river, *due)]


# ---- The commands

def expectation(file, N=40):
    """The lines of `expect`."""
    reaches = answer(accept, file)
    if isinstance(reaches, Refused):
        return [f"{reaches.line()}  ({reaches.why})"]
    lines = ["# reach depth Q M saturation allowance head-BOD foot-BOD head-oxygen critical-instant critical-oxygen foot-oxygen status"
             " head-nitrogenous-BOD foot-nitrogenous-BOD"]
    for reach, (depth, Q, *figures) in zip(reaches, exact_report(reaches, N)):
        lines.append(" ".join(map(str, (reach.number, depth, Q, reach.M, math.floor(reach.saturation), reach.allowance, *figures))))
    return lines


def mean_expectation(file, N=40):
    """The lines of `expect-mean`."""
    try:
        reaches = accept_mean(file)
        records = exact_report(reaches, N)
        check_volume(reaches, records)
    except Refused as refusal:
        return [f"{refusal.line()}  ({refusal.why})"]
    means = reported_means([point.figures[0] // point.over for point in exact_means(reaches, N)], records)
    lines = [f"{reach.number} {mean} {reach.card.volume} {record.status} {reach.allowance}" for reach, mean, record in zip(reaches, means, records)]
    return ["# reach mean-oxygen volume status allowance"] + lines + ["river {} {}".format(*river_mean(reaches, means, records))]


def record_text(kind, values):
    """The mark of a record and its fields by name."""
    return f"{kind.mark.decode()} " + ", ".join(f"{name} {number}" for name, number in values._asdict().items())


def shown(file):
    """The lines of `show`."""
    river = answer(read, file)
    if isinstance(river, Refused):
        return [f"{river.line()}  ({river.why})"]
    lines = [] if river.factors is None else [f"header: {record_text(FACTORS, river.factors)}"]
    return lines + [" ".join([f"{reach}:"] + [record_text(*record) for record in [(REACH, reach_values(card))] + added_records(card)])
                    for reach, card in enumerate(river.cards, 1)]


def arguments():
    """The command line."""
    parser = argparse.ArgumentParser(description=__doc__, formatter_class=argparse.RawDescriptionHelpFormatter)
    commands = parser.add_subparsers(dest="command", required=True, metavar="COMMAND")
    checking = commands.add_parser("check", help="the verdict on a printed report, which is read on standard input")
    checking_mean = commands.add_parser("check-mean", help="the same on printed means; the statuses of the report are taken as they are, check judges them")
    for command in (checking, checking_mean):
        command.add_argument("file")
        if command is checking_mean:
            command.add_argument("report", help="the printed report, which has the statuses and the oxygen at the heads")
        command.add_argument("series", nargs="*", type=int, metavar="N", help="series lengths, 40 and 41 if none is given")
    checking.add_argument("--full", action="store_true", help="work out every instant exactly")
    for name, text in (("expect", "the refusal, or the exact figures"), ("expect-mean", "the refusal, or the exact means"),
                       ("show", "the rate factors and cards, or the refusal")):
        commands.add_parser(name, help=text).add_argument("file")
    generating = commands.add_parser("gen", help="generated files of every kind")
    generating.add_argument("seed", type=int)
    generating.add_argument("directory")
    generating.add_argument("count", type=int)
    given = parser.parse_args()
    if given.command.startswith("check") and any(N < 40 for N in given.series):
        parser.error("a series length is 40 or more")
    return given


def content(path):
    with open(path, "rb") as source:
        return source.read()


def given_verdict(given, file):
    """The verdict of `check` and `check-mean` on standard input."""
    printed, series = sys.stdin.buffer.read(), given.series or SERIES
    if given.command == "check":
        return check(file, printed, series, given.full)
    return check_means(file, printed, content(given.report), series)


def main():
    given = arguments()
    try:
        if given.command == "gen":
            import generate
            generate.write_files(given.seed, given.directory, given.count)
            return 0
        file = content(given.file)
        if given.command.startswith("check"):
            verdict = given_verdict(given, file)
            print("\n".join(verdict.lines()))
            return 1 if verdict.wrong else 0
        print("\n".join({"expect": expectation, "expect-mean": mean_expectation, "show": shown}[given.command](file)))
        return 0
    except OSError as problem:
        print(f"reference.py: {problem.filename or given.command}: {problem.strerror}", file=sys.stderr)
        return 2


if __name__ == "__main__":
    sys.exit(main())
