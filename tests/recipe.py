#!/usr/bin/env python3
"""The program's own arithmetic along a reach, in whole numbers, and the report and the means that come of it.

    tests/recipe.py FILE            the report that is printed for a river file
    tests/recipe.py --mean FILE     the means that are printed for it

The paper leaves the last digits along a reach free within the promised distance; these are the digits that the program has. All else is the
reference's. The reference takes nothing from here: its verdict on a report is that of the paper alone.
"""

import math
import sys

import reference
from reference import INSTANTS, Record, Refused

ONE = 2 ** 44           # a share of 1
UNIT_PARTS = 2 ** 14    # nitrogenous BOD is stepped in parts of a unit
MOST_TERMS = 4          # of a step's series
DAY_STEPS = 86_400 * INSTANTS


def product(a, b):
    """A share of a number, rounded."""
    return a * b // ONE


def exponent(rate, reach):
    """x1, xn or x2 of one instant."""
    return rate * reach.card.volume * ONE // (DAY_STEPS * reach.Q)


def terms(y, z):
    """The terms of a step's series, each after its number. The program stops at a term of 0, after which all are 0."""
    lost, back = y, 0
    yield 1, lost
    for j in range(2, MOST_TERMS + 1):
        lost, back = product(lost, y) // j, product(lost + back, z) // j
        yield j, lost + back


def series(y, z):
    """The sum of a step's series."""
    return sum(term * (-1) ** (j - 1) for j, term in terms(y, z))


def mean_series(y, z):
    """The sum of its mean over the step: each term is divided by one more than its number, rounded."""
    return sum(term // (j + 1) * (-1) ** (j - 1) for j, term in terms(y, z))


def step_of(reach, rate, summed):
    """What of a demand with this rate is lost and used in a step, and what of the deficit is filled, by this sum of their series."""
    y, z = exponent(rate, reach), exponent(reach.k2, reach)
    return summed(y, 0), summed(y, z), summed(z, 0)


def stepped(step, shares_before):
    """What is left of a demand, what of it has turned to deficit and the share of the deficit kept, a step further."""
    (lost, used, filled), (left, turned, kept) = step, shares_before
    return left - product(left, lost), turned - product(turned, filled) + product(left, used), kept - product(kept, filled)


def shares(reach, rate, start=ONE):
    """The same for each instant, of a demand with this rate that starts with so many parts."""
    step, at = step_of(reach, rate, series), (start, 0, ONE)
    result = [at]
    for _ in range(INSTANTS):
        at = stepped(step, at)
        result.append(at)
    return result


def mean_shares(reach, rate, instants):
    """Their means: the averages of the instants before the foot, taken further by the mean step."""
    return stepped(step_of(reach, rate, mean_series), [sum(each) // INSTANTS for each in zip(*instants[:INSTANTS])])


def bed_numbers(reach):
    """The two numbers of a sludge bed, of which one is 0: demand / k2 in units, and without surface aeration what it uses down to the foot."""
    if reach.k2:
        return 1_000_000 * reach.sludge // reach.k2, 0
    return 0, reach.sludge * reach.card.volume * 625 // (54 * reach.Q)


def oxygen_with(reach, turned, kept, L, C):
    """Oxygen by these shares of BOD and deficit alone."""
    Cs = math.floor(reach.saturation)
    if C <= Cs:
        return Cs - product(turned, L) - product(kept, Cs - C)
    return C - product(turned, L) - product(ONE - kept, C - Cs)


def oxygen_over(reach, of_bod, of_nitrogenous, m, L, C):
    """Oxygen by these shares of BOD and deficit, these parts of nitrogenous BOD, and the loss to the bed at instant m."""
    (_, turned, kept), (_, turned_n, _), (in_the_end, fall) = of_bod, of_nitrogenous, bed_numbers(reach)
    return oxygen_with(reach, turned, kept, L, C) - turned_n // UNIT_PARTS - (product(ONE - kept, in_the_end) + fall * m // INSTANTS)


def profile(reach, L, C, Ln):
    """The record and the mean oxygen of a reach with this BOD, oxygen and nitrogenous BOD at its head, whatever its status."""
    demands = [(reach.bod.rate, shares(reach, reach.bod.rate)), (reach.nitrogenous.rate, shares(reach, reach.nitrogenous.rate, UNIT_PARTS * Ln))]
    steps, steps_n = (instants for _, instants in demands)
    values = [oxygen_over(reach, *both, m, L, C) for m, both in enumerate(zip(steps, steps_n))]
    mean = oxygen_over(reach, *(mean_shares(reach, *demand) for demand in demands), INSTANTS // 2, L, C)
    return Record(reach.depth, reach.Q, L, product(steps[-1][0], L), C, values.index(min(values)), min(values), values[-1],
                  head_nitrogenous=Ln, foot_nitrogenous=steps_n[-1][0] // UNIT_PARTS), mean


def profiles_of(reaches):
    """The records of an accepted river, and its means. Oxygen is carried on from reach to reach, also where the status takes it from the report."""
    carried, averages = [], []
    for reach in reaches:
        record, mean = profile(reach, *reference.head_over(reach, carried))
        carried.append(record)
        averages.append(mean)
    records = reference.reported(reaches, carried)
    return records, reference.reported_means(averages, records)


def records_of(reaches):
    return profiles_of(reaches)[0]


def means_of(reaches):
    return profiles_of(reaches)[1]


def report(file):
    """The report that is printed for a file."""
    reaches = reference.answer(reference.accept, file)
    return reaches.line() + "\n" if isinstance(reaches, Refused) else reference.report_text(reaches, records_of(reaches))


def means(file):
    """The means that are printed for a file."""
    try:
        reaches = reference.accept_mean(file)
        records, averages = profiles_of(reaches)
        reference.check_volume(reaches, records)
    except Refused as refusal:
        return refusal.line() + "\n"
    return reference.means_text(reaches, averages, records)


def main():
    words = sys.argv[1:]
    printing = means if words[:1] == ["--mean"] else report
    paths = words[printing is means:]
    if len(paths) != 1 or paths[0].startswith("-"):
        print(__doc__.strip())
        return 0 if words in (["-h"], ["--help"]) else 2
    try:
        print(printing(reference.content(paths[0])), end="")
        return 0
    except OSError as problem:
        print(f"recipe.py: {problem.filename}: {problem.strerror}", file=sys.stderr)
        return 2


if __name__ == "__main__":
    sys.exit(main())
