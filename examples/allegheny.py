#!/usr/bin/env python3
"""The Allegheny River of Railsback and Jager, ORNL/TM-10953 (1988), Table 4, as a river.

    allegheny.py cards                    prints the text of the river, for tools/river
    allegheny.py compare REPORT MEANS     compares the printed report and means with the published table

ALLEGHENY.md explains the conversion and the differences.
"""

import math
import sys

CUBIC_FOOT = 28.316846592               # litres
POUND_A_DAY = 453_592.37 / 86_400       # milligrams a second

# Table 4, inputs. Lengths in feet, areas in square feet, flows in cubic feet a second, loads in
# pounds a day, concentrations in mg/L, rates per day at the reach's temperature.
# The first reach's tributary is the river above dam 9. Its load is 0, as in Table 5: Table 4 prints
# 4,000 but does not count it.
#  name           mile  length  trib  area   DO  BOD  load  coef const unaerated  T  k1(T)   k2(T)
INPUTS = (
    ("Dam 9",         62.2, 50688, 5850, 13700, 6.0, 4.0,    0, 0.58, 0.00, 3600, 25, 0.1258, 0.1634),
    ("Dam 8",         52.6, 36432,    0, 10100, 0.0, 0.0, 4000, 0.61, 0.62, 3600, 26, 0.2635, 0.3103),
    ("Dam 7",         45.7, 49632,    0, 11200, 0.0, 0.0, 4000, 0.90, 0.00, 5450, 27, 0.2758, 0.3017),
    ("Dam 6",         36.3, 31152,    0, 13000, 0.0, 0.0, 4000, 0.69, 0.00, 4850, 27, 0.2758, 0.1759),
    ("Dam 5",         30.4,  2112,    0, 12300, 0.0, 0.0, 4000, 0.57, 0.00, 4680, 27, 0.1379, 0.2005),
    ("Kiskiminetas",  30.0, 30624, 1690, 12300, 6.0, 5.0,    0, 1.00, 0.00,    0, 27, 0.1379, 0.2276),
    ("Dam 4",         24.2, 15840,    0, 12300, 0.0, 0.0,    0, 0.56, 0.00, 7140, 27, 0.1379, 0.2276),
    ("Valley Joint",  21.2, 35376,    0, 18600, 0.0, 0.0, 1500, 1.00, 0.00,    0, 27, 0.1379, 0.0731),
    ("Dam 3",         14.5,  5280,    0, 15900, 0.0, 0.0,    0, 0.92, 0.67, 7240, 28, 0.1444, 0.1849),
    ("Valley Joint",  13.5, 35904,    0, 15900, 0.0, 0.0, 1000, 1.00, 0.00,    0, 28, 0.1444, 0.1849),
    ("Dam 2",          6.7, 35376,    0, 13700, 0.0, 0.0,    0, 0.12, 0.92, 6640, 28, 0.1444, 0.1991),
    ("Confluence",     0.0,     0,    0, 13700, 0.0, 0.0,    0, 1.00, 0.00,    0, 28, 0.1444, 0.1991),
)

# Table 4, results: saturation, DO above the dam, starting BOD, final BOD, starting DO, critical DO,
# final DO, DO index and critical distance (river mile). The index is the integral of DO over the time
# in days, times the speed in feet a second: mean DO times the length over the seconds of a day.
PUBLISHED = (
    (8.13, 6.00, 4.00, 3.37, 6.34, 6.13, 6.13, 3.65, 52.6),
    (7.97, 6.13, 3.49, 2.88, 6.65, 6.37, 6.37, 2.74, 45.7),
    (7.81, 6.37, 3.01, 2.22, 6.38, 6.12, 6.12, 3.58, 36.3),
    (7.81, 6.12, 2.35, 1.88, 6.21, 5.99, 5.99, 2.19, 30.4),
    (7.81, 5.99, 2.01, 1.99, 6.14, 6.14, 6.15, 0.15, 30.4),
    (7.81, 6.11, 2.67, 2.46, 6.11, 6.11, 6.13, 2.17, 30.0),
    (7.81, 6.13, 2.46, 2.36, 6.17, 6.17, 6.18, 1.13, 24.2),
    (7.81, 6.18, 2.40, 2.09, 6.18, 6.00, 6.00, 2.49, 14.5),
    (7.66, 6.00, 2.09, 2.05, 6.03, 6.03, 6.03, 0.37, 14.4),
    (7.66, 6.03, 2.07, 1.83, 6.03, 6.03, 6.05, 2.51, 13.5),
    (7.66, 6.05, 1.83, 1.64, 6.33, 6.33, 6.34, 2.59, 6.7),
    (7.66, 6.34, 1.64, 1.64, 6.34, 6.34, 6.34, 0.00, 0.0),
)
FIGURES = ("head BOD", "foot BOD", "head DO", "crit. DO", "foot DO", "DO index")     # of PUBLISHED[i][2:8]


def folded_share(coefficient, constant, deficit):
    """The share that takes the published deficit D above a dam to coefficient * D - constant below it.

    A card's share fills at most the whole deficit.
    """
    return min(1.0, 1 - coefficient + constant / deficit)


def cards():
    """The text of the river: the water above dam 9 as a reach of its own, then the twelve of the table."""
    def litres(flow):
        return round(flow * CUBIC_FOOT)

    print("# The Allegheny from dam 9 to Pittsburgh (ORNL/TM-10953, Table 4), made by allegheny.py. See ALLEGHENY.md.")
    print("# outlet temperature k1 k2 volume inflow inflow_bod inflow_oxygen load [dam share generating]")
    for i, (row, published) in enumerate(zip(INPUTS, PUBLISHED), 2):
        name, mile, length, tributary, area, do, bod, load, coefficient, constant, unaerated, t, k1, k2 = row
        if i == 2:
            print(f"{i} {t} 0 0 0 {litres(tributary)} {bod * 1000:.0f} {do * 1000:.0f} 0  # above dam 9")
            tributary = do = bod = 0
        outlet = i + 1 if i <= len(INPUTS) else 0
        volume = round(area * length * CUBIC_FOOT / 1000)
        dam = ""
        if coefficient != 1:
            share = folded_share(coefficient, constant, published[0] - published[1])
            dam = f" dam {share * 1000:.0f} {litres(unaerated)}"
        print(f"{outlet} {t} {k1 * 1000:.0f} {k2 * 1000:.0f} {volume} {litres(tributary)} {bod * 1000:.0f} {do * 1000:.0f} "
              f"{load * POUND_A_DAY:.0f}{dam}  # {name}, mile {mile}")


def index(mean_oxygen, length):
    """The DO index of a reach of so many feet."""
    return mean_oxygen * length / 86_400


def study(quadratic, folded):
    """The study's own program in floating point: the figures of each reach.

    `quadratic` is the coefficient of T squared in the saturation, `folded` puts a share in place of
    a dam's coefficient and constant, as in the cards.
    """
    rows, flow, oxygen, demand = [], 0.0, 0.0, 0.0
    for row, published in zip(INPUTS, PUBLISHED):
        name, mile, length, tributary, area, do, bod, load, coefficient, constant, unaerated, t, k1, k2 = row
        total = flow + tributary
        oxygen = (flow * oxygen + tributary * do) / total
        demand = (flow * demand + tributary * bod + load * POUND_A_DAY / CUBIC_FOOT) / total
        flow = total
        saturation = 14.652 - 0.41022 * t + quadratic * t ** 2 - 0.000077774 * t ** 3
        above = saturation - oxygen
        below = coefficient * above - constant
        if folded and coefficient != 1:
            below = (1 - folded_share(coefficient, constant, published[0] - published[1])) * above
        deficit = above if coefficient == 1 else (below * (flow - unaerated) + above * unaerated) / flow
        days = area * length / flow / 86_400

        def at(part):
            s1, s2 = math.exp(-k1 * days * part), math.exp(-k2 * days * part)
            return saturation - k1 * demand / (k2 - k1) * (s1 - s2) - deficit * s2

        def mean(rate):
            return (1 - math.exp(-rate * days)) / (rate * days) if days else 1

        foot = demand * math.exp(-k1 * days)
        mean_oxygen = saturation - k1 * demand / (k2 - k1) * (mean(k1) - mean(k2)) - deficit * mean(k2)
        rows.append((demand, foot, at(0), min(at(m / 1024) for m in range(1025)), at(1), index(mean_oxygen, length)))
        oxygen, demand = at(1), foot
    return rows


def largest(rows):
    """The largest distance from the published table, for each figure."""
    return [max(abs(row[k] - published[2 + k]) for row, published in zip(rows, PUBLISHED)) for k in range(len(FIGURES))]


def numbers(path, columns, more):
    """The numbers of the lines of a printed text, which has one of so many columns for each reach, and some more."""
    try:
        with open(path, encoding="ascii") as file:
            lines = file.read().splitlines()
        rows = [[int(word) for word in line.split()] for line in lines[:len(INPUTS) + 1]]
    except ValueError:
        rows = []
    if not rows or len(lines) != len(INPUTS) + 1 + more or any(len(row) != columns for row in rows):
        raise ValueError(f"{path} is no printed text of this river")
    return rows


def compare(report, means):
    """Our figures beside the published ones, reach by reach, and what makes the difference."""
    lines = numbers(report, 10, 0)
    indexes = [index(mean / 1e6, row[2]) for (_, mean), row in zip(numbers(means, 2, 1)[1:], INPUTS)]
    ours = [[x / 1e6 for x in (line[3], line[4], line[5], line[7], line[8])] + [own] for line, own in zip(lines[1:], indexes)]
    print("| reach | " + " | ".join(f"{name}: Table 4, ours" for name in FIGURES) + " | lowest at mile: Table 4, ours |")
    print("|---" * (len(FIGURES) + 2) + "|")
    for row, published, our, line in zip(INPUTS, PUBLISHED, ours, lines[1:]):
        mile = row[1] - line[6] / 1024 * row[2] / 5280
        cells = [f"{p:.2f}, {x:.3f}" for p, x in zip(published[2:8], our)]
        print(f"| {row[0]} | " + " | ".join(cells) + f" | {published[8]:.1f}, {mile:.1f} |")
    print()
    print("| largest distance from Table 4 | " + " | ".join(FIGURES) + " |")
    print("|---" * (len(FIGURES) + 1) + "|")
    for name, rows in (("the study's program, T² coefficient 0.00791 as in its listing", study(0.00791, False)),
                       ("with 0.007991, as in its text and in the river file paper", study(0.007991, False)),
                       ("and with the dams' constants in the shares", study(0.007991, True)),
                       ("our report and means", ours)):
        print(f"| {name} | " + " | ".join(f"{x:.3f}" for x in largest(rows)) + " |")


def main(arguments):
    if arguments == ["cards"]:
        cards()
    elif len(arguments) == 3 and arguments[0] == "compare":
        try:
            compare(*arguments[1:])
        except (OSError, ValueError) as problem:
            sys.exit(f"allegheny.py: {problem}")
    else:
        sys.exit("usage: allegheny.py cards | allegheny.py compare REPORT MEANS")


if __name__ == "__main__":
    main(sys.argv[1:])
