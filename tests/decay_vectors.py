#!/usr/bin/env python3
"""Holds the stored output of the program decay_vectors to exact fractions, or stores what the program prints once it keeps to them.

    tests/decay_vectors.py --check | --write

For each reach the program prints the shares of a step, how many terms the series of each share has, and the factors at some instants, in
parts of 2^-44. The shares are held to 1 − S(x1), F and 1 − S(x2) at instant 1, the factors to S(x1), F and S(x2) at theirs, with 60 terms, and
the counts to the terms worked out here. --write builds and runs the program.
"""

import math
import os
import subprocess
import sys

import reference
import vectors
from reference import Card, Reach

CRATE = "crates/decay_vectors"
ONE = 2 ** 44
TERMS = 60
MOST_TERMS = 4                                  # of a step's series
MOST_OFF = {"step": (3, 5, 3), "instant": (11_264, 11_264, 5_120)}      # parts of 2^-44, as proved


def off(before, printed, shares):
    """The largest distances of printed numbers from exact shares, in parts of 2^-44, rounded up: these and those before."""
    if len(printed) != len(shares):
        raise vectors.Failed(f"{len(printed)} numbers are printed where {len(shares)} are due")
    return tuple(max(largest, math.ceil(abs(number - share * ONE))) for largest, number, share in zip(before, printed, shares))


def terms_of(y, z):
    """How many terms a series has: up to the first after the leading one that is 0 in parts of 2^-44, or to its end."""
    lost, back, count = y, 0, 1
    while count < MOST_TERMS:
        lost, back = lost * y // ONE // (count + 1), (lost + back) * z // ONE // (count + 1)
        if lost + back == 0:
            break
        count += 1
    return count


def counts(card):
    """How many terms the series of BOD lost, BOD spent and deficit filled have in a step of a reach."""
    y, z = (k * card.volume * ONE // (86_400 * 1_024 * card.inflow) for k in (card.k1, card.k2))
    return [terms_of(y, 0), terms_of(y, z), terms_of(z, 0)]


def distances(text):
    """How many reaches an output has, and the largest distances of its steps and of its instants. Wrong or missing counts of terms are a failure."""
    reaches, counted, largest = 0, 0, {"step": (0, 0, 0), "instant": (0, 0, 0)}
    for line in text.splitlines():
        label, *numbers = line.split()
        numbers = [int(number) for number in numbers]
        if label == "flow":
            flow, reaches = numbers[0], reaches + 1
        elif label == "card":
            k1, k2, volume = numbers
            card = Card(0, 20, k1, k2, volume, flow, 0, 0, 0)
            reach = Reach(1, card, [])
        elif label == "step":
            S1, F, S2 = reference.bod_factors(reach, 1, TERMS)
            largest["step"] = off(largest["step"], numbers, (1 - S1, F, 1 - S2))
        elif label == "terms":
            if numbers != counts(card):
                raise vectors.Failed(f"reach {reaches}: terms {numbers} are printed where {counts(card)} are due")
            counted += 1
        else:
            largest["instant"] = off(largest["instant"], numbers, reference.bod_factors(reach, int(label), TERMS))
    if counted != reaches:
        raise vectors.Failed(f"{counted} lines of terms are printed for {reaches} reaches")
    return reaches, largest


def printed():
    """What the program prints. It is proved and built first; that it prints something else than is stored is no failure here."""
    folder = os.path.join(vectors.ROOT, "crates/decay_vectors")
    log = vectors.rt("run", folder=folder)
    if log.returncode:
        raise vectors.Failed(f"rt run failed in crates/decay_vectors:\n{log.stdout}")
    return subprocess.run([os.path.join(folder, "out/decay_vectors")], stdout=subprocess.PIPE, text=True, check=True).stdout


def make(write):
    path = f"{CRATE}/stdout"
    text = printed() if write else (vectors.stored(path) or b"").decode()
    reaches, largest = distances(text)
    if not reaches:
        raise vectors.Failed(f"{path} holds no reach")
    for name, most in MOST_OFF.items():
        if any(number > limit for number, limit in zip(largest[name], most)):
            raise vectors.Failed(f"{path}: {name}s are off by up to {largest[name]} parts of 2^-44, above {most}")
    vectors.settle(path, text.encode(), write)
    step, instant = (reference.counted(max(largest[name]), "part") for name in ("step", "instant"))
    return f"decay vectors: {reaches} reaches, shares of a step within {step} of 2^-44, factors within {instant} of 2^-44"


if __name__ == "__main__":
    sys.exit(vectors.run(__doc__, make))
