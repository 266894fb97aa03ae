#!/usr/bin/env python3
"""Makes stdin and stdout of the crate print_examples, which prints the report and the means of every example river.

    tests/example_vectors.py --check | --write

Its cases are the river files of examples/ and examples/refused/, and its output is the reports and means stored beside them. A refused river has no
stored means; what is due there is the reference's refusal of the means.
"""

import glob
import os
import sys

import reference
import vectors

CRATE = "print_examples"


def rivers(*folders):
    """The paths of the river files in a folder of the examples, without their ending."""
    return sorted(path[:-len(".river")] for path in glob.glob(os.path.join(vectors.ROOT, "examples", *folders, "*.river")))


def means_due(path):
    """The means of an example: those stored, or the refusal."""
    if os.path.exists(path + ".mean"):
        return reference.content(path + ".mean").decode()
    answer = reference.answer(reference.accept_mean, reference.content(path + ".river"))
    if not isinstance(answer, reference.Refused):
        raise vectors.Failed(f"{path}.mean is missing")
    return answer.line() + "\n"


def make(write):
    paths = rivers() + rivers("refused")
    output = "".join(reference.content(path + ".report").decode() + means_due(path) for path in paths)
    vectors.settle_both(CRATE, [reference.content(path + ".river") for path in paths], output, write)
    return f"example vectors: {len(paths)} rivers are up to date"


if __name__ == "__main__":
    sys.exit(vectors.run(__doc__, make))
