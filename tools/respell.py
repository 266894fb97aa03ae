#!/usr/bin/env python3
"""Brings the repository's own definitions, fields and lemmas to snake case, once, after the kit's port.py.

usage: python3 tools/respell.py [ROOT]

A name with a capital inside or with a dash becomes words joined by underscores. Types, modules, the library's names, names that
Rattle makes, functions and constants of src/ and variables of one letter and a capital keep their spelling. Where a lemma and a
definition would fall together, the lemma gets `_lem`. Text in quotes stays; in comments only what stands in backticks is turned.
"""

import os
import re
import sys

KIT = "/opt/rattle"
ROOT = sys.argv[1] if len(sys.argv) > 1 else "."
TOKEN = re.compile(r"[^\s(){}\[\];,.\"`]+")
DECLARED = re.compile(
    r"^[ \t]*(?:(?:pub|unfoldable|abbrev|private|data|record|axiom)\s+)*([^\s(){};,.\"]+)\s*(?::|\{|\(|where)", re.M
)
# The file of a function's proof, in a folder of its own; a module of specs/ or proofs/ may be called Answers too.
MADE = re.compile(r"/proofs/\S+/(Proof|Invariants|Answers)\.antt$")
SHORT = re.compile(r"^[a-z][A-Z]'?$")

# Facts and lemmas that a definition of the same words stands beside.
LEMMAS = """river-mean card-in-force bytes-from mean-read below-dam demand-sum oxygen-at-head demand-at exact-below-dam in-units
used-above plain-bytes figures-read forest-in-force mean-factors next-factors factors-by-sums demand-by-sums mean-by-sums
walked-sum means-of foot-figure oxygen-over exact-aerated no-bed in-range-true true-in-range stored_of""".split()
# Where such a word is a fact's, in files in which others of the words are fields.
LOCAL = {
    "report/proofs/Reported.antt": ["in-force", "record-bytes"],
    "report/proofs/MeanOxygen.antt": ["in-range"],
    "report/proofs/lines/Bringing.antt": ["head-bod", "head-oxygen"],
}
# Words of ours that the library has too, and the crates in which they are turned.
ALSO = {
    "at-end": "flows", "below-zero": "report text", "is-accepted": "river", "is-refused": "river", "cut-take": "river",
    "ends-here": "decay", "first-is": "decay report", "joined-none": "report", "map-take": "text", "not-below": "decay report", "rest-is": "decay",
}
# Names that begin with the paper's S and F keep that and the dash behind it.
SYMBOLS = {n: n[:2] + n[2:].replace("-", "_") for n in "S-composition-law F-composition-law S-zero-one S-at-zero S-tail-40".split()}
FIELDS = {"text/proofs/Bench.antt": ["river-mean"]}


def texts(root, *ends):
    for folder, dirs, files in os.walk(root):
        dirs[:] = sorted(d for d in dirs if d not in ("out", ".git", "port"))
        for f in sorted(files):
            if f.endswith(ends):
                yield os.path.join(folder, f)


def read(path):
    with open(path, encoding="utf-8") as f:
        return f.read()


def library():
    names = set()
    for p in texts(KIT, ".antt"):
        names.update(DECLARED.findall(re.sub(r"--.*", "", read(p))))
    return names


def imported(text):
    """The names that a file takes from the library."""
    for path, names in re.findall(r"use ([^\s{;]+)\.\{([^}]*)\}", text):
        if re.match(r"(mathlib|native|Prim|borrow|lib|denote|seplogic|mir|types|base|prog|sound|Rattle\.(std|core|io))\.", path):
            yield from (n.strip().split(" as ")[0] for n in names.split(","))


def wanted(word):
    if word.startswith("Rattle") or SHORT.match(word) or re.match(r"[A-Z]", word):
        return False
    return bool(re.search(r"[a-z0-9ᶠ'][A-Z]|\S-[a-zA-Z0-9]|[a-z][ℕℤ]", word))


def snake(word):
    word = re.sub(r"([a-z0-9ᶠ'])([A-Z])", r"\1_\2", word)
    word = re.sub(r"([a-z])([ℕℤ])", r"\1_\2", word)
    word = re.sub(r"(?<=\S)-(?=[a-zA-Z0-9])", "_", word)
    return re.sub(r"[A-Z]", lambda m: m.group(0).lower(), word)


def turn(name, words, text):
    """The words of a piece of code in their new spelling."""
    also = {w for w, crates in ALSO.items() if name.split("/")[0] in crates.split()}
    local, fields = LOCAL.get(name, []), FIELDS.get(name, [])

    def one(m):
        w = m.group(0)
        if w in SYMBOLS:
            return SYMBOLS[w]
        if w not in words and w not in also and w != "stored_of":
            return w
        behind_dot = m.start() > 0 and text[m.start() - 1] == "."
        if w == "stored_of":
            return w if behind_dot else "stored_of_lem"
        if not behind_dot and (w in local or (w in LEMMAS and w not in fields)):
            return snake(w) + "_lem"
        return snake(w)

    return TOKEN.sub(one, text)


def turned(name, words, text, comment):
    parts = re.split(r'("(?:[^"\\\n]|\\.)*"|%s[^\n]*)' % comment, text)
    for i, p in enumerate(parts):
        if i % 2 == 0:
            parts[i] = turn(name, words, p)
        elif p.startswith(comment):
            parts[i] = re.sub(r"`[^`\n]+`", lambda m: turn(name, words, m.group(0)), p)
    return "".join(parts)


def main():
    crates = os.path.join(ROOT, "crates")
    taken, words = library(), set()
    for p in texts(crates, ".antt", ".rt"):
        taken.update(imported(read(p)))
    for p in texts(crates, ".antt"):
        if not MADE.search(p):
            plain = re.sub(r'"[^"\n]*"', " ", re.sub(r"--.*", "", read(p)))
            words.update(w for w in TOKEN.findall(plain) if wanted(w) and w not in taken)
    for p in texts(crates, ".antt", ".rt"):
        text = read(p)
        new = turned(os.path.relpath(p, crates), words, text, "--" if p.endswith(".antt") else "//")
        if new != text:
            with open(p, "w", encoding="utf-8") as f:
                f.write(new)
    print(f"respell: {len(words)} names")


main()
