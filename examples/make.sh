#!/usr/bin/env bash
# Makes each river file NAME.river from its text NAME.txt, and beside it NAME.report and, for a river that is not refused,
# NAME.mean as the programs print them.
#   examples/make.sh           makes them anew
#   examples/make.sh --check   changes nothing; says which are out of date
# tests/example_vectors.py makes of them what the gate prints.
set -eu
cd "$(dirname -- "$(readlink -f -- "${BASH_SOURCE[0]}")")"

fail() {
    echo "make.sh: $1" >&2
    exit 1
}

case "$#${1:-}" in
    0) check=no ;;
    1--check) check=yes ;;
    *) echo "usage: examples/make.sh [--check]" >&2; exit 2 ;;
esac
command -v python3 >/dev/null || fail "python3 is not on the PATH"
program=$(../scripts/build print)
mean_program=$(../scripts/build print_mean)
scratch=$(mktemp -d)
trap 'rm -rf "$scratch"' EXIT

# Keeps the new file in place of the old one, or compares the two.
settle() {
    if [ "$check" = yes ]; then
        cmp -s "$1" "$2" || fail "examples/$2 is out of date"
    else
        cp "$1" "$2"
    fi
}

python3 chain.py > "$scratch/text"
settle "$scratch/text" chain.txt
python3 allegheny.py cards > "$scratch/text"
settle "$scratch/text" allegheny.txt
count=0
for text in *.txt refused/*.txt; do
    name=${text%.txt}
    if ! ../tools/river make "$text" "$scratch/river" 2> "$scratch/said"; then
        cat "$scratch/said" >&2
        fail "examples/$text makes no river"
    fi
    "$program" < "$scratch/river" > "$scratch/report"
    if [ "${text#refused/}" = "$text" ] && grep '^refused' "$scratch/report" >&2; then
        fail "examples/$text makes a river that is refused"
    fi
    settle "$scratch/river" "$name.river"
    settle "$scratch/report" "$name.report"
    if [ "${text#refused/}" = "$text" ]; then
        "$mean_program" < "$scratch/river" > "$scratch/mean"
        settle "$scratch/mean" "$name.mean"
    fi
    count=$((count + 1))
done

# The note on the Allegheny holds the comparison's lines.
python3 allegheny.py compare allegheny.report allegheny.mean > "$scratch/comparison"
while IFS= read -r line; do
    grep -qxF -- "$line" ALLEGHENY.md ||
        fail "ALLEGHENY.md lacks a line of 'allegheny.py compare allegheny.report allegheny.mean': $line"
done < "$scratch/comparison"
echo "$count rivers, their reports and their means are up to date"
