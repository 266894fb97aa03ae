#!/usr/bin/env bash
# Times the proved entry for reports against three plain C programs that compute the report in double precision, and the one
# for means against a fourth, on the same files, all built for release. It needs the toolchain, a C compiler (CC, or else cc)
# and Python.
set -eu
cd "$(dirname -- "$(readlink -f -- "${BASH_SOURCE[0]}")")"

read -ra cc <<< "${CC:-cc}"    # CC may have options after the compiler's name
for tool in "${cc[0]}" python3; do
    command -v "$tool" >/dev/null || { echo "benchmark: $tool is not on the PATH" >&2; exit 2; }
done
archive=$(../scripts/build archive)
scratch=$(mktemp -d)
trap 'rm -rf "$scratch"' EXIT
"${cc[@]}" -std=c11 -O3 -Wall -Wextra -I../include bench.c plain.c "$archive" -lm -o "$scratch/bench"

# The first reaches of the chain, as rivers of their own: how the time grows.
rivers=()
for count in 1 2 4 8 16 32 64; do
    name=$scratch/chain-$count
    grep -v '^#' ../examples/chain.txt | head -n "$count" | sed '$ s/^[0-9]* /0 /' > "$name.txt"
    ../tools/river make "$name.txt" "$name.river"
    rivers+=("$name.river")
done
# The chain with more at the end of each line, and perhaps a line before them, as a river of its own: what a sludge bed, what ammonia and what rate
# factors cost.
variant() {
    { [ $# -lt 3 ] || echo "$3"; grep -v '^#' ../examples/chain.txt | sed "s/\$/ $2/"; } > "$scratch/$1.txt"
    ../tools/river make "$scratch/$1.txt" "$scratch/$1.river"
}
variant chain-beds "sludge 1500"
variant chain-ammonia "ammonia 300 2000 0"
variant chain-ammonia-beds "sludge 1500 ammonia 300 2000 0"
variant chain-factors "" "factors 1047 1024"
"$scratch/bench" ../examples/town.river ../examples/chain.river "$scratch"/chain-{beds,ammonia,ammonia-beds,factors}.river "${rivers[@]}"
cat <<'END'

proved       xylandreo_report
exp          plain C in doubles: exp() twice at each instant, three times where ammonia is nitrified
stepped      plain C in doubles: stepped from instant to instant by multiplication
closed       plain C in doubles: the closed formula for the critical time, halving where ammonia is nitrified; oxygen at that time, not the
             lowest of 1,025 values
             Times are those of the fastest of 201 batches each that take turns; (medians) are ratios of the median batches.
checks       reading and flow check alone (calls that are refused with 12), part of the times; the plain programs share theirs
ns a step    the rest of the proved time over 1,024 steps a reach: head, step shares, instants, record
difference   largest distance of a concentration from that of the proved report, in units of 0.000001 mg/L; the run
             stops where programs differ in the status of a reach
of instants  the same of the critical instant, in 1024ths of the travel time
the means    xylandreo_mean, against xylandreo_report and against plain C in doubles by the integrals of the formulas, without a loop
apart        largest distance of a mean from the proved one, in units of 0.000001 mg/L
chain-beds   the chain with a sludge bed at each reach; chain-ammonia, with ammonia at each; chain-ammonia-beds, with both; chain-factors, with
             rate factors alone; chain-N, its first N reaches with none of these
END
