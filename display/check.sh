#!/usr/bin/env bash
# Checks the desk's programs from outside, on the example rivers and on files that no text gives:
#   the promises of the entries for reports and for means about their buffers; the display's lines and means against the
#   printing programs; the display's tables against its lines and means; the collection's verdicts; exit statuses.
# It builds what is missing and needs a C compiler (CC, or else cc). The exit status is 0 where all is right, 1 where
# something is wrong, 2 where it cannot check.
set -u
unset CDPATH
cd "$(dirname -- "$(readlink -f -- "${BASH_SOURCE[0]}")")/../examples" || exit 2

display=$(../scripts/build display) || exit 2
collection=$(../scripts/build collection) || exit 2
print=$(../scripts/build print) || exit 2
print_mean=$(../scripts/build print_mean) || exit 2
scratch=$(mktemp -d) || exit 2
trap 'rm -rf "$scratch"' EXIT
passed=0

wrong() {
    echo "check.sh: $1" >&2
    exit 1
}

# Runs a command that is to end with a status, and keeps what it says: expect STATUS COMMAND...
expect() {
    "${@:2}" > "$scratch/said" 2> "$scratch/complaint"
    local status=$?
    if [ "$status" != "$1" ]; then
        cat "$scratch/complaint" >&2
        wrong "'${*:2}' ended with status $status where $1 is due"
    fi
    passed=$((passed + 1))
}

# What the last command said must have a line like this: says PATTERN
says() {
    grep -q -- "$1" "$scratch/said" || { cat "$scratch/said" >&2; wrong "there is no line like '$1'"; }
    passed=$((passed + 1))
}

# Files that no text gives, or only with a warning: cut short, with a wrong mark, with a byte too many, too long, out of range.
make_odd_files() {
    head -c 3 town.river > "$1/header-cut.river"
    head -c 100 town.river > "$1/reach-cut.river"
    head -c -1 town.river > "$1/dam-cut.river"
    { printf 'XV'; tail -c +3 town.river; } > "$1/header-mark.river"
    { head -c 30 town.river; printf 'RX'; tail -c +33 town.river; } > "$1/reach-mark.river"
    head -c 35 two-take.river > "$1/take-cut.river"
    { head -c 36 two-take.river; tail -c +31 two-take.river; } > "$1/take-twice.river"
    { head -c 32 two-take.river; printf '\377\377\377\377'; tail -c +37 two-take.river; } > "$1/take-too-large.river"
    head -c 67 two-pressure.river > "$1/pressure-cut.river"
    { head -c 66 two-pressure.river; printf '\377\377'; } > "$1/pressure-too-large.river"
    { head -c 30 two.river; printf 'BP\002\274BP\002\274'; tail -c +31 two.river; } > "$1/pressure-twice.river"
    { head -c 30 two-take.river; printf 'BP\002\274'; tail -c +31 two-take.river; } > "$1/pressure-before-take.river"
    head -c 59 two-sludge.river > "$1/sludge-cut.river"
    { head -c 30 two.river; printf 'SD\005\334SD\005\334'; tail -c +31 two.river; } > "$1/sludge-twice.river"
    { cat two-sludge.river; tail -c +65 two-pressure.river; } > "$1/sludge-before-pressure.river"
    head -c 45 two-ammonia.river > "$1/ammonia-cut.river"
    { head -c 46 two-ammonia.river; tail -c +31 two-ammonia.river; } > "$1/ammonia-twice.river"
    { head -c 46 two-ammonia.river; printf 'SD\005\334'; tail -c +47 two-ammonia.river; } > "$1/ammonia-before-sludge.river"
    { head -c 32 two-ammonia.river; printf '\377\377'; tail -c +35 two-ammonia.river; } > "$1/ammonia-too-fast.river"
    { head -c 45 two-ammonia.river; printf '\001'; tail -c +47 two-ammonia.river; } > "$1/ammonia-not-zero.river"
    head -c 9 two-factors.river > "$1/factors-cut.river"
    { head -c 10 two-factors.river; tail -c +5 two-factors.river; } > "$1/factors-twice.river"
    { head -c 30 two.river; printf 'TH\004\027\004\000'; tail -c +31 two.river; } > "$1/factors-after-reach.river"
    { head -c 8 two-factors.river; printf '\377\377'; tail -c +11 two-factors.river; } > "$1/factors-too-large.river"
    { cat town.river; echo; } > "$1/line-end-more.river"
    { cat chain.river; head -c 5000000 /dev/zero; } > "$1/long.river"
    cp town.txt "$1/text.river"
    { head -c 4 town.river; printf 'RE\001'; tail -c +8 town.river; } > "$1/outlet-itself.river"
    { head -c 4 two.river; printf 'RE\000'; tail -c +8 two.river; } > "$1/outlet-none.river"
    { head -c 30 two.river; printf 'RE\002'; tail -c +34 two.river; } > "$1/outlet-of-last.river"
    : > "$1/empty.river"
}

# A number of so many bytes, high byte first: number BYTES VALUE
number() {
    local i
    for ((i = $1 - 1; i >= 0; i--)); do
        printf "\\x$(printf %02x $(($2 >> 8 * i & 255)))"
    done
}

# The card of a reach: card OUTLET TEMPERATURE K1 K2 VOLUME INFLOW INFLOW_BOD INFLOW_OXYGEN LOAD
card() {
    local width
    printf RE
    for width in 1 1 2 2 4 4 4 2 4; do
        number "$width" "$1"
        shift
    done
}

# Oxygen is used up in reach 1, and so above 3 and 4, whatever the brook 2 brings and the air makes up for.
make_used_up() {
    printf RV
    number 2 4
    card 3 22 400 300 1500000 5000 3000 8000 250000
    card 3 15 200 500 100000 1000 1000 9000 0
    card 4 22 400 1500 1000000 1000 1000 9000 0
    card 0 22 400 2000 1000000 0 0 0 0
}

# The display's lines are those of a printing program, and the status tells a refusal: check_lines PROGRAM OPTION FILE
check_lines() {
    "$1" < "$3" > "$scratch/printed"
    local status=0
    ! grep -q '^refused' "$scratch/printed" || status=1
    expect "$status" "$display" "$2" "$3"
    cmp -s "$scratch/said" "$scratch/printed" || wrong "$3: display $2 and $1 differ"
}

# mg/L with three decimals, rounded down, from units.
mg='
    function mg(units,   size) {
        size = units < 0 ? int((-units + 999) / 1000) : int(units / 1000)
        return sprintf("%s%d.%03d", units < 0 ? "-" : "", int(size / 1000), size % 1000)
    }'

# The rows that a table should have, worked out from the lines and the means, with a mark where the units are below those of
# the limit, and words where oxygen is used up: rows_from_lines MEANS LIMIT. The tenth number of a line is the status, and lines
# of twelve end with nitrogenous BOD; a river without volume has no means.
rows_from_lines() {
    awk -v means="$1" -v limit="$2" "$mg"'
        function oxygen(units) { return mg(units) (units < limit ? "*" : "") }
        BEGIN { while ((getline line < means) > 0) { split(line, word, " "); mean[word[1]] = word[2] } }
        { flow[NR] = $3; if ($3 >= 10000) cubic = 1
          before[NR] = $1 " " $2
          told = oxygen($6) " " oxygen($8) " " oxygen($9) ($1 in mean ? " " oxygen(mean[$1]) : "") " " \
                 sprintf("%.1f", int($7 * 1000 / 1024 + 0.5) / 10)
          after[NR] = mg($4) " " mg($5) " " ($10 == 2 ? "used up above" : told) (NF == 12 ? " " mg($11) " " mg($12) : "") \
                      ($10 == 1 ? " used up" : "") }
        END { for (i = 1; i <= NR; i++) print before[i], cubic ? sprintf("%.3f", flow[i] / 1000) : flow[i], after[i] }'
}

# What the summary should say of the river's mean, worked out from the means on standard input.
summary_from_means() {
    awk "$mg"'$1 == "river" { print "; mean by volume " mg($2) " mg/L" }'
}

# Holds a table to the lines and the means: check_table FILE LIMIT UNITS
check_table() {
    "$display" --means "$1" > "$scratch/means"
    "$display" --lines "$1" | rows_from_lines "$scratch/means" "$3" > "$scratch/due"
    expect 0 "$display" --limit "$2" "$1"
    sed -n 's/  */ /g; s/^ \([0-9]\)/\1/p' "$scratch/said" > "$scratch/rows"
    diff "$scratch/rows" "$scratch/due" >&2 || wrong "$1: the table does not have the figures of the lines and the means"
    grep -o '; mean by volume [^;]*' "$scratch/said" > "$scratch/summary"
    summary_from_means < "$scratch/means" | diff - "$scratch/summary" >&2 || wrong "$1: the summary has another mean"
}

mkdir "$scratch/odd" && make_odd_files "$scratch/odd" || exit 2
mkdir "$scratch/used" && make_used_up > "$scratch/used/plain.river" || exit 2
{ make_used_up; printf NT; number 2 300; number 4 0; number 4 5000; number 4 0; } > "$scratch/used/ammonia.river"
for river in *.river refused/*.river "$scratch"/odd/*.river "$scratch"/used/*.river; do
    expect 0 "$display" --check "$river"
    check_lines "$print" --lines "$river"
    check_lines "$print_mean" --means "$river"
done
for river in refused/*.river; do
    number=${river#refused/}
    expect 1 "$display" "$river"
    says ": refused ${number%%-*} reach "
done
for river in *.river "$scratch"/used/*.river; do
    check_table "$river" 5.0 5000000
    check_table "$river" 8.4 8400000
done

# The limit counts in units: 6.5 mg/L is not below 6.5, and is below 6.500001.
expect 0 "$display" --limit 6.5 two.river
says '; 0 of 2 reaches below 6.5 mg/L$'
expect 0 "$display" --limit 6.500001 two.river
says ' 6.500\* .*0.0$'
says '; 1 of 2 reaches below 6.500001 mg/L, marked \*$'
for limit in "" "5,0" 5. .5 -1 5e0 1234 5.1234567 " 5"; do
    expect 2 "$display" --limit "$limit" two.river
done
expect 2 "$display"
expect 2 "$display" --limit 5.0
expect 2 "$display" --check
expect 2 "$display" --means
expect 2 "$display" --means missing.river
expect 2 "$display" missing.river
expect 2 "$display" refused
# A river whose mean is below zero, where oxygen is used up, and one that has none.
expect 0 "$display" overload.river
says '; mean by volume -[0-9.]* mg/L; '
for river in plain ammonia; do
    expect 0 "$display" --limit 8.0 "$scratch/used/$river.river"
    says '^used up: oxygen falls below zero in the reach; used up above: in a reach above it'
    says '^ *1 .* 8.000 .*\*.*  used up$'
    says '^ *3 .* [0-9.]*  used up above'
    says '^ *4 .* [0-9.]*  used up above'
    says '; 1 of 4 reaches below 8.0 mg/L, marked \*; oxygen used up in 1 reach and above 2$'
done
expect 0 "$display" --lines "$scratch/used/plain.river"
says '^1 1 5000 .* 1$'
says '^2 1 1000 .* 0$'
says '^3 2 7000 .* 0 0 0 0 2$'
says '^4 3 7000 .* 0 0 0 0 2$'
expect 0 "$display" --lines "$scratch/used/ammonia.river"
says '^3 2 7000 .* 0 0 0 0 2 0 0$'
says '^4 3 7000 .* 0 0 0 0 2 714285 [1-9][0-9]*$'
expect 0 "$display" --means "$scratch/used/plain.river"
says '^3 0$'
says '^4 0$'
expect 0 "$display" two.river
! grep -q used "$scratch/said" || wrong "a river with oxygen all the way has it used up in its table"
expect 1 "$display" --means no-volume.river
says '^refused 16 reach 0$'
expect 0 "$display" no-volume.river
! grep -q mean "$scratch/said" || wrong "a river without volume has a mean in its table"
expect 1 "$display" two.river refused/4-too-warm.river town.river
says 'reach 2: a field is out of range: temperature is 36, not from 0 to 35 degrees C'
expect 1 "$display" "$scratch"/odd/take-*.river refused/13-canal.river
says 'take-cut.river: refused 1 reach 1: fewer bytes'
says 'take-twice.river: refused 2 reach 2: the mark'
says 'take-too-large.river: refused 4 reach 1: a field is out of range: take is 4294967295, not from 0 to 100000000 L/s$'
says 'refused 13 reach 1: the take is not below the flow at the head$'
expect 1 "$display" "$scratch"/odd/pressure-*.river refused/4-low-pressure.river
says 'pressure-cut.river: refused 1 reach 2: fewer bytes'
says 'pressure-too-large.river: refused 4 reach 2: a field is out of range: pressure is 65535, not from 500 to 800 mm of mercury$'
says 'pressure-twice.river: refused 2 reach 2: the mark'
says 'pressure-before-take.river: refused 2 reach 2: the mark'
says '4-low-pressure.river: refused 4 reach 1: a field is out of range: pressure is 499, not from 500 to 800 mm of mercury$'
expect 1 "$display" "$scratch"/odd/sludge-*.river refused/14-thick-bed.river
says 'sludge-cut.river: refused 1 reach 2: fewer bytes'
says 'sludge-twice.river: refused 2 reach 2: the mark'
says 'sludge-before-pressure.river: refused 6 reach 0: bytes remain'
says '14-thick-bed.river: refused 14 reach 1: the reach is too long for its sludge bed, which uses more than 5 mg/L, and must be split$'
expect 1 "$display" "$scratch"/odd/ammonia-*.river refused/10-both-demands.river refused/11-fast-nitrifiers.river
says 'ammonia-cut.river: refused 1 reach 1: fewer bytes'
says 'ammonia-twice.river: refused 2 reach 2: the mark'
says 'ammonia-before-sludge.river: refused 2 reach 2: the mark'
says 'ammonia-too-fast.river: refused 4 reach 1: a field is out of range: kn is 65535, not from 0 to 20000 thousandths per day$'
says 'ammonia-not-zero.river: refused 4 reach 1: a field is out of range: last number is 1, not 0$'
says '10-both-demands.river: refused 10 reach 1: all BOD of both kinds'
says '11-fast-nitrifiers.river: refused 11 reach 1: the reach is too long for its rates'
expect 1 "$display" "$scratch"/odd/factors-*.river refused/4-factor.river refused/15-warm.river
says 'factors-cut.river: refused 1 reach 0: fewer bytes'
says 'factors-twice.river: refused 2 reach 1: the mark'
says 'factors-after-reach.river: refused 2 reach 2: the mark'
says 'factors-too-large.river: refused 4 reach 0: a field is out of range: aeration factor is 65535, not from 1000 to 1100 thousandths$'
says '4-factor.river: refused 4 reach 0: a field is out of range: decay factor is 1101, not from 1000 to 1100 thousandths$'
says '15-warm.river: refused 15 reach 1: a rate, corrected to the temperature of the reach, is above 20 per day$'
expect 1 "$display" refused/5-uphill.river "$scratch"/odd/outlet-*.river "$scratch/odd/text.river"
says 'refused 5 reach 2: the outlet is wrong: outlet is 2, not 3$'
says 'refused 5 reach 1: the outlet is wrong: outlet is 1, not from 2 to 5$'
says 'refused 5 reach 1: the outlet is wrong: outlet is 0, not 2$'
says 'refused 5 reach 2: the outlet is wrong: outlet is 2, not 0$'
says 'refused 2 reach 0: .*; this looks like a text; tools/river make TEXT OUT makes a river file of it$'

expect 0 "$collection" .
expect 1 "$collection" refused
expect 1 "$collection" "$scratch/odd"
says '^text.river .*; this looks like a text; tools/river make'
says '^31 rivers: 0 accepted, 31 refused; rewritten: 0 the same, 0 differ; reports beside them: 0 the same, 0 differ$'
# Rate factors of 1,000, a pressure of 760, a bed that demands nothing and ammonia of zeros, written out, are other files with the figures of
# none; ammonia adds its two to each line.
mkdir "$scratch/standard" "$scratch/changed" "$scratch/none"
{ head -c 66 two-pressure.river; printf '\002\370'; } > "$scratch/standard/two.river"
cp two-dam.report "$scratch/standard/two.report"
{ head -c 58 two-sludge.river; printf '\000\000'; } > "$scratch/standard/bare.river"
cp two.report "$scratch/standard/bare.report"
{ cat two.river; printf 'NT'; head -c 14 /dev/zero; } > "$scratch/standard/zeros.river"
sed 's/$/ 0 0/' two.report > "$scratch/standard/zeros.report"
{ head -c 4 town.river; printf 'TH\003\350\003\350'; tail -c +5 town.river; } > "$scratch/standard/town.river"
cp town.report "$scratch/standard/town.report"
expect 0 "$collection" "$scratch/standard"
says '^4 rivers: 4 accepted, 0 refused; rewritten: 4 the same, 0 differ; reports beside them: 4 the same, 0 differ$'
cp two.river two.report "$scratch/changed"
echo >> "$scratch/changed/two.report"
expect 1 "$collection" "$scratch/changed"
says '^two.river  accepted  *same  *6.500  *2  DIFFERS$'
# Old reports have no status. Their figures of oxygen are passed over where they are not told now, and nothing else is.
without_status() {
    sed -E 's/^(([^ ]+ ){8}[^ ]+) [^ ]+/\1/'
}
# Figures of oxygen from before, where the status is 2.
with_old_oxygen() {
    awk '$10 == 2 { $6 = -9761265; $7 = 17; $8 = -9761266; $9 = 5991960 } { print }'
}
# A folder with a river that uses up oxygen and its report, of which a command makes another: store FOLDER RIVER COMMAND...
store() {
    mkdir -p "$scratch/$1" && cp "$scratch/used/$2.river" "$scratch/$1" &&
        "$print" < "$scratch/used/$2.river" | "${@:3}" > "$scratch/$1/$2.report" || exit 2
}
store agrees plain without_status
store agrees ammonia without_status
cp town.river "$scratch/agrees" && without_status < town.report > "$scratch/agrees/town.report"
cp two.river two.report "$scratch/agrees"
expect 0 "$collection" "$scratch/agrees"
says '^ammonia.river  accepted  *same .* 1  same, old$'
says '^plain.river  *accepted  *same .* 1  same, old$'
says '^two.river  *accepted  *same .* 2  same$'
says '; reports beside them: 1 the same, 0 differ; old reports, without the status: 3 the same, 0 differ$'
for river in plain ammonia; do
    "$print" < "$scratch/used/$river.river" | with_old_oxygen | without_status > "$scratch/agrees/$river.report"
done
expect 0 "$collection" "$scratch/agrees"
says '; reports beside them: 1 the same, 0 differ; old reports, without the status: 3 the same, 0 differ$'
# Edits of a report, each of which makes it another: a figure of oxygen at status 0, the instant at status 1, BOD at status 2, a status;
# of old reports also nitrogenous BOD at status 2, a line too few, a line too many, a number too many, no number where any may stand.
changes=('$1 == 2 { $9++ }' '$1 == 1 { $7++ }' '$1 == 3 { $5++ }' '$1 == 1 { $10 = 0 }' '$1 == 2 { $10 = 2 }' '$1 == 4 { $10 = 0 }')
old_changes=("${changes[@]:0:3}" '$1 == 3 && NF == 9 { $4++ } $1 == 3 && NF == 11 { $11++ }' '$1 == 4 { next }' '$1 == 4 { print }' '$1 == 4 { $9 = $9 " 0" }' '$1 == 4 { $6 = "x" }')
for river in plain ammonia; do
    for change in "${changes[@]}"; do
        store changed-new "$river" awk "$change { print }"
        expect 1 "$collection" "$scratch/changed-new"
        says "^$river.river .* DIFFERS\$"
    done
    for change in "${old_changes[@]}"; do
        store changed-old "$river" without_status
        awk "$change { print }" "$scratch/changed-old/$river.report" > "$scratch/report" && mv "$scratch/report" "$scratch/changed-old/$river.report"
        expect 1 "$collection" "$scratch/changed-old"
        says "^$river.river .* DIFFERS, old\$"
    done
done
says '; reports beside them: 0 the same, 0 differ; old reports, without the status: 0 the same, 2 differ$'
# A report of no line, and two in which the first line alone has a status, or lacks it.
for change in 'false { print }' 'NR > 1 { NF = 9 } { print }'; do
    store changed-new plain awk "$change"
    expect 1 "$collection" "$scratch/changed-new"
    says "^plain.river .* DIFFERS\$"
done
store changed-old plain awk 'NR == 1 { NF = 9 } { print }'
expect 1 "$collection" "$scratch/changed-old"
says "^plain.river .* DIFFERS, old\$"
expect 2 "$collection" "$scratch/none"
expect 2 "$collection" two.river
expect 2 "$collection"
echo "display/check.sh: $passed checks passed"
