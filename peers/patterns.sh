#!/usr/bin/env bash
# Reads the English patterns of TeX, cut out of the hyphen.tex of the machine's own TeX, with the built program ntx_bench.
#
#     peers/patterns.sh [PROGRAM]       PROGRAM is crates/ntx_bench/out/ntx_bench if it is not given
#
# They have to be read, a broken one among them has to be refused, and a word has to take about as long under all of them as under the first
# five hundred. It is skipped, with 0, if hyphen.tex or the program is missing.
cd "$(dirname "$0")/.." || exit 1

program=$(realpath "${1:-crates/ntx_bench/out/ntx_bench}")
file=$(kpsewhich hyphen.tex 2>/dev/null)
[ -f "$file" ] || file=/usr/share/texlive/texmf-dist/tex/generic/hyphen/hyphen.tex
if [ ! -f "$file" ]; then
    echo "peers/patterns.sh: skipped, since there is no hyphen.tex"
    exit 0
fi
if [ ! -x "$program" ]; then
    echo "peers/patterns.sh: there is no program $program: run rt ci, or rt run in crates/ntx_bench"
    exit 1
fi
room=$(mktemp -d) || exit 1
trap 'rm -rf "$room"' EXIT
failed=0

complain() {
    echo "peers/patterns.sh: $1"
    failed=1
}

# What stands between \patterns{ and }, without comments, a pattern a line.
sed 's/%.*//' "$file" | tr '\n' ' ' | sed 's/.*\\patterns{//; s/}.*//' | tr -s ' \t' '\n\n' | sed '/^$/d' >"$room/all"
head -n 500 "$room/all" >"$room/some"
{ cat "$room/some"; echo 'a11b'; } >"$room/broken"

count=$(wc -l <"$room/all")
[ "$count" = 4447 ] || complain "$count patterns were cut out, and not 4447"

# The milliseconds of the fastest of five runs over 100000 words, in `best`.
time_of() {
    local before took
    best=
    for _ in 1 2 3 4 5; do
        before=$(date +%s%N)
        "$program" hyphens-of 100000 "$1" || complain "$1 is refused"
        took=$((($(date +%s%N) - before) / 1000000))
        if [ -z "$best" ] || [ "$took" -lt "$best" ]; then
            best=$took
        fi
    done
}

"$program" hyphens-of 1 "$room/all" || complain "the patterns are refused"
"$program" hyphens-of 1 "$room/broken"
[ $? = 1 ] || complain "a broken pattern is not refused"
time_of "$room/some"
some=$best
time_of "$room/all"
# Reading the larger file, and longer ways through it, are allowed for.
[ "$best" -le $((4 * some + 200)) ] || complain "100000 words take $best ms under all patterns, and $some ms under 500"
exit $failed
