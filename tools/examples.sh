#!/usr/bin/env bash
# Runs the programs on the files of examples/ and holds what they print to what is expected: a `main` has no contract, and these runs hold what it reads and prints.
#   `cover`     on each move file of examples/ and examples/refused/: its .expected. `cover_rigid` on the same: the .rigid of
#               a file of examples/, and for one of examples/refused/ its .rigid, or its .expected where it has none. That the two kinds are two motions: examples/slight_scale.txt.
#   `rewrite`   on the same: the one form of a file of examples/ is the file with its pads, +0 where it has none, that of examples/rewritten/NAME.*.txt is that of
#               examples/NAME.txt, byte for byte, and the refused ones are refused with the same numbers.
#   `stretch`   on the same: it accepts the files of examples/, and for one of examples/refused/ prints its .stretch, or its .expected where it has none.
#   `day`       on each day file of examples/days/ and examples/days/refused/: its .expected.
#   Each also   on a file that comes in two parts, on one of as many bytes as a file may have, on that with a line feed more, and on one of a byte more.
#   A program   whose input can't be read prints nothing, one whose output can't be written ends; both say so on standard error.
# Exit status 1 where one differs.
#   tools/examples.sh                     compares; the five programs must be built, each in its crate's out/, as `rt ci` leaves them and `rt run` in crates/NAME builds one
#   tools/examples.sh --expect PROGRAM    writes the .expected and .rigid files of examples/ by what PROGRAM answers at depth 10: the oracle's `chain_answers`, so that
#                                         they come from outside the libraries; those of examples/refused/ are the documents' numbers
set -u
cd "$(dirname "$0")/.." || exit 2
# A move file as two questions: the chain, its poses with the bottom rows that the file leaves out and their pads, of +0 where it has none, and its cover.
questions() { # FILE KIND
    awk -v kind="$2" '
        NR == 1 { next }
        $1 == "x0" { getline; print "chain 0 " kind poses; print "ccover 0 10 " $0; exit }
        { pad = NF == 14 ? $14 : "00000000"; NF = 13; poses = poses " " $0 " 00000000 00000000 00000000 3f800000 " pad }
    ' "$1"
}
# Their answers as the text that the program prints; a refused chain leaves the cover without an answer.
printed() {
    awk '$1 == "refused" { print "refused"; print $2; done = 1; exit } NR == 2 && $1 == "ok" { print "x0 y0 z0 x1 y1 z1"; print substr($0, 4); done = 1 } END { exit !done }'
}
if [ $# -eq 2 ] && [ "$1" = --expect ]; then
    for file in examples/*.txt; do
        for kind in plain rigid; do
            text=$(questions "$file" "$kind" | "$2" | printed) || { echo "$file: $2 gives no answer"; exit 1; }
            ending=$kind
            [ "$kind" = rigid ] || ending=expected
            echo "$text" >"${file%.txt}.$ending"
        done
    done
    exit
fi
[ $# -eq 0 ] || { sed -n '2,14s/^# \{0,1\}//p' "$0"; exit 2; }
# A file of thirteen names with its pads of +0.
with_pads() { awk 'NR == 1 { old = NF == 13; print $0 (old ? " pad" : ""); next } $1 == "x0" { old = 0 } { print $0 (old ? " 00000000" : "") }' "$1"; }
made=$(mktemp) input=$(mktemp) eleven=$(mktemp) form=$(mktemp)
trap 'rm -f "$made" "$input" "$eleven" "$form"' EXIT
printf 'refused\n11\n' >"$eleven"
count=0 status=0
# Where the proved program NAME stands.
program() { echo "crates/$1/out/$1"; }
# Runs a program on a file and compares.
try() { # PROGRAM NAME FILE EXPECTED [WORDS FOR IT]
    if "$(program "$1")" <"$3" >"$made" 2>&1 && [ -s "$4" ] && cmp -s "$4" "$made"; then
        count=$((count + 1))
    else
        echo "EXAMPLE $2: $(program "$1") does not print what ${5:-$4} has:"
        diff "$4" "$made"
        status=1
    fi
}
# examples/swing.txt made as long as that by spaces between its first two words, and examples/days/five_swings.txt by zeros before its first run length.
swing_of() { # BYTES
    printf 'time%*s' "$(($1 - $(wc -c <examples/swing.txt)))" ''
    tail -c +5 examples/swing.txt
}
five_swings_of() { # BYTES
    head -c 78 examples/days/five_swings.txt
    printf '%0*d' "$(($1 - $(wc -c <examples/days/five_swings.txt)))" 0
    tail -c +79 examples/days/five_swings.txt
}
# Tries what a program reads: to the end, however the bytes come, and of a longer file enough to refuse it.
try_reading() { # PROGRAM FILE EXPECTED [WORDS FOR IT]
    local name=${2##*/}
    try "$1" "$name in two parts" <(head -c 100 "$2"; sleep 0.3; tail -c +101 "$2") "$3" "${4:-}"
    "${name%.txt}_of" 65536 >"$input"
    try "$1" "$name of 65,536 bytes" "$input" "$3" "${4:-}"
    echo >>"$input"
    try "$1" "$name of 65,536 bytes and a line feed more" "$input" "$eleven" "refusal 11"
    "${name%.txt}_of" 65537 >"$input"
    try "$1" "$name of 65,537 bytes" "$input" "$eleven" "refusal 11"
}
# A folder can't be read, which is no empty file; a full or a closed output can't be written. The program then ends with status 1.
refuses_streams() { # PROGRAM
    local said ended
    said=$("$(program "$1")" <examples 2>&1 >"$made") && ended=0 || ended=$?
    told "$1" "$ended" "$said" "standard input can't be read" "an input that can't be read"
    [ ! -s "$made" ] || { echo "EXAMPLE: $(program "$1") prints something of an input that can't be read"; status=1; }
    said=$("$(program "$1")" <examples/swing.txt 2>&1 >/dev/full) && ended=0 || ended=$?
    told "$1" "$ended" "$said" "standard output can't be written" "a full output"
    said=$("$(program "$1")" <examples/swing.txt 2>&1 >&-) && ended=0 || ended=$?
    told "$1" "$ended" "$said" "standard output can't be written" "a closed output"
}
told() { # PROGRAM STATUS SAID EXPECTED OF
    if [ "$2" -eq 1 ] && [ "$3" = "$4" ]; then count=$((count + 1)); else echo "EXAMPLE: $(program "$1") says '$3' of $5, with status $2"; status=1; fi
}
try_cover() {
    for file in examples/*.txt examples/refused/*.txt; do
        try cover "$file" "$file" "${file%.txt}.expected"
    done
    try_reading cover examples/swing.txt examples/swing.expected
}
try_cover_rigid() {
    for file in examples/*.txt; do
        try cover_rigid "$file" "$file" "${file%.txt}.rigid"
    done
    for file in examples/refused/*.txt; do
        expected=${file%.txt}.rigid
        [ -f "$expected" ] || expected=${file%.txt}.expected
        try cover_rigid "$file" "$file" "$expected"
    done
    try_reading cover_rigid examples/swing.txt examples/swing.rigid
}
try_rewrite() {
    for file in examples/*.txt; do
        with_pads "$file" >"$form"
        try rewrite "$file" "$file" "$form" "$file with its pads"
    done
    for file in examples/rewritten/*.txt; do
        name=${file##*/}
        with_pads "examples/${name%%.*}.txt" >"$form"
        try rewrite "$file" "$file" "$form" "examples/${name%%.*}.txt with its pads"
    done
    for file in examples/refused/*.txt; do
        try rewrite "$file" "$file" "${file%.txt}.expected"
    done
    with_pads examples/swing.txt >"$form"
    try_reading rewrite examples/swing.txt "$form" "swing.txt with its pads"
}
try_stretch() {
    echo accepted >"$form"
    for file in examples/*.txt; do
        try stretch "$file" "$file" "$form" "\`accepted\`"
    done
    for file in examples/refused/*.txt; do
        expected=${file%.txt}.stretch
        [ -f "$expected" ] || expected=${file%.txt}.expected
        try stretch "$file" "$file" "$expected"
    done
    try_reading stretch examples/swing.txt "$form" "\`accepted\`"
}
try_day() {
    for file in examples/days/*.txt examples/days/refused/*.txt; do
        try day "$file" "$file" "${file%.txt}.expected"
    done
    try_reading day examples/days/five_swings.txt examples/days/five_swings.expected
}
for name_of in cover cover_rigid rewrite stretch day; do
    if [ ! -x "$(program "$name_of")" ]; then
        echo "EXAMPLE: $(program "$name_of") is missing: \`rt run\` in crates/$name_of proves and builds it"
        status=1
        continue
    fi
    "try_$name_of"
    refuses_streams "$name_of"
done 2>&1
[ "$status" -ne 0 ] || echo "examples: $count runs on move files and day files, each with the expected output"
exit "$status"
