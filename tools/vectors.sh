#!/usr/bin/env bash
# Makes the fixed lists that the tests replay, questions in stdin and their expected answer lines in stdout: of crates/answers the groups below, in this order,
# and of crates/chain_answers those of chains, sets, arcs, texts, rigid chains, poses that are tried, joined chains, refused stretches, windows of two, days, rows, and rows by windows with boxes in parts. Each group's expected values come from outside the libraries:
#   numbers                                        hardware float arithmetic   tools/number_vectors.rs
#   angles                                         exact fractions             tools/angle_vectors.py
#   matrices, boxes, zeros, moves, their queries   the original Rust, and for covers a second implementation beside it   oracle/ (which says where it looks for pbrt-rust's sources)
#   chains, sets of boxes                          the same, move by move and box by box
#   arcs, arc cosines with their counts            the oracle's whole numbers
#   move files written and read                    a second implementation of the layout, in oracle/
#   rigid chains                                   a second implementation, in oracle/; of the original's their coefficients alone, with the identity for S
#   poses that are tried                           chains with that pose changed, in oracle/
#   joined chains                                  chains of all poses, in oracle/
#   refused stretches                              every run built, the shortest first, in oracle/
#   windows of two chains                          a second implementation, in oracle/
#   days of booms                                  a second implementation, tick by tick
#   rows that a boom reaches                       a second implementation, in oracle/
#   rows by windows, boxes in parts                a second implementation, in oracle/
set -eu
cd "$(dirname "$0")/.."
made=$(mktemp -d)
trap 'rm -rf "$made"' EXIT
rustc --edition 2021 -O tools/number_vectors.rs -o "$made/number_vectors"
for group in "$made/number_vectors" "python3 tools/angle_vectors.py"; do
    $group >>"$made/stdin"
    $group --answers >>"$made/stdout"
done
cargo build --quiet --release --offline --manifest-path oracle/Cargo.toml --target-dir "$made/oracle"
vectors=$made/oracle/release/vectors
{
    "$vectors" matrices 1500 1
    "$vectors" boxes 500 1
    "$vectors" moves 930 1
    "$vectors" motion 600 1
    "$vectors" bounds 100 1
    "$vectors" covers 470 1
} | awk '
    # The parts of a move that comes again are asked for once.
    $1 == "move" { asked = $0 }
    $0 == "parts" && seen[asked]++ { next }
    { print }
' >"$made/questions"
cat "$made/questions" >>"$made/stdin"
"$made/oracle/release/answers" <"$made/questions" >>"$made/stdout"
cp "$made/stdin" "$made/stdout" crates/answers/
mkdir -p crates/chain_answers
{
    "$vectors" chains 150 1
    "$vectors" sets 60 1
    "$vectors" arcs 300 1
    "$vectors" texts 40 1
    "$vectors" rigid 60 1
    "$vectors" trials 40 1
    "$vectors" joins 20 1
    # Every eleventh case: most have many poses, and differ by a place.
    "$vectors" stretches 60 1 | awk '/^#/ { k++ } k % 11 == 9'
    "$vectors" windows 40 1
    "$vectors" days 150 1
    "$vectors" rows 100 1
    # Every third question of rows by windows: they are long, and neighbours differ by a depth or a row.
    "$vectors" reach 40 1 | awk '!/^reach / || asked++ % 3 == 0'
} >crates/chain_answers/stdin
"$made/oracle/release/chain_answers" <crates/chain_answers/stdin >crates/chain_answers/stdout
wc -l crates/answers/stdin crates/answers/stdout crates/chain_answers/stdin crates/chain_answers/stdout
