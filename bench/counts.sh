#!/usr/bin/env bash
# Counts games side by side with stockfish (its `go perft`), one thread each, one after the other: the initial array at 5
# and 6 plies, and two positions rich in moves of every kind at 4 and 5. Prints each count, the seconds
# of user time that it took, start of the program included, and the ratio: above 1 where stockfish took longer. Then the same
# in instructions, as valgrind counts them, the start taken off (a count of no ply, a perft of one), and the ratio: below 1 where
# stockfish takes more. Fails where two counts differ.
# STOCKFISH may name the program to compare with.
set -eu
top=$(cd "$(dirname "$(readlink -f "$0")")/.." && pwd)
stockfish=${STOCKFISH:-$(PATH="$PATH:/usr/games" command -v stockfish)}

seconds() {
  local TIMEFORMAT=%U
  { time "$@" 2>&3; } 3>&2 2>&1
}

stockfish_count() {
  printf 'position fen %s\ngo perft %s\nquit\n' "$1" "$2" | "$stockfish" | awk '/^Nodes searched/ { print $3 }'
}

compare() {
  local ours theirs
  ours=$(seconds "$top/pg" count "$1" "$2" | paste -sd' ')
  theirs=$(seconds stockfish_count "$1" "$2" | paste -sd' ')
  echo "$1 | $2 plies | pg $ours s | stockfish $theirs s |" "$(echo "$ours $theirs" | awk '{ printf "%.2f", $4 / ($2 > 0 ? $2 : 0.01) }')"
  [ "${ours%% *}" = "${theirs%% *}" ]
}

instructions() {
  valgrind --tool=callgrind --callgrind-out-file=/dev/null "$@" 2>&1 >/dev/null | awk '/Collected/ { print $4 }'
}

perft() {
  printf 'position fen %s\ngo perft %s\nquit\n' "$1" "$2" >"$work/perft"
  instructions "$stockfish" <"$work/perft"
}

weigh() {
  echo "$(instructions "$bench" count "$2" "$1")" "$(instructions "$bench" count 0 "$1")" "$(perft "$1" "$2")" "$(perft "$1" 1)" |
    awk -v label="$1 | $2 plies" '{ printf "%s | pg %.1f M | stockfish %.1f M | %.3f\n", label, ($1 - $2) / 1e6, ($3 - $4) / 1e6, ($1 - $2) / ($3 - $4) }'
}

array='rnbqkbnr/pppppppp/8/8/8/8/PPPPPPPP/RNBQKBNR w KQkq - 0 1'
many='r3k2r/p1ppqpb1/bn2pnp1/3PN3/1p2P3/2N2Q1p/PPPBBPPP/R3K2R w KQkq - 0 1'
few='8/2p5/3p4/KP5r/1R3p1k/8/4P1P1/8 w - - 0 1'

"$top/pg" --help >/dev/null # builds the program where that is due
compare "$array" 5
compare "$array" 6
compare "$many" 4
compare "$many" 5
compare "$few" 4
compare "$few" 5

bench="$top/crates/bench_rules/out/bench_rules"
(cd "$top/crates/bench_rules" && rt run >/dev/null 2>&1)
work=$(mktemp -d)
trap 'rm -rf "$work"' EXIT
weigh "$array" 5
weigh "$many" 4
weigh "$few" 5
