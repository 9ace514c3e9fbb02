#!/usr/bin/env bash
# What the program's work costs in instructions, as valgrind counts them: the same for the same program and input, whatever
# else the machine is doing. The first rows are whole runs, start of the program included, and what one node costs a search; the
# others are what one more record costs the checker, from two runs of bench_checks. Last come the counts beside a peer
# (counts.sh).
set -eu
top=$(cd "$(dirname "$(readlink -f "$0")")/.." && pwd)
work=$(mktemp -d)
trap 'rm -rf "$work"' EXIT

instructions() {
  valgrind --tool=callgrind --callgrind-out-file=/dev/null "$@" 2>&1 >/dev/null | awk '/Collected/ { print $4 }'
}

run() {
  local label=$1
  shift
  instructions "$@" | awk -v label="$label" '{ printf "%-60s %8.1f M\n", label, $1 / 1e6 }'
}

bench="$top/crates/bench_checks/out/bench_checks"
(cd "$top/crates/bench_checks" && rt run >/dev/null 2>&1)
counted() { "$bench" "$1" "$2" | sed 's/.*: //'; }
record() {
  local few many records
  few=$(instructions "$bench" "$2" 1)
  many=$(instructions "$bench" "$2" 3)
  records=$(($(counted "$2" 3) - $(counted "$2" 1)))
  echo "$few $many $records" | awk -v label="$1" '{ printf "%-60s %8.0f\n", label, ($2 - $1) / $3 }'
}

"$top/pg" --help >/dev/null # builds the program where that is due
pg="$top/crates/pg_cli/out/pg_cli"
schweig=r1bqkbnr/ppp2ppp/3p4/8/8/8/PPPPPPPP/R1BQKBNR
nine=2bqr1k1/2pNppbp/1p5p/7n/1r1P4/8/P1P1PPPP/RNB1KBNR
twelve=4r1k1/2p1ppbp/1p5p/2N2b1n/2rP4/q3P3/P1P1BPPP/RNB1K1NR
long=2bqr1k1/2p1ppbp/1pp4p/7n/r2P3P/8/P1P1PPP1/RNB1KBNR
array='rnbqkbnr/pppppppp/8/8/8/8/PPPPPPPP/RNBQKBNR w KQkq - 0 1'
many='r3k2r/p1ppqpb1/bn2pnp1/3PN3/1p2P3/2N2Q1p/PPPBBPPP/R3K2R w KQkq - 0 1'
run 'check of examples/schweig' "$pg" check "$schweig" 4.0 "$top/examples/schweig/certificate.pgc" "$top/examples/schweig/games"
run 'search of the same, its check included' "$pg" search "$schweig" 4.0 "$work/schweig.pgc"
run 'check of what that wrote, version 2' "$pg" check "$schweig" 4.0 "$work/schweig.pgc" "$top/examples/schweig/games"
run 'check of examples/nine-moves, version 2' "$pg" check "$nine" 9.0 "$top/examples/nine-moves/certificate.pgc" "$top/examples/nine-moves/games"
run 'check of examples/twelve-moves, version 2' "$pg" check "$twelve" 12.0 "$top/examples/twelve-moves/certificate.pgc" "$top/examples/twelve-moves/games"
run "search of ${long%%/*}.. 9.5, its check included" "$pg" search "$long" 9.5 "$work/long.pgc" --nodes 2000000
"$pg" search "$long" 9.5 "$work/long.pgc" --nodes 2000000 | sed '1,3d;$d' >"$work/games"
both=$(instructions "$pg" search "$long" 9.5 "$work/again.pgc" --nodes 2000000)
check=$(instructions "$pg" check "$long" 9.5 "$work/long.pgc" "$work/games")
start=$(instructions "$pg" --version)
echo "$both $check $start" | awk '{ printf "%-60s %8.0f\n", "a node of that search, its check taken off", ($1 - $2 + $3) / 1131833 }'
run 'count of the array, 4 plies' "$pg" count "$array" 4
run "count of ${many%% *}, 3 plies" "$pg" count "$many" 3
record 'a record 01 on a diagram of 64 men, 2.0' full
record 'a record of the same, with references' references
record 'a record 01 of the queen recaptures' expansions
record 'the dearest node with one ply left: 218 moves, 4 squares off' near

echo
"$top/bench/counts.sh"
