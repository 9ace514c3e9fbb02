#!/usr/bin/env bash
# What the dearest records that were found cost the checker: for each kind of certificate the instructions of one more record, as
# valgrind counts them, and the records a second of user time of this machine. The certificates are made here; they are no
# proofs, and each check ends at its limit of records.
set -eu
top=$(cd "$(dirname "$(readlink -f "$0")")/.." && pwd)
work=$(mktemp -d)
trap 'rm -rf "$work"' EXIT
[ -n "${PG-}" ] || "$top/pg" --help >/dev/null # builds it where that is due
pg=${PG:-$top/crates/pg_cli/out/pg_cli}
: >"$work/games"
TIMEFORMAT=%U

# The header of version $3 for a diagram that the searcher settles at once.
header() {
  "$pg" search "$1" "$2" "$work/found" >/dev/null || [ $? -eq 1 ]
  printf 'PGC%s' "$3"
  head -c 37 "$work/found" | tail -c 33
}

# The text $2, $1 times.
times() { local i; for ((i = 0; i < $1; i++)); do printf '%s' "$2"; done; }

# The trees of the lengths 1 to $1 plies, cut by the record $2 (as printf reads it) after two plies.
cut_trees() {
  local one two i
  one="\\x01$(times 20 "$2")"
  two="\\x01$(times 20 "$one")"
  printf "$2$one"
  for ((i = 3; i <= $1; i++)); do printf "$two"; done
}

instructions() {
  valgrind --tool=callgrind --callgrind-out-file=/dev/null \
    "$pg" check "$1" "$2" "$work/certificate" "$work/games" --records "$3" 2>&1 >/dev/null | awk '/Collected/ { print $4 }'
}

# The cost of the records $4 to $5 of the certificate.
cost() {
  local few many seconds
  few=$(instructions "$2" "$3" "$4")
  many=$(instructions "$2" "$3" "$5")
  seconds=$( { time "$pg" check "$2" "$3" "$work/certificate" "$work/games" --records "$5" >/dev/null 2>"$work/said"; } 2>&1 || true)
  grep -q 'record limit reached' "$work/said" || { echo "$1: $(cat "$work/said")" >&2; exit 1; }
  echo "$few $many $(($5 - $4)) $5 $seconds" | awk -v label="$1" \
    '{ printf "%-52s %8.0f %10.2f M/s\n", label, ($2 - $1) / $3, $4 / ($5 + 0.000001) / 1e6 }'
}

men17=rnbqkbnr/pppppppp/8/8/8/P7/PPPPPPPP/RNBQKBNR
bishop=rnbqkbnr/pppppppp/8/8/8/3B4/PPPPPPPP/RN1QKBNR
doubled=rnbqkbnr/pppppppp/8/8/8/3P4/PPPP1PPP/RNBQKBNR
across=rnbqkbnr/PPPPPPPP/8/8/8/8/pppppppp/RNBQKBNR
full=nnnnknnn/pppppppp/rrrrrrrr/bbbbbbbb/BBBBBBBB/RRRRRRRR/PPPPPPPP/NNNNKNNN

echo 'kind                                                 instructions  records'
{ header "$men17" 64.0 1; cut_trees 60 '\x02\x01'; } >"$work/certificate"
cost 'cuts by captures' "$men17" 64.0 4000 20000
{ header "$bishop" 64.0 1; cut_trees 60 '\x02\x02'; } >"$work/certificate"
cost 'cuts by promotions' "$bishop" 64.0 4000 20000
{ header "$doubled" 64.0 1; cut_trees 60 '\x02\x03'; } >"$work/certificate"
cost 'cuts by pawn files' "$doubled" 64.0 4000 20000
{ header "$across" 15.0 1; cut_trees 30 '\x02\x04'; } >"$work/certificate"
cost 'cuts by travel' "$across" 15.0 2000 10000
{ header "$doubled" 64.0 1; head -c 2000000 /dev/zero | tr '\0' '\5'; } >"$work/certificate"
cost 'named nodes' "$doubled" 64.0 200000 1000000
{ header "$full" 64.0 1; head -c 2000000 /dev/zero | tr '\0' '\1'; } >"$work/certificate"
cost 'expansions, a diagram of 64 men, many plies left' "$full" 64.0 200000 1000000
{ header "$full" 2.0 1; head -c 2000000 /dev/zero | tr '\0' '\1'; } >"$work/certificate"
cost 'expansions, a diagram of 64 men, at 2.0' "$full" 2.0 2000 9700

# A diagram of 62 queens, a price list of 16 sources and 63 targets for each of the three ways: what is not the queen's or the king's
# square costs 1. And one of 40 pawns: each target pays 1, as each source does.
queens=kQQQQQQQ/QQQQQQQQ/QQQQQQQQ/QQQQQQQQ/QQQQQQQQ/QQQQQQQQ/QQQQQQQQ/QQQQKQQQ
list="$(times 16 '\x00')$(times 3 '\x01')\x00\x00$(times 58 '\x01')"
{ header "$queens" 5.0 2; cut_trees 10 "\x06\x04\x00\x03\x10\x3f$list$list$list"; } >"$work/certificate"
cost 'prices of travel, 16 men for 63, three ways' "$queens" 5.0 500 2500
pawns=k7/PPPPPPPP/PPPPPPPP/PPPPPPPP/PPPPPPPP/PPPPPPPP/8/K7
{ header "$pawns" 5.0 2; cut_trees 10 "\x06\x03\x00\x01\x08\x28$(times 48 '\x01')"; } >"$work/certificate"
cost 'prices of pawns, 8 for 40' "$pawns" 5.0 500 2500
