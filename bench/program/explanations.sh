#!/usr/bin/env bash
# What `pg why` says of the certificates of examples/: a line of each kind, as it is written here; of each certificate, that it is
# right; and in the other version, where it may stand in that, the same. Then of copies with a few bytes changed, in both versions where both may have
# such a record: the fault alone. Quiet where all is so; else prints each difference, and ends with status 1. PG may name the program.
. "$(dirname "$(readlink -f "$0")")/begin.sh"

# Explains the moves $2 by the certificate $3 of the example $1, whose last line is to say that it is right.
explain() {
  "$pg" why "$3" "$2" >"$work/said" 2>&1 &&
    [ "$(tail -n 1 "$work/said")" = 'the certificate is right' ] && return
  echo "$1, $2:" >&2
  sed 's/^/    /' "$work/said" >&2
  wrong=1
}

# Makes of the certificate $1 one of the other version; fails where there is none: it has prices, or references that
# version 1 refuses.
other_version() {
  case $(head -c 4 "$1") in
    PGC1) "$pg" upgrade "$1" "$work/other.pgc" >/dev/null || { echo "$1: not upgraded" >&2; wrong=1; return 1; } ;;
    PGC2)
      { printf PGC1; tail -c +5 "$1"; } >"$work/other.pgc"
      "$pg" why "$work/other.pgc" - >/dev/null 2>&1
      ;;
  esac
}

others=0
while IFS='|' read -r name moves wanted; do
  certificate=$top/examples/$name/certificate.pgc
  explain "$name" "$moves" "$certificate"
  [ "$(tail -n 2 "$work/said" | head -n 1)" = "$wanted" ] || {
    printf '%s, %s:\n    wanted: %s\n    said:   %s\n' "$name" "$moves" "$wanted" "$(tail -n 2 "$work/said" | head -n 1)" >&2
    wrong=1
  }
  cp "$work/said" "$work/first"
  other_version "$certificate" || continue
  others=$((others + 1))
  explain "$name" "$moves" "$work/other.pgc"
  diff "$work/first" "$work/said" >&2 || wrong=1
done <<'END'
schweig|-|at the start: 4 of 20 moves lead on; cut 16 by travel; 1 game below
schweig|Nc3 d6 Nd5 Nd7 a3|after 1. Nc3 d6 2. Nd5 Nd7 3. a3: excluded: white must capture 2 men and has 1 move left
schweig|a3|after 1. a3: excluded: no man of white's can come to be the pawn on a2 (travel)
castling|Na3|after 1. Na3: excluded: white needs 4 moves and has 3 (travel, castling king side)
castling|e4 g6 Ba6 Nxa6 Nf3 Nb8 O-O|after 1. e4 g6 2. Ba6 Nxa6 3. Nf3 Nb8 4. O-O: a solution
castling|e4 g6 Ba6 Nxa6 Nf3 Nb8 a3|after 1. e4 g6 2. Ba6 Nxa6 3. Nf3 Nb8 4. a3: does not end on the diagram
castling|e4 g6 Ba6 Nxa6 Nf3 Nb8|after 1. e4 g6 2. Ba6 Nxa6 3. Nf3 Nb8: 1 of 26 moves ends on the diagram
three-captures|Nf3 e5 a3|after 1. Nf3 e5 2. a3: excluded: white must capture 3 men and has 2 moves left
rooks-gone|a4 h5 a5 h4 a6 h3 axb7 hxg2 bxc8=Q|after 1. a4 h5 2. a5 h4 3. a6 h3 4. axb7 hxg2 5. bxc8=Q: excluded: white needs 7 pawns, 1 of them to promote, and has 6: 1 short
queens-abroad|c4 c5 Qa4 Qa5 Qxd7+|after 1. c4 c5 2. Qa4 Qa5 3. Qxd7+: excluded: black needs 8 pawns and has 7: 1 short
castling-long|d3 c6 Bf4 Qa5+ Nd2 Qxa2|after 1. d3 c6 2. Bf4 Qa5+ 3. Nd2 Qxa2: excluded: white needs 8 pawns and has 7: 1 short
knight-in-the-corner|e4 Nf6 f3 Nxe4 fxe4|after 1. e4 Nf6 2. f3 Nxe4 3. fxe4: excluded: white's pawns must change file 1 time, and white has no man to capture
roessler|h4 d5 h5 Nd7 h6 Nxh6|after 1. h4 d5 2. h5 Nd7 3. h6 Nxh6: excluded: black has captured 1 man too many
four-games|e4 a5|after 1. e4 a5: excluded: black has no man to capture, and black's pawns must change file 17 times at least, counted pair by pair: the pawn on b7 16, the pawn on a6 1
en-passant|e3|after 1. e3: excluded: white needs 5 moves and has 4 (travel)
castling-long|Nf3|after 1. Nf3: excluded: white needs 5 moves and has 4 (travel, castling queen side)
promotion|d3|after 1. d3: excluded: white has 4 moves left, and white's men need 5 moves at least, counted pair by pair: the queen on g8 5
king-abroad|e3 h5 d3|after 1. e3 h5 2. d3: as after 1. d3 h5 2. e3, below which no game ends on the diagram
king-abroad|e3 h5 d3 a6|after 1. e3 h5 2. d3: as after 1. d3 h5 2. e3, below which no game ends on the diagram; the line goes on
schweig|Na3 Na6 Nb1 Nb8|after 1. Na3 Na6 2. Nb1 Nb8: as at the start, below which no game ends on the diagram
after-the-mate|f3 e6 g4 Qh4|after 1. f3 e6 2. g4 Qh4#: no move is legal
after-the-mate|f3 e6 g4|after 1. f3 e6 2. g4: none of 30 moves leads on; cut 29 by travel; 1 played out; no game below
array|-|at the start: a solution
fools-mate|f3 e5 g4|after 1. f3 e5 2. g4: 1 of 30 moves ends on the diagram
seven-moves|-|at the start: 2 of 20 moves lead on; cut 18 by travel; 1 game below
queen-and-bishop|-|at the start: 8 of 20 moves lead on; cut 12 by travel; 2 games below
two-knights|-|at the start: 4 of 20 moves lead on; cut 8 by travel, 8 by journeys; 1 game below
two-knights|a3|after 1. a3: excluded: white has 14 moves left and needs 16 (journeys)
two-knights|h4|after 1. h4: excluded: white's men cannot come to their squares (journeys)
two-knights|a4 h5 a5 h4 a6 h3 axb7 hxg2 bxa8=N gxh1=N Nb6 Nf6|after 1. a4 h5 2. a5 h4 3. a6 h3 4. axb7 hxg2 5. bxa8=N gxh1=N 6. Nb6 Nf6: excluded: white has no plan: black captures on e2 or h2 alone (journeys)
bishop-on-d3|e3|after 1. e3: excluded: no man of black's can come to be the pawn on h6 (journeys)
bishop-on-d3|d4 d5|after 1. d4 d5: excluded: white has 13 moves left, 3 of them captures, and needs 11 quiet moves: black captures on 13 squares alone (journeys)
END

[ "$others" -ge 12 ] || { echo "only $others lines were explained by the other version" >&2; wrong=1; }

# Explains the start by the certificate in $work of the example $1, which is to be refused by the fault $2, with nothing said before.
refuse() {
  "$pg" why "$work/changed.pgc" - >"$work/said" 2>&1
  [ $? = 1 ] && [ "$(cat "$work/said")" = "pg: $2" ] && return
  printf '%s:\n    wanted: pg: %s\n' "$1" "$2" >&2
  sed 's/^/    /' "$work/said" >&2
  wrong=1
}

# Bytes in hexadecimal, of which 24x0204 are 24 times 0204.
spelled() {
  local part n
  for part in ${1//,/ }; do
    for ((n = 0; n < $([[ $part == *x* ]] && echo "${part%x*}" || echo 1); n++)); do printf %s "${part#*x}"; done
  done
}

# Copies the certificate of the example $1 with each change OFFSET:OLD=NEW of $2, the last one first: the bytes NEW stand in the place of OLD.
change() {
  local change offset old new
  cp "$top/examples/$1/certificate.pgc" "$work/changed.pgc"
  for change in $2; do
    offset=${change%%:*} old=${change#*:} new=$(spelled "${change#*=}")
    old=${old%%=*}
    [ "$(tail -c +$((offset + 1)) "$work/changed.pgc" | head -c $((${#old} / 2)) | od -An -v -tx1 | tr -d ' \n')" = "$old" ] || {
      echo "$1: at $offset does not stand $old" >&2
      wrong=1
    }
    head -c "$offset" "$work/changed.pgc" >"$work/next.pgc"
    printf "$(sed 's/../\\x&/g' <<<"$new")" >>"$work/next.pgc"
    tail -c +$((offset + ${#old} / 2 + 1)) "$work/changed.pgc" >>"$work/next.pgc"
    mv "$work/next.pgc" "$work/changed.pgc"
  done
}

while IFS='|' read -r name changes fault; do
  change "$name" "$changes"
  refuse "$name" "$fault"
done <<'END'
after-the-mate|46:04=01|cut 1 does not exclude
after-the-mate|46:04=01 3:32=31|cut 1 does not exclude
after-the-mate|239:00=63|reference to no closed node
after-the-mate|239:00=63 3:32=31|reference to no closed node
after-the-mate|239:00=01|reference to another position
after-the-mate|239:00=01 3:32=31|reference to another position
four-games|358:01=0300000000 159:01=05|reference to a node with a game
four-games|358:01=0300000000 159:01=05 72:060301010807001000000000000011100000000000=01,29x0204,01,20x0204 3:32=31|reference to a node with a game
END

for problem in "$top"/examples/*/problem; do
  name=$(basename "$(dirname "$problem")")
  explain "$name" - "$top/examples/$name/certificate.pgc"
done
exit "$wrong"
