#!/usr/bin/env bash
# What `pg cooks` finds beside a list, and what it does not. Known games lead it to another game or to a shorter one, and so does the first game
# of each example that has two or more; beside the game of each sound example it meets none with at most three foreign moves, and says what stopped it.
# A game that is found is tested by `pg games`: with those of the list where it has their length, else alone. Limits are of nodes, which are the same on each
# machine. Quiet where all is so; else prints what was wrong, and ends with status 1. PG may name the program.
. "$(dirname "$(readlink -f "$0")")/begin.sh"
none='none@(: the search went through all games| with at most @(1 foreign move|[023] foreign moves): @(node limit reached|no more were allowed))'

# Says what is wrong with the run for the problem $1.
say() {
  { echo "$1: $2"; sed 's/^/    /' "$work/report" "$work/error"; } >&2
  wrong=1
}

# Looks for a game to the diagram $2 and the length $3 beside the game $4, with the words behind it. $1 is like the line that is to stand
# below that game: it says that another was found, or a shorter one, or none.
look() {
  local wanted=$1 problem="$2 $3" diagram=$2 length=$3 status said games=2 lines=8
  echo "$4" >"$work/list"
  "$pg" cooks "$diagram" "$length" "$work/list" "${@:5}" >"$work/report" 2>"$work/error"
  status=$?
  said=$(sed -n 5p "$work/report")
  [[ $said == $wanted ]] || { say "$problem" "not '$wanted'"; return; }
  case $said in
    none*) [ "$status $(wc -l <"$work/report")" = '0 5' ] || say "$problem" "status $status, or another line"; return ;;
    'a game of '*)
      : >"$work/list"
      games=1 lines=7 said=${said//[^0-9]/}
      length=$((said / 2)).$((said % 2 * 5))
      ;;
  esac
  [ "$status $(wc -l <"$work/report") $(tail -n 1 "$work/report")" = "1 $lines not sound" ] ||
    say "$problem" "status $status, or not 'not sound'"
  [ "$lines" = 7 ] || [[ $(sed -n 7p "$work/report") == 'it parts from the first at move '* ]] ||
    say "$problem" "not where the games part"
  sed -n 6p "$work/report" >>"$work/list"
  "$pg" games "$diagram" "$length" "$work/list" >"$work/report" 2>"$work/error"
  [ "$(sed -n 3p "$work/report")" = "games $games" ] || say "$problem" "what was found is no such game"
}

while IFS='|' read -r wanted diagram length game; do
  look "$wanted" "$diagram" "$length" "$game" --nodes 1000 --foreign 0
done <<'END'
another game|5bnr/4p1pq/4Qpkr/7p/7P/4P3/PPPP1PP1/RNB1KBNR|9.5|1. e3 a5 2. Qh5 Ra6 3. Qxa5 h5 4. h4 Rah6 5. Qxc7 f6 6. Qxd7+ Kf7 7. Qxb7 Qd3 8. Qxb8 Qh7 9. Qxc8 Kg6 10. Qe6
another game|8/8/8/2p2p1p/2P2P1k/4pP1P/4P1KP/5BNR|18.0|1. c4 d5 2. Qb3 Bh3 3. gxh3 f5 4. Qxb7 Kf7 5. Qxa7 Kg6 6. f3 c5 7. Qxe7 Rxa2 8. Kf2 Rxb2 9. Qxg7+ Kh5 10. Qxg8 Rxb1 11. Rxb1 Kh4 12. Qxh8 h5 13. Qh6 Bxh6 14. Rxb8 Be3+ 15. dxe3 Qxb8+ 16. Kg2 Qf4 17. exf4 d4 18. Be3 dxe3
another game|1n1Rkb1r/p4ppp/4q3/4p1B1/4P3/8/PPP2PPP/2K5|16.5|1. e4 e5 2. Nf3 d6 3. d4 Bg4 4. dxe5 Bxf3 5. Qxf3 dxe5 6. Bc4 Nf6 7. Qb3 Qe7 8. Nc3 c6 9. Bg5 b5 10. Nxb5 cxb5 11. Bxb5+ Nbd7 12. O-O-O Rd8 13. Rxd7 Rxd7 14. Rd1 Qe6 15. Bxd7+ Nxd7 16. Qb8+ Nxb8 17. Rd8#
a game of 6 plies|rnbqkbnr/pp3ppp/2p1p3/8/4P3/8/PPPP1PPP/RNBQK1NR|4.0|1. e4 e6 2. Bb5 Ke7 3. Bxd7 c6 4. Be8 Kxe8
a game of 3 plies|rnbqkbnr/pppp1ppp/8/4p3/4P3/8/PPPP1PPP/RNBQKBNR|2.0|1. e3 e6 2. e4 e5
END

for folder in "$top"/examples/*/; do
  [ -f "$folder/problem" ] || continue
  mapfile -t problem <"$folder/problem"
  game=$(sed -n 4p "$folder/report")
  case $(tail -n 1 "$folder/report") in
    cooked) look 'another game' "${problem[@]}" "$game" --nodes 100000 ;;
    sound) look "$none" "${problem[@]}" "$game" --nodes 100000 --foreign 3 ;;
  esac
done
exit "$wrong"
