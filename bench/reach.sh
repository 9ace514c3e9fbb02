#!/usr/bin/env bash
# What a judge gets of `pg judge --journeys --minutes 1`: of 60 problems near sound ones, drawn by `bench/near-sound.py SEED COUNT`, with the author's game
# and without; of problems by chance, 30 of each of five lengths, where a game ends whose moves are drawn by `bench_checks chance SEED MOVES COUNT [SLACK]`,
# mostly of men who have moved before; and of such with little to spare, 10 of each of three lengths: with SLACK the bound by journeys excludes all games to
# each position of the game that are shorter by more plies. Prints a row for each kind of problem: how many have which verdict, and the seconds that all took
# by the clock, as the minute is, with the share of a core. The rows of judge go to standard error. It measures, and holds only that an author's game solves
# its problem.
# `bench/reach.sh KIND..` does these kinds alone: near, bare (without the game), 8 to 20, tight-15 to tight-25. PG may name the program, BENCH_CHECKS the built bench_checks.
set -u
top=$(cd "$(dirname "$(readlink -f "$0")")/.." && pwd)
work=$(mktemp -d) || exit 1
trap 'rm -rf "$work"' EXIT
[ -n "${PG-}" ] || "$top/pg" --help >/dev/null || { echo "the program does not run" >&2; exit 1; } # builds it where that is due
pg=${PG:-$top/crates/pg_cli/out/pg_cli}
[ -n "${BENCH_CHECKS-}" ] || (cd "$top/crates/bench_checks" && rt run >/dev/null 2>&1)
bench=${BENCH_CHECKS:-$top/crates/bench_checks/out/bench_checks}
TIMEFORMAT='%0R, %P %%'
wrong=0

# Prints the problems of a kind, drawn by the words behind it, as judge reads them.
problems() {
  case $1 in
    near) "$top/bench/near-sound.py" "${@:2}" ;;
    bare) "$top/bench/near-sound.py" "${@:2}" | cut -d ' ' -f 1-3 ;;
    *) "$bench" chance "${@:2}" | awk -v name="chance-$2-$3-" '{ print name NR, $0 }' ;;
  esac
}

echo '| Problems | of | sound | cooked | no game | not sound | not settled | seconds, share of a core |'
echo '|---|---|---|---|---|---|---|---|'
while read -r kind drawn; do
  [ $# -eq 0 ] || [[ " $* " == *" $kind "* ]] || continue
  # shellcheck disable=SC2086
  problems "$kind" $drawn >"$work/problems" || exit 1
  { time "$pg" judge "$work/problems" --journeys --minutes 1 >"$work/rows" 2>"$work/error"; } 2>"$work/time"
  cat "$work/rows" "$work/error" >&2
  [ "$kind" != near ] || [ "$(cut -f 4 "$work/rows" | sort -u)" = solves ] || { echo "$kind: a game does not solve its problem" >&2; wrong=1; }
  [ "$(wc -l <"$work/rows")" = "$(wc -l <"$work/problems")" ] || { echo "$kind: a problem has no row" >&2; wrong=1; }
  row="| $kind: $drawn | $(wc -l <"$work/problems") |"
  for verdict in sound cooked 'no game' 'not sound' 'not settled'; do
    row+=" $(cut -f 3 "$work/rows" | grep -cx "$verdict") |"
  done
  echo "$row $(cat "$work/time") |"
done <<'END'
near 1 60
bare 1 60
8 8 8 30
10 10 10 30
12 12 12 30
15 15 15 30
20 20 20 30
tight-15 15 15 10 1
tight-20 20 20 10 1
tight-25 25 25 10 1
END
exit "$wrong"
