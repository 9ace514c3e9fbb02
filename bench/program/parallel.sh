#!/usr/bin/env bash
# What docs/GUIDE.md says of many problems on many processors: `pg judge` under GNU parallel, a problem a process, with one folder for
# all certificates. 40 problems are judged so in three orders, by four processes, of which two are killed at work. Then no certificate
# is lost or torn: each that stands there is right, and the same command goes on from there; and the table that it prints is that of one
# process, but for what says by what each was found. Without `parallel` nothing is tried, which is told in a line `not tried: `. Quiet
# where all is so; else prints each difference, and ends with status 1. PG may name the program.
command -v parallel >/dev/null || { echo 'not tried: bench/program/parallel.sh, for want of GNU parallel'; exit 0; }
. "$(dirname "$(readlink -f "$0")")/begin.sh"
cd "$work" || exit 1
export HOME=$work PARALLEL_HOME=$work/parallel pg
mkdir "$PARALLEL_HOME" pids && touch "$PARALLEL_HOME/will-cite"

fail() {
  { echo "$1"; shift; [ $# = 0 ] || sed 's/^/    /' "$@"; } >&2
  wrong=1
}

# The verdict, and what else a row says that does not depend on how it was found.
essence() { cut -f 1-4,6 "$@"; }

# The examples that have a problem, and of the sound problems of which a search is done at once as many as make it 40.
for folder in "$top"/examples/*/; do
  [ ! -e "$folder/problem" ] || echo "$(basename "$folder") $(tr '\n' ' ' <"$folder/problem")"
done >problems
grep -v '^#' "$top/bench/sound-problems" | awk '{ print "sound-" NR, $2, $3 }' | head -n $((40 - $(wc -l <problems))) >>problems
[ "$(wc -l <problems)" = 40 ] && [ "$(cut -d ' ' -f 1 problems | sort -u | wc -l)" = 40 ] || fail 'not 40 problems' problems
"$pg" judge problems --nodes 100000 >calm 2>error
[ -z "$(cat error)" ] || fail 'one process finds lines that are bad' error
! grep -q 'not settled' calm || fail 'one process leaves a problem open' calm

# Judges the problems in the order of the file $1, a problem a process, with certificates in the folder $2, and prints their rows in
# that order. Each process writes its number down, by its place.
by_four() {
  parallel -k -j 4 'printf "%s\n" {} >pids/{#}.problem; echo $$ >pids/{#}; exec "$pg" judge pids/{#}.problem --nodes 100000 --certificates '"$2" <"$1"
}

# Kills the process at work on the problem with the place $1, as soon as it has written down its number.
kill_at() {
  for _ in {1..2000}; do
    [ -s "pids/$1" ] && { kill -KILL "$(cat "pids/$1")" 2>/dev/null; return; }
    sleep 0.01
  done
  fail "no process was at work on problem $1"
}

for order in 1 2 3; do
  rm -rf folder pids && mkdir pids
  shuf --random-source=<(yes "$order") problems >ordered
  by_four ordered folder >torn 2>/dev/null &
  run=$!
  kill_at $((order + 1))
  kill_at $((order + 12))
  wait "$run"
  for file in folder/*.pgc; do
    [ -e "$file" ] || continue
    "$pg" answer "$file" >answer 2>error || [ $? = 1 ] && [ ! -s error ] || fail "order $order: $file is torn" error
  done
  by_four ordered folder >table 2>error
  [ ! -s error ] || fail "order $order: the second run finds fault" error
  diff <(sort calm | essence) <(sort table | essence) >difference || fail "order $order: other rows" difference
  diff <(cut -d ' ' -f 1 ordered) <(cut -f 1 table) >difference || fail "order $order: rows out of order" difference
  settled=$(grep -cE $'\t(sound|cooked|no game)\t' table)
  [ "$(find folder -name '[!.]*.pgc' | wc -l)" = "$settled" ] || fail "order $order: a certificate is lost" table
done
exit "$wrong"
