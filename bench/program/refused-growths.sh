#!/usr/bin/env bash
# Refuses each growth of memory in turn, in each command of the built program: the first one that it asks for, then the
# second, and so on until a run meets none that is refused. Each command is seen to do what it should with ample memory
# first. Each run that met a refused growth is to end with status 3, with `pg: out of memory` alone on standard error,
# nothing on standard output, and no file written or left. Where the answer can do without a growth, as `may` says then,
# the run may also end just as with ample memory; and `judge`, with no file written, with a row that says `not settled`
# for want of memory, or of a problem with two games what it can show without. The refusals are made by a library of a
# dozen lines that stands before malloc and realloc, for which a C compiler is wanted (CC, or cc).
#
# Then each test of the crates below with `refused_growths` in its name is run in the same way: it is to pass, with each
# growth refused too. Where a crate's tests are not built, or not since a change of its sources, they are proved and
# built first, which takes minutes. Quiet where all is so; else prints what was wrong, and ends with status 1. PG may
# name the program.
. "$(dirname "$(readlink -f "$0")")/begin.sh"

cat >"$work/refuse.c" <<'END'
#include <errno.h>
#include <stddef.h>
#include <stdlib.h>
#include <unistd.h>
void *__libc_malloc(size_t);
void *__libc_realloc(void *, size_t);
static long left = -1;
static int refused(void) {
  if (left < 0) { const char *n = getenv("REFUSED"); left = n ? atol(n) : 0; }
  if (left == 0 || --left > 0) return 0;
  if (write(9, "refused\n", 8) < 0) _exit(99);
  errno = ENOMEM;
  return 1;
}
void *malloc(size_t n) { return refused() ? NULL : __libc_malloc(n); }
void *realloc(void *p, size_t n) { return refused() ? NULL : __libc_realloc(p, n); }
END
"${CC:-cc}" -shared -fPIC -O1 -o "$work/refuse.so" "$work/refuse.c" || { echo "no C compiler" >&2; exit 1; }

say() {
  { echo "growth $1 of: pg $2: $3"; sed 's/^/    /' "$work/run-out" "$work/run-err"; } >&2
  wrong=1
}

# Runs `pg` with the words behind these in the folder $work/$1, a copy of the files, and refuses the growth number $2,
# none where that is 0.
run() {
  rm -rf "${work:?}/$1"
  cp -r "$work/files" "$work/$1"
  (cd "$work/$1" && LD_PRELOAD="$work/refuse.so" REFUSED=$2 "$pg" "${@:3}" \
    </dev/null >"$work/$1-out" 2>"$work/$1-err" 9>"$work/met")
}

# Whether the run wrote no file.
is_untouched() {
  find "$work/run" -type d -empty -delete && diff -r "$work/files" "$work/run" >/dev/null
}

# Whether the run with status $1 was refused, and wrote nothing.
is_refused() {
  [ "$1" = 3 ] && [ "$(cat "$work/run-err")" = 'pg: out of memory' ] && [ ! -s "$work/run-out" ] && is_untouched
}

# Whether the run with status $1 did what the one with ample memory did, which had status $2.
is_ample() {
  [ "$1" = "$2" ] && cmp -s "$work/run-out" "$work/ample-out" && cmp -s "$work/run-err" "$work/ample-err" &&
    diff -r "$work/ample" "$work/run" >/dev/null
}

# Whether the run with status $1 has one row, with the verdict $2 and a last column like $3, and wrote no file.
has_row() {
  [ "$1" = 1 ] && [ ! -s "$work/run-err" ] && [ "$(cut -f 3 "$work/run-out")" = "$2" ] &&
    [[ $(cut -f 6 "$work/run-out") == $3 ]] && is_untouched
}

# Whether a run with status $1, of a command whose status with ample memory is $2, ended as it may.
is_right() {
  is_refused "$1" && return
  [[ $may == *ample* ]] && is_ample "$1" "$2" && return
  [[ $may == *unsettled* ]] && has_row "$1" 'not settled' '*; out of memory' && return
  [[ $may == *cooked* ]] && { has_row "$1" cooked '2 games: *' || has_row "$1" 'not sound' '2 games met: *'; }
}

# Runs `pg` with the words behind these, refusing each growth in turn. It is to need more than $1 growths, and with
# ample memory to end with status $2, and to say the line $3 first on standard error, or nothing there and to print
# something. `may` names how a run may end that is not refused: ample, unsettled, cooked.
may=
refuse() {
  local least=$1 wanted=$2 said=$3 number=0 status
  shift 3
  run ample 0 "$@"
  status=$?
  cp "$work/ample-out" "$work/run-out" && cp "$work/ample-err" "$work/run-err"
  [ "$status" = "$wanted" ] && [ "$(head -n 1 "$work/ample-err")" = "$said" ] &&
    [ -n "$said$(head -c 1 "$work/ample-out")" ] ||
    { say none "$*" "status $status with ample memory, or something else is said"; return; }
  while :; do
    number=$((number + 1))
    run run "$number" "$@"
    status=$?
    [ -s "$work/met" ] || break
    is_right "$status" "$wanted" || say "$number" "$*" "status $status, or something is written"
    [ "$number" -lt 5000 ] || { say "$number" "$*" 'no end'; return; }
  done
  [ "$number" -gt "$least" ] || say "$number" "$*" 'only so many growths'
  is_ample "$status" "$wanted" || say "$number" "$*" 'something else where none is refused'
}

array=rnbqkbnr/pppppppp/8/8/8/8/PPPPPPPP/RNBQKBNR
open=rnbqkbnr/pppp1ppp/8/4p3/4P3/8/PPPP1PPP/RNBQKBNR
orders=rnbqkbnr/pppp1ppp/4p3/8/8/3PP3/PPP2PPP/RNBQKBNR
mkdir "$work/files" "$work/files"/{proofs,standing,refused,tariffs}
cd "$work/files" || exit 1
"$pg" search "$open" 1.0 good.pgc >report || exit 1
"$pg" search "$orders" 1.5 orders.pgc >/dev/null
"$pg" search "$open" 1.0 tolls.pgc --tolls >/dev/null || exit 1
echo UEdDMQAkUzZCEREREQAAAAAAAAAAAAAAAAAAAACZmZmZrNu+yg== | base64 -d >old.pgc
cp "$top/examples/king-abroad/certificate.pgc" references.pgc
echo '1. e4 e5' >games
cp games games.pgn
echo '1. d3 e6 2. e3' >order
: >empty

# A list of one problem, which is sound or cooked, with the author's game and without; and a folder with no certificate
# of it, a right one, one that is refused, one of another problem, or a right one with tariffs.
echo "game $open 1.0" >one
echo "game $open 1.0 1. e4 e5" >author
echo "game $orders 1.5" >two
echo "game $orders 1.5 1. d3 e6 2. e3" >cook
echo ". $open 1.0" >bad
: >proofs/kept
cp good.pgc standing/game.pgc
cp report refused/game.pgc
cp tolls.pgc tariffs/game.pgc

refuse 20 0 '' --help
refuse 20 0 '' --version
may=ample refuse 20 2 "error: unrecognized subcommand 'no-command'" no-command
refuse 40 0 '' show "$open"
refuse 40 0 '' show "$open" 1.0
refuse 40 2 'pg: wrong number of fields' show 'no diagram'
refuse 40 0 '' moves '8/2p5/3p4/KP5r/1R3p1k/8/4P1P1/8 w - - 0 1'
refuse 40 2 'pg: wrong number of fields' moves 'no position'
refuse 40 0 '' count "$array w KQkq - 0 1" 4
refuse 40 0 '' check "$open" 1.0 good.pgc games
refuse 40 0 '' check "$open" 1.0 good.pgc games --journeys
refuse 40 0 '' check "$open" 1.0 good.pgc games --tolls
refuse 40 0 '' check "$open" 1.0 tolls.pgc games --tolls
refuse 40 1 'pg: unlisted game: 1. e4 e5' check "$open" 1.0 good.pgc empty
refuse 40 0 '' answer good.pgc
refuse 40 0 '' answer good.pgc --journeys
refuse 40 0 '' answer tolls.pgc
refuse 40 1 '' answer orders.pgc
refuse 40 1 'pg: not a certificate' answer report
refuse 40 0 '' games "$open" 1.0 games
refuse 40 0 '' games "$open" 1.0 empty
refuse 40 0 '' cooks "$open" 1.0 games
refuse 40 1 '' cooks "$orders" 1.5 order
refuse 40 2 'pg: no game to go by' cooks "$open" 1.0 empty
refuse 40 0 '' search "$open" 1.0 good.pgc
refuse 40 0 '' search "$open" 1.0 new.pgc --journeys
refuse 40 1 'pg: node limit reached' search "$open" 1.0 new.pgc --nodes 3
refuse 40 1 'pg: node limit reached' search "$open" 1.0 new.pgc --nodes 0 --tolls --games new.games
refuse 40 0 '' search "$open" 1.0 good.pgc --games games
refuse 40 1 'pg: node limit reached' search "$open" 1.0 new.pgc --games new.games --nodes 3

# `why` keeps the positions along its line, and the named nodes that have their future, for a reference that may end the
# line. A line that ends otherwise can do without them.
refuse 40 0 '' why references.pgc 'e3 h5 d3'
may=ample refuse 40 0 '' why good.pgc '1. e4 e5'
may=ample refuse 40 0 '' why good.pgc 'd4'
may=ample refuse 40 0 '' why good.pgc 'd4' --journeys
may=ample refuse 40 0 '' why tolls.pgc '1. e4 e5'
refuse 40 2 'pg: line 1, ply 1: not a move' why good.pgc 'Nf9'
refuse 40 0 '' page good.pgc
refuse 40 0 '' page good.pgc --nodes 0
refuse 40 0 '' page good.pgc --journeys
refuse 40 0 '' page tolls.pgc
refuse 40 0 '' upgrade old.pgc new.pgc
refuse 40 4 'pg: cannot open old.pgc' upgrade old.pgc old.pgc

refuse 40 0 '' pgn games
refuse 40 2 'pg: line 1, column 3: game 1, ply 1: rnbqkbnr/pppp1ppp/8/4p3/ is not a move' pgn bad
refuse 40 0 '' end 'e4 e5'

refuse 40 2 'pg: line 1: bad name' judge bad
may='ample unsettled'
refuse 40 0 '' judge one
refuse 40 0 '' judge author
refuse 40 0 '' judge games.pgn
refuse 40 1 '' judge one --nodes 3 --journeys
refuse 40 0 '' judge one --certificates proofs
refuse 40 0 '' judge one --certificates made/here
refuse 40 0 '' judge one --certificates refused
may=ample refuse 40 0 '' judge one --certificates standing
may=ample refuse 40 0 '' judge one --certificates tariffs
may='ample unsettled cooked'
refuse 40 1 '' judge two
refuse 40 1 '' judge cook
refuse 40 1 '' judge two --certificates standing
refuse 40 1 '' judge two --certificates standing --replace
may=

# The folder of the crate $1, and those of the crates that it stands on.
folders() {
  local name
  for name in "$1" $(sed -n "s/^$1://p" "$top/crates.txt"); do
    [ ! -d "$top/crates/$name" ] || echo "$top/crates/$name"
  done
}

# Runs the test $2 of $1 with the growth number $3 refused, none where that is 0.
run_test() {
  LD_PRELOAD="$work/refuse.so" REFUSED=$3 "$1" "$2" >"$work/run-out" 2>"$work/run-err" 9>"$work/met"
}

# Runs each test of the crate $1 for refused growths, refusing each growth in turn.
refuse_tests() {
  local tests="$top/crates/$1/out/$1_tests" name number found= stands
  mapfile -t stands < <(folders "$1")
  if [ ! -x "$tests" ] ||
    [ -n "$(find "${stands[@]}" -path '*/out' -prune -o -name '*.rt' -newer "$tests" -print -quit)" ]; then
    (cd "$top/crates/$1" && rt test) >"$work/run-out" 2>"$work/run-err" ||
      { say none "$1" 'its tests do not pass'; return; }
    touch "$tests"
  fi
  for name in $("$tests" --list | sed -n 's/: test$//p' | grep 'refused_growths'); do
    found=1
    number=0
    run_test "$tests" "$name" 0 && grep -qx 'test result: ok' "$work/run-out" ||
      { say none "$1 $name" 'the test fails'; continue; }
    while :; do
      number=$((number + 1))
      run_test "$tests" "$name" "$number" || say "$number" "$1 $name" 'the test fails'
      [ -s "$work/met" ] || break
      [ "$number" -lt 20000 ] || { say "$number" "$1 $name" 'no end'; break; }
    done
    [ "$number" -gt 1 ] || say "$number" "$1 $name" 'no growth is refused'
  done
  [ -n "$found" ] || say none "$1" 'no test of refused growths'
}
for crate in tests_of_rules tests_of_checker tests_of_searcher tests_of_reports; do
  refuse_tests "$crate"
done
exit "$wrong"
