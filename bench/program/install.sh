#!/usr/bin/env bash
# The script `install` at work, in folders made here: below DESTDIR, twice, under a PREFIX with a blank, removed again, and
# refused: where a folder is a file, a place a folder, another file in the place, no room, and a signal. Each run is to end with the status
# that is written here, and a refusal to leave all as it was. Quiet where all is so; else prints what was wrong, and ends
# with status 1.
set -u
# Whoever was started in the background has SIGINT ignored, and no trap of a shell can undo that: so this begins again without.
[ -n "${SIGNALS_RESET-}" ] || SIGNALS_RESET=1 exec env --default-signal=HUP,INT,TERM "$0" "$@"
top=$(cd "$(dirname "$(readlink -f "$0")")/../.." && pwd)
work=$(mktemp -d) || exit 1
trap 'chmod -R u+w "$work"; rm -rf "$work"' EXIT
"$top/pg" --help >/dev/null || { echo "the program does not run" >&2; exit 1; } # builds it where that is due
export TMPDIR="$work/tmp"
mkdir "$TMPDIR"
unset DESTDIR
wrong=0

fail() {
  echo "$1" >&2
  sed 's/^/    /' "$work/out" "$work/err" >&2
  wrong=1
}

# All that is below the folder $1, with modes and sums.
listing() { (cd "$1" && find . -printf '%p %m\n' | sort && find . -type f -exec sha256sum {} + | sort); }

# Runs the shell command $2: it is to end with status $1, and to leave no temporary file.
run() {
  (eval "$2") >"$work/out" 2>"$work/err"
  local status=$?
  [ "$status" = "$1" ] || fail "$2: status $status for $1"
  [ -z "$(ls -A "$TMPDIR")" ] || fail "$2: it left $(ls -A "$TMPDIR")"
}

# Runs the shell command $3, which is to end with status $1, to say $2, and to leave the folder $work/$4 as it was.
refused() {
  local before
  before=$(listing "$work/$4")
  run "$1" "$3"
  grep -qF -- "$2" "$work/err" || fail "$3: it does not say '$2'"
  [ "$before" = "$(listing "$work/$4")" ] || fail "$3: it left another folder"
}

# Below DESTDIR, two times; what is there is whole, and the program runs.
export DESTDIR="$work/stage"
run 0 '"$top/install" /usr'
all=$(listing "$DESTDIR")
run 0 '"$top/install" /usr/'
[ "$all" = "$(listing "$DESTDIR")" ] || fail 'a second time: other files'
for word in "^sha256 $(sha256sum <"$top/crates/pg_cli/out/pg_cli" | cut -d ' ' -f 1)\$" '^revision .' '^toolchain .' ' it needs libc.so.6 and no other file$'; do
  grep -q "$word" "$work/out" || fail "it does not say $word"
done
(cd "$DESTDIR/usr" && sha256sum --quiet --check share/pg/installed) || fail 'share/pg/installed: it is not what is there'
[ "$(find "$DESTDIR" -type f | wc -l)" = 6 ] && [ "$(stat -c %a "$DESTDIR/usr/bin/pg")" = 755 ] || fail 'other files, or another mode'
run 0 'cd "$TMPDIR" && "$DESTDIR/usr/bin/pg" --version'
grep -q '^pg [0-9.]*$' "$work/out" || fail 'the program does not run in its place'
grep -q '^\.Sh BUILD$' "$DESTDIR/usr/share/man/man1/pg.1" || fail 'the page does not say what the program was built of'

# A file that is another one now is left, and the rest removed.
echo mine >"$DESTDIR/usr/bin/pg"
refused 4 "$DESTDIR/usr/bin/pg is there" '"$top/install" /usr' stage
run 1 '"$top/install" --remove /usr'
[ "$(find "$DESTDIR" -type f)" = "$DESTDIR/usr/bin/pg" ] || fail 'removed: not all but one'
refused 4 'nothing is there that this script put' '"$top/install" --remove /usr' stage
refused 4 "$DESTDIR/usr/bin/pg is there" '"$top/install" /usr' stage
unset DESTDIR

# A PREFIX with a blank, beside files that were there; all is as it was when it is removed.
mkdir -p "$work/a folder/bin" && echo other >"$work/a folder/bin/other"
all=$(listing "$work/a folder")
run 0 'cd "$work" && "$top/install" "a folder"'
[ -x "$work/a folder/bin/pg" ] || fail 'a PREFIX with a blank: no program'
run 0 'cd "$work" && "$top/install" --remove "a folder"'
[ "$all" = "$(listing "$work/a folder")" ] || fail 'a PREFIX with a blank: not as it was'

# Places that cannot be written: the first folder, the last one, the place itself, all of it, and no room for the program.
mkdir -p "$work/first" "$work/last/share" "$work/place/bin/pg" "$work/room" "$work/closed"
: >"$work/first/bin"
: >"$work/last/share/fish"
refused 4 "$work/first/bin/pg cannot be written" '"$top/install" "$work/first"' first
refused 4 "$work/last/share/fish/vendor_completions.d/pg.fish cannot be written" '"$top/install" "$work/last"' last
refused 4 "$work/place/bin/pg is there" '"$top/install" "$work/place"' place
refused 4 "$work/room/bin/pg cannot be written" 'trap "" XFSZ; ulimit -f 100; "$top/install" "$work/room"' room
if [ "$(id -u)" != 0 ]; then
  chmod 555 "$work/closed"
  refused 4 "$work/closed/bin/pg cannot be written" '"$top/install" "$work/closed"' closed
fi

# Signals, after the first file was written beside its place.
printf '#!/bin/sh\n: >"$TMPDIR/at-work"; exec sleep 5\n' >"$work/chmod"
chmod 755 "$work/chmod"
set -m
for signal in INT TERM HUP; do
  PATH="$work:$PATH" "$top/install" "$work/room" >"$work/out" 2>"$work/err" &
  run=$!
  for ((wait = 0; wait < 300; wait++)); do
    [ ! -e "$TMPDIR/at-work" ] || break
    sleep 0.1
  done
  rm -f "$TMPDIR/at-work"
  [ -n "$(find "$work/room" -name 'pg.pg-install-*')" ] || fail "SIG$signal: nothing was begun"
  kill -"$signal" -- "-$run"
  wait "$run"
  status=$?
  [ "$status" = $((128 + $(kill -l "$signal"))) ] || fail "SIG$signal: status $status"
  grep -q "^install: ended by SIG$signal\$" "$work/err" || fail "SIG$signal: it does not say so"
  [ -z "$(ls -A "$work/room" "$TMPDIR" | grep -v ':$' | tr -d '\n')" ] || fail "SIG$signal: it left files"
done
set +m

# Words.
refused 2 "'--all' is not understood" '"$top/install" --all' room
refused 2 "'a b' is not understood" 'cd "$work" && "$top/install" a b' room
refused 2 "'' is not understood" '"$top/install" --remove ""' room
run 0 '"$top/install" --help'
exit "$wrong"
