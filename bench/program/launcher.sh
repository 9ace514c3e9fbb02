#!/usr/bin/env bash
# The launcher `pg` at work: a small repository of two libraries and a program, made here, is proved and built by two
# launchers at once, and then run again, refused, and interrupted. Each run is to end with the status and the words that are
# written here, and to leave no process and no folder. What it proves is new each time, so it takes a minute of a
# core's time. Quiet where all is so; else prints what was wrong, and ends with status 1.
set -u
# Whoever was started in the background has SIGINT ignored, and no trap of a shell can undo that: so this begins again without.
[ -n "${SIGNALS_RESET-}" ] || SIGNALS_RESET=1 exec env --default-signal=HUP,INT,TERM "$0" "$@"
top=$(cd "$(dirname "$(readlink -f "$0")")/../.." && pwd)
work=$(mktemp -d) && work=$(cd "$work" && pwd -P) || exit 1
trap 'rm -rf "$work"' EXIT
chmod 711 "$work" # the program is run as nobody
export TMPDIR="$work/tmp"
crates="$work/top/crates"
mkdir -p "$TMPDIR" "$crates"/{low,high,pg_cli}/src && chmod 711 "$TMPDIR" && cp "$top/pg" "$work/top/" || exit 1
printf 'low:\nhigh: low\npg_cli: low high\n' >"$work/top/crates.txt"
echo 'Handles allowed: none.' >"$work/top/HANDLES"
cat >"$work/low" <<'END'
//! A small library, NUMBER.
#![tactic(auto)]

ghost use Rattle.std.specs.Prelude.{◌≡◌, ◌+◌};

/// Returns twice the number.
pub fn twice(number: u8) -> u16
    ensures { result ≡ number + number }
{
    number as u16 + number as u16
}
END
cat >"$crates/high/src/lib.rt" <<'END'
//! A small library over another.
#![tactic(auto)]

ghost use Rattle.std.specs.Prelude.{◌≡◌, ◌+◌};

/// Returns four times the number.
pub fn four_times(number: u8) -> u16
    ensures { result ≡ number + number + (number + number) }
{
    low::twice(number) + low::twice(number)
}
END
cat >"$crates/pg_cli/src/main.rt" <<'END'
//! A small program.
#![tactic(auto)]

use std::io;

fn main(rt: HostRuntime) -> io::Result<()> {
    let number = high::four_times(10);
    println!(rt; "{number}")?;
    Ok(())
}
END
echo 40 >"$crates/pg_cli/stdout"
wrong=0

fail() {
  echo "$1" >&2
  sed 's/^/    /' "$work"/out* "$work"/err* >&2
  wrong=1
}

# Makes the lower library one that was never proved; $1 stands for its body.
renew() {
  sed "s/NUMBER/number $$ $RANDOM $RANDOM/; s/number as u16 + number as u16/${1-&}/" "$work/low" >"$crates/low/src/lib.rt"
}

# Holds a run that is called $1 and ended with status $2 to status $3, and to have left nothing.
ended() {
  [ "$2" = "$3" ] || fail "$1: status $2 for $3"
  [ -z "$(ls -A "$TMPDIR")" ] || fail "$1: it left $(ls -A "$TMPDIR")"
  [ -z "$(find "$crates" -name 'pg_cli.*')" ] || fail "$1: it left $(find "$crates" -name 'pg_cli.*')"
}

# Two at once, from nothing: each proves or takes what the other proved.
renew
for run in 1 2; do
  "$work/top/pg" >"$work/out$run" 2>"$work/err$run" &
  runs[run]=$!
done
wait "${runs[1]}"; first=$?
wait "${runs[2]}"; second=$?
ended 'the first of two' "$first" 0
ended 'the second of two' "$second" 0
for run in 1 2; do
  [ "$(cat "$work/out$run")" = 40 ] || fail "run $run of two at once: another output"
  for word in '1 of 3: low' '2 of 3: high' '3 of 3: pg_cli'; do
    grep -q "^pg: $word, after [0-9]* s$" "$work/err$run" || fail "run $run of two at once: it does not tell of $word"
  done
done
rm -f "$work"/out[12] "$work"/err[12]

# The program is there.
"$work/top/pg" >"$work/out" 2>"$work/err"
ended 'a second run' $? 0
[ "$(cat "$work/out")" = 40 ] && [ ! -s "$work/err" ] || fail 'a second run: it is not the program alone'

# The runs of `rt ci` that the launcher $1 began, each by its group of processes.
proofs_of() { ps -o pid=,pgid= --ppid "$1" | awk '$1 == $2 { print $1 }'; }

# Signals, as Ctrl-C sends them, to all that stands in the foreground, while a proof is at work, whose group is to be gone then.
set -m
for signal in INT TERM HUP; do
  renew
  "$work/top/pg" >"$work/out" 2>"$work/err" &
  run=$! proofs=
  for ((wait = 0; wait < 600; wait++)); do
    proofs=$(proofs_of "$run")
    [ -z "$proofs" ] || break
    sleep 0.1
  done
  [ -n "$proofs" ] || fail "SIG$signal: no proof was at work"
  sleep 2
  for proof in $proofs; do kill -0 -- "-$proof" || fail "SIG$signal: the proof had ended before"; done
  kill -"$signal" -- "-$run"
  wait "$run"
  ended "SIG$signal" $? $((128 + $(kill -l "$signal")))
  for proof in $proofs; do ! kill -0 -- "-$proof" 2>/dev/null || fail "SIG$signal: the group of the proof is still there"; done
  grep -q "^pg: ended by SIG$signal" "$work/err" && ! grep -qv '^pg: ' "$work/err" || fail "SIG$signal: it does not say so, or more than that"
done
set +m

# A crate that is not proved: the words of the toolchain are shown.
renew 'number as u16 + 1'
"$work/top/pg" >"$work/out" 2>"$work/err"
ended 'a wrong body' $? 4
grep -q '^fn low::twice: no proof' "$work/err" && grep -q '^pg: low could not be proved' "$work/err" || fail 'a wrong body: it does not show why'

# No folder of temporary files, and then one with little room.
TMPDIR="$work/none" "$work/top/pg" >"$work/out" 2>"$work/err"
ended 'no folder' $? 4
grep -q "^pg: no folder of temporary files can be made in $work/none$" "$work/err" || fail 'no folder: it does not say so'
printf '#!/bin/sh\nprintf "head\\nx 0 0 5000 0%% /\\n"\n' >"$work/df"
chmod 755 "$work/df"
PATH="$work:$PATH" "$work/top/pg" >"$work/out" 2>"$work/err"
ended 'no room' $? 4
grep -q "^pg: no room is left in $TMPDIR, where temporary files go (4 MB are free)" "$work/err" || fail 'no room: it does not say so'
exit "$wrong"
