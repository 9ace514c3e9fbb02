#!/usr/bin/env bash
# Tries all wrong edits of crates by the kit's own command. Each crate is copied with those below it to the top of a
# repository of their own, with the crate's edits of must-fail and of more-edits and no others, and `rt ci` is run
# there. It works on as many crates side by side as RT_JOBS says, or as there are processors and memory for, with one
# job each, and hands on the lines of a crate's edits when they are all tried. The status is 0 only where each edit was
# refused: it is 1 where one was NOT REFUSED, is a BAD EDIT or was NOT TRIED, or where a crate is not proved. What
# `rt ci` proved and tried on this machine before is done again only where something changed that it stands on. (A kit
# that keeps nothing proves all below a crate for each crate.)
#
#   bench/repository/try-edits.sh CRATE..   all edits of these crates
#   bench/repository/try-edits.sh           all edits of all crates
#   bench/repository/try-edits.sh --test    whether ./gate --edits tells a wrong body from one that is right, and from
#                                           what is no edit, on a small crate
set -u
cd "$(dirname "$(readlink -f "$0")")/../.." || exit 2

edits() { find "more-edits/$1" "crates/$1/must-fail" -name '*.edit' 2>/dev/null; }

# The lines of crates.txt, from the last to the first, of the crate $1 and of those on which it stands, each of which
# has its line above it.
needed() {
  tac crates.txt | awk -F: -v crate="$1" '
    $1 == crate || $1 in used { print; n = split($2, words, " "); for (i = 1; i <= n; i++) used[words[i]] }'
}

# How many lines the crate $1 has, and those below it.
lines() {
  needed "$1" | while IFS=: read -r name _; do
    find "crates/$name" -path '*/out' -prune -o \( -name '*.rt' -o -name '*.antt' \) -exec cat {} +
  done | wc -l
}

# The crates that have edits, those first that may take longest.
with_edits() {
  local crate many
  while IFS=: read -r crate _; do
    many=$(edits "$crate" | wc -l)
    [ "$many" = 0 ] || echo "$((many * $(lines "$crate"))) $crate"
  done <crates.txt | sort -n -r | cut -d' ' -f2
}

# How many crates may be at work: RT_JOBS, or one for each processor, or for each 5 GB of memory that are free.
at_once() {
  awk -v processors="$(nproc)" -v most="${RT_JOBS-}" '
    /^MemAvailable:/ && !most { most = int($2 / 5000000); if (most > processors) most = processors }
    END { print (most < 1 ? 1 : most) }' /proc/meminfo
}

# Tries the edits of the crate $1 in the folder $2, which it makes and removes.
try() {
  local said status
  grep -q "^$1:" crates.txt || { echo "try-edits: there is no crate $1" >&2; return 1; }
  mkdir -p "$2/.git" && needed "$1" | tac >"$2/crates.txt" || return
  sed 's|\(.*\):.*|crates/\1|' "$2/crates.txt" | tar -c --exclude=out --exclude=must-fail -T - HANDLES | tar -x -C "$2" &&
    mkdir "$2/crates/$1/must-fail" && edits "$1" | xargs -r cp -t "$2/crates/$1/must-fail" || return
  said=$(cd "$2" && RT_JOBS=1 rt ci 2>&1)
  status=$?
  rm -rf "$2"
  grep '^rt: must-fail \|^rt: .* must-fail edits' <<<"$said"
  ! grep -Eq '^rt: must-fail .*: (NOT REFUSED|BAD EDIT|NOT TRIED)' <<<"$said" || return
  [ "$status" = 0 ] || { tail -n 60 <<<"$said" >&2; return 1; }
}

# Writes the edit $1 of the small crate, which puts the text $3 into the place of $2.
write() { printf 'file: src/prices.rt\nold: %s\nnew: %s\n' "$2" "$3" >"$work/more-edits/$small/$1.edit"; }

# Has ./gate try the edits of the small crate in a repository of that crate alone, and holds the status to $1 and the
# lines to the beginnings of lines that follow.
expect() {
  local said status line wrong=
  said=$("$work/gate" --edits "$small" 2>&1)
  status=$?
  [ "$status" = "$1" ] || wrong="status $status for $1"
  shift
  for line; do grep -qF "rt: must-fail $small/$line" <<<"$said" || wrong="no line '$line'"; done
  [ -z "$wrong" ] || { printf 'try-edits: %s\n%s\n' "$wrong" "$said" >&2; exit 1; }
}

if [ "${1-}" = --one ]; then
  try "$2" "$3/$2"
  exit
fi
work=$(mktemp -d) && chmod 711 "$work" && trap 'rm -rf "$work"' EXIT || exit 2
small=pg_price_lists
if [ "$*" = --test ]; then
  mkdir -p "$work"/{bench/repository,crates/$small,more-edits/$small} && cp gate HANDLES "$work" &&
    cp bench/repository/try-edits.sh "$work/bench/repository" && echo "$small:" >"$work/crates.txt" &&
    cp -R crates/$small/{src,specs,proofs} "$work/crates/$small" || exit 2
  write wrong '&self.second.v[..self.targets]' '&self.first.v[..self.targets]'
  write same 'ways: 1,' 'ways: 2 - 1,'
  write absent 'self.ways = 4;' 'self.ways = 3;'
  expect 1 'wrong.edit: refused, as it must be: ' 'same.edit: NOT REFUSED: ' 'absent.edit: BAD EDIT: '
  # (each alone takes a moment, since what an edit came to is kept, and one that cannot be made needs no proof)
  for edit in same absent; do mv "$work/more-edits/$small/$edit.edit" "$work/"; done
  expect 0 'wrong.edit: refused, as it must be: '
  mv "$work/same.edit" "$work/more-edits/$small/wrong.edit"
  expect 1 'wrong.edit: NOT REFUSED: '
  mv "$work/absent.edit" "$work/more-edits/$small/wrong.edit"
  expect 1 'wrong.edit: BAD EDIT: '
  exit
fi
[ $# != 0 ] || set -- $(with_edits)
printf '%s\n' "$@" | xargs -P "$(at_once)" -I{} bash bench/repository/try-edits.sh --one {} "$work" || exit 1
