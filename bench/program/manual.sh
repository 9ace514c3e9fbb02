#!/usr/bin/env bash
# Holds the page docs/pg.1 to what the program's helps say, both ways: each command with its words and options, in the synopsis
# and where it is described, with the defaults of the options; each word and option by its name; and each status that
# docs/FORMATS.md names. Runs the examples of the page in an empty folder. Where mandoc or groff is installed, it is to be
# quiet. Then holds docs/completions to what bench/program/completions.sh makes now, and tries those of bash; those of zsh and fish are
# read where the shell is installed. Quiet where all is so; else prints each difference, and ends with status 1. PG may name
# the program.
set -u
top=$(cd "$(dirname "$(readlink -f "$0")")/../.." && pwd)
work=$(mktemp -d) || exit 1
trap 'rm -rf "$work"' EXIT
page=$top/docs/pg.1
export PG=${PG:-$top/pg}
wrong=0

fail() {
  echo "$1" >&2
  [ -z "${2-}" ] || sed 's/^/    /' "$2" >&2
  wrong=1
}

# Compares what the program says, sorted lines in $work/has, with what the page says, lines on standard input; $1 is what they are.
same() {
  sort >"$work/says"
  [ -s "$work/has" ] && [ -s "$work/says" ] || fail "$1: none is found"
  diff "$work/has" "$work/says" >"$work/difference" || fail "$1: docs/pg.1 differs (> is what it says)" "$work/difference"
}

# The lines of the page below the heading $1.
part() { awk -v heading="$1" '/^\.S[hs] / { on = substr($0, 5) == heading; next } on' "$page"; }

# Mdoc macros of commands, words and options, on standard input, as the program's usage would be written.
plain() { sed -E 's/(^| )(Cm|Ar) /\1/g; s/(^| )(Cm|Ar) /\1/g; s/(^| )Oo /\1[/g; s/ Oc/]/g; s/(^|[ []|, )Fl (-?[a-z-]+)/\1-\2/Ig; s/ , /, /g'; }

# How each command is called, by the program; `help` says no more than its name.
calls() {
  awk -F '\t' '
    $1 == "command" { text[$2] = $2; names[++count] = $2 }
    $1 == "word" { text[$2] = text[$2] " " ($4 == "optional" ? "[" $3 "]" : $3) }
    $1 == "option" && $2 != "-" && $3 != "--help" { text[$2] = text[$2] " [" $3 ($5 == "-" ? "" : " " $5) "]" }
    END { for (i = 1; i <= count; i++) print (names[i] == "help" ? "help [COMMAND]" : text[names[i]]) }' "$work/table"
}

# The commands, words and options, with the program's own where `help` and `version` are.
compare() {
  calls | sort >"$work/has"
  same 'synopsis' < <(part SYNOPSIS | sed -n 's/^\.Nm pg Cm /Cm /p' | plain)
  same 'commands' < <(part Commands | sed -n 's/^\.It //p' | plain)
  awk -F '\t' '$1 == "word" { print $3 }' "$work/table" | sort -u >"$work/has"
  same 'words' < <(part Words | sed -n 's/^\.It //p' | plain)
  awk -F '\t' '$1 == "option" { print ($4 == "-" ? "" : $4 ", ") $3 ($5 == "-" ? "" : " " $5) }' "$work/table" | sort -u >"$work/has"
  same 'options' < <(part Options | sed -n 's/^\.It //p' | plain)
  awk '/^\| Status \| Where \|$/ { on = 1; next } on && !/^\|/ { exit } on && /^\| [0-9]/ { print $2 }' "$top/docs/FORMATS.md" | sort >"$work/has"
  same 'statuses' < <(part 'EXIT STATUS' | sed -n 's/^\.It //p')
}

# Whether the page says each default at its option.
defaults() {
  local option value
  while read -r option value; do
    part Options | awk -v item=".It Fl ${option#-}" 'index($0, ".It ") == 1 { on = index($0 " ", item " ") == 1 } on' |
      grep -qw -- "$value" || fail "options: docs/pg.1 does not say the default $value at $option"
  done < <(awk -F '\t' '$1 == "option" && match($6, /\[default: .*\]/) { print $3, substr($6, RSTART + 10, RLENGTH - 11) }' "$work/table" | sort -u)
}

# Runs the examples of the page one after the other.
examples() {
  mkdir "$work/bin" "$work/folder"
  ln -s "$PG" "$work/bin/pg"
  part EXAMPLES | awk '/^\.Ed/ { on = 0 } on; /^\.Bd/ { on = 1 }' >"$work/commands"
  [ "$(grep -c '^pg ' "$work/commands")" -ge 4 ] || fail 'examples: they are not found'
  (cd "$work/folder" && PATH="$work/bin:$PATH" bash -e "$work/commands") >"$work/said" 2>&1 </dev/null ||
    fail "examples: status $?" "$work/said"
}

readable() {
  if command -v mandoc >/dev/null; then
    mandoc -Tlint "$page" >"$work/said" 2>&1
    [ ! -s "$work/said" ] || fail 'mandoc -Tlint says' "$work/said"
  fi
  if command -v groff >/dev/null; then
    groff -mandoc -ww -z -Tutf8 "$page" >"$work/said" 2>&1
    [ ! -s "$work/said" ] || fail 'groff -ww says' "$work/said"
  fi
}

# What the completions of bash propose behind the words $2 .., the last of them begun; it is to be $1.
propose() {
  local expected=$1
  shift
  COMP_WORDS=("$@") COMP_CWORD=$(($# - 1))
  _pg
  [ "${COMPREPLY[*]-}" = "$expected" ] || fail "completions of bash: '$*' is completed as '${COMPREPLY[*]-}', not as '$expected'"
}

completions() {
  local shell file
  while read -r shell file; do
    "$top/bench/program/completions.sh" "$shell" >"$work/made" || fail "bench/program/completions.sh $shell: status $?"
    diff "$top/docs/completions/$file" "$work/made" >"$work/difference" ||
      fail "docs/completions/$file is not what bench/program/completions.sh makes" "$work/difference"
    ! command -v "$shell" >/dev/null || "$shell" -n "$top/docs/completions/$file" || fail "$shell cannot read docs/completions/$file"
  done <<<$'bash pg.bash\nzsh _pg\nfish pg.fish'
  # shellcheck source=/dev/null
  . "$top/docs/completions/pg.bash"
  mkdir "$work/files" && cd "$work/files" && : >'a file.pgc' || exit 1
  propose check pg che
  propose 'a file.pgc' pg check d 1.0 ''
  propose 'a file.pgc' pg check --records 5 d 1.0 a
  propose '' pg check --records ''
  propose '--records' pg check --r
  propose '' pg check d ''
  propose upgrade pg help u
  propose '' pg none ''
}

"$PG" --help >/dev/null || { echo "the program does not run" >&2; exit 1; } # builds it where that is due
"$top/bench/program/completions.sh" table >"$work/table" || exit 1
compare
defaults
examples
readable
completions
exit "$wrong"
