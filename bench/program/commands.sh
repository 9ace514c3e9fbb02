#!/usr/bin/env bash
# Runs each command that README.md, docs/GUIDE.md and the helps of the program show, and compares what it prints, on both
# streams, with what the page shows after it; a command with nothing after it is to end with status 0. All is done in a
# scratch folder that has what the top has, so no file is left. Each line of a help is to fit 80 columns. Commands of the
# tool `rt`, and the gate itself, are passed over. Six of the examples are judged by `pg judge`. Code that docs/ARCHITECTURE.md shows is to stand in the file that it names. Quiet where all is as shown; else prints each difference and ends with status 1.
set -u
top=$(cd "$(dirname "$(readlink -f "$0")")/../.." && pwd)
work=$(mktemp -d) || exit 1
trap 'rm -rf "$work"' EXIT
mkdir "$work/top" "$work/pieces"
ln -s "$top"/* "$work/top/"
PATH="$work/top:$PATH"
wrong=0

fail() {
  echo "$1" >&2
  [ -z "${2-}" ] || sed 's/^/    /' "$2" >&2
  wrong=1
}

"$top/pg" --help >/dev/null || { echo "the program does not run" >&2; exit 1; } # builds it where that is due

# Cuts the page $1 into its indented blocks: N.cmd for each that begins with a command, N.out for the block that follows
# it with nothing but blank lines between.
cut_page() {
  awk -v folder="$work/pieces" '
    function flush() {
      if (block == "") return
      if (block ~ /^(\.\/pg|pg|examples\/[a-z]+|tail|head|echo|printf|cat|rt) /) {
        number++
        kind = "cmd"
      } else kind = adjacent && kind == "cmd" ? "out" : ""
      if (kind != "") printf "%s", block > (folder "/" sprintf("%03d", number) "." kind)
      block = ""
      adjacent = 1
    }
    /^    / {
      match($0, /^ +/)
      if (block == "") indent = RLENGTH
      block = block substr($0, indent + 1) "\n"
      next
    }
    { flush() }
    /[^ ]/ { adjacent = 0 }
    END { flush() }' "$1"
}

# Runs each command of the page $1 in turn.
run_page() {
  local piece count=0
  rm -f "$work"/pieces/*
  cut_page "$top/$1"
  for piece in "$work"/pieces/*.cmd; do
    grep -q '^rt ' "$piece" && continue
    count=$((count + 1))
    (cd "$work/top" && bash "$piece") >"$work/got" 2>&1 </dev/null
    status=$?
    if [ -f "${piece%.cmd}.out" ]; then
      diff "${piece%.cmd}.out" "$work/got" >"$work/difference" ||
        fail "$1: $(head -n 1 "$piece"): prints something else (> is what it prints)" "$work/difference"
    elif [ "$status" -ne 0 ]; then
      fail "$1: $(head -n 1 "$piece"): status $status" "$work/got"
    fi
  done
  [ "$count" -ge "$2" ] || fail "$1: only $count commands are found"
}

# The help of the command $1, or of the program: its width, and its example, run in an empty folder.
run_help() {
  local folder="$work/help-$1"
  mkdir "$folder"
  # shellcheck disable=SC2086
  pg $1 --help >"$work/help" || fail "pg $1 --help: status $?"
  awk 'length($0) > 80' "$work/help" >"$work/long"
  [ ! -s "$work/long" ] || fail "pg $1 --help: a line is longer than 80 columns" "$work/long"
  awk '/^Example/ { example = 1; next } !/^  / { example = 0 } example { print substr($0, 3) }' "$work/help" >"$work/example"
  [ -s "$work/example" ] || fail "pg $1 --help: no example"
  (cd "$folder" && bash -e "$work/example") >"$work/got" 2>&1 </dev/null || fail "pg $1 --help: the example ends with status $?" "$work/got"
  [ -s "$work/got" ] || fail "pg $1 --help: the example prints nothing"
}

# Whether each piece of code that the page $1 shows after a line with its file's name stands in that file.
compare_excerpts() {
  local file count=0
  while read -r file; do
    count=$((count + 1))
    awk -v line="\`$file\`:" '$0 == line { on = 1; next } /^```/ && on { if (block) exit; block = 1; next } block' "$top/$1" >"$work/excerpt"
    [ -s "$work/excerpt" ] || fail "$1: no code after the name of $file"
    [[ $(<"$top/$file") == *"$(<"$work/excerpt")"* ]] || fail "$1: $file has other code" "$work/excerpt"
  done < <(sed -n 's/^`\(crates\/[a-z_/.]*\)`:$/\1/p' "$top/$1")
  [ "$count" -ge "$2" ] || fail "$1: only $count pieces of code are found"
}

# Judges six of the examples, which is to say of each what its report says; and once more where one certificate is gone, as
# after an interrupt: that problem alone is searched.
judge_examples() {
  local name diagram length
  for name in array fools-mate queen-recaptures four-games no-game schweig; do
    { read -r diagram && read -r length; } <"$top/examples/$name/problem"
    echo "$name $diagram $length" >>"$work/problems"
    printf '%s\t%s\t%s\n' "$name" "$length" "$(tail -n 1 "$top/examples/$name/report")" >>"$work/wanted"
  done
  mkdir "$work/proofs"
  pg judge "$work/problems" --certificates "$work/proofs" | cut -f 1-3 >"$work/got"
  diff "$work/wanted" "$work/got" >"$work/difference" || fail 'pg judge: the examples have other verdicts' "$work/difference"
  rm "$work/proofs/four-games.pgc"
  pg judge "$work/problems" --certificates "$work/proofs" >"$work/got"
  [ "$(cut -f 5 "$work/got" | cut -d , -f 1 | tr '\n' ' ')" = 'certificate certificate certificate search certificate certificate ' ] ||
    fail 'pg judge: a run is not gone on with where it was' "$work/got"
}

compare_excerpts docs/ARCHITECTURE.md 2
judge_examples
run_page README.md 3
run_page docs/GUIDE.md 3
run_help ''
for command in $(pg --help | awk '/^Commands:/ { on = 1; next } /^$/ { on = 0 } on && $1 != "help" { print $1 }'); do
  run_help "$command"
done
exit "$wrong"
