#!/usr/bin/env bash
# Makes the completions of the shells from what the program's helps say, so a new command, word or option needs no line here.
#
#   bench/program/completions.sh              writes docs/completions/pg.bash, _pg and pg.fish
#   bench/program/completions.sh bash         prints those of one shell: bash, zsh or fish
#   bench/program/completions.sh table        prints what the helps say, in fields parted by tabs: `command NAME ABOUT`; `word COMMAND
#                                     NAME required|optional HELP`; `option COMMAND NAME SHORT VALUE HELP`, where a field that
#                                     is empty is `-`, and the program's own options have the command `-`
#
# A word, or the value of an option, is completed as a file where its name is one of these; else nothing is proposed for it.
files='CERT GAMES OLD NEW FILE PROBLEMS FOLDER'
set -u
top=$(cd "$(dirname "$(readlink -f "$0")")/../.." && pwd)
pg=${PG:-$top/pg}

# What the help of the command $1 says of its words and options, or for `-` the program's own of its commands and options.
read_help() {
  local words=()
  [ "$1" = - ] || words=("$1")
  "$pg" "${words[@]}" --help | awk -v OFS='\t' -v command="$1" '
    function fault() { print "a line of the help of " command " is not understood: " $0 >"/dev/stderr"; wrong = 1 }
    /^(Commands|Arguments|Options):$/ { part = $1; next }
    /^$/ { part = "" }
    part == "" { next }
    { # the name, and behind two blanks or more what it is
      text = substr($0, match($0, /[^ ]/))
      if (!match(text, /  +/)) { fault(); next }
      name = substr(text, 1, RSTART - 1)
      help = substr(text, RSTART + RLENGTH)
    }
    part == "Commands:" { print "command", name, help }
    part == "Arguments:" {
      if (name ~ /^<[A-Z]+>$/) kind = "required"
      else if (name ~ /^\[[A-Z]+\]$/) kind = "optional"
      else { fault(); next }
      print "word", command, substr(name, 2, length(name) - 2), kind, help
    }
    part == "Options:" {
      short = value = "-"
      if (name ~ /^-[A-Za-z], /) { short = substr(name, 1, 2); name = substr(name, 5) }
      if (match(name, / <[A-Z]+>$/)) { value = substr(name, RSTART + 2, RLENGTH - 3); name = substr(name, 1, RSTART - 1) }
      if (name !~ /^--[a-z-]+$/) { fault(); next }
      print "option", command, name, short, value, help
    }
    END { exit wrong }'
}

table() {
  local own name
  own=$(read_help -) || return
  printf '%s\n' "$own"
  for name in $(awk -F '\t' '$1 == "command" && $2 != "help" { print $2 }' <<<"$own"); do
    read_help "$name" || return
  done
}

# The beginning of each program in awk below: `file(NAME)`, the commands in their order, the words of each, and its options.
gather='
  BEGIN { FS = "\t"; n = split(files, list, " "); for (i = 1; i <= n; i++) is_file[list[i]] }
  function file(name) { return name in is_file }
  $1 == "command" { commands[++count] = $2; about[$2] = $3 }
  $1 == "word" { word[$2, ++words[$2]] = $3; kind[$2, words[$2]] = $4; help[$2, words[$2]] = $5 }
  $1 == "option" {
    option[$2, ++options[$2]] = $3; short[$2, options[$2]] = $4; value[$2, options[$2]] = $5; note[$2, options[$2]] = $6
  }'

bash_completions() {
  awk -v files="$files" "$gather"'
    function spell(command,   i, text) {
      for (i = 1; i <= options[command]; i++)
        text = text (text == "" ? "" : " ") option[command, i] (short[command, i] == "-" ? "" : " " short[command, i])
      return text
    }
    function valued(command, only_files,   i, text) {
      for (i = 1; i <= options[command]; i++)
        if (value[command, i] != "-" && (!only_files || file(value[command, i]))) text = text " " option[command, i]
      return text
    }
    function places(command,   i, text) {
      for (i = 1; i <= words[command]; i++) if (file(word[command, i])) text = text " " i
      return text
    }
    END {
      print "# Completions of pg for bash; made by bench/program/completions.sh."
      print "_pg() {"
      print "  local cur=${COMP_WORDS[COMP_CWORD]} before=${COMP_WORDS[COMP_CWORD - 1]} place=1 at"
      print "  local commands options valued=\" \" file_options=\" \" file_places=\" \""
      printf "  commands=\""
      for (i = 1; i <= count; i++) printf "%s%s", (i > 1 ? " " : ""), commands[i]
      print "\""
      print "  COMPREPLY=()"
      print "  if [ \"$COMP_CWORD\" = 1 ]; then"
      print "    mapfile -t COMPREPLY < <(compgen -W \"$commands " spell("-") "\" -- \"$cur\")"
      print "    return"
      print "  fi"
      print "  case ${COMP_WORDS[1]} in"
      for (i = 1; i <= count; i++) {
        name = commands[i]
        if (name == "help") { print "    help) options=$commands ;;"; continue }
        printf "    %s) options=\"%s\"", name, spell(name)
        if (valued(name, 0) != "") printf " valued=\"%s \"", valued(name, 0)
        if (valued(name, 1) != "") printf " file_options=\"%s \"", valued(name, 1)
        if (places(name) != "") printf " file_places=\"%s \"", places(name)
        print " ;;"
      }
      print "    *) return ;;"
      print "  esac"
      print "  for ((at = 2; at < COMP_CWORD; at++)); do"
      print "    case ${COMP_WORDS[at]} in"
      print "      --*) [[ $valued != *\" ${COMP_WORDS[at]} \"* ]] || at=$((at + 1)) ;;"
      print "      -[a-zA-Z]) ;;"
      print "      *) place=$((place + 1)) ;;"
      print "    esac"
      print "  done"
      print "  if [[ $file_options == *\" $before \"* ]] || [[ $valued != *\" $before \"* && $cur != -* && $file_places == *\" $place \"* ]]; then"
      print "    compopt -o filenames 2>/dev/null"
      print "    mapfile -t COMPREPLY < <(compgen -f -- \"$cur\")"
      print "  elif [[ $valued != *\" $before \"* ]] && [[ $cur == -* || ${COMP_WORDS[1]} == help && $place == 1 ]]; then"
      print "    mapfile -t COMPREPLY < <(compgen -W \"$options\" -- \"$cur\")"
      print "  fi"
      print "}"
      print "complete -F _pg pg"
    }'
}

zsh_completions() {
  awk -v files="$files" -v quote="'" "$gather"'
    # as they stand between quotation marks: the marks of _describe, and of _arguments, as themselves
    function item(text) {
      gsub(/[:\\]/, "\\\\&", text)
      gsub(quote, quote "\\" quote quote, text)
      return text
    }
    function plain(text) {
      gsub(/[\]\[:\\]/, "\\\\&", text)
      gsub(quote, quote "\\" quote quote, text)
      return text
    }
    function completed(name) { return file(name) ? "_files" : " " }
    function an_option(command, i,   name, text) {
      name = option[command, i]
      text = "[" plain(note[command, i]) "]"
      if (value[command, i] != "-") return quote name "=" text ":" value[command, i] ":" completed(value[command, i]) quote
      if (short[command, i] == "-") return quote name text quote
      return quote "(- : *)" quote "{" short[command, i] "," name "}" quote text quote
    }
    function all_options(command, blanks,   i) {
      for (i = 1; i <= options[command]; i++) printf " \\\n%s%s", blanks, an_option(command, i)
    }
    END {
      print "#compdef pg"
      print "# Completions of pg for zsh; made by bench/program/completions.sh."
      print "_pg() {"
      print "  local curcontext=$curcontext state line"
      print "  typeset -A opt_args"
      print "  local -a commands=("
      for (i = 1; i <= count; i++) print "    " quote commands[i] ":" item(about[commands[i]]) quote
      print "  )"
      printf "  _arguments -C"
      all_options("-", "    ")
      print " \\"
      print "    " quote "1:command:->command" quote " \\"
      print "    " quote "*::word:->word" quote
      print "  case $state in"
      print "    command) _describe command commands ;;"
      print "    word)"
      print "      case $words[1] in"
      for (i = 1; i <= count; i++) {
        name = commands[i]
        if (name == "help") { print "        help) (( CURRENT > 2 )) || _describe command commands ;;"; continue }
        print "        " name ")"
        printf "          _arguments"
        all_options(name, "            ")
        for (j = 1; j <= words[name]; j++)
          printf " \\\n            %s%d:%s%s:%s%s", quote, j, (kind[name, j] == "optional" ? ":" : ""), word[name, j], completed(word[name, j]), quote
        print ""
        print "          ;;"
      }
      print "      esac"
      print "      ;;"
      print "  esac"
      print "}"
      print "_pg \"$@\""
    }'
}

fish_completions() {
  awk -v files="$files" -v quote="'" "$gather"'
    function plain(text) { gsub(/[\\\x27]/, "\\\\&", text); return quote text quote }
    function an_option(command, i, condition,   text) {
      text = "complete -c pg -n " quote condition quote
      if (short[command, i] != "-") text = text " -s " substr(short[command, i], 2)
      text = text " -l " substr(option[command, i], 3)
      if (value[command, i] != "-") text = text (file(value[command, i]) ? " -r -F" : " -x")
      print text " -d " plain(note[command, i])
    }
    END {
      print "# Completions of pg for fish; made by bench/program/completions.sh."
      print ""
      print "# Whether the command is $argv[1]."
      print "function __pg_is"
      print "    set -l before (commandline -opc)"
      print "    test (count $before) -ge 2; and test \"$before[2]\" = $argv[1]"
      print "end"
      print ""
      print "# Whether the word at the cursor is the one at place $argv[2] behind the command $argv[1]; of the options behind those each"
      print "# has a value."
      print "function __pg_is_at"
      print "    __pg_is $argv[1]; or return 1"
      print "    set -l before (commandline -opc)"
      print "    set -e before[1..2]"
      print "    set -l place 1"
      print "    set -l passes 0"
      print "    for word in $before"
      print "        if test $passes = 1"
      print "            set passes 0"
      print "        else if contains -- $word $argv[3..]"
      print "            set passes 1"
      print "        else if not string match -qr -- \"^(--.*|-[a-zA-Z])\\$\" $word"
      print "            set place (math $place + 1)"
      print "        end"
      print "    end"
      print "    test $passes = 0 -a $place = $argv[2]"
      print "end"
      print ""
      print "complete -c pg -f"
      for (i = 1; i <= options["-"]; i++) an_option("-", i, "__fish_use_subcommand")
      for (i = 1; i <= count; i++) print "complete -c pg -n __fish_use_subcommand -a " commands[i] " -d " plain(about[commands[i]])
      for (i = 1; i <= count; i++) {
        name = commands[i]
        if (name == "help") {
          for (j = 1; j <= count; j++) print "complete -c pg -n " quote "__pg_is_at help 1" quote " -a " commands[j] " -d " plain(about[commands[j]])
          continue
        }
        valued = ""
        for (j = 1; j <= options[name]; j++) {
          an_option(name, j, "__pg_is " name)
          if (value[name, j] != "-") valued = valued " " option[name, j]
        }
        for (j = 1; j <= words[name]; j++)
          if (file(word[name, j])) print "complete -c pg -n " quote "__pg_is_at " name " " j valued quote " -F"
      }
    }'
}

case $#:${1-} in
  1:table) table; exit ;;
  0: | 1:bash | 1:zsh | 1:fish) said=$(table) || exit ;;
  *) echo "$0: '$*' is not understood" >&2; exit 2 ;;
esac
case ${1-} in
  '')
    printf '%s\n' "$said" | bash_completions >"$top/docs/completions/pg.bash" || exit
    printf '%s\n' "$said" | zsh_completions >"$top/docs/completions/_pg" || exit
    printf '%s\n' "$said" | fish_completions >"$top/docs/completions/pg.fish"
    ;;
  *) printf '%s\n' "$said" | "$1_completions" ;;
esac
