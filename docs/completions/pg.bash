# Completions of pg for bash; made by bench/program/completions.sh.
_pg() {
  local cur=${COMP_WORDS[COMP_CWORD]} before=${COMP_WORDS[COMP_CWORD - 1]} place=1 at
  local commands options valued=" " file_options=" " file_places=" "
  commands="solve show moves count games cooks check answer search judge why page upgrade pgn end help"
  COMPREPLY=()
  if [ "$COMP_CWORD" = 1 ]; then
    mapfile -t COMPREPLY < <(compgen -W "$commands --hints --help -h --version -V" -- "$cur")
    return
  fi
  case ${COMP_WORDS[1]} in
    solve) options="--game --games --keep --all --nodes --minutes --bytes --pgn --journeys --help -h" valued=" --game --games --keep --nodes --minutes --bytes " file_options=" --games --keep " ;;
    show) options="--help -h" ;;
    moves) options="--help -h" ;;
    count) options="--help -h" ;;
    games) options="--pgn --help -h" file_places=" 3 " ;;
    cooks) options="--nodes --minutes --foreign --help -h" valued=" --nodes --minutes --foreign " file_places=" 3 " ;;
    check) options="--records --journeys --tolls --pgn --help -h" valued=" --records " file_places=" 3 4 " ;;
    answer) options="--records --pgn --journeys --help -h" valued=" --records " file_places=" 1 " ;;
    search) options="--nodes --minutes --bytes --games --journeys --tolls --no-journeys --help -h" valued=" --nodes --minutes --bytes --games " file_options=" --games " file_places=" 3 " ;;
    judge) options="--certificates --replace --pgn --nodes --minutes --bytes --journeys --help -h" valued=" --certificates --nodes --minutes --bytes " file_options=" --certificates " file_places=" 1 " ;;
    why) options="--records --journeys --help -h" valued=" --records " file_places=" 1 " ;;
    page) options="--records --nodes --out --title --author --journeys --help -h" valued=" --records --nodes --out --title --author " file_options=" --out " file_places=" 1 " ;;
    upgrade) options="--records --help -h" valued=" --records " file_places=" 1 2 " ;;
    pgn) options="--letters --help -h" valued=" --letters " file_places=" 1 " ;;
    end) options="--help -h" ;;
    help) options=$commands ;;
    *) return ;;
  esac
  for ((at = 2; at < COMP_CWORD; at++)); do
    case ${COMP_WORDS[at]} in
      --*) [[ $valued != *" ${COMP_WORDS[at]} "* ]] || at=$((at + 1)) ;;
      -[a-zA-Z]) ;;
      *) place=$((place + 1)) ;;
    esac
  done
  if [[ $file_options == *" $before "* ]] || [[ $valued != *" $before "* && $cur != -* && $file_places == *" $place "* ]]; then
    compopt -o filenames 2>/dev/null
    mapfile -t COMPREPLY < <(compgen -f -- "$cur")
  elif [[ $valued != *" $before "* ]] && [[ $cur == -* || ${COMP_WORDS[1]} == help && $place == 1 ]]; then
    mapfile -t COMPREPLY < <(compgen -W "$options" -- "$cur")
  fi
}
complete -F _pg pg
