# The completions of rebuild for bash: its commands, its options with numbers that are in their ranges, and folders.

_rebuild() {
  local current=${COMP_WORDS[COMP_CWORD]} before=${COMP_WORDS[COMP_CWORD - 1]} offered='' folders='' ended='' given=0 index
  COMPREPLY=()
  if [ "$COMP_CWORD" = 1 ]; then
    case $current in
      -*) offered='--help --version -h -V' ;;
      *) offered='farm help' ;;
    esac
  elif [ "${COMP_WORDS[1]}" = help ] && [ "$COMP_CWORD" = 2 ]; then
    offered=farm
  elif [ "${COMP_WORDS[1]}" = farm ]; then
    # The shell cuts --workers=4 into three words.
    if [ "$current" = '=' ]; then
      current=''
    elif [ "$before" = '=' ]; then
      before=${COMP_WORDS[COMP_CWORD - 2]}
    fi
    # How many folders are before the current word: what is neither an option nor its number.
    for ((index = 2; index < COMP_CWORD; index++)); do
      case $ended${COMP_WORDS[index]} in
        --) ended=yes ;;
        -* | =) ;;
        *) [[ ${COMP_WORDS[index - 1]} == --@(workers|queue) || ${COMP_WORDS[index - 1]} == = ]] || ((given++)) ;;
      esac
    done
    case $ended$before in
      --workers) offered='1 2 3 4 5 6 7 8 9 10 11 12 13 14 15 16' ;;
      --queue) offered='1 2 4 8 16 32 64 128 256 512 1024' ;;
      *)
        case $ended$current in
          -*)
            offered='--help -h'
            [[ " ${COMP_WORDS[*]:2:COMP_CWORD-2} " == *' --workers '* ]] || offered+=' --workers'
            [[ " ${COMP_WORDS[*]:2:COMP_CWORD-2} " == *' --queue '* ]] || offered+=' --queue'
            ;;
          *) [ "$given" -ge 2 ] || folders=yes ;;
        esac
        ;;
    esac
  fi
  if [ -n "$folders" ]; then
    compopt -o filenames 2> /dev/null
    mapfile -t COMPREPLY < <(compgen -d -- "$current")
  elif [ -n "$offered" ]; then
    mapfile -t COMPREPLY < <(compgen -W "$offered" -- "$current")
  fi
}

complete -F _rebuild rebuild
