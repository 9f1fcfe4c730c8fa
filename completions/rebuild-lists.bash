# The completions of rebuild-lists for bash: its commands, their options with numbers that are in their ranges, files and folders.

# Sets `place` to how many arguments that are no options are before the current one, after the command.
_rebuild_lists_place() {
  local index=2
  place=0
  while ((index < COMP_CWORD)); do
    case ${COMP_WORDS[index]} in
      --racks | --requests | --workers | --program | --lists | --feed)
        # The shell cuts --racks=4 into three words.
        [ "${COMP_WORDS[index + 1]}" != = ] || ((index++))
        ((index++))
        ;;
      -*) ;;
      *) ((place++)) ;;
    esac
    ((index++))
  done
}

_rebuild_lists() {
  local current=${COMP_WORDS[COMP_CWORD]} before=${COMP_WORDS[COMP_CWORD - 1]} offered='' options='' kinds='' place
  COMPREPLY=()
  if [ "$COMP_CWORD" = 1 ]; then
    case $current in
      -*) offered='--help --version -h -V' ;;
      *) offered='check damaged merge put serve split tell' ;;
    esac
    mapfile -t COMPREPLY < <(compgen -W "$offered" -- "$current")
    return
  fi
  # What each argument takes: a folder, a list, a number; the last goes on where a + is after it.
  case ${COMP_WORDS[1]} in
    check) kinds='folder folder' ;;
    split) kinds='list folder folder' options='--racks --requests --copy' ;;
    serve) kinds='folder number' options='--workers --program' ;;
    merge) kinds='folder folder' ;;
    tell) kinds='folder+' options='--lists' ;;
    put) kinds='folder folder+' options='--overwrite --lists' ;;
    damaged) kinds='folder number number' options='--feed --program' ;;
    *) return ;;
  esac
  if [ "$current" = = ]; then
    current=''
  elif [ "$before" = = ]; then
    before=${COMP_WORDS[COMP_CWORD - 2]}
  fi
  case $before in
    --racks | --workers) offered='1 2 3 4 5 6 7 8 9 10 11 12 13 14 15 16' ;;
    --requests) offered='16 64 256 1024 4096' ;;
    --feed) offered='0 1 2 3' ;;
    --program) kinds=list place=0 ;;
    --lists) kinds=folder place=0 ;;
    *)
      _rebuild_lists_place
      case $current in
        -*) offered="--help -h $options" kinds='' ;;
      esac
      ;;
  esac
  if [ -n "$offered" ]; then
    mapfile -t COMPREPLY < <(compgen -W "$offered" -- "$current")
    return
  fi
  read -r -a kinds <<< "$kinds"
  if ((place >= ${#kinds[@]})) && [[ ${kinds[-1]} == *+ ]]; then
    place=$((${#kinds[@]} - 1))
  fi
  compopt -o filenames 2> /dev/null
  case ${kinds[place]:-} in
    folder*) mapfile -t COMPREPLY < <(compgen -d -- "$current") ;;
    list) mapfile -t COMPREPLY < <(compgen -f -- "$current") ;;
  esac
}

complete -F _rebuild_lists rebuild-lists
