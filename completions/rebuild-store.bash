# The completions of rebuild-store for bash: its commands, their options with the values that they take, files and folders.

# Sets `place` to how many arguments that are no options are before the current one, after the command.
_rebuild_store_place() {
  local index=2
  place=0
  while ((index < COMP_CWORD)); do
    case ${COMP_WORDS[index]} in
      --code | --names | --layout | --stripes | --part | --workers | --rate | --sums | --report | --progress | --to | --reads | --as | --output | -j | -o)
        # The shell cuts --workers=4 into three words.
        [ "${COMP_WORDS[index + 1]}" != = ] || ((index++))
        ((index++))
        ;;
      -*) ;;
      *) ((place++)) ;;
    esac
    ((index++))
  done
}

_rebuild_store() {
  local current=${COMP_WORDS[COMP_CWORD]} before=${COMP_WORDS[COMP_CWORD - 1]} offered='' options='' kinds='' place=0
  local commands='repair lost scrub encode read list verify remove'
  COMPREPLY=()
  if [ "$COMP_CWORD" = 1 ]; then
    case $current in
      -*) offered='--help --version -h -V' ;;
      *) offered="$commands help" ;;
    esac
    mapfile -t COMPREPLY < <(compgen -W "$offered" -- "$current")
    return
  fi
  # What each argument takes: a folder, a file, a name; the last goes on where a + is after it.
  options='--code --names --layout --follow-links'
  case ${COMP_WORDS[1]} in
    repair)
      kinds='folder'
      options+=' --stripes --part --workers --rate --sums --report --json --progress --dry-run --replace-damaged --assume-one-damaged --to --reads --trust-writers --allow-unmounted --quiet -n -j -q'
      ;;
    lost | list) kinds='folder' options+=' --stripes --part --json' ;;
    scrub) kinds='folder' options+=' --stripes --part --workers --rate --sums --report --json --progress --quiet -j -q' ;;
    encode)
      kinds='folder file+'
      options+=' --trust-writers --allow-unmounted --as --make-folders --replace --quiet -q'
      ;;
    read) kinds='folder name' options='--names --layout --follow-links --output --quiet -o -q' ;;
    verify) kinds='folder name+' options='--names --layout --follow-links --quiet -q' ;;
    remove) kinds='folder name+' options+=' --trust-writers --quiet -q' ;;
    help)
      [ "$COMP_CWORD" != 2 ] || mapfile -t COMPREPLY < <(compgen -W "$commands" -- "$current")
      return
      ;;
    *) return ;;
  esac
  if [ "$current" = = ]; then
    current=''
  elif [ "$before" = = ]; then
    before=${COMP_WORDS[COMP_CWORD - 2]}
  fi
  case $before in
    --code) offered='6-2-2 12-2-2' ;;
    --layout) offered='plain groups' ;;
    --reads) offered='all checked few' ;;
    --workers | -j) offered='1 2 3 4 5 6 7 8 9 10 11 12 13 14 15 16' ;;
    --names | --part | --rate | --as) return ;;
    --stripes | --sums | --report | --progress | --output | -o) kinds=file ;;
    --to) kinds=folder ;;
    *)
      _rebuild_store_place
      case $current in
        -*) offered="--help -h $options" ;;
      esac
      ;;
  esac
  if [ -n "$offered" ]; then
    mapfile -t COMPREPLY < <(compgen -W "$offered" -- "$current")
    return
  fi
  read -r -a kinds <<< "$kinds"
  if ((place >= ${#kinds[@]})) && [[ ${kinds[-1]} == *+ ]]; then
    place=$((${#kinds[@]} - 1))
  fi
  compopt -o filenames 2> /dev/null
  case ${kinds[place]:-} in
    folder) mapfile -t COMPREPLY < <(compgen -d -- "$current") ;;
    file*) mapfile -t COMPREPLY < <(compgen -f -- "$current") ;;
  esac
}

complete -F _rebuild_store rebuild-store
