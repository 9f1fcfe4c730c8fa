#!/usr/bin/env bash
# Tests the completions of bash, zsh and fish: each shell that is installed is asked for the completions of some lines, and
# they are compared with what they must be. Bash is asked for what the function of the file answers, the others for what
# they would offer. The options of farm are those of its help, the commands and options of rebuild-lists those of its own, and each option
# of a command of rebuild-store is offered.
set -euo pipefail
cd "$(dirname "$0")/.."
completions=$PWD/completions
scratch=$(mktemp -d)
trap 'rm -rf "$scratch"' EXIT
workers='1 2 3 4 5 6 7 8 9 10 11 12 13 14 15 16'
repair='--allow-unmounted --assume-one-damaged --code --dry-run --follow-links --help --json --layout --names --part --quiet --reads'
encode='--allow-unmounted --as --code --follow-links --help --layout --make-folders --names --quiet --replace --trust-writers -h -q'
scrub='--code --follow-links --help --json --layout --names --part --progress --quiet --rate --report --stripes --sums --workers -h -j -q'
repair+=' --progress --rate --replace-damaged --report --stripes --sums --to --trust-writers --workers -h -j -n -q'

# Each line, up to where the key is pressed, and what is offered there: the folder below has two folders and a file.
mkdir -p "$scratch/here/lists" "$scratch/here/served"
touch "$scratch/here/list.csv"
cat > "$scratch/lines" << END
rebuild :farm help
rebuild f:farm
rebuild -:--help --version -V -h
rebuild --v:--version
rebuild help :farm
rebuild farm :lists served
rebuild farm l:lists
rebuild farm lists s:served
rebuild farm -:--help --queue --workers -h
rebuild farm --w:--workers
rebuild farm --workers :$workers
rebuild farm --workers=1:1 10 11 12 13 14 15 16
rebuild farm --queue 1:1 16 128 1024
rebuild farm lists --workers=4 --:--help --queue
rebuild farm --queue 8 --:--help --workers
rebuild farm lists served s:
rebuild farm lists --queue 8 s:served
rebuild farm lists served --workers=4 --:--help --queue
rebuild farm -- l:lists
rebuild farm lists -- -:
rebuild farm lists -- served s:
rebuild-lists :check damaged merge put serve split tell
rebuild-lists c:check
rebuild-lists -:--help --version -V -h
rebuild-lists check :lists served
rebuild-lists check -:--help -h
rebuild-lists check lists s:served
rebuild-lists check lists served s:
rebuild-lists split :list.csv lists served
rebuild-lists split list.csv :lists served
rebuild-lists split list.csv lists s:served
rebuild-lists split list.csv lists served s:
rebuild-lists split -:--copy --help --racks --requests -h
rebuild-lists split --racks 1:1 10 11 12 13 14 15 16
rebuild-lists split --racks=1:1 10 11 12 13 14 15 16
rebuild-lists split --requests 1:1024 16
rebuild-lists split --racks 2 :list.csv lists served
rebuild-lists serve :lists served
rebuild-lists serve -:--help --program --workers -h
rebuild-lists serve lists s:
rebuild-lists serve --workers :$workers
rebuild-lists merge lists :lists served
rebuild-lists merge lists served s:
rebuild-lists merge -:--help -h
rebuild-lists tell :lists served
rebuild-lists tell served served l:lists
rebuild-lists tell --lists l:lists
rebuild-lists tell --lists lists s:served
rebuild-lists tell -:--help --lists -h
rebuild-lists put lists served :lists served
rebuild-lists put lists served --o:--overwrite
rebuild-lists put -:--help --lists --overwrite -h
rebuild-lists put --lists l:lists
rebuild-lists damaged :lists served
rebuild-lists damaged lists s:
rebuild-lists damaged -:--feed --help --program -h
rebuild-lists damaged --feed :0 1 2 3
rebuild-store :encode help list lost read remove repair scrub verify
rebuild-store r:read remove repair
rebuild-store -:--help --version -V -h
rebuild-store help :encode list lost read remove repair scrub verify
rebuild-store help repair :
rebuild-store repair :lists served
rebuild-store repair lists s:
rebuild-store repair -:$repair
rebuild-store repair lists --re:--reads --replace-damaged --report
rebuild-store repair --reads :all checked few
rebuild-store repair --code :12-2-2 6-2-2
rebuild-store repair --code=6:6-2-2
rebuild-store repair --workers :$workers
rebuild-store repair --workers=1:1 10 11 12 13 14 15 16
rebuild-store repair --workers 4 :lists served
rebuild-store repair --layout :groups plain
rebuild-store repair --to s:served
rebuild-store repair --report l:list.csv lists
rebuild-store repair --names :
rebuild-store repair --part :
rebuild-store repair --code 6-2-2 --to served l:lists
rebuild-store lost l:lists
rebuild-store lost -:--code --follow-links --help --json --layout --names --part --stripes -h
rebuild-store lost --stripes l:list.csv lists
rebuild-store scrub l:lists
rebuild-store scrub -:$scrub
rebuild-store scrub --rate :
rebuild-store repair --progress l:list.csv lists
rebuild-store scrub --sums list.:list.csv
rebuild-store encode :lists served
rebuild-store encode lists :list.csv lists served
rebuild-store encode lists list.csv :list.csv lists served
rebuild-store encode -:$encode
rebuild-store encode --layout :groups plain
rebuild-store read l:lists
rebuild-store read lists :
rebuild-store read -:--follow-links --help --layout --names --output --quiet -h -o -q
rebuild-store read --layout :groups plain
rebuild-store read -o l:list.csv lists
rebuild-store list l:lists
rebuild-store list -:--code --follow-links --help --json --layout --names --part --stripes -h
rebuild-store verify l:lists
rebuild-store verify lists name :
rebuild-store verify -:--follow-links --help --layout --names --quiet -h -q
rebuild-store remove l:lists
rebuild-store remove -:--code --follow-links --help --layout --names --quiet --trust-writers -h -q
rebuild-store repair -j 1:1 10 11 12 13 14 15 16
END

# What bash offers: the line is cut as bash cuts it, at spaces and with = as a word of its own.
cat > "$scratch/ask.bash" << 'END'
command=${2%% *}
source "$1/$command.bash"
complete -p "$command" > /dev/null || exit 1
read -r -a COMP_WORDS <<< "${2//=/ = }"
[[ $2 != *' ' ]] || COMP_WORDS+=('')
COMP_CWORD=$((${#COMP_WORDS[@]} - 1))
"_${command//-/_}"
[ "${#COMPREPLY[@]}" = 0 ] || printf '%s\n' "${COMPREPLY[@]}"
END

# What zsh offers: an interactive shell in a terminal of its own writes each match that is added to a file.
cat > "$scratch/ask.zsh" << 'END'
zmodload zsh/zpty || exit 1
zpty shell "MATCHES=${(q)3} COMPLETIONS=${(q)1} zsh -f -i"
zpty -w shell "source ${(q)4}"
while zpty -r shell said; do [[ $said != ready* ]] || break; done
zpty -w shell "$2"$'\t'
while zpty -r shell said; do :; done
END
cat > "$scratch/within.zsh" << 'END'
PROMPT=
fpath=($COMPLETIONS $fpath)
autoload -Uz compinit
compinit -D -u
bindkey '^I' complete-word
zstyle ':completion:*' insert-tab false
comppostfuncs=(exit)
compadd () {
  if [[ ${@[1,(i)(-|--)]} == *-(O|A|D)\ * ]]; then
    builtin compadd "$@"
  else
    local -a matches
    builtin compadd -A matches "$@"
    [[ $#matches == 0 ]] || print -rl -- $matches >> $MATCHES
    builtin compadd "$@"
  fi
}
echo ready
END

# offered SHELL LINE: what the shell offers, sorted, without a folder's last / and an option's part of the word.
offered() {
  local shell=$1 line=$2
  : > "$scratch/offered"
  case $shell in
    bash) bash --norc --noprofile -u "$scratch/ask.bash" "$completions" "$line" > "$scratch/offered" ;;
    zsh) timeout 60 zsh -f "$scratch/ask.zsh" "$completions" "$line" "$scratch/offered" "$scratch/within.zsh" > "$scratch/log" ;;
    fish) HOME=$scratch fish --no-config -c 'source $argv[1]; complete -C $argv[2]' "$completions/${line%% *}.fish" "$line" \
      | cut -f 1 > "$scratch/offered" ;;
  esac
  sed -e 's,/$,,' -e 's/^--[a-z]*=//' "$scratch/offered" | sort -u
}

export LC_ALL=C
options=$(crates/rebuild/out/rebuild farm --help | grep -o -E '^ +(-h, )?--[a-z]+' | grep -o -E -e '--?[a-z]+' | sort | paste -s -d ' ')
if ! grep -q -x -e "rebuild farm -:$options" "$scratch/lines"; then
  echo "completions: the options of farm are now $options"
  exit 1
fi
for word in $(companion/rebuild-lists --help | sed -n 's/^    \([a-z]\+\) .*/\1/p'); do
  options=$(companion/rebuild-lists "$word" --help | grep -o -E '^  (-h, )?--[a-z]+' | grep -o -E -e '--?[a-z]+' | sort | paste -s -d ' ')
  if ! grep -q -x -e "rebuild-lists $word -:$options" "$scratch/lines"; then
    echo "completions: the options of rebuild-lists $word are now $options"
    exit 1
  fi
done
store=crates/rebuild_store/out/rebuild_store
for word in $("$store" --help | sed -n '/^Commands:/,/^$/s/^  \([a-z]\+\) .*/\1/p' | grep -v -x help); do
  "$store" "$word" --help | grep -o -E '^ +(-[a-z], )?--[a-z-]+' | grep -o -E -e '--[a-z-]+|-[a-z]' | sort > "$scratch/said"
  sed -n "s/^rebuild-store $word -://p" "$scratch/lines" | tr ' ' '\n' | sort > "$scratch/offered"
  comm -23 "$scratch/said" "$scratch/offered" > "$scratch/lacking"
  if [ -s "$scratch/lacking" ]; then
    echo "completions: rebuild-store $word has options that aren't offered: $(paste -s -d ' ' "$scratch/lacking")"
    exit 1
  fi
  comm -13 "$scratch/said" "$scratch/offered" > "$scratch/early"
  [ ! -s "$scratch/early" ] || echo "completions: rebuild-store $word doesn't have yet what is offered: $(paste -s -d ' ' "$scratch/early")"
done
cd "$scratch/here"
for shell in bash zsh fish; do
  if ! command -v "$shell" > "$scratch/log"; then
    echo "completions: $shell is not installed: its completions aren't tested"
    continue
  fi
  tried=0
  while IFS=: read -r line wanted; do
    tr ' ' '\n' <<< "$wanted" | sed '/^$/d' | sort > "$scratch/wanted"
    offered "$shell" "$line" > "$scratch/sorted" < /dev/null
    if ! diff "$scratch/wanted" "$scratch/sorted"; then
      echo "completions: $shell offers something else after \"$line\" (< must be, > is)"
      exit 1
    fi
    tried=$((tried + 1))
  done < "$scratch/lines"
  echo "completions: $shell offers what it must after $tried lines"
done
