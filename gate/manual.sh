#!/usr/bin/env bash
# Tests the manual pages: mandoc and man find no fault in them where they are installed; the page of the program has each number that a
# fault's line may have, and those of rebuild-store and rebuild-ceph each command and option of their help; and each example (a display
# after a comment "example") is run and gives what the page shows. That the page of the formats is made from docs/FORMATS.md is tested by
# format-page.py.
set -euo pipefail
cd "$(dirname "$0")/.."
program=$PWD/crates/rebuild/out/rebuild
store=$PWD/crates/rebuild_store/out/rebuild_store
scratch=$(mktemp -d)
trap 'rm -rf "$scratch"' EXIT

if command -v mandoc > "$scratch/log"; then
  mandoc -Tlint -Wwarning man/rebuild.1 man/rebuild-lists.1 man/rebuild-store.1 man/rebuild-ceph.1 man/rebuild.5 \
    man/rebuild-store.5
  echo 'manual: mandoc finds no fault in the pages'
else
  echo "manual: mandoc is not installed (Debian's mandoc): the form of the pages isn't tested"
fi

# A table that is too wide for a terminal is said there.
if command -v man > "$scratch/log"; then
  for page in man/*.[15]; do
    LC_ALL=C MANWIDTH=78 man -l -P cat "$page" 2> "$scratch/said" > "$scratch/log" && [ ! -s "$scratch/said" ] ||
      { cat "$scratch/said"; echo "manual: man finds a fault in $page"; exit 1; }
  done
  echo 'manual: man shows the pages on a terminal of 80 columns'
else
  echo "manual: man is not installed (Debian's man-db): how wide the pages are isn't tested"
fi

# Writes each example's commands to a file of the scratch folder, and beside it what a shell that shows each line as it
# reads it is to show. Tests the numbers of faults, and the options.
python3 - "$scratch" "$store" <<'PY'
import re
import subprocess
import sys

scratch = sys.argv[1]
ESCAPES = {r'\-': '-', r'\(aq': "'", r'\e': '\\', r'\(ha': '^'}


def fail(text):
    sys.exit('manual: ' + text)


def plain(line):
    return re.sub(r'\\\(..|\\.', lambda found: ESCAPES.get(found[0], found[0]), line)


pages = {name: open('man/' + name, encoding='ascii').read() for name in
         ('rebuild.1', 'rebuild-lists.1', 'rebuild-store.1', 'rebuild.5', 'rebuild-store.5')}

# The document has all numbers, and the page those that a line may have.
faults = open('docs/FORMATS.md', encoding='ascii').read().partition('\nThe numbers mean:\n')[2]
numbers = [list(map(int, re.findall(r'^- `E(\d+)`:', part, re.M))) for part in faults.split('\nThe other numbers ')]
if sorted(sum(numbers, [])) != list(range(1, 30)):
    fail('docs/FORMATS.md does not have each number of a fault once')
if list(map(int, re.findall(r'^\.It E(\d+)$', pages['rebuild.1'], re.M))) != numbers[0]:
    fail('rebuild.1 does not have each number once that a line may have')

def store_help(*words):
    return subprocess.run([sys.argv[2], *words, '--help'], check=True, capture_output=True, text=True).stdout


def valued(text):
    return {' '.join(it).rstrip() for it in re.findall(r'^ +(?:-[a-z], )?(--[a-z-]+)(?: <(\S+)>)?', text, re.M)} - {'--help'}


def options_of(text):
    return {it.partition(' ')[0] for it in valued(text)}


# The synopsis of each command, from its .Cm to the next .Nm, with the words for values, and the list of the options.
synopsis, described = pages['rebuild-store.1'].split('\n.Sh DESCRIPTION\n')
shown_of = {part.split('\n')[1].removeprefix('.Cm '): {f'-{it}'.replace(' Ar ', ' ') for it in re.findall(r'^\.Op Fl (-.+)$', part, re.M)}
            for part in synopsis.split('\n.Nm')[1:] if '\n.Cm ' in part}
commands = set(re.findall(r'^  ([a-z]+) ', store_help().partition('\nCommands:\n')[2].partition('\n\n')[0], re.M)) - {'help'}
listed = {f'-{it}' for it in re.findall(r'^\.It Fl (?:[a-z] , Fl )?(-[a-z-]+)', described, re.M)}
for command in sorted(commands):
    options = valued(store_help(command))
    lacking = options - shown_of.get(command, set()) | options_of(store_help(command)) - listed
    if lacking or f'\n.It Cm {command}\n' not in described:
        fail(f'rebuild-store.1 lacks of {command}: {" ".join(sorted(lacking)) or "what it does"}')
    if shown_of[command] - options:
        print(f'manual: rebuild-store {command} does not have yet what its page shows: {" ".join(sorted(shown_of[command] - options))}')
if set(shown_of) - commands:
    print(f'manual: rebuild-store does not have yet what its page shows: {" ".join(sorted(set(shown_of) - commands))}')

# Its example needs a cluster's OSDs, so it isn't run.
of_ceph = open('man/rebuild-ceph.1', encoding='ascii').read()
help_of_ceph = subprocess.run(['python3', 'ceph/rebuild-ceph', '--help'], check=True, capture_output=True, text=True).stdout
has = {f'-{it}' for it in re.findall(r'^\.It Fl (-[a-z-]+)', of_ceph, re.M)} | set(re.findall(r'^\.It Cm ([a-z]+)$', of_ceph, re.M))
wants = options_of(help_of_ceph) | set(re.search(r'^ +\{([a-z,]+)\}', help_of_ceph, re.M)[1].split(','))
if has != wants:
    fail(f'rebuild-ceph.1 and the help of rebuild-ceph differ: {" ".join(sorted(has ^ wants))}')

for name, page in pages.items():
    lines = page.splitlines()
    count = 0
    number = 0
    while number < len(lines):
        if lines[number] == r'.\" example':
            begin = number + 2
            end = lines.index('.Ed', begin)
            text = [plain(line) for line in lines[begin:end]]
            path = f'{scratch}/{name}.{count}'
            commands = [line[2:] for line in text if line[:2] in ('$ ', '> ')]
            said = [line[2:] if line[:2] in ('$ ', '> ') else line for line in text]
            open(path + '.commands', 'w').write('\n'.join(commands) + '\n')
            open(path + '.shown', 'w').write('\n'.join(said) + '\n')
            count += 1
            number = end
        elif lines[number].startswith('$ '):
            fail(f'{name} shows a command that is in no example: {lines[number]}')
        number += 1
    if count == 0:
        fail(f'{name} has no example')
PY

mkdir "$scratch/bin"
ln -s "$program" "$scratch/bin/rebuild"
ln -s "$store" "$scratch/bin/rebuild-store"
ln -s "$PWD/companion/rebuild-lists" "$scratch/bin/rebuild-lists"
ran=0
for commands in "$scratch"/*.commands; do
  example=${commands%.commands}
  mkdir "$example"
  (cd "$example" && LC_ALL=C PATH=$scratch/bin:$PATH bash -v "$commands" > "$example.said" 2>&1 < /dev/null) || true
  if ! diff "$example.shown" "$example.said"; then
    echo "manual: the example $(basename "$example") (< shown, > what it gives) is not what it gives"
    exit 1
  fi
  ran=$((ran + 1))
done
echo "manual: $ran examples gave what the pages show"
