#!/usr/bin/env bash
# Runs the built program on lines whose replies an independent program works out (tools/reference.py), and compares: the
# stored ones (crates/rebuild/cases), and random lines of both codes. The stored ones are files, since literals of a test would take the
# checker more memory than a machine has. More questions are asked than line mode remembers plans for, in each of its threads, so that it
# forgets some that are asked again. The replies to the two of the first 400 that begin with `code=12-2-2` were worked out anew when
# the second code came.
set -euo pipefail
cd "$(dirname "$0")/.."
program=crates/rebuild/out/rebuild
scratch=$(mktemp -d)
trap 'rm -rf "$scratch"' EXIT

# Compares the program's replies to a file of lines with those in another, and its status, which is 1 where some lines are refused.
compare() {
  local lines=$1 wanted=$2 wanted_status=${3:-1} status=0
  "$program" < "$lines" > "$scratch/replies" || status=$?
  cmp "$scratch/replies" "$wanted"
  [ "$status" = "$wanted_status" ]
}

compared=0
for lines in crates/rebuild/cases/*; do
  case $lines in *.stdout) continue ;; esac
  compare "$lines" "$lines.stdout"
  tools/reference.py < "$lines" | cmp - "$lines.stdout"
  echo "reference-lines $lines: $(wc -l < "$scratch/replies") replies as they must be"
  compared=$((compared + 1))
done
[ "$compared" != 0 ]

for seed in 2 3 4 5 6; do
  tools/reference.py lines 1000 "$seed" > "$scratch/lines"
  tools/reference.py < "$scratch/lines" > "$scratch/wanted"
  compare "$scratch/lines" "$scratch/wanted"
done
echo 'reference-lines: 5000 random lines of both codes, each replied to as it must be'

tools/reference.py questions 7 > "$scratch/questions"
tools/reference.py < "$scratch/questions" > "$scratch/answers"
for _ in 1 2 3 4 5 6; do cat "$scratch/questions" >&3; cat "$scratch/answers" >&4; done 3> "$scratch/lines" 4> "$scratch/wanted"
compare "$scratch/lines" "$scratch/wanted" 0
echo "reference-lines: $(wc -l < "$scratch/questions") different questions, six times"
