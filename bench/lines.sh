#!/usr/bin/env bash
# Times the built program's line mode on short and long lines, beside a C program that reads the same lines, rebuilds with ISA-L
# and writes the same replies, on all processors and both on one. All runs are made in turn, and the shortest time of each is shown.
set -euo pipefail
cd "$(dirname "$0")/.."
level=${1:?'the processor level, as x86-64-v3'}
program=crates/rebuild/out/rebuild
passes=${BENCH_PASSES:-9}
place=${TMPDIR:-/tmp}
if [ -d /dev/shm ]; then
  place=/dev/shm
fi
scratch=$(mktemp -d -p "$place")
trap 'rm -rf "$scratch"' EXIT

compiler=${CC:-gcc}
if ! printf '#include <isa-l.h>\n' | "$compiler" -E - > "$scratch/log" 2>&1; then
  echo "There is no $compiler, or ISA-L is not installed (Debian's libisal-dev): line mode isn't timed."
  exit 0
fi
"$compiler" -O3 "-march=$level" -o "$scratch/lines" bench/lines.c -lisal
"$compiler" -O2 -o "$scratch/measure" bench/measure.c

# The processors that this may run on, and the first of them.
all=$(taskset -cp $$ | sed 's/.*: //')
first=${all%%[,-]*}
for length in 4 65536; do
  "$scratch/lines" "$length" > "$scratch/input"
  lines=$(wc -l < "$scratch/input")
  for _pass in $(seq "$passes"); do
    for processors in "$all" "$first"; do
      name=$([ "$processors" = "$all" ] && echo all || echo one)
      taskset -c "$processors" "$scratch/measure" "$scratch/times" "ours $length $lines $name" "$program" < "$scratch/input" \
        > "$scratch/ours"
      taskset -c "$processors" "$scratch/measure" "$scratch/times" "peer $length $lines $name" "$scratch/lines" < "$scratch/input" \
        > "$scratch/peer"
    done
  done
  cmp "$scratch/ours" "$scratch/peer"
done

processor=$(sed -n 's/^model name[[:space:]]*: //p' /proc/cpuinfo | head -n 1)
cat <<END

Line mode on as many lines as its input may have (8,388,608 bytes), half of them repairs inside one group and half over both, from
the program's start to its end; ours has up to four threads, the C program one. The shortest of $passes times; ours built for what
crates/rebuild/out was last built for, the C program for $level; $processor, load $(cut -d ' ' -f 1 /proc/loadavg).

END
awk -f bench/lines.awk "$scratch/times"
