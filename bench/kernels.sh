#!/usr/bin/env bash
# Times the kernels and `solve` beside plain loops in C, and beside ISA-L where its headers are installed. All programs
# run in turn, and the shortest time of each is shown. The first argument is the processor level to build for.
set -euo pipefail
cd "$(dirname "$0")/.."
level=${1:?'the processor level, as x86-64-v3'}
passes=3
copy=$(mktemp -d)
trap 'rm -rf "$copy"' EXIT
tools/copy-tree.sh "$copy/tree"

# The gate reads each .rt file of the repository, and this program is none of its crates: its files end in .in, and are
# a crate in the copy alone.
mv "$copy/tree/bench" "$copy/tree/crates/bench"
for file in "$copy"/tree/crates/bench/src/*.rt.in; do
  mv "$file" "${file%.in}"
done
echo 'bench: lrc_field lrc_code lrc_plan' >> "$copy/tree/crates.txt"
# What earlier checks have kept of the libraries shortens the build.
for crate in lrc_field lrc_code lrc_plan; do
  if [ -d "crates/$crate/out" ]; then
    cp -r --reflink=auto "crates/$crate/out" "$copy/tree/crates/$crate/"
  fi
done
echo "Proving and building the program, over the libraries that it times."
if ! (cd "$copy/tree/crates/bench" && rt run --cpu="$level" < /dev/null) > "$copy/ours.0" 2> "$copy/log"; then
  tail -n 40 "$copy/log" >&2
  exit 1
fi
grep -v '^time' "$copy/ours.0" > "$copy/cases"

compiler=${CC:-gcc}
peers=()
if ! command -v "$compiler" > "$copy/log"; then
  echo "There is no $compiler here: only our figures are shown."
else
  "$compiler" -O3 "-march=$level" -o "$copy/plain" bench/plain.c
  peers+=(plain)
  if printf '#include <isa-l.h>\n' | "$compiler" -E - > "$copy/log" 2>&1; then
    "$compiler" -O2 -o "$copy/isal" bench/isal.c -lisal
    peers+=(isal)
  else
    echo "ISA-L is not installed (Debian's libisal-dev): plain C is the only peer."
  fi
fi
for pass in $(seq "$passes"); do
  "$copy/tree/crates/bench/out/bench" > "$copy/ours.$pass"
  for peer in ${peers[@]+"${peers[@]}"}; do
    for memory in aligned malloc; do
      "$copy/$peer" "$memory" < "$copy/cases" > "$copy/$peer-$memory.$pass"
    done
  done
done

processor=$(sed -n 's/^model name[[:space:]]*: //p' /proc/cpuinfo | head -n 1)
load=$(cut -d ' ' -f 1 /proc/loadavg)
cat <<END

GB/s: 10^9 bytes a second of the fragments that are read: for a kernel the one source, for solve all survivors.
Ours and plain C are built for $level; ISA-L chooses its instructions when it runs. The shortest of $passes times 40
repetitions on one thread; $processor, load $load.
In each call solve makes its plan, takes the memory of its answer and tests its checks. The peers are given the plan's
coefficients and memory, once at multiples of 64 bytes and once where malloc puts it (our memory is malloc's), and test the
same checks. ISA-L makes the fragment and the checks in one call, which multiplies
by zeros too (ours and plain C leave those out), and the fragment from 3 of the group by one xor_gen.

END
awk -f bench/table.awk "$copy"/*.[1-9]
