#!/usr/bin/env bash
# Times encoding and rebuilding through the C library beside ISA-L, on one thread. The first argument is the processor level to build
# for.
set -euo pipefail
cd "$(dirname "$0")/.."
level=${1:?'the processor level, as x86-64-v3'}
compiler=${CC:-gcc}
scratch=$(mktemp -d)
trap 'rm -rf "$scratch"' EXIT

if ! printf '#include <isa-l.h>\n' | "$compiler" -E - > "$scratch/log" 2>&1; then
  echo "ISA-L is not installed (Debian's libisal-dev): the C library is timed beside nothing else."
  exit
fi
make -s library CPU="$level" > "$scratch/log" 2>&1 || { tail -n 40 "$scratch/log" >&2; exit 1; }
"$compiler" -O2 -Ilibrary -o "$scratch/bench" bench/library.c crates/lrc_c/out/liblrc_c.a -lisal
processor=$(sed -n 's/^model name[[:space:]]*: //p' /proc/cpuinfo | head -n 1)
cat <<END

GB/s: 10^9 bytes a second of the fragments that are read. The C library is built for $level; ISA-L chooses its instructions when it
runs, and is given its tables. Each rebuilding tests all checks of the survivors. The shortest of many calls taken in turn,
on one thread; $processor, load $(cut -d ' ' -f 1 /proc/loadavg).

END
"$scratch/bench"
