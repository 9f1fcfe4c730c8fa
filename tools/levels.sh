#!/usr/bin/env bash
# Builds the programs for x86-64-v2, and for x86-64-v3 where the processor has AVX2, which is what `make build` then takes, and runs over
# each build scripts of the gate that run them. The gate runs them over the build that `rt ci` leaves.
set -euo pipefail
cd "$(dirname "$0")/.."
said=$(mktemp)
trap 'rm -f "$said"' EXIT

levels=(x86-64-v2)
if grep -q avx2 /proc/cpuinfo; then
  levels+=(x86-64-v3)
fi
for level in "${levels[@]}"; do
  # The number of processors, where an argument says it, is build.py's.
  tools/build.py rebuild rebuild_store "$level" "$@"
  for script in gate/{ends.sh,reference-lines.sh,examples.py,manual.sh,growth.py,companion.py,repair-store.py} tools/demo.sh; do
    echo "levels: $level: $script"
    "$script" > "$said" 2>&1 || { cat "$said"; exit 1; }
    tail -n 1 "$said"
  done
done
echo "levels: the programs are as they must be, built for ${levels[*]}"
