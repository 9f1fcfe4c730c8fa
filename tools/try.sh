#!/usr/bin/env bash
# Runs line mode by the toolchain's interpreter, before anything is proved: the line that README shows, and the requests of the sample
# in demo/, whose replies are compared with demo/replies. It proves nothing and keeps nothing, and works in a copy, since the gate runs it
# beside `rt ci`, which holds the crates.
set -euo pipefail
cd "$(dirname "$0")/.."
scratch=$(mktemp -d)
trap 'rm -rf "$scratch"' EXIT

tools/copy-tree.sh "$scratch/copy"
mkdir "$scratch/cases"
echo 'a x0 1 x1=02 x2=03 px=00' > "$scratch/cases/line"
echo 'rebuilt 01' > "$scratch/cases/line.stdout"
cp demo/requests "$scratch/cases/sample"
cp demo/replies "$scratch/cases/sample.stdout"
echo 'Running line mode unproved, in one to two minutes. make demo proves it, and runs the farm too.'
if ! (cd "$scratch/copy/crates/rebuild" && rt try --cases "$scratch/cases" < /dev/null) > "$scratch/said" 2>&1; then
  cat "$scratch/said" >&2
  exit 1
fi
for name in line sample; do
  paste -d '\n' <(sed 's/^/request  /' "$scratch/cases/$name") <(sed 's/^/reply    /' "$scratch/cases/$name.stdout")
done
