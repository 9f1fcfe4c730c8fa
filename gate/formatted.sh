#!/usr/bin/env bash
# Whether all crates are formatted as `rt fmt` formats them. `rt ci` refuses a crate that isn't, and says so last of all.
set -euo pipefail
cd "$(dirname "$0")/.."
copy=$(mktemp -d)
trap 'rm -rf "$copy"' EXIT
tools/copy-tree.sh "$copy"
# The crates side by side, each in a process of its own.
said=$(printf '%s\0' "$copy"/crates/*/ | xargs -0 -P "$(nproc)" -n 1 sh -c \
  'cd "$1" && rt fmt 2>&1 | sed -n "s|^rt: formatted |crates/$(basename "$1")/|p"' sh)
if [ -n "$said" ]; then
  printf '%s\n' "$said" 'formatted: run rt fmt in these crates' >&2
  exit 1
fi
echo 'formatted: all crates are formatted'
