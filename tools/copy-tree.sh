#!/usr/bin/env bash
# Copies the repository's files as they are now, tracked ones and new ones that aren't ignored, into a folder, which it makes.
#   copy-tree.sh FOLDER
set -euo pipefail
mkdir -p "${1:?'the folder'}"
to=$(realpath "$1")
cd "$(dirname "$0")/.."
# A file that is tracked and was removed is still in the list.
git ls-files -z --cached --others --exclude-standard | while IFS= read -r -d '' file; do
  [ ! -e "$file" ] || printf '%s\0' "$file"
done | xargs -0 cp --parents -t "$to"
