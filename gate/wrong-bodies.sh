#!/usr/bin/env bash
# Tests the edits in wrong-bodies and no-compile of crates/*, and in wrong-bodies of library/ and companion/: the text that an edit replaces
# is in its file once, each edit that CONTRIBUTING.md names in quotes is there, and no crate has edits in must-fail, for which `rt ci` would
# prove it once more. With the argument `rows` it prints them all, each with its kind, or "gate" if gate/refused.py tries it, and its file.
set -euo pipefail
cd "$(dirname "$0")/.."
scratch=$(mktemp -d)
trap 'rm -rf "$scratch"' EXIT

rows() {
  local kind edit name below said
  for kind in wrong-bodies no-compile; do
    for edit in crates/*/"$kind"/*.edit {library,companion}/"$kind"/*.edit; do
      [ -e "$edit" ] || continue
      name=$(basename "$edit" .edit)
      below=${edit#crates/}
      said=$kind
      ! grep -q '^refused in: ' "$edit" || said=gate
      printf '%-12s %-12s %-60s %s\n' "${below%%/*}" "$said" "${name//_/ }" "$(sed -n 's/^file: //p' "$edit" | head -1)"
    done
  done
}

rows > "$scratch/edits"
if [ "${1:-}" = rows ]; then
  cat "$scratch/edits"
  exit
fi
shopt -s nullglob
tools/edits.py crates/*/{wrong-bodies,no-compile}/*.edit {library,companion}/wrong-bodies/*.edit

for edit in crates/*/must-fail/*.edit; do
  echo "$edit: rt ci would prove its crate once more: it belongs in wrong-bodies, and with a line 'refused in: FUNCTION' the gate tries it"
  exit 1
done

while read -r name; do
  grep -qF " $name  " "$scratch/edits" || { echo "CONTRIBUTING.md: there is no edit \"$name\""; exit 1; }
done < <(tr '\n' ' ' < CONTRIBUTING.md | grep -o '"[^"]*"' | tr -d '"' | tr -s ' ')
echo "wrong bodies: $(wc -l < "$scratch/edits") edits, each of a text that is in its file once"
