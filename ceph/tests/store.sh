#!/usr/bin/env bash
# Shards of a pool as the fragments of a store: objects are written, some once more and one removed while an OSD is stopped, all OSDs
# stopped, the shards of all but two of them taken out by rebuild-ceph, the others' rebuilt by rebuild-store and compared with what these
# two hold; then shards are damaged in the OSDs and put back, by a run that is killed while it writes one and by another, and the OSDs
# started. At last objects are written over, and what the store has of them isn't put.
#   store.sh <program rebuild-store> <rebuild-ceph>
. "$(dirname "$0")/cluster.sh"
program=$1
taking=$2
osds=11
dead=(0 1)
trap cluster_stop EXIT

# folders OSD..: the words that name the folders of OSDs.
folders() { printf -- "--osd\n$RUN/osd%s\n" "$@"; }

# take STATUS STORE OSD..: the shards of some OSDs.
take() {
  local wanted=$1 store=$2 ended=0
  shift 2
  mapfile -t words < <(folders "$@")
  "$taking" export "$store" --pool "$pool" "${words[@]}" > "$RUN/said" 2> "$RUN/why" || ended=$?
  [ "$ended" = "$wanted" ] || fail "rebuild-ceph ended with $ended: $(cat "$RUN/why" "$RUN/said")"
  step "$(cat "$RUN/said")"
}

# miss: an OSD that has a shard of o9 misses that it is removed, and that others are written over.
miss() {
  stale=$(objects acting coded o9 | tr ' ' '\n' | tail -n +2 | grep -vxE '0|1' | head -n 1)
  ceph osd set noout 2> /dev/null
  halt "osd.$stale"
  wait_for "$((osds - 1)) up"
  mkdir "$RUN/late"
  for object in o2 o3 o8; do head -c 123456 /dev/urandom > "$RUN/late/$object"; done
  objects write coded "$RUN/late"
  cp "$RUN/late"/* "$RUN/files"
  rados -p coded rm o9
  rm "$RUN/files/o9"
}

# fragments STORE: how many it has.
fragments() { find "$1" -maxdepth 1 -type f ! -name '.*' | wc -l; }

# Overwrites one byte of the shards of an object on a stopped OSD.
damage() {
  local json
  json=$(ceph-objectstore-tool --data-path "$RUN/osd$2" --op list 2> /dev/null | grep "^\[\"$pool\..*\"oid\":\"$1\"" | head -n 1)
  [ -n "$json" ] || return 1
  rm -f "$RUN/shard"
  ceph-objectstore-tool --data-path "$RUN/osd$2" "$json" get-bytes "$RUN/shard" > "$RUN/tool.out" 2>&1
  printf 'damaged' | dd of="$RUN/shard" bs=1 conv=notrunc status=none
  ceph-objectstore-tool --data-path "$RUN/osd$2" "$json" set-bytes "$RUN/shard" > "$RUN/tool.out" 2>&1
}

step "a cluster of $osds OSDs, on processors $CPUS"
cluster_new "$osds"
ceph osd erasure-code-profile set words plugin=azure_lrc crush-failure-domain=osd
ceph osd pool create coded 8 8 erasure words 2>> "$RUN/setup.out"
ceph osd pool application enable coded rados 2> /dev/null
wait_clean 240
pool=$(ceph osd pool ls detail | sed -n "s/^pool \([0-9]*\) 'coded'.*/\1/p")
objects make "$RUN/files" 10 3000000
objects write coded "$RUN/files"
said=$(objects compare coded "$RUN/files") || fail "$said"
step "$said"
miss
# shellcheck disable=SC2046
halt $(names | grep '^osd')
mapfile -t living < <(seq ${#dead[@]} $((osds - 1)))
take 0 "$RUN/dead" "${dead[@]}"
take 1 "$RUN/store" "${living[@]}"
left=$(grep -c "$RUN/osd$stale: is of another write" "$RUN/why" || true)
over=$(grep 'is of another write' "$RUN/why" | grep -cv '^o9\.' || true)
step "$left shards of osd.$stale, which missed writes, are left alone"
[ "$left" = $((over + 1)) ] || fail "not the shards of that OSD alone, and that of the removed object: $(cat "$RUN/why")"
before=$(fragments "$RUN/store")
"$program" repair "$RUN/store" --code 6-2-2 > "$RUN/said" 2>&1 || fail "$(cat "$RUN/said")"
step "$(tail -n 1 "$RUN/said")"
for file in "$RUN/dead"/*; do cmp "$file" "$RUN/store/${file##*/}" || fail "another ${file##*/} was rebuilt"; done
lost=$(fragments "$RUN/dead")
[ "$(fragments "$RUN/store")" = $((before + lost + over)) ] || fail 'the store has other fragments than those of the OSDs'
step "$lost shards of two OSDs came back as Ceph holds them"

# give: puts the store's fragments into all OSDs, which are stopped.
give() {
  mapfile -t words < <(folders $(seq 0 $((osds - 1))))
  "$taking" put "$RUN/store" --pool "$pool" "${words[@]}" > "$RUN/said" 2> "$RUN/why" || true
}

# give_killed: the same, killed as soon as Ceph's tool writes a shard.
give_killed() {
  local pid
  mapfile -t words < <(folders $(seq 0 $((osds - 1))))
  "$taking" put "$RUN/store" --pool "$pool" "${words[@]}" > "$RUN/said" 2> "$RUN/why" &
  pid=$!
  while [[ $(ps -eo args) != *' set-bytes '* ]]; do
    kill -0 "$pid" 2> /dev/null || fail "put has written nothing: $(cat "$RUN/why" "$RUN/said")"
    sleep 0.05
  done
  kill -KILL "$pid"
  wait "$pid" 2> /dev/null || true
}

# start WHEN: starts all OSDs, and compares all objects once they are whole.
start() {
  for i in $(seq 0 $((osds - 1))); do osd "$i"; done
  wait_for "$osds up"
  wait_clean 240
  said=$(objects compare coded "$RUN/files") || fail "$said"
  step "$1: $said"
}

count=0
for osd in "${dead[@]}"; do for object in o3 o4 o5; do if damage "$object" "$osd"; then count=$((count + 1)); fi; done; done
give_killed
give
step "$count shards damaged, put back by a run that was killed and by another: $(cat "$RUN/said")"
rest=$(sed -n 's/^put \([0-9]*\) shards.*/\1/p' "$RUN/said")
# The killed run had at most one at work on each OSD.
[ -n "$rest" ] && [ "$rest" -le "$count" ] && [ "$rest" -ge $((count - ${#dead[@]})) ] || fail "$(cat "$RUN/why" "$RUN/said")"
give
grep -q '^put 0 shards' "$RUN/said" || fail "not all were put back: $(cat "$RUN/why" "$RUN/said")"
start 'with all OSDs again'

for object in o4 o5; do head -c 234567 /dev/urandom > "$RUN/late/$object"; done
objects write coded "$RUN/late"
cp "$RUN/late"/* "$RUN/files"
# shellcheck disable=SC2046
halt $(names | grep '^osd')
give
step "written over since: $(cat "$RUN/said")"
grep -q '^put 0 shards' "$RUN/said" || fail "what was written since was written over: $(cat "$RUN/why")"
[ "$(grep -cE '^o[45]\..*: it is left alone$' "$RUN/why")" = 20 ] || fail "not all shards of o4 and o5 are left alone: $(cat "$RUN/why")"
start 'started again'
