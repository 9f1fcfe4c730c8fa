#!/usr/bin/env bash
# Groups that Ceph calls incomplete. Five OSDs are dead and marked as lost: three are gone, two don't start but can be read by Ceph's tool,
# and on one of these a shard has a wrong checksum. What the living OSDs' shards determine comes back, and with those of the two all does.
# The rebuilt shard is put back, the groups of the two are moved into new OSDs, and the pool is whole.
#   incomplete.sh <program rebuild-store> <rebuild-ceph>
. "$(dirname "$0")/cluster.sh"
program=$1
taking=$2
osds=15
fresh=(13 14)
trap cluster_stop EXIT
ask() { /usr/bin/python3 "$HERE/incomplete.py" "$@"; }

# take STATUS STORE GROUP OSD..: a group's shards into a store.
take() {
  local wanted=$1 store=$2 group=$3 ended=0 it folders=()
  shift 3
  for it; do folders+=(--osd "$RUN/osd$it"); done
  "$taking" export "$store" --group "$group" "${folders[@]}" > "$RUN/said" 2> "$RUN/why" || ended=$?
  [ "$ended" = "$wanted" ] || fail "rebuild-ceph ended with $ended: $(cat "$RUN/why" "$RUN/said")"
}

# repair STATUS LOST: rebuilds what the store's fragments determine, and holds it to what the equations say.
repair() {
  local ended=0 said
  "$program" repair "$RUN/store" --code 6-2-2 > "$RUN/said" 2>&1 || ended=$?
  [ "$ended" = "$1" ] || fail "rebuild-store ended with $ended: $(tail -n 3 "$RUN/said")"
  said=$(ask compare "$RUN/acting" "$dead" "$2" "$RUN/truth" "$RUN/store" 2>&1) || fail "$said"
  step "$said"
}

tool() { ceph-objectstore-tool --data-path "$RUN/osd$1" "${@:2}" > "$RUN/tool.out" 2>&1; }

# The pool, whose groups have had more writes than their logs hold: else new OSDs take part by the log alone. The manager's balancer would
# move shards after it is written down where they are.
make_pool() {
  local i
  cluster_new "$osds"
  ceph balancer off 2>> "$RUN/setup.out" || step 'the manager has no balancer'
  for i in "${fresh[@]}"; do ceph osd crush reweight "osd.$i" 0 2>> "$RUN/setup.out"; done
  for i in min_pg_log_entries max_pg_log_entries pg_log_trim_min; do ceph config set osd "osd_$i" 1; done
  ceph osd erasure-code-profile set words plugin=azure_lrc crush-failure-domain=osd
  ceph osd pool create coded 32 32 erasure words 2>> "$RUN/setup.out"
  ceph osd pool application enable coded rados 2> /dev/null
  wait_clean 240
  objects make "$RUN/files" 48 200000
  for i in 1 2 3; do objects write coded "$RUN/files"; done
  ask remember coded "$RUN/acting" "$RUN/files"
}

lose() {
  local i said
  # shellcheck disable=SC2046,SC2086
  halt $(printf 'osd.%s ' ${dead//,/ })
  wait_for "$((osds - 5)) up"
  # shellcheck disable=SC2086
  for i in "${groups[@]}"; do take 0 "$RUN/truth" "$i" ${dead//,/ }; done
  for i in ${dead//,/ }; do ceph osd lost "$i" --yes-i-really-mean-it 2>> "$RUN/setup.out"; done
  # shellcheck disable=SC2086
  ceph osd out ${dead//,/ } 2>> "$RUN/setup.out"
  for i in ${gone//,/ }; do rm -rf "$RUN/osd$i"; done
  for _ in $(seq 120); do
    said=$(ask states coded "$RUN/acting" "$dead" 2>&1)
    [ -n "$said" ] || break
    sleep 2
  done
  [ -z "$said" ] || fail "$said"
  step "OSDs $dead are lost; of the groups with objects ${groups[*]} are incomplete, as the equations say, and no other"
  step "$(ceph health detail 2> /dev/null | grep -m 1 'is incomplete' | sed 's/^ *//; s/2147483647/none/g; s/ (.*//')"
}

# Has a shard's checksum wrong on a disk, so that Ceph's own tool doesn't move its group.
damage() {
  local shard name why
  read -r group shard name < <(ask damageable "$RUN/acting" "$gone" "$dead" "$damaged")
  ask damage "$RUN/osd$damaged/block" "$RUN/truth/$name"
  if tool "$damaged" --op export --pgid "${group}s$shard" --file "$RUN/group"; then fail "${group}s$shard is exported, damage and all"; fi
  why=$(grep -iE 'error|fail' "$RUN/tool.out" | tail -n 1)
  step "$name is damaged on osd.$damaged, and Ceph's export of ${group}s$shard fails: $why"
}

# move FROM TO: the incomplete groups of an OSD that doesn't start, by Ceph's own export and import.
move() {
  local it name
  for it in "${groups[@]}"; do
    name=$(ceph-objectstore-tool --data-path "$RUN/osd$1" --op list-pgs 2> "$RUN/tool.out" | grep "^${it}s" || true)
    [ -n "$name" ] || continue
    rm -f "$RUN/group"
    tool "$1" --op export --pgid "$name" --file "$RUN/group" || fail "$name isn't exported: $(tail -n 1 "$RUN/tool.out")"
    tool "$2" --op import --file "$RUN/group" || fail "$name isn't imported: $(tail -n 1 "$RUN/tool.out")"
    step "$name is moved from osd.$1 to osd.$2"
  done
}

step "a cluster of $osds OSDs, two of them spare, on processors $CPUS"
make_pool
read -r gone dead damaged < <(ask choose "$RUN/acting" $((osds - 2)))
mapfile -t groups < <(ask incomplete "$RUN/acting" "$dead")
mapfile -t living < <(comm -23 <(seq 0 $((osds - 3)) | sort) <(tr ',' '\n' <<< "$dead" | sort))
mapfile -t readable < <(comm -23 <(tr ',' '\n' <<< "$dead" | sort) <(tr ',' '\n' <<< "$gone" | sort))
lose
# shellcheck disable=SC2046
halt $(names | grep '^osd')
for it in "${groups[@]}"; do take 0 "$RUN/store" "$it" "${living[@]}"; done
repair 1 "$dead"

damage
for it in "${groups[@]}"; do take "$([ "$it" = "$group" ] && echo 1 || echo 0)" "$RUN/store" "$it" "${readable[@]}"; done
repair 0 "$gone"
"$taking" put "$RUN/store" --group "$group" --osd "$RUN/osd$damaged" > "$RUN/said" 2> "$RUN/why" || true
step "$(cat "$RUN/said")"
grep -q '^put 1 shards' "$RUN/said" || fail "$(cat "$RUN/why")"

for i in 0 1; do move "${readable[$i]}" "${fresh[$i]}"; done
for i in "${living[@]}" "${fresh[@]}"; do osd "$i"; done
wait_for "$((osds - 5)) up"
for i in "${fresh[@]}"; do ceph osd crush reweight "osd.$i" 1 2>> "$RUN/setup.out"; done
wait_clean 400
said=$(objects compare coded "$RUN/files") || fail "$said"
step "$(ceph pg stat 2> /dev/null | sed 's/;.*//'): $said"
[ "$(aborts)" = 0 ] || fail "a daemon's log has an abort"
