#!/usr/bin/env bash
# A pool of the plugin in a cluster on the loopback: objects are written, one, two and three OSDs stopped, all read after each,
# written over, the lost shards recovered onto other OSDs, scrubbed, and a damaged shard found and repaired; all bytes are compared
# each time.
#   pool.sh <words of the profile> <OSDs> <racks> <objects>
. "$(dirname "$0")/cluster.sh"
words=$1
count=$2
racks=$3
files=$RUN/files
trap cluster_stop EXIT

# compare WHEN: reads all objects and compares them.
compare() {
  local said
  said=$(objects compare coded "$files") || fail "$1: $said"
  step "$1: $said"
}

# shard_bytes get-bytes|set-bytes FILE: the bytes of the shard at $json on the stopped OSD $victim.
shard_bytes() { ceph-objectstore-tool --data-path "$RUN/osd$victim" "$json" "$1" "$2" > "$RUN/tool.out" 2>&1; }

make_pool() {
  local wrong said data
  for wrong in k=5 code=7-2-2 layout=rows mapping=DDDDDD____ stripe_unit=100 stripe_unit=0; do
    if ceph osd erasure-code-profile set wrong plugin=azure_lrc $wrong > "$RUN/said" 2>&1; then fail "$wrong is not refused"; fi
    step "refused: $wrong: $(tail -n 1 "$RUN/said")"
  done
  # shellcheck disable=SC2086
  ceph osd erasure-code-profile set words plugin=azure_lrc ${words//,/ }
  ceph osd pool create coded 16 16 erasure words 2>> "$RUN/setup.out"
  ceph osd pool application enable coded rados 2> /dev/null
  wait_clean 120
  step "a pool of $(ceph osd erasure-code-profile get words | tr '\n' ' ')"
  if [[ $words == *crush-locality* ]]; then
    data=$(ceph osd erasure-code-profile get words | sed -n 's/^k=//p')
    said=$(objects racks coded $((data / 2 + 1))) || fail "$said"
    step "$said"
  fi
}

stop_three() {
  local i
  ceph osd set noout 2> /dev/null
  for i in 0 1 2; do
    halt "osd.$i"
    wait_for "$((count - 1 - i)) up"
    sleep 2
    compare "$((i + 1)) OSDs stopped"
  done
  mkdir "$RUN/late"
  for i in 0 1 2 3; do head -c $((500000 * (i + 1))) /dev/urandom > "$RUN/late/late$i"; done
  head -c 700000 /dev/urandom > "$RUN/late/o5"
  objects write coded "$RUN/late"
  cp "$RUN"/late/* "$files"
  compare 'written and overwritten with 3 stopped'
}

recover() {
  ceph osd unset noout 2> /dev/null
  ceph osd out 0 1 2 2> /dev/null
  sleep 3
  wait_clean 400
  compare 'recovered onto the others'
  scrub 0
}

# Damages a shard on its stopped OSD.
damage() {
  local primary rest
  read -r pg primary victim rest < <(objects acting coded o6)
  step "shard 1 of o6 is damaged on osd.$victim (group $pg: $primary $victim $rest)"
  ceph osd set noout 2> /dev/null
  halt "osd.$victim"
  json=$(ceph-objectstore-tool --data-path "$RUN/osd$victim" --op list --pgid "${pg}s1" o6 2> "$RUN/tool.out" | head -n 1)
  shard_bytes get-bytes "$RUN/shard"
  cp "$RUN/shard" "$RUN/before"
  printf 'damaged' | dd of="$RUN/shard" bs=1 seek=100 conv=notrunc status=none
  shard_bytes set-bytes "$RUN/shard"
  osd "$victim"
  wait_for "$((count - 3)) up"
  ceph osd unset noout 2> /dev/null
  wait_clean 120
  compare 'with the damaged shard'
}

repair() {
  scrub 1
  step "found: $(rados list-inconsistent-obj "$pg" -f json | grep -oE '"(name|union_shard_errors)":("[^"]*"|\[[^]]*\])' | tr '\n' ' ')"
  ceph pg repair "$pg" > /dev/null 2>&1
  for _ in $(seq 60); do ceph health detail 2> /dev/null | grep -q OSD_SCRUB_ERRORS || break; sleep 1; done
  sleep 2
  scrub 0
  halt "osd.$victim"
  shard_bytes get-bytes "$RUN/after"
  cmp "$RUN/before" "$RUN/after" || fail 'the shard has other bytes after the repair'
  osd "$victim"
  wait_for "$((count - 3)) up"
  wait_clean 120
  compare 'repaired, the shard as it was'
}

launch_without_plugin() { launch "osd.$1" ceph-osd -f -i "$1" "--erasure_code_dir=$RUN/without" '--osd_erasure_code_plugins=jerasure isa'; }

# ends OSD WHEN: the OSD ends, with the line that docs/CEPH.md names.
ends() {
  for _ in $(seq 60); do is_alive "osd.$1" || break; sleep 1; done
  if is_alive "osd.$1"; then fail "without the plugin osd.$1 runs"; fi
  grep -qF 'FAILED ceph_assert(ec_impl)' "$RUN/osd.$1.log" || fail "osd.$1 has ended for another reason"
  step "without the plugin osd.$1 ends $2"
  compare 'without it'
}

# An OSD whose machine has not the plugin ends at its start where it has a placement group of the pool, and else as soon as it gets one.
start_without_plugin() {
  mkdir "$RUN/without"
  find "$PLUGINS/" -name '*.so' ! -name libec_azure_lrc.so -exec ln -s -t "$RUN/without" {} +
  halt osd.4
  launch_without_plugin 4
  ends 4 'at its start'
  rm -rf "$RUN/osd0"
  mkdir "$RUN/osd0"
  {
    ceph osd purge 0 --yes-i-really-mean-it
    ceph osd new "$(cat "$RUN/osd0.uuid")" 0
    "${BOUND[@]}" ceph-osd --mkfs -c "$CEPH_CONF" -i 0 --osd-uuid "$(cat "$RUN/osd0.uuid")"
    ceph osd crush add osd.0 0 root=default rack=rack0 host=host0
  } >> "$RUN/setup.out" 2>&1
  launch_without_plugin 0
  wait_for "$((count - 3)) up"
  sleep 5
  is_alive osd.0 || fail 'an OSD without a placement group of the pool ends'
  ceph osd crush reweight osd.0 1 2>> "$RUN/setup.out"
  ends 0 'when it gets its first placement group'
}

step "a cluster of $count OSDs in $racks racks, on processors $CPUS"
cluster_new "$count" "$racks"
make_pool
objects make "$files" "$4" 4194304
objects write coded "$files"
compare 'written'
stop_three
recover
damage
repair
[ "$(aborts)" = 0 ] || fail "a daemon's log has an abort"
step "the daemons held $(cat "$RUN/memory") MB at most; no daemon's log has an abort"
start_without_plugin
