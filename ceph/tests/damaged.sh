#!/usr/bin/env bash
# A shard with wrong bytes and a right checksum: parts of objects are read, with `fast_read` off and on, with all shards right and with one
# wrong. No OSD may end, and with `fast_read` the plugin says which shards don't fit: on standard error, and where the OSD went into the
# background in the system's log. That is tried where the system has none, so that one can be put in its place.
. "$(dirname "$0")/cluster.sh"
osds=11
trap 'cluster_stop; [ ! -f "$RUN/log" ] || rm -f /dev/log' EXIT

# parts WHEN: reads parts of all objects.
parts() { said=$(objects partial coded "$RUN/files" 400); step "$1: $said"; }

# Replaces a byte in each 512 of a shard on a stopped OSD.
damage() {
  local json
  json=$(ceph-objectstore-tool --data-path "$RUN/osd$1" --op list --pgid "$2" "$3" 2> "$RUN/tool.out" | head -n 1)
  ceph-objectstore-tool --data-path "$RUN/osd$1" "$json" get-bytes "$RUN/shard" > "$RUN/tool.out" 2>&1
  python3 -c 'import sys; p = sys.argv[1]; b = bytearray(open(p, "rb").read())
for k in range(0, len(b), 512): b[k] ^= 255
open(p, "wb").write(b)' "$RUN/shard"
  ceph-objectstore-tool --data-path "$RUN/osd$1" "$json" set-bytes "$RUN/shard" > "$RUN/tool.out" 2>&1
}

# none_ended: no daemon has an abort in its log, and all OSDs run.
none_ended() {
  [ "$(aborts)" = 0 ] || fail "$(grep -hE 'FAILED ceph_assert' "$RUN"/*.log | head -n 1)"
  wait_for "$osds up"
}

# parts_until_said WHEN WHERE FILE..: reads parts until the plugin has said in these files that shards contradict each other, for
# which one more has to arrive in time.
parts_until_said() {
  local when=$1 where=$2 lines=
  shift 2
  for _ in $(seq 20); do
    parts "$when"
    none_ended
    lines=$(sed -n 's/.*\(azure_lrc: decode\)/\1/p' "$@" | sed 's/[0-9][0-9 ]*/N /g' | sort | uniq -c | sed 's/^ *//' | paste -sd ';')
    [ -z "$lines" ] || break
  done
  [ -n "$lines" ] || fail "the plugin has said nothing $where"
  step "said $where: $lines"
}

step "a cluster of $osds OSDs, on processors $CPUS"
cluster_new "$osds"
ceph osd erasure-code-profile set words plugin=azure_lrc crush-failure-domain=osd
ceph osd pool create coded 8 8 erasure words 2>> "$RUN/setup.out"
ceph osd pool application enable coded rados 2> /dev/null
wait_clean 240
objects make "$RUN/files" 10 1500000
objects write coded "$RUN/files"
for fast in 0 1; do
  ceph osd pool set coded fast_read "$fast" 2> /dev/null
  parts "all shards right, fast_read $fast"
  [[ $said == *' 400 right,'* ]] || fail 'not all are right'
done
ceph osd pool set coded fast_read 0 2> /dev/null
read -r pg primary victim rest < <(objects acting coded o8)
ceph osd set noout 2> /dev/null
halt "osd.$victim"
damage "$victim" "${pg}s1" o8
osd "$victim"
wait_for "$osds up"
wait_clean 240
step "shard 1 of o8 has other bytes on osd.$victim (group $pg: $primary $victim $rest)"
parts 'one shard wrong, fast_read 0'
none_ended
ceph osd pool set coded fast_read 1 2> /dev/null
parts_until_said 'one shard wrong, fast_read 1' 'on standard error' "$RUN"/osd.*.out
if [ "$(id -u)" = 0 ] && [ ! -e /dev/log ]; then
  launch syslog python3 "$HERE/system-log.py" /dev/log
  touch "$RUN/log"
  halt "osd.$primary"
  "${BOUND[@]}" ceph-osd -i "$primary" "--pid_file=$RUN/osd.$primary.pid" -c "$CEPH_CONF" > "$RUN/tool.out" 2>&1
  wait_for "$osds up"
  wait_clean 240
  parts_until_said "one shard wrong, fast_read 1, osd.$primary in the background" "in the system's log" "$RUN/syslog.out"
else
  step "not tried: the system's log, which this system has"
fi
said=$(objects compare coded "$RUN/files") || true
step "whole objects: $said"
step 'no OSD has ended'
