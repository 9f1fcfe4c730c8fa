#!/usr/bin/env bash
# What the rebuilding of one lost OSD costs over the network, for several profiles in turn on one cluster: a pool of each, objects of
# one size, the OSD with the most shards stopped and out, and the bytes that all OSDs sent until all was clean, beside those lost.
#   recovery.sh <objects> <bytes of an object> <name:word=value,word=value>..
. "$(dirname "$0")/cluster.sh"
count=$1
size=$2
shift 2
osds=12
trap cluster_stop EXIT

# Makes the pool $name with its objects.
fill() {
  # shellcheck disable=SC2086
  ceph osd erasure-code-profile set "$name" ${words//,/ } crush-failure-domain=osd stripe_unit=65536
  ceph osd pool create "$name" 64 64 erasure "$name" 2>> "$RUN/setup.out"
  ceph osd pool application enable "$name" rados 2> /dev/null
  wait_clean 120
  objects fill "$name" "$count" "$size"
}

# Stops the OSD $victim, has it go out, and measures until all is clean.
lose() {
  local lost places idle before start took
  ceph osd set noout 2> /dev/null
  halt "osd.$victim"
  wait_for "$((osds - 1)) up"
  sleep 8
  read -r lost places < <(objects degraded "$name")
  idle=$(sent)
  sleep 8
  idle=$((($(sent) - idle) / 8))
  before=$(sent)
  start=$SECONDS
  ceph osd unset noout 2> /dev/null
  ceph osd out "$victim" 2> /dev/null
  sleep 3
  wait_clean 400
  took=$((SECONDS - start))
  awk -v name="$name" -v lost="$lost" -v shard="$((size / 6))" -v sent="$(($(sent) - before))" -v idle="$idle" \
    -v took="$took" -v places="$places" 'BEGIN {
    all = lost * shard
    printf "    %s: %d shards, %.1f MB, rebuilt in %d s; sent %.2f bytes for each, %.2f without what is sent at rest (%.2f MB/s)",
      name, lost, all / 1e6, took, sent / all, (sent - took * idle) / all, idle / 1e6
    printf "; shards lost by number: %s\n", places }'
}

# Everything as it was before.
restore() {
  ceph osd pool delete "$name" "$name" --yes-i-really-really-mean-it 2> /dev/null
  osd "$victim"
  wait_for "$osds up"
  ceph osd in "$victim" 2> /dev/null
  sleep 3
  wait_clean 120
}

step "a cluster of $osds OSDs, on processors $CPUS; for each profile $count objects of $size bytes"
cluster_new "$osds"
for profile; do
  name=${profile%%:*}
  words=${profile#*:}
  fill
  victim=$(objects fullest "$name")
  lose
  restore
done
