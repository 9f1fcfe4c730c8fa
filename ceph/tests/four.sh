#!/usr/bin/env bash
# Four OSDs are lost and `min_size` is k: the groups whose other shards determine the data are active and serve it, the others wait, and no
# OSD ends. With the OSDs back, and `min_size` too, all is as it was.
. "$(dirname "$0")/cluster.sh"
osds=11
trap cluster_stop EXIT

step "a cluster of $osds OSDs, on processors $CPUS"
cluster_new "$osds"
ceph osd erasure-code-profile set words plugin=azure_lrc crush-failure-domain=osd
ceph osd pool create coded 32 32 erasure words 2>> "$RUN/setup.out"
ceph osd pool application enable coded rados 2> /dev/null
wait_clean 240
objects make "$RUN/files" 24 200000
objects write coded "$RUN/files"
ceph osd set noout 2> /dev/null
halt osd.0 osd.1 osd.2 osd.3
wait_for "$((osds - 4)) up"
ceph osd pool set coded min_size 6 2> /dev/null
for _ in $(seq 60); do
  if said=$(objects four coded "$RUN/files" 2>&1); then break; fi
  sleep 2
done
[[ $said == *'read as written' ]] || fail "$said"
step "four OSDs stopped, min_size 6: $said"
[ "$(aborts)" = 0 ] || fail "a daemon's log has an abort"
for i in 0 1 2 3; do osd "$i"; done
wait_for "$osds up"
wait_clean 400
ceph osd pool set coded min_size 7 2> /dev/null
said=$(objects compare coded "$RUN/files") || fail "$said"
step "with all again: $said"
