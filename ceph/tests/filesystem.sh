#!/usr/bin/env bash
# A file system whose files are in a pool with overwrites: parts of files are written over and cut off, with all OSDs and with two stopped,
# and all bytes are compared by a client that is mounted anew.
. "$(dirname "$0")/cluster.sh"
osds=11
trap cluster_stop EXIT

# change WHEN SEED: writes, compared by another client.
change() {
  local said
  said=$(/usr/bin/python3 "$HERE/filesystem.py" data "$2" 2>&1) || fail "$1: $said"
  step "$1: $said"
}

step "a cluster of $osds OSDs and a file system, on processors $CPUS"
cluster_new "$osds"
ceph osd erasure-code-profile set words plugin=azure_lrc crush-failure-domain=osd
ceph osd pool create data 8 8 erasure words 2>> "$RUN/setup.out"
ceph osd pool set data allow_ec_overwrites true 2> /dev/null
for pool in names first; do replicated "$pool"; done
ceph fs new files names first 2> /dev/null
ceph fs add_data_pool files data 2> /dev/null
mkdir "$RUN/mds"
launch mds.a ceph-mds -f -i a
wait_clean 240
for _ in $(seq 60); do if ceph mds stat 2> /dev/null | grep -q 'up:active'; then break; fi; sleep 1; done
change 'all OSDs' 1
ceph osd set noout 2> /dev/null
halt osd.0 osd.1
wait_for "$((osds - 2)) up"
change 'two OSDs stopped' 2
for i in 0 1; do osd "$i"; done
wait_for "$osds up"
wait_clean 400
change 'all again' 3
[ "$(aborts)" = 0 ] || fail "a daemon's log has an abort"
