#!/usr/bin/env bash
# RBD images whose data are in a pool with overwrites, and daemons and clients that show who they are (cephx): parts of an image are written
# over and discarded, a snapshot is taken and cloned, up to three OSDs are stopped, and all bytes are compared each time.
export AUTH=cephx
. "$(dirname "$0")/cluster.sh"
osds=11
trap cluster_stop EXIT
images() { /usr/bin/python3 "$HERE/images.py" "$@"; }

# change WHEN SEED COUNT: writes and discards, all compared.
change() {
  local said
  said=$(images write names "$2" "$3" 2>&1) || fail "$1: $said"
  step "$1: $said"
}

step "a cluster of $osds OSDs with cephx, on processors $CPUS"
cluster_new "$osds"
ceph osd erasure-code-profile set words plugin=azure_lrc crush-failure-domain=osd
ceph osd pool create data 8 8 erasure words 2>> "$RUN/setup.out"
ceph osd pool set data allow_ec_overwrites true 2> /dev/null
replicated names
for pool in data names; do ceph osd pool application enable "$pool" rbd 2> /dev/null; done
wait_clean 240
images make names data
change 'all OSDs' 1 200
ceph osd set noout 2> /dev/null
for i in 0 1 2; do
  halt "osd.$i"
  wait_for "$((osds - 1 - i)) up"
  sleep 2
  change "$((i + 1)) OSDs stopped" $((i + 2)) 100
done
for i in 0 1 2; do osd "$i"; done
wait_for "$osds up"
wait_clean 400
change 'all again' 9 50
[ "$(aborts)" = 0 ] || fail "a daemon's log has an abort"
