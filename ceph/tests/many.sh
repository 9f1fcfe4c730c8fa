#!/usr/bin/env bash
# Ten thousand shards of one stopped OSD: rebuild-ceph takes all of them out, and finds them the same when they are to be put back, each
# in four minutes at most, beside other work.
#   many.sh <rebuild-ceph>
. "$(dirname "$0")/cluster.sh"
taking=$1
osds=10
count=10000
trap cluster_stop EXIT

# timed COMMAND WORD..: runs rebuild-ceph over the shards of the OSD.
timed() {
  local start=$SECONDS
  "$taking" "$1" "$RUN/store" --pool "$pool" --osd "$RUN/osd3" > "$RUN/said" 2> "$RUN/why" || fail "$(cat "$RUN/why" "$RUN/said")"
  step "$1: $(cat "$RUN/said"), $((SECONDS - start)) s"
  [ $((SECONDS - start)) -le 240 ] || fail 'it took more than four minutes'
}

step "a cluster of $osds OSDs, on processors $CPUS"
cluster_new "$osds"
ceph osd erasure-code-profile set words plugin=azure_lrc crush-failure-domain=osd
ceph osd pool create coded 8 8 erasure words 2>> "$RUN/setup.out"
ceph osd pool application enable coded rados 2> /dev/null
wait_clean 240
pool=$(ceph osd pool ls detail | sed -n "s/^pool \([0-9]*\) 'coded'.*/\1/p")
objects fill coded "$count" 5000
step "$count objects are written"
halt osd.3
timed export
[ "$(find "$RUN/store" -maxdepth 1 -type f ! -name '.*' -size 4096c | wc -l)" = "$count" ] || fail 'not all shards are in the store'
timed put
grep -q "; $count were the same," "$RUN/said" || fail 'not all are the same'
