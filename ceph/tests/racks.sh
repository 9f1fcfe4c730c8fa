#!/usr/bin/env bash
# Racks as network namespaces that a bridge joins, each with an address of its own; one is cut off and comes back. It needs root.
#   racks.sh spare    ten racks with a shard in each: with one cut off all is read and written
#   racks.sh local    three racks, a group of (6,2,2) in each of two: what has a group in the rack that is cut off waits until it is back
export ADDRESS=10.211.0.1 NETWORK=10.211.0.0/24
. "$(dirname "$0")/cluster.sh"
kind=$1
bridge=tryceph
if [ "$kind" = spare ]; then racks=10 osds=11; else racks=3 osds=15; fi

finish() {
  local i
  cluster_stop
  for i in $(seq 0 $((racks - 1))); do
    ip link del "$bridge$i" 2> /dev/null || true
    ip netns del "$bridge-$i" 2> /dev/null || true
  done
  ip link del "$bridge" 2> /dev/null || true
}
trap finish EXIT

networks() {
  local i
  ip link add "$bridge" type bridge
  ip address add "$ADDRESS/24" dev "$bridge"
  ip link set "$bridge" up
  for i in $(seq 0 $((racks - 1))); do
    ip netns add "$bridge-$i"
    ip link add "$bridge$i" type veth peer name rack netns "$bridge-$i"
    ip link set "$bridge$i" master "$bridge" up
    ip -n "$bridge-$i" address add "10.211.0.$((10 + i))/24" dev rack
    ip -n "$bridge-$i" link set rack up
    ip -n "$bridge-$i" link set lo up
  done
}

on_host() {
  local number=$1 rack=$(($1 % racks)) address
  shift
  address=10.211.0.$((10 + rack))
  launch "osd.$number" ip netns exec "$bridge-$rack" "$@" "--public_addr=$address" "--cluster_addr=$address"
}

# in_rack N: how many OSDs a rack has.
in_rack() { echo $(((osds - $1 + racks - 1) / racks)); }

step "a cluster of $osds OSDs in $racks racks, each a namespace of its own, on processors $CPUS"
networks
cluster_new "$osds" "$racks"
if [ "$kind" = spare ]; then
  ceph osd erasure-code-profile set words plugin=azure_lrc crush-failure-domain=rack
  layout=plain
else
  ceph osd erasure-code-profile set words plugin=azure_lrc layout=groups crush-locality=rack crush-failure-domain=host
  layout=groups
fi
ceph osd pool create coded 16 16 erasure words 2>> "$RUN/setup.out"
ceph osd pool application enable coded rados 2> /dev/null
wait_clean 240
objects make "$RUN/files" 16 300000
objects write coded "$RUN/files"
ceph osd set noout 2> /dev/null
ip link set "${bridge}1" down
wait_for "$((osds - $(in_rack 1))) up"
for _ in $(seq 60); do
  if said=$(objects four coded "$RUN/files" "$layout" 2>&1); then break; fi
  sleep 2
done
[[ $said == *'read as written' ]] || fail "$said"
step "rack 1 is cut off: $said"
if [ "$kind" = spare ]; then
  mkdir "$RUN/late"
  head -c 250000 /dev/urandom > "$RUN/late/late"
  head -c 150000 /dev/urandom > "$RUN/late/o8"
  objects write coded "$RUN/late"
  cp "$RUN"/late/* "$RUN/files"
  said=$(objects compare coded "$RUN/files") || fail "$said"
  step "written meanwhile: $said"
fi
ip link set "${bridge}1" up
wait_for "$osds up"
wait_clean 400
said=$(objects compare coded "$RUN/files") || fail "$said"
step "rack 1 is back: $said"
[ "$(aborts)" = 0 ] || fail "a daemon's log has an abort"
