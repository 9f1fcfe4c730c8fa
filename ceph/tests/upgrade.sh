#!/usr/bin/env bash
# A cluster goes to a newer release of Ceph while a pool of the plugin is in use: first the monitor, then the manager, then the OSDs host
# by host, three at a time. Each release is in a root of its own, where its own plugin is installed; both have $RUN under its path, in which
# the daemons keep what they hold. While the OSDs of a host are stopped objects are written, written over and read. With half of the hosts
# done an OSD of each release is lost, and its shards are rebuilt and scrubbed by OSDs of both. An OSD that gets the newer release with the
# older plugin ends, and starts once it has its own.
#   upgrade.sh <root of the older release> <root of the newer one>
export PLUGINS=/usr/lib/x86_64-linux-gnu/ceph/erasure-code
. "$(dirname "$0")/cluster.sh"
older=$1
newer=$2
osds=12
hosts=4
declare -A root_of
for i in $(seq 0 $((osds - 1))); do root_of[$i]=$older; done
# The release of all but the OSDs.
export CEPH_ROOT=$older
trap cluster_stop EXIT

# Ceph's programs are those of CEPH_ROOT, where they find no other.
mkdir "$RUN/bin"
for it in ceph ceph-mon ceph-mgr ceph-osd ceph-authtool monmaptool; do
  printf '#!/bin/sh\nPATH=/usr/bin:/bin\nexec /usr/sbin/chroot "$CEPH_ROOT" /usr/bin/%s "$@"\n' "$it" > "$RUN/bin/$it"
  chmod 755 "$RUN/bin/$it"
done
PATH=$RUN/bin:$PATH
objects() { PATH=/usr/bin:/bin /usr/sbin/chroot "$CEPH_ROOT" /usr/bin/python3 /try/ceph/tests/objects.py "$@"; }
osd() { CEPH_ROOT=${root_of[$1]} on_host "$1" ceph-osd -f -i "$1"; }

# release ROOT: as 18.2.7.
release() { CEPH_ROOT=$1 ceph-osd --version | awk '{ print $3 }'; }

# compare WHEN [POOL]: reads all objects and compares them.
compare() {
  local said
  said=$(objects compare "${2:-coded}" "$RUN/files") || fail "$1: $said"
  step "$1: $said"
}

# write NAME: a new object, and another one over o7 and o8.
write() {
  local it
  rm -rf "$RUN/late"
  mkdir "$RUN/late"
  for it in "$1" o7 o8; do head -c $((200000 + RANDOM * 20)) /dev/urandom > "$RUN/late/$it"; done
  objects write coded "$RUN/late"
  cp "$RUN/late"/* "$RUN/files"
}

make_pool() {
  ceph osd erasure-code-profile set words plugin=azure_lrc crush-failure-domain=osd
  ceph osd pool create coded 16 16 erasure words 2>> "$RUN/setup.out"
  ceph osd pool application enable coded rados 2> /dev/null
  wait_clean 240
  objects make "$RUN/files" 20 1000000
  objects write coded "$RUN/files"
  compare 'written'
}

# Starts an OSD of the newer release with the older plugin.
with_older_plugin() {
  mkdir "$RUN/mixed"
  find "$newer$PLUGINS/" -name '*.so' ! -name libec_azure_lrc.so -printf "$PLUGINS/%P\n" | xargs ln -s -t "$RUN/mixed"
  cp "$older$PLUGINS/libec_azure_lrc.so" "$RUN/mixed/"
  CEPH_ROOT=$newer launch "osd.$1" ceph-osd -f -i "$1" "--erasure_code_dir=$RUN/mixed" '--osd_erasure_code_plugins=jerasure isa'
  for _ in $(seq 60); do is_alive "osd.$1" || break; sleep 1; done
  if is_alive "osd.$1"; then fail "with the older plugin osd.$1 of the newer release runs"; fi
  grep -qF 'FAILED ceph_assert(ec_impl)' "$RUN/osd.$1.log" || fail "osd.$1 has ended for another reason"
  step "osd.$1 of the newer release ends with the older plugin"
}

# upgrade_host N: its OSDs are stopped and started with the newer release.
upgrade_host() {
  local those i
  mapfile -t those < <(seq "$1" "$hosts" $((osds - 1)))
  for i in "${those[@]}"; do halt "osd.$i"; done
  wait_for "$((osds - ${#those[@]})) up"
  write "late$1"
  compare "the OSDs ${those[*]} stopped, written over"
  [ "$1" != 1 ] || with_older_plugin "${those[0]}"
  for i in "${those[@]}"; do
    root_of[$i]=$newer
    osd "$i"
  done
  wait_for "$osds up"
  # What the manager says is up to five seconds old.
  sleep 6
  wait_clean 400
  compare "the OSDs ${those[*]} of the newer release"
}

# One OSD of each release is lost, and comes back.
lose_one_of_each() {
  step "$(objects releases)"
  halt osd.0 osd.2
  wait_for "$((osds - 2)) up"
  write lost
  ceph osd out 0 2 2> /dev/null
  sleep 3
  wait_clean 400
  compare 'osd.0 of the newer and osd.2 of the older release lost, recovered onto the others'
  scrub 0
  osd 0
  osd 2
  wait_for "$osds up"
  ceph osd in 0 2 2> /dev/null
  sleep 3
  wait_clean 400
  compare 'these two again'
}

step "a cluster of $osds OSDs of $(release "$older") on $hosts hosts, which goes to $(release "$newer"), on processors $CPUS"
cluster_new "$osds"
make_pool
ceph osd set noout 2> /dev/null
halt mon.a mgr.x
CEPH_ROOT=$newer launch mon.a ceph-mon -f -i a
CEPH_ROOT=$newer launch mgr.x ceph-mgr -f -i x
wait_for "$osds up"
wait_clean 240
compare 'the monitor and the manager of the newer release'
for ((host = 0; host < hosts; host++)); do
  upgrade_host "$host"
  [ "$host" != 1 ] || lose_one_of_each
done
CEPH_ROOT=$newer
ceph osd require-osd-release "$(ceph-osd --version | awk '{ print $5 }')" 2> "$RUN/said" || fail "$(cat "$RUN/said")"
ceph osd unset noout 2> /dev/null
is=$(release "$newer")
said=$(objects releases)
[ "$said" = "mon: 1 of $is; mgr: 1 of $is; osd: $osds of $is" ] || fail "not all are of the newer release: $said"
write last
wait_clean 240
compare 'all of the newer release, and required'
scrub 0
ceph osd erasure-code-profile set groups plugin=azure_lrc layout=groups crush-failure-domain=osd
ceph osd pool create other 8 8 erasure groups 2>> "$RUN/setup.out"
ceph osd pool application enable other rados 2> /dev/null
wait_clean 240
objects write other "$RUN/files"
compare 'a new pool' other
[ "$(aborts)" = 1 ] || fail "a daemon's log has an abort, beside that of the OSD with the older plugin"
step "the daemons held $(cat "$RUN/memory") MB at most"
