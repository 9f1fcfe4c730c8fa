# shellcheck shell=bash
# Functions for a Ceph cluster of one machine on the loopback, to be sourced: a monitor, a manager, and OSDs over files below $RUN.
#   RUN       an empty folder of its own, which ceph/try.sh makes and removes
#   PLUGINS   the folder of plugins, ours and the shipped ones
#   ADDRESS   the monitor's address (127.0.0.1), in NETWORK (127.0.0.0/8)
#   AUTH      none or cephx (none): how daemons and clients show who they are
#   CPUS      the processors that all daemons share; MEMORY, the megabytes that they may hold together; SECONDS_MOST, their time
# Each daemon's process id is kept in $RUN/<name>.pid, and those alone are stopped: at the end, and by a guard where memory or
# time is used up.
set -euo pipefail
: "${RUN:?}" "${PLUGINS:?}"
CPUS=${CPUS:-0,1}
MEMORY=${MEMORY:-5000}
SECONDS_MOST=${SECONDS_MOST:-1500}
AUTH=${AUTH:-none}
ADDRESS=${ADDRESS:-127.0.0.1}
NETWORK=${NETWORK:-127.0.0.0/8}
HERE=$(cd "$(dirname "${BASH_SOURCE[0]}")" && pwd)
export CEPH_CONF=$RUN/ceph.conf
unset CEPH_ARGS
# In the folder in which systemd starts daemons too: Debian's 18.2.7 looks for its classes in lib/ below it.
BOUND=(taskset -c "$CPUS" nice -n 5 env -C /)

step() { printf '    %s  %s\n' "$(date +%T)" "$*"; }

# fail WHY: also says of each daemon that has ended what it said last, as that asynchronous reads are used up (fs.aio-max-nr: an OSD takes
# 512, by bdev_aio_max_queue_depth below).
fail() {
  local name last telling='FAILED ceph_assert|aio-max-nr|: \(|ERROR|azure_lrc:'
  echo "    FAILED: $*"
  for name in $(names); do
    if ! is_alive "$name"; then
      last=$(cat "$RUN/$name.log" "$RUN/$name.out" 2> /dev/null | grep -E "$telling" | tail -n 2 || true)
      echo "    $name has ended: ${last:-$(tail -n 1 "$RUN/$name.out")}"
    fi
  done
  exit 1
}

# A command of a script that fails, and isn't in a function, is shown, with what a command that writes there said last.
trap 'echo "    FAILED: line $LINENO: $BASH_COMMAND: $(tail -n 1 "$RUN/setup.out" 2> /dev/null)"' ERR

objects() { /usr/bin/python3 "$HERE/objects.py" "$@"; }

is_alive() { [ -f "$RUN/$1.pid" ] && kill -0 "$(cat "$RUN/$1.pid")" 2> /dev/null; }

# launch NAME COMMAND..: starts a daemon; taskset, nice and env become it, so the id is its own.
launch() {
  local name=$1
  shift
  "${BOUND[@]}" "$@" -c "$CEPH_CONF" > "$RUN/$name.out" 2>&1 &
  echo $! > "$RUN/$name.pid"
  disown
}

# on_host N COMMAND..: starts the daemon of an OSD on its host. All are one host, if a script doesn't say otherwise.
on_host() {
  local number=$1
  shift
  launch "osd.$number" "$@"
}

osd() { on_host "$1" ceph-osd -f -i "$1"; }

# halt NAME..: stops daemons, and those that don't end in twenty seconds by force.
halt() {
  local name pid
  for name in "$@"; do
    if is_alive "$name"; then kill "$(cat "$RUN/$name.pid")"; fi
  done
  for name in "$@"; do
    [ -f "$RUN/$name.pid" ] || continue
    pid=$(cat "$RUN/$name.pid")
    for _ in $(seq 100); do kill -0 "$pid" 2> /dev/null || break; sleep 0.2; done
    if kill -0 "$pid" 2> /dev/null; then kill -KILL "$pid"; fi
    rm -f "$RUN/$name.pid"
  done
}

names() { find "$RUN" -maxdepth 1 -name '*.pid' ! -name 'guard.pid' -printf '%f\n' | sed 's/\.pid$//' | sort -r; }

cluster_stop() {
  if [ -f "$RUN/guard.pid" ]; then
    kill "$(cat "$RUN/guard.pid")" 2> /dev/null || true
    rm -f "$RUN/guard.pid"
  fi
  # shellcheck disable=SC2046
  halt $(names)
}

# What the daemons hold together, in megabytes.
memory_now() {
  local name pid
  for name in $(names); do
    if pid=$(cat "$RUN/$name.pid" 2> /dev/null); then ps -o rss= -p "$pid" || true; fi
  done | awk '{ sum += $1 } END { printf "%d\n", sum / 1000 }'
}

# Stops all daemons where they hold too much or run too long; what waits for them then ends.
guard() {
  local end=$((SECONDS + SECONDS_MOST)) now most=0 name
  while sleep 3; do
    now=$(memory_now)
    if [ "$now" -gt "$most" ]; then most=$now; echo "$most" > "$RUN/memory"; fi
    if [ "$now" -gt "$MEMORY" ] || [ "$SECONDS" -gt "$end" ]; then
      echo "    FAILED: the daemons hold $now MB of $MEMORY, or ran for more than $SECONDS_MOST seconds: they are stopped"
      for name in $(names); do kill -KILL "$(cat "$RUN/$name.pid")" 2> /dev/null || true; done
      return
    fi
  done
}

# After mon_lease seconds (5, if not set) a monitor takes its trial of a new pool's rule for failed, as beside much other work.
configure() { # FSID
  cat > "$CEPH_CONF" << END
[global]
fsid = $1
mon_host = [v2:$ADDRESS:13300,v1:$ADDRESS:16789]
ms_bind_ipv4 = true
ms_bind_ipv6 = false
public_network = $NETWORK
cluster_network = $NETWORK
public_addr = $ADDRESS
auth_cluster_required = $AUTH
auth_service_required = $AUTH
auth_client_required = $AUTH
rados_osd_op_timeout = 60
rados_mon_op_timeout = 60
run_dir = $RUN/asok
log_file = $RUN/\$name.log
mon_cluster_log_file = $RUN/cluster.log
crash_dir = $RUN/crash
keyring = $RUN/keyring
erasure_code_dir = $PLUGINS
osd_erasure_code_plugins = jerasure isa azure_lrc
osd_pool_default_pg_autoscale_mode = off
osd_pool_erasure_code_stripe_unit = ${STRIPE_UNIT:-4096}
osd_crush_chooseleaf_type = 0
osd_crush_update_on_start = false
mon_max_pg_per_osd = 1000
mon_allow_pool_delete = true
mon_warn_on_insecure_global_id_reclaim_allowed = false
[mon]
mon_lease = 60
admin_socket = $RUN/asok/\$name.asok
mon_data = $RUN/mon
mon_osd_down_out_interval = 36000
mon_data_avail_warn = 1
mon_data_avail_crit = 1
mon_osd_min_down_reporters = 1
[mgr]
admin_socket = $RUN/asok/\$name.asok
mgr_data = $RUN/mgr
mgr_initial_modules =
[mds]
admin_socket = $RUN/asok/\$name.asok
mds_data = $RUN/mds
[osd]
admin_socket = $RUN/asok/\$name.asok
osd_data = $RUN/osd\$id
osd_objectstore = bluestore
bluestore_block_size = 3221225472
bluestore_cache_autotune = false
bluestore_cache_size = 33554432
bdev_aio_max_queue_depth = 256
osd_op_queue = wpq
osd_heartbeat_grace = 8
osd_heartbeat_interval = 2
osd_max_backfills = 4
osd_recovery_max_active = 8
osd_recovery_sleep = 0
osd_scrub_sleep = 0
osd_max_scrubs = 4
osd_op_num_shards = 2
osd_op_num_threads_per_shard = 1
END
}

# key NAME CAPS..: a daemon's key, in the keyring that all share; without cephx there is none.
key() {
  [ "$AUTH" = cephx ] || return 0
  ceph auth get-or-create "$@" > "$RUN/key" 2>> "$RUN/setup.out"
  cat "$RUN/key" >> "$RUN/keyring"
}

# The folders, the monitor and the manager.
cluster_start() {
  local fsid
  fsid=$(cat /proc/sys/kernel/random/uuid)
  mkdir -p "$RUN"/{mon,mgr,asok,crash}
  configure "$fsid"
  {
    ceph-authtool --create-keyring "$RUN/keyring" --gen-key -n mon. --cap mon 'allow *'
    ceph-authtool "$RUN/keyring" --gen-key -n client.admin --cap mon 'allow *' --cap osd 'allow *' --cap mgr 'allow *' --cap mds 'allow *'
    monmaptool --create --clobber --fsid "$fsid" --addv a "[v2:$ADDRESS:13300,v1:$ADDRESS:16789]" "$RUN/monmap"
    "${BOUND[@]}" ceph-mon --mkfs -i a --monmap "$RUN/monmap" --keyring "$RUN/keyring" -c "$CEPH_CONF"
  } > "$RUN/setup.out" 2>&1
  launch mon.a ceph-mon -f -i a
  key mgr.x mon 'allow profile mgr' osd 'allow *' mds 'allow *'
  launch mgr.x ceph-mgr -f -i x
  guard &
  echo $! > "$RUN/guard.pid"
  disown
}

# cluster_new OSDS [RACKS]: a cluster in so many racks, each OSD on a host of its own.
cluster_new() {
  local count=$1 racks=${2:-1} i
  cluster_start
  for i in $(seq 0 $((count - 1))); do
    mkdir -p "$RUN/osd$i"
    cat /proc/sys/kernel/random/uuid > "$RUN/osd$i.uuid"
    ceph osd new "$(cat "$RUN/osd$i.uuid")" "$i" > /dev/null
    key "osd.$i" mon 'allow profile osd' mgr 'allow profile osd' osd 'allow *'
  done
  # shellcheck disable=SC2016
  seq 0 $((count - 1)) | xargs -P 2 -I{} sh -c 'run=$0; exec "$@" -i {} --osd-uuid "$(cat "$run/osd{}.uuid")" >> "$run/setup.out" 2>&1' \
    "$RUN" "${BOUND[@]}" ceph-osd --mkfs -c "$CEPH_CONF"
  for i in $(seq 0 $((racks - 1))); do
    ceph osd crush add-bucket "rack$i" rack 2>> "$RUN/setup.out"
    ceph osd crush move "rack$i" root=default 2>> "$RUN/setup.out"
  done
  for i in $(seq 0 $((count - 1))); do
    ceph osd crush add "osd.$i" 1 root=default "rack=rack$((i % racks))" "host=host$i" 2>> "$RUN/setup.out"
    osd "$i"
  done
  wait_for "$count up" "$count in"
}

# replicated POOL: a pool with five copies, so that it serves with three OSDs stopped.
replicated() {
  ceph osd pool create "$1" 8 8 replicated 2>> "$RUN/setup.out"
  ceph osd pool set "$1" size 5 2> /dev/null
  ceph osd pool set "$1" min_size 1 2> /dev/null
}

# wait_for WORDS..: until `ceph osd stat` says them all.
wait_for() {
  local said word is_all
  for _ in $(seq 240); do
    said=$(ceph osd stat 2> /dev/null || true)
    is_all=yes
    for word in "$@"; do [[ $said == *" $word"* ]] || is_all=; done
    [ -z "$is_all" ] || return 0
    is_alive mon.a || fail 'the monitor has ended'
    sleep 0.5
  done
  fail "never: $* (but $said)"
}

# wait_clean SECONDS: until all placement groups are whole. Without a pool there are none: Debian 13's manager, which loads none of its
# modules, has no pool of its own.
wait_clean() {
  local left=$1 said
  while [ "$left" -gt 0 ]; do
    said=$(ceph pg stat 2> /dev/null || true)
    if [[ $said =~ pgs:\ [0-9]+\ active\+clean\; ]]; then return 0; fi
    if [[ $said == '0 pgs:'* ]] && [ -z "$(ceph osd pool ls 2> /dev/null)" ]; then return 0; fi
    is_alive mon.a || fail 'the monitor has ended'
    sleep 1
    left=$((left - 1))
  done
  fail "not clean in time: $(ceph pg stat)"
}

# scrub ERRORS: has all groups of the pool `coded` scrubbed deeply, and asks for so many errors.
scrub() {
  local since pg said=
  since=$(date -u +%Y-%m-%dT%H:%M:%S)
  for pg in $(ceph pg ls-by-pool coded 2> /dev/null | awk '$1 ~ /^[0-9]+\./ { print $1 }'); do
    ceph pg deep-scrub "$pg" > /dev/null 2>&1
  done
  for _ in $(seq 150); do
    if said=$(objects scrubbed coded "$since"); then break; fi
    sleep 1
  done
  step "scrubbed deeply: $said"
  [[ $said == *", $1 errors" ]] || fail "there have to be $1 errors"
}

# What all OSDs have sent so far, in bytes, as their messengers count.
sent() {
  local name
  for name in $(names | grep '^osd'); do
    ceph daemon "$RUN/asok/$name.asok" perf dump 2> /dev/null
  done | objects sent
}

# aborts: how many daemons' logs have an abort.
aborts() { { grep -lE 'Caught signal|FAILED ceph_assert' "$RUN"/*.log "$RUN"/*.out 2> /dev/null || true; } | wc -l; }
