#!/usr/bin/env bash
# Tries the built plugin in the Ceph that is installed. It installs nothing, says what it left out, and stops what it started.
#
#   ceph/try.sh parts         prints their names
#   ceph/try.sh [part]..      all parts without a word:
#     abi       the table of calls, and what odd calls do, beside those of the shipped plugins
#     host      every set of one to four lost shards, errors, refused memory, least reads, by a program that loads plugins as Ceph does
#     tool      the same sets by ceph-erasure-code-tool
#     pool      a cluster for each code: OSDs stopped, objects read, overwritten, recovered, scrubbed, a damaged shard repaired
#     images    RBD images over overwrites, with cephx
#     files     a file system over overwrites
#     racks     ten racks as network namespaces, one of which is cut off
#     groups    three such racks with a group in each of two; one is cut off
#     four      four OSDs lost with min_size k
#     damaged   a shard with wrong bytes and a right checksum, with fast_read off and on
#     levels    OSDs with the plugin for x86-64-v2 beside others with that for x86-64-v3; the former on a processor without AVX2 (qemu-user)
#     reads     chunks read for one and two lost shards, beside Ceph's other codes
#     recovery  bytes that OSDs send for a lost one, beside Ceph's other codes
#     bench     encoding and decoding beside isa and the others
#     store     shards taken out of stopped OSDs by rebuild-ceph, rebuilt by rebuild-store, and put back
#     many      ten thousand shards of an OSD, taken out by rebuild-ceph
#     incomplete groups that Ceph calls incomplete: what is determined comes back, and the pool is whole
#
# Clusters are on the loopback, on the processors CPUS (0,1), with at most MEMORY megabytes (5000) and SECONDS_MOST seconds (1500) for
# each, in a folder below TMPDIR that is removed at the end, or kept where a part failed.
set -euo pipefail
cd "$(dirname "$0")/.."
PLUGINS=$PWD/ceph/out/plugins
host=$PWD/ceph/out/host
tests=$PWD/ceph/tests
shipped=/usr/lib/x86_64-linux-gnu/ceph/erasure-code
CPUS=${CPUS:-0,1}
export PLUGINS CPUS
codes=(code=6-2-2 code=6-2-2,layout=groups code=12-2-2 code=12-2-2,layout=groups)
peers=(plugin=isa,technique=cauchy,k=6,m=4 plugin=jerasure,technique=reed_sol_van,k=6,m=4 plugin=lrc,k=6,m=2,l=4
  plugin=shec,k=6,m=4,c=3 plugin=clay,k=6,m=4,d=9)
# What takes seconds goes first, then what takes longest, and what measures times last.
all=(abi reads host pool recovery store incomplete many tool levels groups images racks four files damaged bench)
left_out=()
failed=()

[ "$*" != parts ] || { echo "${all[@]}"; exit; }
[ -f "$PLUGINS/libec_azure_lrc.so" ] && [ -x "$host" ] || {
  echo "The plugin isn't built: run 'make ceph' first." >&2
  exit 1
}

# has WHAT COMMAND..: whether the commands are there; else WHAT is left out.
has() {
  local what=$1 it
  shift
  for it in "$@"; do
    command -v "$it" > /dev/null || {
      left_out+=("$what ($it isn't installed)")
      return 1
    }
  done
}

daemons=(ceph ceph-mon ceph-mgr ceph-osd ceph-objectstore-tool ceph-authtool monmaptool rados)

# in_cluster SCRIPT WORDS..: runs a script in a folder of its own, within a bound of time.
in_cluster() {
  local name=$1 ended=0
  shift
  RUN=$(mktemp -d "${TMPDIR:-/tmp}/try-ceph.XXXXXX")
  export RUN
  # In the foreground, so that an interrupt reaches the script, which then stops its daemons.
  timeout --foreground --kill-after=60 "$((${SECONDS_MOST:-1500} + 60))" "$tests/$name" "$@" || ended=$?
  if [ "$ended" = 0 ]; then
    rm -rf "$RUN"
  else
    echo "    its files are kept in $RUN"
  fi
  return "$ended"
}

part_abi() {
  has 'the table of calls' readelf python3 || return 0
  if [ ! -d "$shipped" ]; then
    left_out+=("the table of calls (no plugin of Ceph is installed)")
    return 0
  fi
  "$tests/abi.sh" ceph/out "$shipped"
  "$host" beside plugin=azure_lrc "${peers[@]}"
}

# in_short COMMAND..: what the plugin says of each call that it refuses is shown only where the command fails.
in_short() {
  local said ended=0
  said=$(mktemp)
  "$@" 2> "$said" || ended=$?
  [ "$ended" = 0 ] || cat "$said" >&2
  rm -f "$said"
  return "$ended"
}

part_host() {
  local it
  for it in "${codes[@]}"; do
    in_short "$host" sets "plugin=azure_lrc,$it" 1 5000 100000
    in_short "$host" odd "plugin=azure_lrc,$it"
    in_short "$host" starved "plugin=azure_lrc,$it"
    "$host" threads "plugin=azure_lrc,$it"
  done
  "$host" said plugin=azure_lrc
  "$host" words plugin=azure_lrc
  "$host" version plugin=azure_lrc
  "$host" least plugin=azure_lrc 3
  "$host" least plugin=azure_lrc,code=12-2-2 2
}

part_tool() {
  local it
  has "Ceph's tool" ceph-erasure-code-tool || return 0
  for it in "${codes[@]}"; do
    echo "  ceph-erasure-code-tool, $it"
    taskset -c "$CPUS" "$tests/tool.sh" "$PLUGINS" "$it" 4096 2
  done
}

part_pool() {
  has 'the clusters' "${daemons[@]}" || return 0
  in_cluster pool.sh code=6-2-2,crush-failure-domain=host 14 1 60
  in_cluster pool.sh code=12-2-2,layout=groups,crush-failure-domain=host,crush-locality=rack 24 3 40
}

part_images() {
  has 'images' "${daemons[@]}" rbd || return 0
  in_cluster images.sh
}

part_files() {
  has 'a file system' "${daemons[@]}" ceph-mds || return 0
  if ! /usr/bin/python3 -c 'import cephfs' 2> /dev/null; then
    left_out+=("a file system (Debian's python3-cephfs isn't installed)")
    return 0
  fi
  in_cluster filesystem.sh
}

# in_racks KIND: the trial of racks, where they can be made.
in_racks() {
  has "racks, $1" "${daemons[@]}" ip || return 0
  if [ "$(id -u)" != 0 ] || ! ip netns add tryceph-test 2> /dev/null; then
    left_out+=("racks, $1 (network namespaces can't be made here)")
    return 0
  fi
  ip netns del tryceph-test
  in_cluster racks.sh "$1"
}

part_racks() { in_racks spare; }

part_groups() { in_racks local; }

part_four() {
  has 'four lost' "${daemons[@]}" || return 0
  in_cluster four.sh
}

part_damaged() {
  has 'damaged shards' "${daemons[@]}" || return 0
  in_cluster damaged.sh
}

# with_store WHAT SCRIPT: a script that takes shards out of OSDs and rebuilds them.
with_store() {
  has "$1" "${daemons[@]}" || return 0
  if [ ! -x crates/rebuild_store/out/rebuild_store ]; then
    left_out+=("$1 (run 'make store' first)")
    return 0
  fi
  in_cluster "$2" "$PWD/crates/rebuild_store/out/rebuild_store" "$PWD/ceph/rebuild-ceph"
}

part_store() { with_store 'shards as a store' store.sh; }

part_many() {
  has 'many shards' "${daemons[@]}" || return 0
  in_cluster many.sh "$PWD/ceph/rebuild-ceph"
}

part_incomplete() { with_store 'incomplete groups' incomplete.sh; }

part_levels() {
  local level it
  has 'two levels' "${daemons[@]}" objdump || return 0
  for level in x86-64-v2 x86-64-v3; do
    [ ! -f "ceph/out/$level/libec_azure_lrc.so" ] || continue
    left_out+=("two levels (run 'make ceph CPU=$level' first)")
    return 0
  done
  in_cluster levels.sh "$PWD/ceph/out"
  has 'a processor without AVX2' qemu-x86_64 || return 0
  for it in "${codes[@]}"; do
    PLUGINS=$PWD/ceph/out/x86-64-v2 in_short qemu-x86_64 -cpu Nehalem "$host" sets "plugin=azure_lrc,$it" 5000
  done
}

part_reads() { "$host" cost plugin=azure_lrc plugin=azure_lrc,code=12-2-2 "${peers[@]}" plugin=isa,technique=cauchy,k=12,m=4; }

part_recovery() {
  local it profiles=(azure_lrc:plugin=azure_lrc)
  has 'the bytes sent' "${daemons[@]}" || return 0
  for it in "${peers[@]}"; do profiles+=("$(sed 's/plugin=\([a-z]*\).*/\1/' <<< "$it"):$it"); done
  STRIPE_UNIT=65536 in_cluster recovery.sh 48 6291456 "${profiles[@]}" azure_lrc_again:plugin=azure_lrc
}

# The shortest of interleaved rounds, at realtime priority where that is allowed.
part_bench() {
  local chunk first=()
  if chrt -f 5 true 2> /dev/null; then first=(chrt -f 5); else echo '  not at realtime priority: it is not allowed'; fi
  for chunk in 4096 65536 1048576; do
    "${first[@]}" taskset -c "${CPUS%%,*}" "$host" bench 6 "$chunk" plugin=azure_lrc plugin=isa,technique=cauchy,k=6,m=4
    "${first[@]}" taskset -c "${CPUS%%,*}" "$host" bench 6 "$chunk" plugin=azure_lrc,code=12-2-2 plugin=isa,technique=cauchy,k=12,m=4
    taskset -c "${CPUS%%,*}" "$host" bench 6 "$chunk" plugin=azure_lrc "${peers[@]}"
  done
}

RELEASE=$(ceph-osd --version 2> /dev/null | sed -n 's/^ceph version \([0-9.]*\).*/\1/p' || true)
if [ -n "$RELEASE" ]; then export RELEASE; else unset RELEASE; fi
echo "Ceph ${RELEASE:-(no ceph-osd is installed)}; $(sed -n 's/^model name\t: //p' /proc/cpuinfo | head -n 1)," \
  "$(getconf _NPROCESSORS_ONLN) processors"
parts=("$@")
[ $# -gt 0 ] || parts=("${all[@]}")
for part in "${parts[@]}"; do
  declare -F "part_$part" > /dev/null || { echo "There is no part $part." >&2; exit 2; }
done
for part in "${parts[@]}"; do
  echo "$part: $(date +%T), load $(cut -d ' ' -f 1 /proc/loadavg)"
  start=$SECONDS
  # In a shell of its own, so that a failure ends the part alone; what it left out comes back by a file.
  notes=$(mktemp)
  set +e
  (
    trap 'printf "%s\n" ${left_out[@]+"${left_out[@]}"} > "$notes"' EXIT
    left_out=()
    set -e
    "part_$part"
  )
  ended=$?
  set -e
  end=passed
  while read -r it; do
    [ -n "$it" ] || continue
    left_out+=("$it")
    end='left out'
  done < "$notes"
  rm -f "$notes"
  if [ "$ended" != 0 ]; then
    failed+=("$part")
    end=FAILED
  fi
  echo "$part: $end, $((SECONDS - start)) s, load $(cut -d ' ' -f 1 /proc/loadavg)"
done
for it in ${left_out[@]+"${left_out[@]}"}; do echo "left out: $it"; done
[ ${#failed[@]} = 0 ] || { echo "failed: ${failed[*]}"; exit 1; }
echo 'all parts that could be tried passed'
