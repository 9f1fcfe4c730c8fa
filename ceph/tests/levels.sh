#!/usr/bin/env bash
# OSDs on machines of two kinds: half of them have the plugin that is built for x86-64-v2, which has no instruction of AVX2, the others that
# for x86-64-v3. Objects are written, read with an OSD of each kind stopped, recovered and scrubbed; then one gets the other build.
#   levels.sh <folder with a folder of the plugin for each level>
. "$(dirname "$0")/cluster.sh"
built=$1
osds=12
trap cluster_stop EXIT

# folder LEVEL: the plugins of a machine.
folder() {
  mkdir "$RUN/$1"
  find "$PLUGINS/" -name '*.so' ! -name libec_azure_lrc.so -exec ln -s -t "$RUN/$1" {} +
  ln -s "$built/$1/libec_azure_lrc.so" "$RUN/$1/"
}

# wide_registers LEVEL: how many instructions use registers that AVX has.
wide_registers() { objdump -d --no-show-raw-insn "$built/$1/libec_azure_lrc.so" | grep -c '%ymm' || true; }

declare -A level
for i in $(seq 0 $((osds - 1))); do level[$i]=x86-64-v$((2 + i % 2)); done
osd() { on_host "$1" ceph-osd -f -i "$1" "--erasure_code_dir=$RUN/${level[$1]}"; }

# compare WHEN: reads all objects and compares them.
compare() {
  local said
  said=$(objects compare coded "$RUN/files") || fail "$1: $said"
  step "$1: $said"
}

for it in x86-64-v2 x86-64-v3; do
  folder "$it"
  step "$it: $(wide_registers "$it") instructions use 32-byte registers, $(sha256sum "$built/$it/libec_azure_lrc.so" | head -c 12)"
done
[ "$(wide_registers x86-64-v2)" = 0 ] || fail 'the build for x86-64-v2 has instructions of AVX2'
step "a cluster of $osds OSDs, half of them with each, on processors $CPUS"
cluster_new "$osds"
ceph osd erasure-code-profile set words plugin=azure_lrc crush-failure-domain=osd
ceph osd pool create coded 16 16 erasure words 2>> "$RUN/setup.out"
ceph osd pool application enable coded rados 2> /dev/null
wait_clean 240
objects make "$RUN/files" 24 1000000
objects write coded "$RUN/files"
compare 'written'
ceph osd set noout 2> /dev/null
halt osd.0 osd.1
wait_for "$((osds - 2)) up"
compare 'one of each stopped'
ceph osd unset noout 2> /dev/null
ceph osd out 0 1 2> /dev/null
sleep 3
wait_clean 400
compare 'recovered onto the others'
scrub 0
level[0]=x86-64-v3
osd 0
osd 1
wait_for "$osds up"
ceph osd in 0 1 2> /dev/null
sleep 3
wait_clean 400
scrub 0
compare 'osd.0 with the other build'
[ "$(aborts)" = 0 ] || fail "a daemon's log has an abort"
