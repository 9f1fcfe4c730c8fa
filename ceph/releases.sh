#!/usr/bin/env bash
# Tries the plugin in each release of Ceph that it is for, in a clean root of the Debian that has it, made by debootstrap: 16.2 in bookworm
# and 18.2 in trixie. In each the plugin is built from these sources, and the parts of ceph/try.sh run; a cluster goes from the one to the
# other. Clusters mostly wait, so several parts run beside each other, each in a network of its own. At the end a table has them all.
#
#   ceph/releases.sh [16.2|18.2|upgrade].. [-- part..]    all of these without a word; PART is one of try.sh's
#
# `make library` for both levels, and `make store` for two of the parts, come before. It needs root's rights, debootstrap and the network
# for Debian's packages; what runs in the roots reaches no machine. Roots take 2 GB each below TMPDIR, and are removed at the end; those of
# ROOTS=FOLDER stay, and are taken again. All of it runs on the processors CPUS (0,1), with CLUSTERS parts (4) at once. MEMORY and
# SECONDS_MOST are try.sh's, for each of them.
set -euo pipefail
cd "$(dirname "$0")/.."
declare -A suites=([16.2]=bookworm [18.2]=trixie)
packages=(ceph-mon ceph-mgr ceph-osd ceph-mds ceph-common python3-rados python3-rbd python3-cephfs libradospp-dev librados-dev g++ make
  python3 binutils iproute2 procps qemu-user)
tests=$PWD/ceph/tests
export CPUS=${CPUS:-0,1}
most=${CLUSTERS:-4}
what=()
while [ $# -gt 0 ] && [ "$1" != -- ]; do
  what+=("$1")
  shift
done
parts=("${@:2}")
[ ${#parts[@]} -gt 0 ] || read -ra parts <<< "$(ceph/try.sh parts)"
[ ${#what[@]} -gt 0 ] || what=(16.2 18.2 upgrade)
for it in "${what[@]}"; do
  [ "$it" = upgrade ] || [ -n "${suites[$it]:-}" ] || { echo "There is no release $it here." >&2; exit 2; }
done
if [ "$(id -u)" != 0 ] || ! command -v debootstrap unshare ip > /dev/null; then
  echo "releases: left out: clean roots need debootstrap, unshare, ip and root's rights"
  exit 0
fi
for it in crates/lrc_c/out/{x86-64-v2,x86-64-v3}/liblrc_c.a; do
  [ -f "$it" ] || { echo "releases: no $it: run 'make library' with CPU=x86-64-v2, and with CPU=x86-64-v3, first" >&2; exit 1; }
done
taskset -cp "$CPUS" $$ > /dev/null
scratch=$(mktemp -d "${TMPDIR:-/tmp}/ceph-releases.XXXXXX")
# What runs in a root has no such folder.
unset TMPDIR
shared=$scratch/shared
said=$scratch/said
roots=${ROOTS:-$scratch/roots}
mkdir "$shared"
: > "$said"
# What runs, by its process id, and whether something of it has failed.
declare -A running=()
has_failed=

# leave: ends what still runs, and removes all, but for the files of parts where one has failed.
leave() {
  local it
  for it in "${!running[@]}"; do kill -KILL -- "-$it" 2> /dev/null || true; done
  wait
  rm -rf --one-file-system "$scratch/roots"
  if [ -n "$has_failed" ] && compgen -G "$shared/*" > /dev/null; then
    echo "releases: files of what failed are kept in $scratch"
  else
    rm -rf --one-file-system "$scratch"
  fi
}
trap leave EXIT

# quietly WHAT COMMAND..: runs the command, and shows the end of what it wrote only where it fails.
quietly() {
  local log
  log=$(mktemp -p "$scratch")
  "${@:2}" > "$log" 2>&1 || { tail -n 20 "$log"; echo "releases: FAILED: $1"; exit 1; }
}

# in_root RELEASE COMMAND..: runs a command there; what it leaves at work ends with it.
in_root() {
  DEBIAN_FRONTEND=noninteractive LC_ALL=C unshare --mount --pid --fork --kill-child "--mount-proc=$roots/$1/proc" \
    chroot "$roots/$1" "${@:2}"
}

# make_root RELEASE: a clean root with Ceph and a compiler. No daemon is started in it.
make_root() {
  local root=$roots/$1
  [ ! -e "$root/made" ] || return 0
  mkdir -p "$roots"
  rm -rf --one-file-system "$root"
  quietly "debootstrap ${suites[$1]}" timeout 1200 unshare --mount debootstrap --variant=minbase "${suites[$1]}" "$root"
  printf '#!/bin/sh\nexit 101\n' > "$root/usr/sbin/policy-rc.d"
  chmod 755 "$root/usr/sbin/policy-rc.d"
  # It is thrown away, so nothing has to be on the disk before what comes next.
  echo force-unsafe-io > "$root/etc/dpkg/dpkg.cfg.d/unsafe"
  echo 'Dpkg::Use-Pty "false";' > "$root/etc/apt/apt.conf.d/90no-terminal"
  quietly "Debian's packages of Ceph $1" in_root "$1" timeout 1200 apt-get install -y --no-install-recommends "${packages[@]}"
  rm -f "$root"/var/cache/apt/archives/*.deb
  touch "$root/made"
}

# build RELEASE: the plugin for each level from these sources, installed as a host's administrator does it.
build() {
  local to=$roots/$1/try level file
  rm -rf "$to"
  tools/copy-tree.sh "$to"
  for file in crates/lrc_c/out/{x86-64-v2,x86-64-v3}/liblrc_c.a crates/rebuild_store/out/rebuild_store; do
    [ ! -f "$file" ] || install -D "$file" "$to/$file"
  done
  cp "$to/crates/lrc_c/out/$own/liblrc_c.a" "$to/crates/lrc_c/out/"
  quietly "the plugin for $1" in_root "$1" make -C /try/ceph
  for level in x86-64-v2 x86-64-v3; do
    quietly "the plugin for $1, $level" in_root "$1" make -C /try/ceph "OUT=out/$level" \
      "LIBRARY=../crates/lrc_c/out/$level/liblrc_c.a" "out/$level/libec_azure_lrc.so"
  done
  quietly "make install-ceph of $1" in_root "$1" make -C /try install-ceph
  echo "releases: $1: $(strings -a "$to/ceph/out/libec_azure_lrc.so" | grep '^azure_lrc '), by g++ $(in_root "$1" g++ -dumpfullversion)"
}

# await: until one of those that run has ended.
await() {
  local id ended=0
  wait -n -p id "${!running[@]}" || ended=$?
  unset "running[$id]"
  [ "$ended" = 0 ] || has_failed=yes
}

# begin COMMAND..: runs it beside the others, in a group of its own, as soon as fewer of them run than may.
begin() {
  while [ ${#running[@]} -ge "$most" ]; do await; done
  set -m
  "$@" &
  running[$!]=$*
  set +m
}

# finish: until all have ended. Whether none has failed.
finish() {
  while [ ${#running[@]} -gt 0 ]; do await; done
  [ -z "$has_failed" ]
}

# shown NAME COMMAND..: shows what it says with the name before each line, and keeps it for the table.
shown() { "${@:2}" 2>&1 | sed -u "s/^/$1: /" | tee -a "$said"; }

# try RELEASE PART: a part of try.sh in its root, which keeps files where the part fails.
try() {
  shown "$1 $2" env "TMPDIR=$shared" "$tests/inside.sh" "$shared" "$roots/$1" -- chroot "$roots/$1" /try/ceph/try.sh "$2"
}

upgrade() {
  local start=$SECONDS run=$shared/upgrade end=passed
  mkdir "$run"
  RUN=$run "$tests/inside.sh" "$shared" "$roots/16.2" "$roots/18.2" -- \
    timeout --kill-after=60 "${SECONDS_MOST:-1500}" "$tests/upgrade.sh" "$roots/16.2" "$roots/18.2" || end=FAILED
  echo "upgrade: $end, $((SECONDS - start)) s, load $(cut -d ' ' -f 1 /proc/loadavg)"
  [ "$end" = passed ] && rm -rf "$run"
}

# table: how each part ended, as try.sh says it.
table() { sed -n 's/^\([^:]*\): [a-z]*: \(\(passed\|FAILED\|left out\), [0-9]* s, load .*\)$/releases: \1: \2/p' "$said" | sort -V; }

own=$(grep -q avx2 /proc/cpuinfo && echo x86-64-v3 || echo x86-64-v2)
needed=("${what[@]}")
[[ " ${what[*]} " != *' upgrade '* ]] || needed=(16.2 18.2)
echo "releases: ${what[*]}; $(date +%T), load $(cut -d ' ' -f 1 /proc/loadavg)"
for it in "${needed[@]}"; do begin make_root "$it"; done
finish
for it in "${needed[@]}"; do begin build "$it"; done
finish
[[ " ${what[*]} " != *' upgrade '* ]] || begin shown upgrade upgrade
for part in "${parts[@]}"; do
  for it in "${what[@]}"; do [ "$it" = upgrade ] || begin try "$it" "$part"; done
done
finish || true
table
end='all passed'
! grep -q ': left out, [0-9]* s, load ' "$said" || end='passed, but for what was left out'
[ -z "$has_failed" ] || end=FAILED
echo "releases: $end; $(date +%T), load $(cut -d ' ' -f 1 /proc/loadavg)"
[ -z "$has_failed" ]
