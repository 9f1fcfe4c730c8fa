#!/usr/bin/env bash
# Runs a command where it can reach no other machine and leaves nothing at work: in namespaces of its own for processes, mounts and the
# network, which has the loopback alone. Each root gets /proc, /sys, /dev and, under its own path, a folder that all share. Several may run
# in one root. It needs root.
#   inside.sh FOLDER ROOT.. -- COMMAND..
set -euo pipefail
if [ "$1" != --now ]; then exec unshare --mount --net --pid --fork --kill-child "$0" --now "$@"; fi
folder=$2
shift 2
ip link set lo up
while [ "$1" != -- ]; do
  # A mount point, as `ip netns exec` asks of its root.
  mount --bind "$1" "$1"
  mount -t proc proc "$1/proc"
  mount -t sysfs sys "$1/sys"
  # The names of networks are files there.
  mkdir -p "$1/run/netns"
  mount -t tmpfs netns "$1/run/netns"
  mount -t tmpfs -o mode=755 dev "$1/dev"
  for it in null zero full random urandom; do
    touch "$1/dev/$it"
    mount --bind "/dev/$it" "$1/dev/$it"
  done
  ln -s /proc/self/fd "$1/dev/fd"
  mkdir -m 1777 "$1/dev/shm"
  mkdir -p "$1$folder"
  mount --bind "$folder" "$1$folder"
  shift
done
shift
mount -t proc proc /proc
# No process of a namespace is its first, which the system treats otherwise.
"$@"
