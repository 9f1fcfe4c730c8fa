#!/usr/bin/env bash
# A job for one placement group: mounts its disks by sshfs, each as a folder of a store, runs a command over that store, and unmounts them.
#
#   on-group.sh MAP GROUP COMMAND ..
#
# MAP has a line for each disk: its group, its place, and its host with a folder, as `g07 x0 host21:/srv/disk3`. Of GROUP the first word is
# taken, so that it may be a line of most-lost.sh. The store's path comes last in the command, whose status is this one's. Fragments are in
# the folder `fragments` of each disk, so their names are {place}/fragments/{stripe}: then nothing is written where a disk isn't mounted.
#
# What was seen when a host was cut off, with sshfs 3.7.3 and OpenSSH 9.2: with the options below the read that was under way failed after
# 10 to 14 seconds ("Input/output error"), and then the mount was gone, so that all else of that disk was absent at once. With `reconnect`
# beside them each further file took 5 to 10 seconds more until the host was back, so a repair would wait for each of its files; the mount
# worked again then. Without ServerAliveInterval reads waited for 933 seconds, which is how long the kernel sends again (tcp_retries2),
# with `reconnect` and without. A host that is down before its disk is mounted costs 3 to 5 seconds. sshfs keeps locks for its own host
# alone, so nothing but whoever starts jobs keeps two of them off a group.
set -euo pipefail
map=${1:?'the map'}
group=${2:?'the group'}
group=${group%% *}
shift 2
options=ConnectTimeout=5,ServerAliveInterval=5,ServerAliveCountMax=2,BatchMode=yes
store=$(mktemp -d)

finish() {
  local place
  for place in "$store"/*/; do
    fusermount3 -u -q -z "$place" || true
    rmdir "$place"
  done
  rmdir "$store"
}
trap finish EXIT

while read -r name place disk; do
  if [ "$name" = "$group" ]; then
    mkdir "$store/$place"
    sshfs -o "$options" "$disk" "$store/$place" < /dev/null || echo "$group: $place: $disk isn't mounted" >&2 &
  fi
done < "$map"
wait
"$@" "$store"
