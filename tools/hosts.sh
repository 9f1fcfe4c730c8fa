#!/usr/bin/env bash
# Makes this machine 60 hosts with the disks of 12 placement groups, and two spare hosts, to try repairs on; and ends them again. Each host
# is of namespaces of its own: an address of one network, an sshd, and two disks in memory, of which no other host sees anything but by ssh.
# It needs root, and Debian's openssh-server and iproute2. The keys, settings and network of the machine are left alone: one more set of
# namespaces is around all of it, in which the network is too, so nothing is left once its first process has ended.
#
#   hosts.sh start FOLDER       makes FOLDER and starts the hosts h00 to h59, s0 and s1
#   hosts.sh cut FOLDER HOST [FILE TEXT]
#                               takes a host's link down, and then its power: its disks are gone; once a file has a text, or after a minute
#   hosts.sh stop FOLDER        ends them all; they also end if FOLDER is removed, and after an hour
#
# FOLDER/enter COMMAND .. runs a command on a machine that reaches them, on which `ssh h07` works, as it does between them. FOLDER/map has a
# line for each disk: its group, its place, and its host with the folder; FOLDER/spare names the spare hosts for GNU parallel, and only they
# see what was on each disk, in FOLDER/whole/GROUP/PLACE.
set -euo pipefail
command=${1:?'start, cut or stop'}
folder=${2:?'the scratch folder'}
export PATH=$PATH:/usr/sbin:/sbin
self=$(cd "$(dirname "$0")" && pwd)
if [ -d "$folder" ]; then
  folder=$(cd "$folder" && pwd)
fi
# A network for trials of devices, by RFC 2544, which is no real one's.
network=198.18.0
spares=(s0 s1)

fail() {
  echo "hosts: $1" >&2
  exit 1
}

# The places of a group are on ten hosts, and each host has two disks, of two groups. With host h at row h / 10 and column h % 6, a group is
# a row or a column.
write_map() {
  awk -v disks="$folder/disks" 'BEGIN {
    split("x0 x1 x2 y0 y1 y2 px py p0 p1", places)
    for (group = 0; group < 12; group++)
      for (k = 0; k < 10; k++)
        printf "g%02d %s h%02d:%s/g%02d\n", group, places[k + 1], group < 6 ? 10 * group + k : group - 6 + 6 * k, disks, group
  }' > "$folder/map"
}

# Keys and settings, which are in place of /etc/ssh in the namespaces.
write_settings() {
  local number=0 host
  mkdir "$folder/ssh"
  ssh-keygen -q -t ed25519 -N '' -f "$folder/ssh/host_key"
  ssh-keygen -q -t ed25519 -N '' -f "$folder/ssh/user_key"
  cp "$folder/ssh/user_key.pub" "$folder/ssh/allowed"
  echo "* $(cut -d ' ' -f 1,2 "$folder/ssh/host_key.pub")" > "$folder/ssh/known"
  cat > "$folder/ssh/sshd_config" <<EOF
HostKey /etc/ssh/host_key
AuthorizedKeysFile /etc/ssh/allowed
PidFile none
StrictModes no
PasswordAuthentication no
KbdInteractiveAuthentication no
PermitRootLogin prohibit-password
MaxStartups 100
UsePAM no
UseDNS no
Subsystem sftp internal-sftp
SetEnv PATH=$PATH TMPDIR=/run
EOF
  {
    for host in "${hosts[@]}"; do
      number=$((number + 1))
      printf 'Host %s\n  HostName %s.%s\n' "$host" "$network" "$number"
    done
    cat <<EOF
Host *
  IdentityFile /etc/ssh/user_key
  IdentitiesOnly yes
  IdentityAgent none
  UserKnownHostsFile /etc/ssh/known
  KexAlgorithms curve25519-sha256
  BatchMode yes
  ConnectTimeout 5
  LogLevel ERROR
EOF
  } > "$folder/ssh/ssh_config"
}

# The first process of the machine that reaches the hosts: makes the network and the hosts, and waits.
operator() {
  local host number=0
  mount -t tmpfs -o mode=755 tmpfs /run
  mount --bind "$folder/ssh" /etc/ssh
  ip link set lo up
  ip link add name hosts type bridge
  ip address add "$network.254/24" dev hosts
  ip link set hosts up
  for host in "${hosts[@]}"; do
    unshare --mount --net --uts --pid --fork --kill-child --mount-proc "$self/hosts.sh" host "$folder" "$host" &
    echo $! > "$folder/state/$host"
  done
  for host in "${hosts[@]}"; do
    until [ -e "$folder/state/$host.waits" ]; do sleep 0.1; done
    number=$((number + 1))
    echo "link add name $host type veth peer name eth0 netns $(cat "$folder/state/$host")"
    echo "link set $host master hosts up"
  done > "$folder/state/links"
  ip -batch "$folder/state/links"
  touch "$folder/state/linked"
  while [ -e "$folder/state/linked" ] && [ "$SECONDS" -lt 3600 ]; do sleep 1; done
}

# The first process of a host, until sshd takes its place: takes its address, and fills its disks.
host() {
  local name=$1 number=0 it group place
  for it in "${hosts[@]}"; do
    number=$((number + 1))
    [ "$it" != "$name" ] || break
  done
  hostname "$name"
  mount -t tmpfs -o mode=755 tmpfs /run
  mkdir /run/sshd
  touch "$folder/state/$name.waits"
  until [ -e "$folder/state/linked" ]; do sleep 0.2; done
  ip -batch - <<EOF
link set lo up
address add $network.$number/24 dev eth0
link set eth0 up
EOF
  mount -t tmpfs -o mode=755 tmpfs "$folder/disks"
  while read -r group place it; do
    if [ "${it%%:*}" = "$name" ]; then
      mkdir "$folder/disks/$group"
      mount -t tmpfs -o mode=755 tmpfs "$folder/disks/$group"
      cp -r "$folder/whole/$group/$place/fragments" "$folder/disks/$group"
    fi
  done < "$folder/map"
  # A spare host has an empty disk for any group.
  if [[ " ${spares[*]} " = *" $name "* ]]; then
    cut -d ' ' -f 1 "$folder/map" | uniq | (cd "$folder/disks" && sed 's|$|/fragments|' | xargs mkdir -p)
  else
    mount -t tmpfs tmpfs "$folder/whole"
  fi
  exec "$(command -v sshd)" -D -e
}

stop() {
  local pid first
  [ -e "$folder/pid" ] || return 0
  pid=$(cat "$folder/pid")
  # Only the process that was started here, and no other that has its number now. With its child, the first process of the namespaces, end
  # all that are in them.
  if tr '\0' ' ' 2> /dev/null < "/proc/$pid/cmdline" | grep -qF "hosts.sh operator $folder "; then
    first=$(cat "/proc/$pid/task/$pid/children")
    kill -KILL "$pid"
    while [ -e "/proc/$pid" ] || [ -n "${first// }" ] && [ -e "/proc/${first// }" ]; do sleep 0.1; done
  fi
  rm -f "$folder/pid"
}

start() {
  local pid answers=0 _wait
  [ "$(id -u)" = 0 ] || fail 'only root can make hosts'
  for program in ip sshd ssh-keygen unshare nsenter; do
    command -v "$program" > /dev/null || fail "no $program here (Debian's openssh-server, iproute2, util-linux)"
  done
  mkdir "$folder"
  folder=$(cd "$folder" && pwd)
  mkdir "$folder/state" "$folder/disks" "$folder/whole"
  write_map
  write_settings
  trap stop EXIT
  "$self/store.py" "$folder/whole" 20 32768 4 6-2-2 12
  setsid unshare --mount --net --pid --fork --kill-child --mount-proc "$self/hosts.sh" operator "$folder" > "$folder/log" 2>&1 < /dev/null &
  pid=$!
  disown
  echo "$pid" > "$folder/pid"
  cat > "$folder/enter" <<EOF
#!/bin/sh
first=\$(cat /proc/$pid/task/$pid/children)
TMPDIR=/run exec nsenter --target \$first --mount --net --pid sh -c 'cd "\$1" && shift && exec "\$@"' sh "\$PWD" "\$@"
EOF
  chmod +x "$folder/enter"
  printf '%s\n' "${spares[@]}" | sed "s|^|1/$folder/enter ssh |" > "$folder/spare"
  for _wait in $(seq 600); do
    answers=$(grep -c '^Server listening on 0.0.0.0' "$folder/log" || true)
    [ "$answers" -lt "${#hosts[@]}" ] || break
    sleep 0.1
  done
  [ "$answers" = "${#hosts[@]}" ] || { tail -n 5 "$folder/log" >&2; fail "only $answers hosts listen"; }
  "$folder/enter" ssh "${hosts[-1]}" true || fail 'no host answers'
  trap - EXIT
  echo "hosts: $answers hosts listen"
}

cut_off() {
  local host=$1 pid _wait
  pid=$(cat "$folder/state/$host")
  for _wait in $(seq 300); do
    if [ -z "${2:-}" ] || grep -qF -e "$3" "$2"; then break; fi
    sleep 0.2
  done
  "$folder/enter" sh -c 'ip link set "$1" down && kill -KILL "$2"' sh "$host" "$pid"
}

hosts=($(seq -f h%02g 0 59) "${spares[@]}")
case $command in
  start) start ;;
  stop) stop ;;
  cut) cut_off "${3:?'the host'}" "${@:4}" ;;
  operator) operator ;;
  host) host "$3" ;;
  *) echo "hosts: $command is none of start, cut and stop" >&2; exit 2 ;;
esac
