#!/usr/bin/env bash
# Sets up two hosts to reach by ssh, both of them this machine, in a scratch folder, and ends them again. It needs Debian's
# openssh-server, and leaves the keys and the settings of the machine and of the user alone: all is in the folder, and
# sshd listens on the loopback alone and takes the folder's key alone.
#
#   ssh-hosts.sh start FOLDER    makes FOLDER and starts sshd
#   ssh-hosts.sh stop FOLDER     ends it
#
# `ssh -F FOLDER/config host-a` and `host-b` then reach them, and FOLDER/hosts names both for GNU parallel, two jobs at once on each. There
# the PATH of the environment is that of `start`.
set -euo pipefail
command=${1:?'start or stop'}
folder=${2:?'the scratch folder'}
export PATH=$PATH:/usr/sbin
port=${SSH_PORT:-26822}

stop() {
  local pid
  [ -e "$folder/sshd.pid" ] || return 0
  pid=$(cat "$folder/sshd.pid")
  # Only the sshd that was started here, and no other process that has its number now.
  if [ "$(cat "/proc/$pid/comm" 2>/dev/null)" = sshd ]; then
    kill "$pid"
  fi
}

if [ "$command" = stop ]; then
  stop
  exit 0
fi
[ "$command" = start ] || { echo "ssh-hosts: $command is neither start nor stop" >&2; exit 2; }
for program in sshd ssh ssh-keygen; do
  command -v "$program" > /dev/null || { echo "ssh-hosts: no $program here (Debian's openssh-server)" >&2; exit 1; }
done

mkdir "$folder"
folder=$(cd "$folder" && pwd)
ssh-keygen -q -t ed25519 -N '' -f "$folder/host_key"
ssh-keygen -q -t ed25519 -N '' -f "$folder/user_key"
cp "$folder/user_key.pub" "$folder/allowed"
echo "[127.0.0.1]:$port $(cut -d ' ' -f 1,2 "$folder/host_key.pub")" > "$folder/known"
cat > "$folder/sshd_config" <<END
ListenAddress 127.0.0.1
Port $port
HostKey $folder/host_key
AuthorizedKeysFile $folder/allowed
PidFile $folder/sshd.pid
StrictModes no
PasswordAuthentication no
KbdInteractiveAuthentication no
PermitRootLogin prohibit-password
AllowUsers $(id -un)
MaxStartups 100
UsePAM no
SetEnv PATH=$PATH
END
cat > "$folder/config" <<END
Host host-a host-b
  HostName 127.0.0.1
  Port $port
  IdentityFile $folder/user_key
  IdentitiesOnly yes
  IdentityAgent none
  UserKnownHostsFile $folder/known
  BatchMode yes
  LogLevel ERROR
END
printf '2/ssh -F %s %s\n' "$folder/config" host-a "$folder/config" host-b > "$folder/hosts"
# As root sshd asks for this folder.
if [ "$(id -u)" = 0 ]; then
  mkdir -p /run/sshd
fi
"$(command -v sshd)" -f "$folder/sshd_config" -E "$folder/sshd.log"
for _wait in $(seq 50); do
  if ssh -F "$folder/config" host-a true 2> "$folder/said"; then
    echo 'ssh-hosts: two hosts answer'
    exit 0
  fi
  sleep 0.1
done
echo 'ssh-hosts: no host answers; the ends of the logs:' >&2
tail -n 5 "$folder/said" "$folder/sshd.log" >&2
stop
exit 1
