#!/usr/bin/env bash
# Sets up Slurm with one node, this machine, in a scratch folder, and ends it again. It needs Debian's slurm-wlm, and leaves
# the Slurm of the machine alone: keys, states and logs are in the folder, and the daemons listen on the loopback alone.
#
#   slurm-node.sh start FOLDER    makes FOLDER and starts munged, slurmctld and slurmd
#   slurm-node.sh stop FOLDER     ends them
#
# Slurm's commands find the node by SLURM_CONF=FOLDER/slurm.conf.
set -euo pipefail
command=${1:?'start or stop'}
folder=${2:?'the scratch folder'}
export PATH=$PATH:/usr/sbin
ports=${SLURM_PORTS:-26817}

stop() {
  local daemon pid
  for daemon in slurmd slurmctld munged; do
    [ -e "$folder/$daemon.pid" ] || continue
    pid=$(cat "$folder/$daemon.pid")
    # Only the daemon that was started here, and no other process that has its number now.
    if [ "$(cat "/proc/$pid/comm" 2>/dev/null)" = "$daemon" ]; then
      kill "$pid"
      for _wait in $(seq 100); do
        [ -e "/proc/$pid" ] || break
        sleep 0.1
      done
    fi
  done
}

if [ "$command" = stop ]; then
  stop
  exit 0
fi
[ "$command" = start ] || { echo "slurm-node: $command is neither start nor stop" >&2; exit 2; }
for program in munged slurmctld slurmd sinfo; do
  command -v "$program" > /dev/null || { echo "slurm-node: no $program here (Debian's slurm-wlm)" >&2; exit 1; }
done

mkdir "$folder"
folder=$(cd "$folder" && pwd)
chmod 755 "$folder"
mkdir "$folder/state" "$folder/spool"
head -c 1024 /dev/urandom > "$folder/munge.key"
chmod 600 "$folder/munge.key"
host=$(hostname -s)
cat > "$folder/slurm.conf" <<END
ClusterName=scratch
SlurmctldHost=$host(127.0.0.1)
CommunicationParameters=NoCtldInAddrAny,NoInAddrAny
SlurmUser=$(id -un)
SlurmdUser=$(id -un)
AuthType=auth/munge
AuthInfo=socket=$folder/munge.socket
CredType=cred/munge
SlurmctldPort=$ports
SlurmdPort=$((ports + 1))
SlurmctldPidFile=$folder/slurmctld.pid
SlurmdPidFile=$folder/slurmd.pid
SlurmctldLogFile=$folder/slurmctld.log
SlurmdLogFile=$folder/slurmd.log
StateSaveLocation=$folder/state
SlurmdSpoolDir=$folder/spool
ProctrackType=proctrack/linuxproc
TaskPlugin=task/none
JobAcctGatherType=jobacct_gather/none
AccountingStorageType=accounting_storage/none
SelectType=select/cons_tres
SelectTypeParameters=CR_Core_Memory
SchedulerParameters=sched_interval=1,batch_sched_delay=0
MpiDefault=none
MailProg=/bin/true
ReturnToService=2
NodeName=$host NodeAddr=127.0.0.1 CPUs=$(nproc) RealMemory=$(awk '/^MemTotal/ { print int($2 / 1024 * 0.9) }' /proc/meminfo)
PartitionName=main Nodes=$host Default=YES MaxTime=INFINITE State=UP
END
printf 'CgroupPlugin=cgroup/v1\n' > "$folder/cgroup.conf"
export SLURM_CONF=$folder/slurm.conf

fail() {
  echo "slurm-node: $1; the ends of the logs:" >&2
  tail -n 5 "$folder"/*.log >&2 || true
  stop
  exit 1
}

munged --force --key-file="$folder/munge.key" --socket="$folder/munge.socket" --pid-file="$folder/munged.pid" \
  --log-file="$folder/munged.log" --seed-file="$folder/munge.seed" 2> "$folder/munged.said" || fail 'munged did not start'
slurmctld -f "$folder/slurm.conf" 2> "$folder/slurmctld.said" || fail 'slurmctld did not start'
slurmd -f "$folder/slurm.conf" 2> "$folder/slurmd.said" || fail 'slurmd did not start'
for _wait in $(seq 100); do
  if [ "$(sinfo --noheader --format=%T 2>/dev/null)" = idle ]; then
    echo "slurm-node: one node is idle"
    exit 0
  fi
  sleep 0.2
done
fail 'the node is not idle after 20 seconds'
