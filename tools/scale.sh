#!/usr/bin/env bash
# Runs what docs/SCALE.md shows, over small stores that are made here: the built program in several jobs, by GNU parallel, over
# ssh, on sixty hosts of namespaces and by a Slurm array, where these are installed. Compares each file that comes with that of a single
# run, and says what was skipped. With the argument `times` it also times folders served by 1, 2 and 4 jobs. It is no part of the gate.
set -euo pipefail
cd "$(dirname "$0")/.."
repository=$PWD
program=$repository/crates/rebuild/out/rebuild
document=$repository/docs/SCALE.md
scratch=$(mktemp -d)
finish() {
  if [ -e "$scratch/node" ]; then tools/slurm-node.sh stop "$scratch/node"; fi
  if [ -e "$scratch/ssh" ]; then tools/ssh-hosts.sh stop "$scratch/ssh"; fi
  if [ -e "$scratch/hosts" ]; then tools/hosts.sh stop "$scratch/hosts"; fi
  rm -rf "$scratch"
}
trap finish EXIT

fail() {
  echo "scale: $1" >&2
  exit 1
}
[ -x "$program" ] || fail 'crates/rebuild/out/rebuild is not there: make build makes it'
skipped=()

# The commands run in a folder that has this repository's folders, so that they are in the document as they are called, and find
# the program and its companion where they are installed.
for name in tools deploy; do
  ln -s "$repository/$name" "$scratch/$name"
done
make -s install "PREFIX=$scratch/installed" > "$scratch/said" 2>&1 || fail "make install: $(cat "$scratch/said")"
export PATH=$scratch/installed/bin:$PATH
gate/examples.py section "$document" 'Splitting a list' "$scratch"

# The single run: the whole list as one rack of one folder, and all lines as one input.
mkdir "$scratch/single" "$scratch/served"
find "$scratch/store" -type f -exec ln -s -t "$scratch/single" {} +
cp "$scratch/list.csv" "$scratch/single/rack0.csv"
"$program" farm "$scratch/single" "$scratch/served"
"$program" < "$scratch/lines" > "$scratch/single-replies"

# compare NAME RESULT: the files of a merged result are those of the single run, no more and no fewer.
compare() {
  local name=$1 result=$scratch/$2 file number=0
  cmp "$result/report.csv" "$scratch/served/rack0.report.csv"
  for file in "$scratch/served"/rack0-*; do
    cmp "$file" "$result/$(basename "$file" | cut -d . -f 2-)"
    number=$((number + 1))
  done
  (cd "$result" && sha256sum --quiet -c SHA256SUMS)
  [ "$(find "$result" -type f | wc -l)" = $((number + 2)) ] || fail "$name: not as many files as of a single run"
  echo "$name: the report and $number rebuilt fragments are those of a single run"
}

# What is installed.
has_parallel= has_sshd= has_slurm= lacks_for_hosts=()
if command -v parallel > /dev/null && parallel --version 2> /dev/null | grep -q '^GNU parallel'; then has_parallel=1; fi
if PATH=$PATH:/usr/sbin command -v sshd > /dev/null; then has_sshd=1; fi
if PATH=$PATH:/usr/sbin command -v slurmctld > /dev/null && command -v sbatch > /dev/null; then has_slurm=1; fi
[ -n "$has_parallel" ] || lacks_for_hosts+=("GNU parallel")
[ -n "$has_sshd" ] || lacks_for_hosts+=("sshd (Debian's openssh-server)")
for name in sshfs ip nsenter; do
  PATH=$PATH:/usr/sbin:/sbin command -v "$name" > /dev/null || lacks_for_hosts+=("$name")
done
if [ "$(id -u)" != 0 ] || ! unshare --mount --net --uts --pid --fork --mount-proc true 2> /dev/null; then
  lacks_for_hosts+=("the right to make namespaces")
fi
[ -c /dev/fuse ] || lacks_for_hosts+=("/dev/fuse")

# The document's commands compare these stores with whole ones.
if [ -n "$has_parallel" ]; then
  gate/examples.py section "$document" 'A store in parts' "$scratch"
  if [ -n "$has_sshd" ]; then
    gate/examples.py section "$document" 'Two hosts by ssh' "$scratch"
  else
    skipped+=("no sshd is installed (Debian's openssh-server): a store was not repaired from two hosts")
  fi
else
  skipped+=("GNU parallel isn't installed (Debian's parallel): a store was not repaired in parts by it")
fi
if [ -n "$has_slurm" ]; then
  gate/examples.py section "$document" 'A Slurm array' "$scratch"
else
  skipped+=("Slurm isn't installed (Debian's slurm-wlm): a store was not repaired by an array")
fi

# Another host of the sixty dies, and a Slurm array repairs its groups.
groups_by_slurm() {
  (
    cd "$scratch"
    export SLURM_CONF=$scratch/hosts-node/slurm.conf PARALLEL="--sshloginfile hosts/spare --workdir $scratch"
    tools/hosts.sh cut hosts h25
    sed -i s/h25:/s1:/ hosts/map
    deploy/most-lost.sh hosts/map > lost 2> log
    [ "$(cat lost)" = "$(printf 'g02 1 20\ng07 1 20')" ] || fail "h25 was lost, and not: $(cat lost)"
    hosts/enter tools/slurm-node.sh start hosts-node > said || fail "$(cat said)"
    hosts/enter sbatch --wait --array=1-2 --output=group-%a.log deploy/slurm-groups.sh hosts/map lost > said ||
      fail "Slurm, groups: $(cat said group-*.log)"
    parallel deploy/on-group.sh hosts/map {} diff -r hosts/whole/{} ::: g02 g07 > said || fail "Slurm, groups: $(cat said)"
  )
  echo 'Slurm array, groups: what a dead host held is on a spare one, byte by byte'
}
if [ "${#lacks_for_hosts[@]}" = 0 ]; then
  gate/examples.py section "$document" 'Sixty hosts in placement groups' "$scratch"
  if [ -n "$has_slurm" ]; then
    groups_by_slurm
  else
    skipped+=("Slurm isn't installed (Debian's slurm-wlm): no placement groups were repaired by an array")
  fi
  tools/hosts.sh stop "$scratch/hosts"
else
  skipped+=("for sixty hosts these lack: $(printf '%s, ' "${lacks_for_hosts[@]}" | sed 's/, $//')")
fi

# merged NAME RESULT: merges what was served into a result, and compares it.
merged() {
  (cd "$scratch" && rebuild-lists merge work "$2" > said) || fail "$1: $(cat "$scratch/said")"
  compare "$1" "$2"
}
if [ -n "$has_parallel" ]; then
  gate/examples.py section "$document" 'Folders by GNU parallel' "$scratch"
  compare 'GNU parallel, folders' result
  gate/examples.py section "$document" 'When a job dies' "$scratch"
  merged 'GNU parallel, after a job that died' result-again
  if [ -n "$has_sshd" ]; then
    gate/examples.py section "$document" 'Folders by ssh' "$scratch"
    merged 'GNU parallel over ssh' result-ssh
  else
    skipped+=("no sshd is installed (Debian's openssh-server): GNU parallel was not run over ssh")
  fi
  gate/examples.py section "$document" 'Lines by GNU parallel' "$scratch"
  cmp "$scratch/replies" "$scratch/single-replies"
  for block in 40K 256K 6M; do
    parallel --pipe -k -j 4 --block "$block" "$program" < "$scratch/lines" | cmp - "$scratch/single-replies"
  done
  echo "GNU parallel, lines: $(wc -l < "$scratch/replies") replies are those of a single run, for blocks of 40 KiB to 6 MiB"
else
  skipped+=("GNU parallel isn't installed (Debian's parallel): its examples were not run")
fi

if [ -n "$has_slurm" ]; then
  gate/examples.py section "$document" 'Folders by a Slurm array' "$scratch"
  merged 'Slurm array' result-slurm
else
  skipped+=("Slurm isn't installed (Debian's slurm-wlm): its example was not run")
fi

if python3 -c 'import yaml' 2> /dev/null; then
  python3 - deploy/kubernetes-*.yaml <<'END'
import sys
import yaml

for name in sys.argv[1:]:
    job = yaml.safe_load(open(name))
    pod = job["spec"]["template"]["spec"]
    assert (job["apiVersion"], job["kind"], job["spec"]["completionMode"]) == ("batch/v1", "Job", "Indexed")
    assert [mount["name"] for mount in pod["containers"][0]["volumeMounts"]] == [volume["name"] for volume in pod["volumes"]]
    print(f"{name} is the YAML of an indexed Job")
END
else
  skipped+=("python3-yaml isn't installed: the files for Kubernetes were not read")
fi
skipped+=('the Kubernetes Jobs were not run: that needs a cluster')

# Many folders of fragments of 64 KiB, in memory where there is room, so that no disk is timed.
times() {
  local jobs pass start end bytes place=${TMPDIR:-/tmp} folders=40 least
  if [ -d /dev/shm ] && [ "$(df --output=avail -k /dev/shm | tail -n 1)" -gt 2000000 ]; then
    place=/dev/shm
  fi
  timed=$(mktemp -d -p "$place")
  trap 'rm -rf "$timed"; finish' EXIT
  tools/store.py "$timed" 800 65536 0
  { cat "$timed/list.csv"; for _ in 2 3 4 5; do tail -n +2 "$timed/list.csv"; done; } > "$timed/long.csv"
  rebuild-lists split "$timed/long.csv" "$timed/store" "$timed/work" --racks 1 --requests $((4000 / folders))
  cat <<END

$folders folders of $((4000 / folders)) requests each for 64 KiB, from files in $place, each served by one worker. MB/s: 10^6 rebuilt
bytes a second, from the start of GNU parallel to its end. The shortest of 3 times; $(nproc) processors,
$(sed -n 's/^model name[[:space:]]*: //p' /proc/cpuinfo | head -n 1), load $(cut -d ' ' -f 1 /proc/loadavg).

| Jobs at once | Seconds | MB/s |
|---|---|---|
END
  for jobs in 1 2 4; do
    least=
    for pass in 1 2 3; do
      rm -rf "${timed:?}/work/out"
      mkdir "$timed/work/out"
      start=${EPOCHREALTIME/./}
      seq 0 $((folders - 1)) | parallel -k -j "$jobs" rebuild-lists serve "$timed/work" > "$timed/said"
      end=${EPOCHREALTIME/./}
      [ "$(grep -c ': served 1 racks, ' "$timed/said")" = "$folders" ] || fail "times: pass $pass of $jobs jobs served too few"
      if [ -z "$least" ] || [ $((end - start)) -lt "$least" ]; then
        least=$((end - start))
      fi
    done
    bytes=$(find "$timed/work/out" -name 'rack0-*' -printf '%s\n' | awk '{ s += $1 } END { printf "%.0f", s }')
    awk -v jobs="$jobs" -v bytes="$bytes" -v least="$least" 'BEGIN { printf "| %d | %.2f | %.0f |\n", jobs, least / 1e6, bytes / least }'
  done
  echo
}
if [ "${1:-}" = times ]; then
  if [ -n "$has_parallel" ]; then
    times
  else
    skipped+=("GNU parallel isn't installed: nothing was timed")
  fi
fi

for what in "${skipped[@]}"; do
  echo "skipped: $what"
done
echo 'scale: all that was run is as it must be'
