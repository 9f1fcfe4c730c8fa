#!/usr/bin/env bash
# Ceph's own ceph-erasure-code-tool with the plugin: encodes a file of several stripes, then for every set of one to four lost shards
# decodes the data from the files that are left, and compares.
#   tool.sh <folder of plugins> <words of the profile, without plugin=> [stripe unit] [processes]
set -euo pipefail
folder=$1
words=$2
unit=${3:-4096}
scratch=$(mktemp -d)
trap 'rm -rf "$scratch"' EXIT
printf '[global]\n' > "$scratch/ceph.conf"
export CEPH_CONF=$scratch/ceph.conf CEPH_ARGS="--erasure_code_dir=$folder --no-mon-config"
profile=plugin=azure_lrc,$words

ceph-erasure-code-tool test-plugin-exists azure_lrc 2> "$scratch/log"
ceph-erasure-code-tool validate-profile "$profile" > "$scratch/said" 2> "$scratch/log"
n=$(sed -n 's/^chunk_count: //p' "$scratch/said")
k=$(sed -n 's/^data_chunk_count: //p' "$scratch/said")
head -c $((unit * k * 3)) /dev/urandom > "$scratch/whole"
cp "$scratch/whole" "$scratch/f"
ceph-erasure-code-tool encode "$profile" "$unit" "$(seq -s, 0 $((n - 1)))" "$scratch/f" 2> "$scratch/log"
python3 - "$n" "$scratch" "$profile" "$unit" "${4:-2}" << 'END_OF_PYTHON'
import concurrent.futures, itertools, os, subprocess, sys

n, scratch, profile, unit, processes = int(sys.argv[1]), sys.argv[2], sys.argv[3], sys.argv[4], int(sys.argv[5])
REFUSED = "FAILED ceph_assert(r == 0)"    # the tool, as an OSD, takes a code's refusal for a fault of its own
whole = open(f"{scratch}/whole", "rb").read()


def decoded(lost):
    """Whether the tool decodes the data from the shards that are left: these alone are in a folder of their own."""
    room = f"{scratch}/{'-'.join(map(str, lost))}"
    os.mkdir(room)
    left = [shard for shard in range(n) if shard not in lost]
    for shard in left:
        os.link(f"{scratch}/f.{shard}", f"{room}/f.{shard}")
    words = ["ceph-erasure-code-tool", "decode", profile, unit, ",".join(map(str, left)), f"{room}/f"]
    run = subprocess.run(words, capture_output=True, text=True)
    if run.returncode == 0:
        assert open(f"{room}/f", "rb").read() == whole, f"other bytes without {lost}"
    else:
        assert run.returncode == -6 and REFUSED in run.stderr, (lost, run.returncode, run.stderr)
    for name in os.listdir(room):
        os.remove(f"{room}/{name}")
    os.rmdir(room)
    return run.returncode == 0


for size, wanted in ((1, n), (2, n * (n - 1) // 2), (3, n * (n - 1) * (n - 2) // 6), (4, 180 if n == 10 else 1568)):
    sets = list(itertools.combinations(range(n), size))
    with concurrent.futures.ThreadPoolExecutor(processes) as pool:
        done = sum(pool.map(decoded, sets))
    print(f"  {size} lost: {len(sets)} sets, {done} decoded to the same bytes, {len(sets) - done} refused", flush=True)
    assert done == wanted, f"{done} sets, and not {wanted}"
END_OF_PYTHON
