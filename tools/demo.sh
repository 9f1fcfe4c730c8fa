#!/usr/bin/env bash
# Runs the program on the sample in demo/: line mode on its requests, each shown with its reply, and the command farm on
# its folder of four racks, the third with stripes of both codes and the last with two feeds. Compares what comes with
# demo/replies and demo/farm-reports.
set -euo pipefail
cd "$(dirname "$0")/.."
program=crates/rebuild/out/rebuild
scratch=$(mktemp -d)
trap 'rm -rf "$scratch"' EXIT

echo '== line mode: demo/requests'
status=0
"$program" < demo/requests > "$scratch/replies" || status=$?
paste -d '\n' <(sed 's/^/request  /' demo/requests) <(sed 's/^/reply    /' "$scratch/replies")
cmp "$scratch/replies" demo/replies
echo "status $status (1: at least one line was refused)"
[ "$status" = 1 ]

# The rows of a report in the order of their feeds, without their numbers: how feeds are merged is up to the threads.
by_feed() {
    cut -d , -f 2- "$1" | sort -s -t , -k 1,1
}

echo
echo '== the farm: rebuild farm demo/farm OUT'
mkdir "$scratch/out"
"$program" farm demo/farm "$scratch/out"
for report in demo/farm-reports/*; do
    name=$(basename "$report")
    echo
    echo "$name"
    cat "$scratch/out/$name"
    if [ -e "demo/farm/${name%.report.csv}.feed1.csv" ]; then
        diff <(by_feed "$scratch/out/$name") <(by_feed "$report")
    else
        cmp "$scratch/out/$name" "$report"
    fi
done
echo
echo 'the rebuilt fragments'
(cd "$scratch/out" && wc -c rack*-*)
echo
echo 'rack0-0.pangrams.x0 and rack2-1.ledger.y4 are text'
cat "$scratch/out/rack0-0.pangrams.x0" "$scratch/out/rack2-1.ledger.y4"
