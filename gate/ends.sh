#!/usr/bin/env bash
# Runs the built program to each of its ends, and compares its exit status, its output and what it says on standard
# error: what joins the proved parts to the system's arguments, input and output is only seen by running it.
set -euo pipefail
cd "$(dirname "$0")/.."
program=$PWD/crates/rebuild/out/rebuild
scratch=$(mktemp -d)
trap 'rm -rf "$scratch"' EXIT
mkdir "$scratch/out" "$scratch/bad"
passed=0

# ends NAME STATUS OUTPUT SAID WORDS..: how a run on standard input ends. Of what it says on standard error only the first line is compared.
ends() {
  local name=$1 status=$2 output=$3 said=$4 ended=0
  shift 4
  timeout 60 "$program" "$@" > "$scratch/output" 2> "$scratch/said" || ended=$?
  compare "$name" "$status" "$ended" "$said"
  [ "$(head -c 1000 "$scratch/output")" = "$output" ] || fail "$name" "wrote $(head -c 300 "$scratch/output")"
}

# The same, where nothing can be written.
ends_full() {
  local name=$1 status=$2 said=$3 ended=0
  shift 3
  "$program" "$@" > /dev/full 2> "$scratch/said" || ended=$?
  compare "$name" "$status" "$ended" "$said"
}

compare() {
  [ "$3" = "$2" ] || fail "$1" "ended with status $3, and not $2"
  [ "$(head -n 1 "$scratch/said")" = "$4" ] || fail "$1" "said $(head -c 300 "$scratch/said")"
  passed=$((passed + 1))
}

fail() {
  echo "ends $1: $2"
  exit 1
}

line='a x0 1 x1=02 x2=03 px=00'
ends lines 0 'rebuilt 01' '' <<< "$line"
ends no-input 0 '' '' < /dev/null
ends refused-line 1 'refused E2' '' <<< 'a x0 0'
ends_full lines-full 3 E24 <<< "$line"
ends unread-input 3 '' E24 < /
head -c 8388608 /dev/zero | tr '\0' '\n' > "$scratch/feeds"
ends greatest-input 0 '' '' < "$scratch/feeds"
echo >> "$scratch/feeds"
ends longer-input 1 '' E25 < "$scratch/feeds"
# As many survivors as the input has room for: a search that calls itself for each of them ends in a signal.
{ printf 'a x0 1'; head -c 2000000 /dev/zero | sed 's/\x00/ x1=/g'; } > "$scratch/many"
ends many-survivors 1 'refused E3' '' < "$scratch/many"
rm "$scratch/many"

# With a terminal as its input it says first that it reads, since it answers only when the input has ended.
said=$(timeout 60 python3 - "$program" << 'PY'
import os, pty, subprocess, sys
terminal, theirs = pty.openpty()
os.write(terminal, b"a x0 1 x1=02 x2=03 px=00\n\x04")
ended = subprocess.run([sys.argv[1]], stdin=theirs, capture_output=True, text=True)
print(ended.returncode, ended.stdout + ended.stderr, end="")
PY
)
[ "$said" = "0 rebuilt 01
rebuild: reading lines until Ctrl-D; their form: rebuild --help" ] || fail terminal "gave $said"
passed=$((passed + 1))

ends version 0 'rebuild 0.1.0' '' --version
ends_full help-full 3 '' --help
ends_full farm-help-full 3 '' farm --help
ends no-folders 2 '' 'error: the following required arguments were not provided:' farm
ends other-command 2 '' "error: unrecognized subcommand 'shelf'" shelf
for number in 65536 two; do
  ends "queue-$number" 2 '' 'error: --workers takes a number from 1 to 16, and --queue one from 1 to 1024' farm in out --queue "$number"
done
ends no-text 2 '' 'error: an argument is not text' $'\xff'
for workers in 0 17; do
  ends "workers-$workers" 2 '' 'refused E11' farm demo/farm "$scratch/out" --workers "$workers" --queue 0
done
for queue in 0 1025; do
  ends "queue-$queue" 2 '' 'refused E12' farm demo/farm "$scratch/out" --workers 16 --queue "$queue"
done

ends no-lists 1 '' E23 farm "$scratch/bad" "$scratch/out"
ends no-input-folder 1 '' E23 farm "$scratch/none" "$scratch/out"
echo order > "$scratch/bad/rack0.csv"
ends bad-header 1 '' 'rack0.csv: E19' farm "$scratch/bad" "$scratch/out"
printf 'order,stripe,target,length,survivors\nclose,,,,\nrebuild,A,x0,1,\n' > "$scratch/bad/rack0.csv"
ends bad-stripe 1 '' 'rack0.csv: record 2: E21 E1' farm "$scratch/bad" "$scratch/out"
mkdir "$scratch/feeds-of-a-rack"
for feed in .feed1 .feed2 .feed3 .feed4 ''; do
  echo order,stripe,target,length,survivors > "$scratch/feeds-of-a-rack/rack0$feed.csv"
done
ends five-feeds 1 '' E28 farm "$scratch/feeds-of-a-rack" "$scratch/out"
printf 'order,stripe,target,length,survivors,code\nrebuild,a,x6,1,,12-2-2\n' > "$scratch/feeds-of-a-rack/rack0.feed2.csv"
ends bad-feed 1 '' 'rack0.feed2.csv: record 1: E20' farm "$scratch/feeds-of-a-rack" "$scratch/out"
mkdir "$scratch/racks"
for rack in $(seq 0 16); do
  echo order,stripe,target,length,survivors > "$scratch/racks/rack$rack.csv"
done
ends seventeen-racks 1 '' E18 farm "$scratch/racks" "$scratch/out"
echo order > "$scratch/racks/rack3.csv"
ends bad-rack-in-front 1 '' 'rack3.csv: E19' farm "$scratch/racks" "$scratch/out"
rm "$scratch/racks/rack3.csv"
mkdir "$scratch/racks/rack3.csv"
ends unread-list 3 '' E24 farm "$scratch/racks" "$scratch/out"
rmdir "$scratch/racks/rack3.csv"
{ echo order,stripe,target,length,survivors; printf 'close,,,,%.0s\n' $(seq 4097); } > "$scratch/racks/rack0.csv"
ends many-records 1 '' 'rack0.csv: E26' farm "$scratch/racks" "$scratch/out"
[ -z "$(ls "$scratch/out")" ] || fail faults 'wrote files'
ends no-output-folder 3 '' E24 farm demo/farm "$scratch/none"
ends_full served-full 3 '' farm demo/farm "$scratch/out"
ends served 0 'served 4 racks, 14 answers' '' farm demo/farm "$scratch/out"

# The greatest list and the greatest fragments that a folder may have, and then a fragment and the list with a byte more.
mkdir "$scratch/greatest" "$scratch/rebuilt"
list=$scratch/greatest/rack0.csv
printf 'order,stripe,target,length,survivors\nrebuild,a,x0,65536,x1 x2 px\n' > "$list"
head -c $((1048576 - $(wc -c < "$list"))) "$scratch/feeds" >> "$list"
for place in x1 x2 px; do
  head -c 65536 /dev/zero > "$scratch/greatest/a.$place"
done
ends greatest-files 0 'served 1 racks, 1 answers' '' farm "$scratch/greatest" "$scratch/rebuilt"
cmp "$scratch/rebuilt/rack0-0.a.x0" "$scratch/greatest/a.x1" || fail greatest-files 'rebuilt something else'
echo >> "$scratch/greatest/a.px"
ends longer-fragment 0 'served 1 racks, 1 answers' '' farm "$scratch/greatest" "$scratch/rebuilt"
grep -qx '0,a,x0,65536,several,,px' "$scratch/rebuilt/rack0.report.csv" || fail longer-fragment 'took it'
echo >> "$list"
ends longer-list 1 '' 'rack0.csv: E25' farm "$scratch/greatest" "$scratch/rebuilt"

# What is no regular file is not read, and no run waits for it. Links that lead to each other are something that can't be read.
header=order,stripe,target,length,survivors
mkdir "$scratch/no-files" "$scratch/no-files-out"
mkfifo "$scratch/fifo"
python3 -c 'import socket, sys; socket.socket(socket.AF_UNIX).bind(sys.argv[1])' "$scratch/socket"
printf '%s\nrebuild,a,x0,1,x1 x2 px\n' $header > "$scratch/list"
ln -s loop "$scratch/loop"
for bad in fifo socket loop no-files /dev/zero; do
  [ "$bad" = /dev/zero ] || bad=$scratch/$bad
  for name in rack0.csv rack0.feed1.csv rack1.csv; do
    cp "$scratch/list" "$scratch/no-files/rack0.csv"
    ln -sfn "$bad" "$scratch/no-files/$name"
    ends "list-${bad##*/}-$name" 3 '' E24 farm "$scratch/no-files" "$scratch/no-files-out"
    rm "$scratch/no-files/$name"
  done
  cp "$scratch/list" "$scratch/no-files/rack0.csv"
  ln -s "$bad" "$scratch/no-files/a.x1"
  ends "survivor-${bad##*/}" 0 'served 1 racks, 1 answers' '' farm "$scratch/no-files" "$scratch/no-files-out"
  grep -qx '0,a,x0,1,several,,x1 x2 px' "$scratch/no-files-out/rack0.report.csv" || fail "survivor-${bad##*/}" 'took it'
  rm "$scratch/no-files/a.x1" "$scratch/no-files-out/"*
done
ln -sf rack1.csv "$scratch/no-files/rack0.csv"
ln -s rack0.csv "$scratch/no-files/rack1.csv"
ends lists-that-loop 3 '' E24 farm "$scratch/no-files" "$scratch/no-files-out"

# Nor is it written: the run ends there, and no run waits for it. A link to a regular file is followed.
mkdir "$scratch/one" "$scratch/one-out"
cp "$scratch/list" "$scratch/one/rack0.csv"
for place in x1 x2 px; do
  printf a > "$scratch/one/a.$place"
done
mkfifo "$scratch/one-out/rack0.report.csv"
ends report-is-a-fifo 3 '' E24 farm "$scratch/one" "$scratch/one-out"
[ "$(cat "$scratch/one-out/rack0-0.a.x0")" = a ] || fail report-is-a-fifo 'did not write what comes before it'
rm "$scratch/one-out/"*
for bad in fifo socket loop no-files /dev/full; do
  [ "$bad" = /dev/full ] || bad=$scratch/$bad
  for name in rack0-0.a.x0 rack0.report.csv; do
    ln -s "$bad" "$scratch/one-out/$name"
    ends "written-${bad##*/}-$name" 3 '' E24 farm "$scratch/one" "$scratch/one-out"
    [ -h "$scratch/one-out/$name" ] || fail "written-${bad##*/}-$name" 'replaced it'
    [ "$name" = rack0.report.csv ] || [ "$(ls "$scratch/one-out")" = "$name" ] || fail "written-${bad##*/}-$name" 'went on'
    rm "$scratch/one-out/"*
  done
done
echo old > "$scratch/linked"
ln -s "$scratch/linked" "$scratch/one-out/rack0.report.csv"
ends report-by-a-link 0 'served 1 racks, 1 answers' '' farm "$scratch/one" "$scratch/one-out"
grep -q '^0,a,x0,1,rebuilt,' "$scratch/linked" || fail report-by-a-link 'did not follow it'

# A hundred requests where 40 files may be open.
mkdir "$scratch/hundred" "$scratch/hundred-out"
echo $header > "$scratch/hundred/rack0.csv"
for number in $(seq 100); do
  echo "rebuild,s$number,x0,1,x1 x2 px" >> "$scratch/hundred/rack0.csv"
  for place in x1 x2 px; do
    printf '%b' "\\x$(printf %02x "$number")" > "$scratch/hundred/s$number.$place"
  done
done
files=$(ulimit -S -n)
for workers in 1 16; do
  ulimit -S -n 40
  ends "few-open-files-$workers" 0 'served 1 racks, 100 answers' '' farm "$scratch/hundred" "$scratch/hundred-out" --workers "$workers"
  ulimit -S -n "$files"
  [ "$(grep -c ',rebuilt,' "$scratch/hundred-out/rack0.report.csv")" = 100 ] || fail few-open-files 'left survivors out'
  for number in $(seq 100); do
    cmp -s "$scratch/hundred/s$number.px" "$scratch/hundred-out/rack0-$((number - 1)).s$number.x0" ||
      fail few-open-files "rebuilt another s$number.x0"
  done
  rm "$scratch/hundred-out/"*
done
echo "ends: $passed runs ended as they must"
