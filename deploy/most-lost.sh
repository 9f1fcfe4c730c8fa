#!/usr/bin/env bash
# Says which placement groups have lost something, those first of which a stripe has lost most: a line for each, with the group, the
# fragments that such a stripe has lost, and those that all have.
#
#   most-lost.sh MAP [OPTION ..]
#
# MAP is that of on-group.sh, which GNU parallel runs for each group, where the variable PARALLEL says, as "--sshloginfile hosts". Options
# are those of `rebuild-store lost`. What is said besides goes to standard error, and the status is 1 if a group wasn't looked at.
set -euo pipefail
map=${1:?'the map'}
shift
here=$(dirname "$0")
log=$(mktemp)
trap 'rm -f "$log"' EXIT
cut -d ' ' -f 1 "$map" | sort -u |
  parallel -k --tag --joblog "$log" "$here/on-group.sh" "$map" {} rebuild-store lost --json --names '{place}/fragments/{stripe}' "$@" |
  awk -F '\t' '
    match($2, /"stripe":"([^"\\]|\\.)*"/) {
      stripe = $1 substr($2, RSTART, RLENGTH)
      all[$1]++
      if (++lost[stripe] > most[$1]) most[$1] = lost[stripe]
    }
    END { for (group in all) print group, most[group], all[group] }' | sort -k 2,2nr -k 3,3nr -k 1,1 || true
awk -F '\t' '
  NR > 1 && $7 != 0 && $7 != 1 { print "most-lost: status " $7 " of: " $0 > "/dev/stderr"; failed = 1 }
  END { exit failed }' "$log"
