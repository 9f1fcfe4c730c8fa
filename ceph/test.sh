#!/usr/bin/env bash
# Compiles the plugin for Ceph and runs its host tests, where Ceph's headers are installed (Debian's libradospp-dev and librados-dev, with
# its common library); else it says that it left them out. Nothing of Ceph is started: ceph/try.sh does that.
#   every set of one to four lost shards of both codes in both layouts, also under the address and undefined sanitizers; what is wrong
#   answered with an error; each allocation refused in turn; threads at once, also under the thread sanitizer; where the plugin says what is
#   wrong; the least reads; words and releases that are refused; the table of calls, and what odd calls do, beside shipped plugins;
#   `make install-ceph` and `make uninstall-ceph`
# rebuild-ceph, which needs none of this, is tried by ceph/tests/rebuild-ceph.py.
# All is built in a copy of the repository, with what the proofs have left: the gate's other scripts run beside this one.
set -euo pipefail
cd "$(dirname "$0")/.."
library=/usr/lib/x86_64-linux-gnu/ceph/libceph-common.so.2
compiler=${CXX:-g++}
if ! command -v "$compiler" > /dev/null || [ ! -e "$library" ] ||
  ! printf '#include <rados/buffer.h>\n#include <rados/librados.h>\n' | "$compiler" -std=c++17 -x c++ -E - > /dev/null 2>&1; then
  echo "ceph: left out: the plugin for Ceph (Debian's libradospp-dev, librados-dev and g++ aren't all installed)"
  exit 0
fi
scratch=$(mktemp -d)
trap 'rm -rf "$scratch"' EXIT
# The arguments of a make that runs this script are not for the runs below.
unset MAKEFLAGS MFLAGS MAKELEVEL MAKEOVERRIDES PREFIX DESTDIR TARGET

fail() {
  echo "ceph: $1"
  exit 1
}

# quietly WHAT COMMAND..: runs the command, and shows what it wrote only where it fails.
quietly() {
  local what=$1
  shift
  "$@" > "$scratch/said" 2>&1 || { cat "$scratch/said"; fail "$what"; }
}

quietly 'which lines are said' "$compiler" -std=c++17 -Wall -Wextra -Werror -O1 -fsanitize=address,undefined -o "$scratch/reports" \
  ceph/tests/reports.cc
"$scratch/reports"
tools/copy-tree.sh "$scratch/copy"
for crate in lrc_field lrc_code lrc_plan lrc_c; do
  if [ -d "crates/$crate/out" ]; then
    cp -al "crates/$crate/out" "$scratch/copy/crates/$crate/" 2> "$scratch/said" || cp -a "crates/$crate/out" "$scratch/copy/crates/$crate/"
  fi
done
cd "$scratch/copy"
quietly 'make ceph' make -s ceph JOBS=1 CXX="$compiler"

# Where something lacks, that is said before anything is proved.
lacks() { # WORD LINE
  if make -s -C ceph needs "$1" > "$scratch/said" 2>&1; then fail "'make ceph' goes on with $1"; fi
  grep -qF "$2" "$scratch/said" || fail "'make ceph' with $1 says $(cat "$scratch/said")"
}
lacks "CEPH=$scratch/none" "no $scratch/none/libceph-common.so.2: it needs Ceph 16.2, as Debian 12 has it, or 18.2"
lacks CXX=no-such-compiler "no no-such-compiler here: it needs Debian's g++"

# common VERSION: a folder whose common library says that it is of this version of Ceph.
common() {
  mkdir "$scratch/$1"
  echo "const char *ceph_version_to_str() { return \"$1\"; }" |
    "$compiler" -shared -fPIC -o "$scratch/$1/libceph-common.so.2" -x c++ -
}
common 17.2.7
lacks "CEPH=$scratch/17.2.7" 'Ceph 17.2.7 is installed: it needs 16.2 or 18.2'
common 18.2.0
quietly 'the plugin for 18.2' make -s -C ceph "OUT=$scratch/reef" "CEPH=$scratch/18.2.0" CXX="$compiler" "$scratch/reef/libec_azure_lrc.so"
[[ $(strings -a "$scratch/reef/libec_azure_lrc.so" | grep '^azure_lrc ') = *' for Ceph 18.2' ]] || fail 'the plugin is for another release'

plain=$PWD/ceph/out
watched=$scratch/watched
quietly 'the plugin under sanitizers' make -s -C ceph "OUT=$watched" CXX="$compiler" \
  CXXFLAGS='-O1 -g -fsanitize=address,undefined -fno-sanitize-recover=all'
profiles=(plugin=azure_lrc plugin=azure_lrc,layout=groups plugin=azure_lrc,code=12-2-2 plugin=azure_lrc,code=12-2-2,layout=groups)
for out in "$plain" "$watched"; do
  export PLUGINS=$out/plugins
  for profile in "${profiles[@]}"; do
    for part in sets odd starved threads; do
      quietly "$part of $profile" "$out/host" "$part" "$profile"
    done
  done
  quietly 'refused words' "$out/host" words plugin=azure_lrc
  quietly 'releases' "$out/host" version plugin=azure_lrc
  quietly 'what the plugin says' "$out/host" said plugin=azure_lrc
done
raced=$scratch/raced
quietly 'the plugin under the thread sanitizer' make -s -C ceph "OUT=$raced" CXX="$compiler" CXXFLAGS='-O1 -g -fsanitize=thread'
# The sanitizer doesn't start where addresses are too random.
fixed=()
if setarch -R true 2> "$scratch/said"; then fixed=(setarch -R); fi
export TSAN_OPTIONS=halt_on_error=1 PLUGINS=$raced/plugins
for profile in "${profiles[@]}"; do
  quietly "threads of $profile under the thread sanitizer" ${fixed[@]+"${fixed[@]}"} "$raced/host" threads "$profile"
done
export PLUGINS=$plain/plugins
quietly 'the least reads of (6,2,2)' "$plain/host" least plugin=azure_lrc 3
quietly 'the least reads of (12,2,2)' "$plain/host" least plugin=azure_lrc,code=12-2-2 1
shipped=$(dirname "$library")/erasure-code
if [ -d "$shipped" ] && command -v readelf > /dev/null; then
  quietly 'the calls beside those of shipped plugins' ceph/tests/abi.sh "$plain" "$shipped"
  quietly 'odd calls beside shipped plugins' "$plain/host" beside plugin=azure_lrc plugin=isa,technique=cauchy,k=6,m=4 \
    plugin=jerasure,technique=reed_sol_van,k=6,m=4 plugin=lrc,k=6,m=2,l=4 plugin=shec,k=6,m=4,c=3 plugin=clay,k=6,m=4,d=9
else
  echo 'ceph: left out: the calls beside those of shipped plugins (none is installed, or no readelf)'
fi

installed=usr/lib/x86_64-linux-gnu/ceph/erasure-code/libec_azure_lrc.so
quietly 'make install-ceph' make -s install-ceph "DESTDIR=$scratch/root"
came=$(cd "$scratch/root" && find . -type f -printf '%m %P\n' | sort)
[ "$came" = "$(printf '644 %s\n' "$installed" usr/local/share/man/man1/rebuild-ceph.1
  echo '755 usr/local/bin/rebuild-ceph')" ] || fail "what comes is $(find "$scratch/root" -type f)"
cmp "$plain/libec_azure_lrc.so" "$scratch/root/$installed" || fail 'another plugin was installed'
for level in ceph/out/x86-64-v*; do
  quietly 'make install-ceph of a level' make -s install-ceph "LEVEL=${level##*/}" "DESTDIR=$scratch/root"
  cmp "$level/libec_azure_lrc.so" "$scratch/root/$installed" || fail "the plugin of another level than ${level##*/} was installed"
done
quietly 'make uninstall-ceph' make -s uninstall-ceph "DESTDIR=$scratch/root"
[ -z "$(find "$scratch/root" -type f)" ] || fail "what stays is $(find "$scratch/root" -type f)"
[ "$(nm -D --defined-only "$plain/libec_azure_lrc.so" | awk '{ print $3 }' | sort | tr '\n' ' ')" = \
  '__erasure_code_init __erasure_code_version ' ] || fail 'the plugin shows other names than its two'
[ "$(strings -a "$plain/libec_azure_lrc.so" | grep -c '^azure_lrc ')" = 1 ] || fail 'the plugin has more than a line on its version'
echo 'ceph: the plugin rebuilds every set that its codes determine, in both layouts, and answers an error for the others'
