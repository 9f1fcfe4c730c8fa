#!/usr/bin/env bash
# Installs the packages of out/packages in clean roots of Debian 12 and 13, which debootstrap makes, as root and with the network: an older
# version first, then the packages; README's commands, the manual pages, the completions, a program in C, and the library that the loader
# takes; then it purges them, and compares the files that are left with those before. The plugin for Ceph has to go in where Debian has the
# version of Ceph that it is for, and nowhere else. It is no part of the gate.
#   try-packages.sh [SUITE..]
set -euo pipefail
cd "$(dirname "$0")/.."
suites=("$@")
[ $# -gt 0 ] || suites=(bookworm trixie)
if [ "$(id -u)" != 0 ] || ! command -v debootstrap > /dev/null; then
  echo "try-packages: left out: clean roots need debootstrap and root's rights"
  exit 0
fi
if ! compgen -G 'out/packages/*.deb' > /dev/null; then
  echo "try-packages: there are no Debian packages in out/packages: make packages makes them, where debhelper is installed" >&2
  exit 1
fi
scratch=$(mktemp -d)
# What runs in a root has no such folder.
unset TMPDIR
root=$scratch/root
leave() {
  umount -q "$root/proc" || true
  rm -rf --one-file-system "$scratch"
}
trap leave EXIT

# older: the package of the programs under the version that all commits once had, when rebuild-lists was in it.
older() {
  dpkg-deb -R out/packages/bucketuntil_*.deb "$scratch/older"
  sed -i 's/^Version: \([0-9.]*\).*/Version: \1-1/' "$scratch/older/DEBIAN/control"
  echo 'of the older version' > "$scratch/older/usr/share/doc/bucketuntil/OLDER"
  echo 'of the older version' > "$scratch/older/usr/bin/rebuild-lists"
  dpkg-deb --root-owner-group -b "$scratch/older" "$root/try/older.deb" > /dev/null
}

# prepare SUITE: a clean root with what the commands below need, and with the packages in /try.
prepare() {
  rm -rf --one-file-system "$root" "$scratch/older"
  echo "try-packages: $1: making a clean root"
  debootstrap --variant=minbase "$1" "$root" > "$scratch/said" 2>&1 || { tail "$scratch/said"; exit 1; }
  mkdir -p "$root"/try/tree/{gate,companion,crates/rebuild/out,crates/rebuild_store/out}
  cp out/packages/*.deb out/packages/PROVED library/examples/fragments.c "$root/try/"
  # README's commands are run by the gate's script, which takes the programs from these places.
  cp README.md "$root/try/tree/"
  cp gate/examples.py "$root/try/tree/gate/"
  ln -s /usr/bin/rebuild "$root/try/tree/crates/rebuild/out/rebuild"
  ln -s /usr/bin/rebuild-store "$root/try/tree/crates/rebuild_store/out/rebuild_store"
  ln -s /usr/bin/rebuild-lists "$root/try/tree/companion/rebuild-lists"
  older
  # The root has no terminals.
  echo 'Dpkg::Use-Pty "false";' > "$root/etc/apt/apt.conf.d/90no-terminal"
  mount -t proc proc "$root/proc"
}

# The commands in the root. Each is shown before it is run.
within() {
  cat << 'END'
set -euo pipefail
export DEBIAN_FRONTEND=noninteractive LC_ALL=C
cd /try
quietly() { "$@" > said 2>&1 || { cat said; exit 1; }; }
files() { find / -xdev \( -path /proc -o -path /tmp -o -path /try -o -path /var/cache -o -path /var/log -o -path /var/lib/apt \
  -o -path /var/lib/dpkg -o -path /run \) -prune -o -print | sort; }
quietly apt-get update
# The programs and the library take no Python, which fish does.
quietly apt-get install -y --no-install-recommends ./bucketuntil_*.deb ./liblrc0_*.deb ./liblrc-dev_*.deb
test ! -e /usr/bin/python3
quietly apt-get purge -y bucketuntil liblrc0 liblrc-dev
quietly apt-get autoremove -y --purge
quietly apt-get install -y --no-install-recommends man-db bash-completion zsh fish gcc libc6-dev pkg-config
files > before
set -x
apt-get install -y --no-install-recommends ./older.deb > said
test -e /usr/share/doc/bucketuntil/OLDER
apt-get install -y --no-install-recommends ./bucketuntil_*.deb ./liblrc0_*.deb ./liblrc-dev_*.deb > said
test ! -e /usr/share/doc/bucketuntil/OLDER
apt-get install -y --no-install-recommends ./rebuild-lists_*.deb ./bucketuntil-doc_*.deb > said
dpkg-query -W bucketuntil rebuild-lists bucketuntil-doc liblrc0 liblrc-dev
printf 'a x0 1 x1=02 x2=03 px=00\n' | rebuild
rebuild-store --version
for it in /usr/libexec/bucketuntil/*/*; do grep "$(sha256sum < "$it" | cut -d ' ' -f 1)" PROVED; done
python3 tree/gate/examples.py README.md
man -P cat rebuild-store | head -n 4
man -P cat 5 rebuild | head -n 4
man -P cat 5 rebuild-store | head -n 4
bash -c '. /usr/share/bash-completion/bash_completion; _completion_loader rebuild-store; complete -p rebuild-store'
zsh -c 'autoload -Uz compinit; compinit -D -u; print $_comps[rebuild-store] $_comps[rebuild]'
HOME=/try fish -c 'complete -C "rebuild-store scr"'
gcc -o fragments fragments.c $(pkg-config --cflags --libs lrc)
ldd fragments | grep liblrc
head -c 100000 /dev/urandom > file
mkdir fragments.d
./fragments encode file fragments.d
rm fragments.d/x0 fragments.d/y1
./fragments rebuild fragments.d
./fragments decode fragments.d decoded
cmp file decoded
apt-get purge -y bucketuntil rebuild-lists bucketuntil-doc liblrc0 liblrc-dev > said
apt-get autoremove -y --purge > said
set +x
files > after
diff before after
END
}

fail() {
  tail -n 50 "$scratch/said"
  echo "try-packages: $1"
  exit 1
}

# in_root COMMAND..: runs it in the root; what it says is in the file said.
in_root() { DEBIAN_FRONTEND=noninteractive LC_ALL=C chroot "$root" "$@" > "$scratch/said" 2>&1; }

# plugin SUITE FILE: installs the plugin for Ceph if the suite has the version of Ceph that it is for, and purges it; else apt refuses it.
plugin() {
  local file=/try/${2##*/} wanted offered at=$root/usr/lib/x86_64-linux-gnu/ceph/erasure-code/libec_azure_lrc.so
  wanted=$(dpkg-deb -f "$2" Depends | sed -n 's/.*ceph-base (= \([^)]*\)).*/\1/p')
  offered=$(chroot "$root" apt-cache policy ceph-base | sed -n 's/^  Candidate: //p')
  echo "try-packages: $1: the plugin is for Ceph $wanted, and ceph-base $offered is here"
  if [ "$wanted" != "$offered" ]; then
    ! in_root apt-get install -s --no-install-recommends "$file" || fail "$1: apt takes the plugin for another Ceph"
    return
  fi
  in_root apt-get install -y --no-install-recommends "$file" || fail "$1: the plugin isn't installed"
  strings -a "$at" | grep "^azure_lrc .* for Ceph ${wanted%.*}$" || fail "$1: the plugin is of another release"
  in_root rebuild-ceph --help || fail "$1: rebuild-ceph doesn't run"
  in_root apt-get purge -y ceph-plugin-azure-lrc || fail "$1: the plugin isn't purged"
  [ ! -e "$at" ] && [ ! -e "$root/usr/bin/rebuild-ceph" ] || fail "$1: something of the plugin is left"
}

for suite in "${suites[@]}"; do
  prepare "$suite"
  within > "$root/try/within.sh"
  chroot "$root" /bin/bash /try/within.sh 2>&1 || { echo "try-packages: $suite: the last command failed"; exit 1; }
  for it in out/packages/ceph-plugin-azure-lrc_*.deb; do [ ! -e "$it" ] || plugin "$suite" "$it"; done
  umount "$root/proc"
  echo "try-packages: $suite: installed, upgraded, used and purged; nothing is left"
done
