#!/usr/bin/env bash
# Runs gate/store-sharing.py over NFS in a machine of its own, by qemu without the processor's help, since the kernel here may have no NFS:
# there a store is shared between two namespaces of networks. It needs root, Debian's qemu-system-x86, debootstrap and cpio, and a network,
# from which it takes Debian's kernel and the programs of NFS.
#
#   try-nfs.sh FOLDER [PROGRAM]    FOLDER is made, and has the machine's files, which a second run takes again
set -euo pipefail
root=$(cd "$(dirname "$0")/.." && pwd)
folder=${1:?'the folder of the machine'}
program=${2:-$root/crates/rebuild_store/out/rebuild_store}
for name in qemu-system-x86_64 debootstrap cpio; do
  command -v "$name" > /dev/null || { echo "try-nfs: no $name here" >&2; exit 1; }
done
mkdir -p "$folder"
folder=$(cd "$folder" && pwd)
cd "$folder"
if [ ! -e root/made ]; then
  programs=python3,nfs-kernel-server,nfs-common,iproute2,kmod,procps
  debootstrap --variant=minbase --include="$programs" bookworm root http://deb.debian.org/debian > debootstrap.log
  touch root/made
fi
if [ ! -e kernel ]; then
  name=$(apt-cache depends linux-image-amd64 | sed -n 's/.*Depends: //p')
  apt-get download -qq "$name"
  dpkg-deb -x linux-image-*.deb kernel.new
  mv kernel.new kernel
fi

version=$(basename kernel/lib/modules/*)
modules=root/lib/modules/$version
rm -rf "$modules"
mkdir -p "$modules/kernel/"{net,drivers/net}
cp -r "kernel/lib/modules/$version/kernel/"{fs,lib,crypto,arch} "$modules/kernel/"
cp -r "kernel/lib/modules/$version/kernel/net/"{sunrpc,dns_resolver} "$modules/kernel/net/"
cp "kernel/lib/modules/$version/kernel/drivers/net/veth.ko" "$modules/kernel/drivers/net/"
cp "kernel/lib/modules/$version/"modules.{order,builtin,builtin.modinfo} "$modules/" 2> /dev/null || true
chroot root depmod "$version"

rm -rf root/work
mkdir -p root/work/gate root/work/tools root/work/crates/rebuild_store/out
cp "$root/gate/"{store-sharing.py,faults.py} root/work/gate/
cp "$root/tools/"{store.py,reference.py} root/work/tools/
cp "$program" root/work/crates/rebuild_store/out/rebuild_store
cat > root/init <<'END'
#!/bin/bash
export PATH=/usr/sbin:/usr/bin:/sbin:/bin HOME=/root
mount -t proc proc /proc
mount -t sysfs sysfs /sys
mount -t devtmpfs devtmpfs /dev
mkdir -p /dev/pts /run /tmp
mount -t devpts devpts /dev/pts
mount -t tmpfs tmpfs /run
mount -t tmpfs tmpfs /tmp
echo alpha > /proc/sys/kernel/hostname
for module in nfs nfsv4 nfsd veth; do
  modprobe "$module" || echo "no module $module"
done
mkdir -p /var/lib/nfs/rpc_pipefs
ip link set lo up
cd /work
python3 gate/store-sharing.py crates/rebuild_store/out/rebuild_store nfs
echo "try-nfs: status $?"
echo o > /proc/sysrq-trigger
sleep 60
END
chmod 755 root/init
# Without what nothing here reads.
unread=(-path ./var/cache)
for it in var/lib/apt var/lib/dpkg usr/share/doc usr/share/locale usr/share/man; do
  unread+=(-o -path "./$it")
done
(cd root && find . -xdev \( "${unread[@]}" \) -prune -o -print0 | cpio --null --quiet -o -H newc) > image
timeout 3000 qemu-system-x86_64 -cpu max -smp 2 -m 3072 -kernel kernel/boot/vmlinuz-"$version" -initrd image -nographic -no-reboot \
  -append 'console=ttyS0 loglevel=4 panic=-1' < /dev/null | tee said
grep -q '^try-nfs: status 0' said
