#!/usr/bin/env bash
# Makes out/packages: what users install who have no toolchain.
#   bucketuntil-VERSION-x86_64-linux.tar.gz    programs, library, pages and completions below one folder, to be put anywhere
#   bucketuntil, rebuild-lists, bucketuntil-doc, liblrc0, liblrc-dev, ceph-plugin-azure-lrc    Debian packages and their source package,
#                where debhelper is installed, the plugin where Ceph's headers are too
#   PROVED       what was proved, by which toolchain, from which commit, with the sums of what was built
#   *.cdx.json   what the programs and the library are made of, as CycloneDX lists
#   SHA256SUMS   the sums of all these; SIGNING_KEY=KEY has gpg sign it with that key, into SHA256SUMS.asc
# packages.sh [JOBS] proves and builds first what isn't built; `packages.sh built` packs what is. Refused where something isn't committed,
# or a crate has no record of a proof. Everything is as the commit: versions end in +git, its time and its hash, times are the commit's,
# names are sorted and owners are root, so from one commit the same bytes come, wherever it is done.
set -euo pipefail
cd "$(dirname "$0")/.."
# What is packed is of the first level; of the others there are the programs, of which a command starts one, and the shared object.
levels=(x86-64-v2 x86-64-v3)
first=${levels[0]}
programs=(rebuild rebuild_store)
out=$PWD/out/packages
work=$out/work
tree=$work/bucketuntil
# The arguments of a make that runs this script are not for the runs below, nor are a user's wishes for packages in general.
unset MAKEFLAGS MFLAGS MAKELEVEL MAKEOVERRIDES PREFIX DESTDIR TARGET LEVEL
unset DEB_BUILD_OPTIONS DEB_BUILD_PROFILES DH_OPTIONS DH_VERBOSE XZ_OPT GZIP TAR_OPTIONS
# What Python keeps of modules would be no part of the commit.
export LC_ALL=C TZ=UTC PYTHONDONTWRITEBYTECODE=1
umask 022

fail() {
  echo "packages: $1" >&2
  exit 1
}

left_out() {
  echo "packages: left out: $1"
}

# has COMMAND..: whether all of these are there.
has() {
  local it
  for it in "$@"; do
    command -v "$it" > /dev/null || return 1
  done
}

# Where Debian's headers for the plugin are; their version is that of the Ceph which the plugin is for.
has_ceph() {
  [ -e /usr/include/rados/buffer.h ] && [ -e /usr/include/rados/librados.h ] && has g++ dpkg-query
}

# name_commit: the commit, its time, and the versions that are named after them. A tree that is no checkout of its own has no commit to
# name, and one with changes isn't what its commit says.
name_commit() {
  local suffix
  [ "$(git rev-parse --show-toplevel 2> /dev/null)" -ef . ] ||
    fail 'this folder is no checkout of a repository of its own, so no commit can be named'
  [ -z "$(git status --porcelain)" ] || fail "there are changes that aren't committed"
  commit=$(git rev-parse HEAD)
  SOURCE_DATE_EPOCH=$(git log -1 --format=%ct)
  export SOURCE_DATE_EPOCH
  suffix=+git$(date -u -d "@$SOURCE_DATE_EPOCH" +%Y%m%d%H%M%S).${commit:0:8}
  version=$(sed -n 's/^const VERSION: &str = "\(.*\)";$/\1/p' crates/command_line/src/definition.rt)$suffix
  header=$(sed -n 's/^#define LRC_VERSION "\(.*\)"$/\1/p' library/lrc.h)
  library=$header$suffix
}

# build JOBS..: proves and builds all for each level.
build() {
  grep -q avx2 /proc/cpuinfo || fail 'each program is run once it is built, and this processor has no AVX2 for x86-64-v3'
  local level
  for level in "${levels[@]}"; do
    tools/build.py "${programs[@]}" lrc_c "$level" "$@"
  done
}

# has_all_calls FILE: whether a shared object has the calls that the header declares, and no other name.
has_all_calls() {
  diff <(sed -n 's/^[a-z0-9_]* \(lrc_[a-z0-9_]*\)(.*/\1/p' library/lrc.h | sort) \
    <(nm -D --defined-only "$1" | awk '{ print $3 }' | sort) > "$work/said" ||
    { cat "$work/said" >&2; fail "$1 has other calls than library/lrc.h (< are in the header)"; }
}

# link: the shared objects.
link() {
  local level
  for level in "${levels[@]}"; do
    make -s link-library "LEVEL=$level"
    has_all_calls "crates/lrc_c/out/$level/liblrc.so.0"
  done
}

# plugin: the plugin for Ceph, where its headers are.
plugin() {
  if ! has_ceph; then
    left_out "the plugin for Ceph (Debian's libradospp-dev, librados-dev and g++ aren't all installed)"
    return
  fi
  make -s -C ceph "OUT=out/$first" "LIBRARY=../crates/lrc_c/out/$first/liblrc_c.a" "out/$first/libec_azure_lrc.so" \
    CXXFLAGS='-O2 -fstack-protector-strong -D_FORTIFY_SOURCE=2 -Wformat -Werror=format-security' > "$work/said" 2>&1 ||
    { cat "$work/said" >&2; fail 'the plugin for Ceph'; }
  ! nm -D --undefined-only "ceph/out/$first/libec_azure_lrc.so" | grep ' lrc_' >&2 || fail 'the plugin for Ceph lacks calls of the library'
}

# built: the files that were built, for all levels.
built() {
  local level
  for level in "${levels[@]}"; do
    printf '%s\n' "crates/rebuild/out/$level/rebuild" "crates/rebuild_store/out/$level/rebuild_store" \
      "crates/lrc_c/out/$level/liblrc_c.a" "crates/lrc_c/out/$level/liblrc.so.0"
  done
}

# prove: PROVED, of the files that were built.
prove() {
  local files
  mapfile -t files < <(built)
  # It doesn't name the plugin, so that the other packages are the same where that is left out.
  packaging/proved.py "$version" "$library" "$commit" "$SOURCE_DATE_EPOCH" "${levels[@]}" "${files[@]}" > "$work/PROVED" ||
    fail 'no package without a proof'
}

# copy: a copy of what is committed, and in its folder built/ what was built and what goes with it.
copy() {
  local files file to=$tree/built
  mkdir -p "$tree" "$to/out"
  git -c tar.umask=0022 archive HEAD | tar -C "$tree" --no-same-owner --no-same-permissions -x
  mapfile -t files < <(built)
  for file in "${files[@]}"; do
    install -D "$file" "$to/$file"
  done
  make -s notices
  install -m 644 -t "$to/out" out/NOTICES "$work/PROVED"
  ! has_ceph || install -D -m 644 "ceph/out/$first/libec_azure_lrc.so" "$to/ceph/out/$first/libec_azure_lrc.so"
  "${CC:-cc}" -std=gnu11 -O2 -Wall -Wextra -Werror -fstack-protector-strong -D_FORTIFY_SOURCE=2 -fPIE -pie -s -Wl,-z,relro,-z,now \
    -o "$to/out/launcher" packaging/launcher.c || fail 'the launcher'
  packaging/bill.py "$to/out" "$commit" "$SOURCE_DATE_EPOCH" "rebuild=$version" "rebuild_store=$version" "lrc_c=$library"
  packaging/pages.py "$tree" "$to/out/pages" "$commit" || fail 'the pages'
}

# packed FOLDER..: a tar of folders below the one of work, the same bytes from the same files.
packed() {
  tar -C "$work" --sort=name --owner=0 --group=0 --numeric-owner --format=ustar --mtime="@$SOURCE_DATE_EPOCH" -c "$@"
}

# tarball: all below one folder, from which it may be run, or be put anywhere.
tarball() {
  local name=bucketuntil-$version-x86_64-linux level program
  local to=$work/$name
  local doc=$to/share/doc/bucketuntil
  make -s -C "$tree" install install-library DESTDIR= "PREFIX=$to" "LEVEL=$first" > "$work/said"
  # A folder that is moved finds its parts by the file for pkg-config, wherever that is.
  sed -i 's|^prefix=.*|prefix=${pcfiledir}/../..|' "$to/lib/pkgconfig/lrc.pc"
  for program in "${programs[@]}"; do
    for level in "${levels[@]}"; do
      install -D "$tree/crates/$program/out/$level/$program" "$to/libexec/bucketuntil/$level/${program//_/-}"
    done
    install "$tree/out/launcher" "$to/bin/${program//_/-}"
  done
  cp -r "$tree/out/pages/." "$doc"
  install -m 644 -t "$doc" "$tree"/out/{PROVED,*.cdx.json}
  (cd "$to" && find . -type f -printf '%P\0' | sort -z | xargs -0 sha256sum > "$work/sums" && mv "$work/sums" SHA256SUMS)
  packed "$name" | gzip -9n > "$out/$name.tar.gz"
}

# describe: what makes a Debian source package of the tree. The shared library's packages have its own version.
describe() {
  local ceph=''
  ! has_ceph || ceph=$(dpkg-query -W -f '${Version}' librados-dev)
  cp -r "$tree/packaging/debian" "$tree/debian"
  printf 'bucketuntil (%s-1) unstable; urgency=medium\n\n  * Packed from commit %s.\n\n -- %s  %s\n' "$version" "$commit" \
    "$(sed -n 's/^Maintainer: //p' packaging/debian/control)" "$(date -u -R -d "@$SOURCE_DATE_EPOCH")" > "$tree/debian/changelog"
  printf '%s := %s\n' LIBRARY_VERSION "$header" LIBRARY_PACKAGE "$library-1" FIRST_LEVEL "$first" HIGHER_LEVELS "${levels[*]:1}" \
    CEPH_VERSION "$ceph" PLUGIN_PACKAGE "$version-1+ceph${ceph%%+*}" > "$tree/debian/built.mk"
}

# sources: the Debian source package: what is committed, and in a tar of its own what was built, since no package has the toolchain.
sources() {
  git -c tar.umask=0022 archive "--prefix=bucketuntil-$version/" HEAD | xz -T1 -c > "$work/bucketuntil_$version.orig.tar.xz"
  tar -C "$tree" --sort=name --owner=0 --group=0 --numeric-owner --format=ustar --mtime="@$SOURCE_DATE_EPOCH" -c built |
    xz -T1 -c > "$work/bucketuntil_$version.orig-built.tar.xz"
  (cd "$work" && dpkg-source -b bucketuntil > "$work/said" 2>&1) || { tail -n 30 "$work/said" >&2; fail 'dpkg-source'; }
  mv "$work"/*.dsc "$work"/*.tar.xz "$out/"
}

# debian: the Debian packages.
debian() {
  (cd "$tree" && DPKG_DEB_THREADS_MAX=1 dpkg-buildpackage -b -uc -us -d > "$work/said" 2>&1) ||
    { tail -n 30 "$work/said" >&2; fail 'dpkg-buildpackage'; }
  mv "$work"/*.deb "$out/"
}

# sums: the sums of all files, and the signature of them, which has a time of its own and is no part of them.
sums() {
  (cd "$out" && sha256sum -- * > ../SHA256SUMS && mv ../SHA256SUMS . && wc -c -- * | sed 's/^/packages: /')
  [ -z "${SIGNING_KEY:-}" ] && return
  gpg --batch --yes --local-user "$SIGNING_KEY" --armor --output "$out/SHA256SUMS.asc" --detach-sign "$out/SHA256SUMS" ||
    fail "SHA256SUMS isn't signed"
}

name_commit
[ -z "${SIGNING_KEY:-}" ] || gpg --batch --list-secret-keys "$SIGNING_KEY" > /dev/null || fail "SIGNING_KEY names no secret key of gpg's"
[ "${1:-}" = built ] || build "$@"
rm -rf "$out"
mkdir -p "$work"
link
prove
plugin
copy
has_debhelper=yes
if ! has dh dpkg-buildpackage dpkg-source xz; then
  has_debhelper=
  left_out "the Debian packages (debhelper isn't installed)"
fi
[ -z "$has_debhelper" ] || { describe; sources; }
cp -r "$tree/built/." "$tree/"
tarball
[ -z "$has_debhelper" ] || debian
cp "$tree"/out/{PROVED,*.cdx.json} "$out/"
rm -rf "$work"
sums
