#!/usr/bin/env bash
# Tests tools/packages.sh over the programs that the proofs have left. It proves nothing: in two copies of the repository the records of
# proofs are written here, each program serves for both levels, with a byte more at its end for the second, and an archive with all calls
# of the header stands in for the library's, which the proofs don't build. What has a record for its level isn't built again. The copies
# differ in path, file system, time zone, language, umask and user, as far as this user may have it so, and all sums of both are compared;
# so are those of the packages that the source package makes. It runs what the tarball and the Debian packages have as another user; looks
# at owners, paths, links, pages and units; and sees refused what isn't committed, what has no record of a proof, and a library that lacks
# calls. lintian is run where it is installed, and its warnings fail.
set -euo pipefail
cd "$(dirname "$0")/.."
scratch=$(mktemp -d)
chmod 755 "$scratch"
second=$scratch/another/place
shared=''
leave() {
  # gpg leaves an agent, whose folder may be on what is mounted.
  [ ! -d "$second.keys" ] || GNUPGHOME=$second.keys other_user gpgconf --kill all
  ! mountpoint -q "$scratch/another" || umount -l "$scratch/another"
  rm -rf "$scratch" ${shared:+"$shared"}
}
trap leave EXIT
unset MAKEFLAGS MFLAGS MAKELEVEL MAKEOVERRIDES PREFIX DESTDIR TARGET LEVEL SIGNING_KEY
export GIT_CONFIG_GLOBAL=/dev/null GIT_AUTHOR_DATE='2026-01-01T00:00:00Z' GIT_COMMITTER_DATE='2026-01-01T00:00:00Z'
umask 022
both=(x86-64-v2 x86-64-v3)
request='a x0 1 x1=02 x2=03 px=00'

fail() {
  echo "packages: $1"
  exit 1
}

# has COMMAND WHAT: whether the command is there; else what is left out without it is said.
has() {
  command -v "$1" > "$scratch/log" || { echo "packages: left out: $2 ($1 isn't installed)"; return 1; }
}

# commit FOLDER MESSAGE: commits what is changed of the files that are tracked.
commit() {
  git -C "$1" -c user.name=test -c user.email=test@test.example commit -q -a -m "$2"
}

# stand_in FOLDER COUNT: an archive with so many of the calls that the header there declares, compiled there.
stand_in() {
  python3 - "$1/library/lrc.h" "$2" > "$1/out/calls.c" << 'END'
import re
import sys

declared = re.findall(r"^(\w+ (lrc_\w+)\([^;{]*\));", open(sys.argv[1]).read(), re.M)
print("#include <lrc.h>\n#include <string.h>")
for call, name in declared[:int(sys.argv[2])]:
    clear = "memset(out, 0, length);" if name == "lrc_apply" else ""
    print(call, "{", clear, "return", "LRC_VERSION_NUMBER" if name == "lrc_version" else "0", "; }")
END
  (cd "$1" && "${CC:-cc}" -O1 -fPIC -Ilibrary -c -o out/calls.o out/calls.c && rm -f out/liblrc_c.a && ar rcsD out/liblrc_c.a out/calls.o)
}

# copy FOLDER: the repository with a commit of its own, with what is built for both levels and a record of each proof.
copy() {
  local level
  tools/copy-tree.sh "$1"
  git -C "$1" init -q
  git -C "$1" add -f .
  commit "$1" packed
  mkdir "$1/out"
  stand_in "$1" 99
  for level in "${both[@]}"; do
    install -D crates/rebuild/out/rebuild "$1/crates/rebuild/out/$level/rebuild"
    install -D crates/rebuild_store/out/rebuild_store "$1/crates/rebuild_store/out/$level/rebuild_store"
    install -D -m 644 "$1/out/liblrc_c.a" "$1/crates/lrc_c/out/$level/liblrc_c.a"
  done
  echo >> "$1/crates/rebuild/out/x86-64-v3/rebuild"
  echo >> "$1/crates/rebuild_store/out/x86-64-v3/rebuild_store"
  record "$1"
}

# record FOLDER: records of proofs of what is built there.
record() {
  PYTHONDONTWRITEBYTECODE=1 PYTHONPATH=$1/packaging python3 - "${both[@]}" << 'END'
import sys
import parts

kit = parts.Toolchain().identity + "\n"
for crate in parts.own_crates(["rebuild", "rebuild_store", "lrc_c"]):
    for level in sys.argv[1:]:
        made = crate.built(level)
        made.parent.mkdir(parents=True, exist_ok=True)
        made.touch()
        crate.write_record(crate.inputs(parts.build.ROOT / "crates", level, kit), level)
END
}

# other_user COMMAND..: runs the command as another user where this one may.
other_user() {
  if [ "$(id -u)" = 0 ] && command -v setpriv > "$scratch/log"; then
    setpriv --reuid=65534 --regid=65534 --clear-groups -- "$@"
  else
    "$@"
  fi
}

pack() {
  (cd "$1" && tools/packages.sh built) > "$scratch/said" 2>&1
}

# refuses WHAT WORDS: whether packing the first copy is refused with these words, and leaves no sums.
refuses() {
  ! pack "$scratch/one" || fail "$1 is packed"
  grep -q "$2" "$scratch/said" || fail "$1 gives: $(cat "$scratch/said")"
  [ ! -e "$out/SHA256SUMS" ] || fail "$1 leaves sums"
}

# elsewhere: a place for the second copy on another file system, where there is one to be had.
elsewhere() {
  mkdir "$scratch/another"
  if mount -t tmpfs -o mode=755,size=2g packages "$scratch/another" 2> "$scratch/log"; then
    return
  fi
  if [ -w /dev/shm ] && [ "$(df --output=avail -k /dev/shm | tail -n 1)" -gt 2000000 ]; then
    shared=$(mktemp -d /dev/shm/packages.XXXXXX)
    chmod 755 "$shared"
    second=$shared/place
  fi
  [ "$(stat -c %d "${shared:-$scratch}")" != "$(stat -c %d "$scratch")" ] || echo 'packages: left out: another file system'
}

# pack_otherwise: packs the second copy with all else than the first that this user may have.
pack_otherwise() {
  local words
  (umask 077 && copy "$second")
  mkdir "$second.home"
  key=''
  ! has gpg 'a signature' || { a_key "$second.keys"; key=test@test.example; }
  [ "$(id -u)" != 0 ] || chown -R 65534:65534 "$second" "$second".*
  words=$(locale -a | grep -iE '^[a-z]{2}_.*utf-?8$|^C\.utf-?8$' | LC_ALL=C sort | tail -n 1 || true)
  (cd "$second" && umask 077 && export HOME=$second.home TZ=Pacific/Kiritimati LC_ALL=$words DEB_BUILD_OPTIONS=terse &&
    export GNUPGHOME=$second.keys SIGNING_KEY=$key && other_user tools/packages.sh built) > "$scratch/said" 2>&1 ||
    { cat "$scratch/said"; fail 'it fails elsewhere'; }
  diff "$out/SHA256SUMS" "$second/out/packages/SHA256SUMS" ||
    fail 'from another path, file system, time zone, language, umask and user other packages come'
}

# runs FOLDER: whether what is in this folder of commands runs.
runs() {
  [ "$(other_user "$1/rebuild" <<< "$request")" = 'rebuilt 01' ] || fail "$1/rebuild doesn't run"
  [ "$(other_user "$1/rebuild-store" --version)" = "rebuild-store $release" ] || fail "$1/rebuild-store doesn't run"
}

# starts PREFIX: whether the commands there start the programs for this processor, also by a link, and say so where none is there.
starts() {
  local level=x86-64-v2 ended=0 it
  ! grep -q avx2 /proc/cpuinfo || level=x86-64-v3
  cmp crates/rebuild/out/rebuild "$1/libexec/bucketuntil/x86-64-v2/rebuild" || fail 'another program was packed'
  mkdir -p "$scratch/moved/bin"
  cp "$1/bin/rebuild" "$scratch/moved/bin/"
  ln -s "$scratch/moved/bin/rebuild" "$scratch/linked"
  for it in "${both[@]}"; do
    mkdir -p "$scratch/moved/libexec/bucketuntil/$it"
    printf '#!/bin/sh\necho "%s:$*"\nexit 7\n' "$it" > "$scratch/moved/libexec/bucketuntil/$it/rebuild"
    chmod 755 "$scratch/moved/libexec/bucketuntil/$it/rebuild"
  done
  for it in "$scratch/moved/bin/rebuild" "$scratch/linked"; do
    [ "$("$it" 'a b' c || echo "$?")" = "$level:a b c"$'\n7' ] || fail "$it starts: $("$it" 'a b' c)"
  done
  rm -r "$scratch/moved/libexec"
  "$scratch/linked" 2> "$scratch/said" || ended=$?
  [ "$ended" = 126 ] && grep -q "^rebuild: .*can't be started" "$scratch/said" || fail "without a program: $ended, $(cat "$scratch/said")"
  rm -r "$scratch/moved" "$scratch/linked"
}

# serves FOLDER: whether rebuild-lists of this folder of commands serves with the program beside it where none is on PATH.
serves() {
  mkdir -p "$scratch/work/in" "$scratch/work/out"
  cp -r demo/farm "$scratch/work/in/0"
  PATH=/usr/bin:/bin "$1/rebuild-lists" serve "$scratch/work" 0 > "$scratch/said" 2>&1 || fail "rebuild-lists serve: $(cat "$scratch/said")"
  rm -r "$scratch/work"
}

# tarball: what is in the tarball.
tarball() {
  local name=bucketuntil-$version-x86_64-linux
  local at=$scratch/$name
  tar --numeric-owner -tvzf "$out/$name.tar.gz" > "$scratch/listed"
  ! awk '$2 != "0/0"' "$scratch/listed" | grep . || fail 'the tarball has other owners than root'
  ! awk '{ print $6 }' "$scratch/listed" | grep -v "^$name/" || fail "the tarball has other paths"
  tar -C "$scratch" --no-same-owner -xzf "$out/$name.tar.gz"
  (cd "$at" && sha256sum -c --quiet SHA256SUMS) || fail "the tarball's SHA256SUMS"
  ! grep -rlF "$scratch" "$at" || fail 'the tarball has the path at which it was made'
  runs "$at/bin"
  starts "$at"
  serves "$at/bin"
  gate/packaged-pages.py "$at/share/doc/bucketuntil" || fail "the tarball's pages"
  other_user "$at/bin/rebuild-lists" check "$at/share/doc/bucketuntil/demo/farm" > "$scratch/said" || fail "the tarball's rebuild-lists"
  printf '#include <lrc.h>\nint main(void) { return lrc_version() == LRC_VERSION_NUMBER ? 0 : 1; }\n' > "$scratch/main.c"
  local flags="-I$at/include -L$at/lib -llrc"
  if command -v pkg-config > "$scratch/log"; then
    flags=$(PKG_CONFIG_PATH=$at/lib/pkgconfig pkg-config --cflags --libs lrc)
  fi
  # shellcheck disable=SC2086
  "${CC:-cc}" -o "$scratch/main" "$scratch/main.c" $flags
  LD_LIBRARY_PATH=$at/lib "$scratch/main" || fail 'a program in C over the tarball'
}

# debian: what is in the Debian packages.
debian() {
  local it doc=usr/share/doc
  mkdir "$scratch/of"
  for it in "$out"/*.deb; do
    dpkg-deb -c "$it" > "$scratch/listed"
    ! awk '$2 != "root/root"' "$scratch/listed" | grep . || fail "$it has other owners than root"
    ! awk '{ print $6 }' "$scratch/listed" | grep -vE '^\./(usr/.*)?$' || fail "$it has files outside of usr"
    [[ $(dpkg-deb -f "$it" Version) = *"${version#*+}-1"?(+ceph*) ]] || fail "$it doesn't name the commit"
    dpkg-deb -x "$it" "$scratch/root"
    dpkg-deb -x "$it" "$scratch/of/$(dpkg-deb -f "$it" Package)"
  done
  # Packages of all commits once had the version alone.
  dpkg --compare-versions "$release-1" lt "$version-1" || fail 'a package without a commit is newer'
  dpkg --compare-versions "$version-1" lt "$release+git20260101000001.00000000-1" || fail "a later commit's package isn't newer"
  runs "$scratch/root/usr/bin"
  starts "$scratch/root/usr"
  for it in usr/bin/rebuild-lists usr/share/man/man{1/rebuild-store.1,5/rebuild-store.5}.gz \
    usr/share/zsh/vendor-completions/_rebuild-store usr/share/bash-completion/completions/rebuild-store \
    usr/share/fish/vendor_completions.d/rebuild-store.fish usr/include/lrc.h \
    usr/lib/x86_64-linux-gnu/{liblrc.a,liblrc.so.0,pkgconfig/lrc.pc,glibc-hwcaps/x86-64-v3/liblrc.so.0} \
    usr/lib/systemd/system/rebuild-store-scrub@.{service,timer} $doc/bucketuntil/README.md \
    $doc/{bucketuntil,liblrc0,liblrc-dev}/{copyright,NOTICES} $doc/{bucketuntil,liblrc0}/PROVED; do
    [ -f "$scratch/root/$it" ] || fail "the Debian packages lack $it"
  done
  ! grep -rlF "$scratch" "$scratch/root" || fail 'a Debian package has the path at which it was made'
  gate/packaged-pages.py "$scratch/root/$doc/bucketuntil" || fail "the Debian packages' pages"
  ! grep -rlE '^#!.*python' "$scratch/of"/*/usr/bin | grep -vE 'of/(rebuild-lists|ceph-plugin-azure-lrc)/' || fail 'it takes Python'
  ! dpkg-deb -f "$out"/bucketuntil_*.deb Depends Recommends | grep python || fail 'the programs depend on Python'
  units
  if has lintian 'what lintian says'; then
    lintian --allow-root --fail-on error,warning "$out"/*.deb > "$scratch/said" 2>&1 || { cat "$scratch/said"; fail 'lintian'; }
  fi
}

# units: whether systemd takes the units, and what the service runs ends as the program does.
units() {
  local at=$scratch/root/usr/lib/systemd/system
  grep -qx 'ExecStart=/usr/bin/rebuild-store scrub $OPTIONS %f' "$at/rebuild-store-scrub@.service" || fail 'the service runs something else'
  if has systemd-analyze 'the units'; then
    sed -i "s|/usr/bin/rebuild-store|$scratch/root/usr/bin/rebuild-store|" "$at/rebuild-store-scrub@.service"
    for it in service timer; do
      cp "$at/rebuild-store-scrub@.$it" "$at/rebuild-store-scrub@srv-store.$it"
      systemd-analyze verify --man=no "$at/rebuild-store-scrub@srv-store.$it" > "$scratch/said" 2>&1 || echo 'no' >> "$scratch/said"
      [ ! -s "$scratch/said" ] || fail "systemd takes the $it so: $(cat "$scratch/said")"
    done
  fi
}

# from_source: whether the source package makes the same packages, and none of a library that lacks calls.
from_source() {
  local at=$scratch/from/sources symbols=debian/liblrc0/usr/lib/x86_64-linux-gnu/liblrc.so
  mkdir "$scratch/from"
  cp "$out"/*.dsc "$out"/*.tar.xz "$scratch/from/"
  (cd "$scratch/from" && dpkg-source -x ./*.dsc sources && cd sources && SOURCE_DATE_EPOCH='' dpkg-buildpackage -b -uc -us -d) \
    > "$scratch/said" 2>&1 || { tail "$scratch/said"; fail 'the source package makes no packages'; }
  (cd "$scratch/from" && sed -n '/\.deb$/p' "$out/SHA256SUMS" | sha256sum -c --quiet) || fail 'the source package makes other packages'
  cp "$scratch/one/one-call.so" "$(readlink -f "$at/$symbols.0")"
  ! (cd "$at" && DEB_RULES_REQUIRES_ROOT=no debian/rules override_dh_makeshlibs) > "$scratch/said" 2>&1 ||
    fail "Debian's list of symbols holds the library to nothing"
  grep -q '^+#MISSING: .* lrc_plan_into@Base' "$scratch/said" || fail "a library of one call gives: $(cat "$scratch/said")"
}

# levels FOLDER: whether what is built for a level is taken where that level is asked for, and nothing is built.
levels() {
  local level
  for level in x86-64-v3 x86-64-v2; do
    (cd "$1" && tools/build.py rebuild rebuild_store lrc_c "$level") > "$scratch/said" || fail "build.py: $(cat "$scratch/said")"
    grep -q '^Nothing has changed since' "$scratch/said" || fail "what was built is built again: $(cat "$scratch/said")"
    for it in rebuild rebuild_store; do
      cmp "$1/crates/$it/out/$it" "$1/crates/$it/out/$level/$it" || fail "out/$it is of another level than $level"
    done
  done
}

# a_key FOLDER: a folder of gpg's with a key for test@test.example, of which a user needs no password.
a_key() {
  mkdir -m 700 "$1"
  GNUPGHOME=$1 gpg --batch --quiet --passphrase '' --quick-generate-key 'Test <test@test.example>' ed25519 sign never > "$scratch/log" 2>&1
  GNUPGHOME=$1 gpgconf --kill all
}

# signed: whether the second copy's sums, which are the first's, are signed, and a key that isn't there is refused.
signed() {
  local sums=$second/out/packages/SHA256SUMS
  export GNUPGHOME=$second.keys
  gpg --batch --verify "$sums.asc" "$out/SHA256SUMS" > "$scratch/log" 2>&1 || fail "the signature: $(cat "$scratch/log")"
  ! (echo | cat "$sums" - | gpg --batch --verify "$sums.asc" -) > "$scratch/log" 2>&1 || fail 'other sums are verified'
  ! SIGNING_KEY=nobody@test.example pack "$scratch/one" || fail 'it packs with a key that is none'
  grep -q 'SIGNING_KEY names no secret key' "$scratch/said" || fail "a key that is none gives: $(cat "$scratch/said")"
  unset GNUPGHOME
}

release=$(sed -n 's/^const VERSION: &str = "\(.*\)";$/\1/p' crates/command_line/src/definition.rt)
out=$scratch/one/out/packages
copy "$scratch/one"
version=$release+git20260101000000.$(git -C "$scratch/one" rev-parse HEAD | cut -c 1-8)
pack "$scratch/one" || { cat "$scratch/said"; fail 'it fails'; }
sed -n '/left out/p' "$scratch/said"
levels "$scratch/one"
elsewhere
pack_otherwise
(cd "$out" && sha256sum -c --quiet SHA256SUMS) || fail 'SHA256SUMS'
(cd "$out" && find . -type f ! -name SHA256SUMS -printf '%P\n' | sort | diff - <(cut -c 67- SHA256SUMS | sort)) ||
  fail 'SHA256SUMS lacks files'
sum=$(sha256sum < crates/rebuild/out/rebuild | cut -d ' ' -f 1)
grep -q "$sum  x86-64-v2/rebuild" "$out/PROVED" || fail 'PROVED names another program'
tarball
stand_in "$scratch/one" 1
"${CC:-cc}" -shared -o "$scratch/one/one-call.so" -Wl,--whole-archive "$scratch/one/out/liblrc_c.a" -Wl,--no-whole-archive \
  -Wl,-soname,liblrc.so.0
if compgen -G "$out/*.deb" > "$scratch/log"; then
  debian
  from_source
fi
rm "$scratch/one/one-call.so"
[ -z "$key" ] || signed

install -m 644 "$scratch/one/out/liblrc_c.a" "$scratch/one/crates/lrc_c/out/x86-64-v3/liblrc_c.a"
record "$scratch/one"
refuses 'a library of one call' 'x86-64-v3/liblrc.so.0 has other calls than library/lrc.h'
echo '// changed' >> "$scratch/one/crates/lrc_field/src/lib.rt"
refuses "a tree that isn't committed" "there are changes that aren't committed"
stand_in "$scratch/one" 99
install -m 644 "$scratch/one/out/liblrc_c.a" "$scratch/one/crates/lrc_c/out/x86-64-v3/liblrc_c.a"
commit "$scratch/one" changed
refuses 'a source that was not proved' 'no record of a proof from these sources: .*lrc_field'
rm -rf "$scratch/one/.git"
refuses 'a tree without a commit' 'no commit can be named'
git -C "$scratch" init -q
refuses 'a tree in another checkout' 'no commit can be named'
echo 'packages: from two places come the same packages, of what was proved; the programs in them run'
