#!/usr/bin/env bash
# Builds the C library, which the gate proves and doesn't build, and tries it: what the archive asks of a linker, the header by several
# compilers and standards, its inline calls, the tests in C, `make install-library`, the shared object, the commands of docs/LIBRARY.md as
# a user runs them, the examples in C, Python, Go and Rust, and the library for ARM under qemu. All this is done with the build for
# x86-64-v2, and the tests again with that for x86-64-v3 where the processor has AVX2. What isn't installed is named and left out. All
# this is done in a copy of the repository, since the gate runs it beside `rt ci`, which holds the crates. Those below the library are
# taken from that run, which has proved them by then; where there is none, `rt ci` proves them here. The library is proved here once, since
# `rt ci` proves it and builds none, and for the other processors over what that kept.
set -euo pipefail
cd "$(dirname "$0")/.."
scratch=$(mktemp -d)
trap 'rm -rf "$scratch"' EXIT
tools/copy-tree.sh "$scratch/copy"
cd "$scratch/copy"
# The arguments of a make that runs this script are not for the runs below.
unset MAKEFLAGS MFLAGS MAKELEVEL MAKEOVERRIDES PREFIX DESTDIR LD_LIBRARY_PATH

compiler=${CC:-gcc}
archive=crates/lrc_c/out/liblrc_c.a
warnings=(-Wall -Wextra -Wpedantic -Wconversion -Werror)
left_out=()

fail() {
  echo "library: $1"
  exit 1
}

# has COMMAND WHAT: whether the command is there; else what is left out without it.
has() {
  if command -v "$1" > "$scratch/log"; then
    return 0
  fi
  left_out+=("$2 ($1 isn't installed)")
  return 1
}

# quietly WHAT COMMAND..: runs the command, and shows what it wrote only where it fails.
quietly() {
  local what=$1
  shift
  "$@" > "$scratch/said" 2>&1 || { cat "$scratch/said"; fail "$what"; }
}

quietly 'make library' make -s library CPU=x86-64-v2 JOBS=1 BELOW=by-ci
asked=$(nm -u "$archive" | awk 'NF == 2 && $2 != "memcpy" && $2 != "memset" { print $2 }')
[ -z "$asked" ] || fail "the archive asks for $asked"
exports='lrc_add lrc_apply lrc_cheapest_reads_into lrc_combine lrc_encode_into lrc_plan_into lrc_reads_into lrc_rebuild_into '
exports+='lrc_rebuild_many_into lrc_scale_add lrc_update_into lrc_verify_at lrc_version '
[ "$(nm -g --defined-only "$archive" | awk 'NF == 3 { print $3 }' | LC_ALL=C sort | tr '\n' ' ')" = "$exports" ] ||
  fail "the archive has other names: $(nm -g --defined-only "$archive")"

# ---- the header
for standard in c99 c11; do
  for test in test test-stores test-sums; do
    quietly "the header by $standard" "$compiler" -std=$standard "${warnings[@]}" -Ilibrary -c -o "$scratch/test.o" library/$test.c
  done
done
printf '#include <lrc.h>\nint main() { return lrc_version() == LRC_VERSION_NUMBER ? 0 : 1; }\n' > "$scratch/header.cc"
for other in g++ clang++; do
  if has "$other" "the header in C++ by $other"; then
    quietly "the header by $other" "$other" -std=c++17 "${warnings[@]}" -Ilibrary -o "$scratch/header" "$scratch/header.cc" "$archive"
    quietly "the library from $other" "$scratch/header"
  fi
done
if has clang 'the header by clang'; then
  quietly 'the header by clang' clang -std=c11 "${warnings[@]}" -Ilibrary -c -o "$scratch/test.o" library/test.c
fi

quietly 'the inline calls' gate/inline-calls.py
echo "library: $(cat "$scratch/said")"

# ---- the tests
# tests LEVEL: the tests in C with the archive as it is built for a level of the processor.
tests() {
  local test
  for test in test-growth test-stores test-sums test; do
    quietly "the tests for $1" "$compiler" -std=c11 -O2 "${warnings[@]}" -Ilibrary -o "$scratch/$test" library/$test.c "$archive"
    "$scratch/$test" > "$scratch/counts" || fail "$1: $(tail -n 1 "$scratch/counts")"
    echo "library: $1: $(tail -n 1 "$scratch/counts")"
  done
}
tests x86-64-v2
# rebuilt CODE: how many sets of four lost fragments the tests counted, and how many of them are rebuilt. The page says the same.
rebuilt() {
  sed -n "s/^$1: of \([0-9]*\) sets of 4 lost fragments \([0-9]*\) are rebuilt$/\1 \2/p" "$scratch/counts"
}
read -r narrow narrow_rebuilt < <(rebuilt '(6,2,2)')
read -r wide wide_rebuilt < <(rebuilt '(12,2,2)')
counted="four lost ones $narrow_rebuilt of $narrow sets in the (6,2,2) code and $wide_rebuilt of $wide in the (12,2,2) code"
tr -d , < docs/LIBRARY.md | grep -qF "${counted//,/}" || fail "docs/LIBRARY.md doesn't say: of $counted"
for test in test test-stores test-sums; do
  quietly 'the sanitizers' "$compiler" -std=c11 -O1 -g -fsanitize=address,undefined -fno-sanitize-recover=all -Ilibrary -DSHORT \
    -o "$scratch/sanitized" library/$test.c "$archive"
  quietly 'the tests with sanitizers' "$scratch/sanitized"
done
if has valgrind 'the tests under valgrind'; then
  for test in test test-stores test-sums; do
    quietly 'the tests, built' "$compiler" -std=c11 -O1 -g -Ilibrary -DSHORT -o "$scratch/short" library/$test.c "$archive"
    quietly 'the tests under valgrind' valgrind -q --error-exitcode=9 "$scratch/short"
  done
fi
if printf '#include <isa-l.h>\n' | "$compiler" -E - > "$scratch/log" 2>&1; then
  quietly 'the tests beside ISA-L' "$compiler" -std=c11 -O2 -Ilibrary -o "$scratch/isal" library/test-isal.c "$archive" -lisal
  "$scratch/isal" > "$scratch/counts" || fail "$(tail -n 1 "$scratch/counts")"
  echo "library: $(tail -n 1 "$scratch/counts")"
else
  left_out+=("the tests beside ISA-L (Debian's libisal-dev isn't installed)")
fi

# ---- installing
root=$scratch/root
prefix=/usr/lrc
quietly 'make install-library' make -s install-library "DESTDIR=$root" PREFIX=$prefix
version=$(sed -n 's/^#define LRC_VERSION "\(.*\)"$/\1/p' library/lrc.h)
(cd "$root$prefix" && find . \( -type f -o -type l \) -printf '%P\n') | LC_ALL=C sort > "$scratch/came"
printf '%s\n' include/lrc.h lib/liblrc.a lib/liblrc.so lib/liblrc.so.0 "lib/liblrc.so.$version" lib/pkgconfig/lrc.pc \
  share/doc/liblrc/NOTICES > "$scratch/wanted"
diff "$scratch/wanted" "$scratch/came" || fail 'make install-library: other files came (< must come, > came)'
shared=$root$prefix/lib/liblrc.so.$version
[ "$(nm -D --defined-only "$shared" | awk '{ print $3 }' | LC_ALL=C sort | tr '\n' ' ')" = "$exports" ] ||
  fail "the shared object shows $(nm -D --defined-only "$shared")"
readelf -d "$shared" | grep -q 'soname: \[liblrc\.so\.0\]' || fail 'the shared object has no soname'
{ readelf -d "$shared" | grep -q 'BIND_NOW' && readelf -l "$shared" | grep -q GNU_RELRO; } ||
  fail 'what the loader fills in of the shared object can be written later'

here=$scratch/here
quietly 'make install-library' make -s install-library "PREFIX=$here"
if has pkg-config 'lrc.pc'; then
  export PKG_CONFIG_PATH=$here/lib/pkgconfig
  [ "$(pkg-config --modversion lrc)" = "$version" ] || fail "lrc.pc says $(pkg-config --modversion lrc)"
  quietly 'make install-library' make -s install-library "PREFIX=$scratch/other" LIBDIR=lib/here
  [ "$(PKG_CONFIG_PATH=$scratch/other/lib/here/pkgconfig pkg-config --variable=libdir lrc)" = "$scratch/other/lib/here" ] ||
    fail 'lrc.pc names another folder than LIBDIR'
  flags="$(pkg-config --cflags --libs lrc) -Wl,-rpath,$(pkg-config --variable=libdir lrc)"
else
  flags="-I$here/include -L$here/lib -llrc -Wl,-rpath,$here/lib"
fi

# ---- the examples
head -c 1000003 /dev/urandom > "$scratch/file"
# shellcheck disable=SC2086
quietly 'the example in C' "$compiler" -std=c11 -O2 "${warnings[@]}" -o "$scratch/fragments" library/examples/fragments.c $flags
mkdir "$scratch/store"
quietly 'the example in C' "$scratch/fragments" encode "$scratch/file" "$scratch/store"
[ "$(find "$scratch/store" -type f | wc -l)" = 11 ] || fail "the example in C makes $(ls "$scratch/store")"
for lost in x0 y2 p1; do
  cp "$scratch/store/$lost" "$scratch/kept.$lost"
  rm "$scratch/store/$lost"
done
quietly 'the example in C' "$scratch/fragments" rebuild "$scratch/store"
for lost in x0 y2 p1; do
  cmp "$scratch/kept.$lost" "$scratch/store/$lost" || fail "the example in C rebuilds another $lost"
done
quietly 'the example in C' "$scratch/fragments" decode "$scratch/store" "$scratch/decoded"
cmp "$scratch/file" "$scratch/decoded" || fail 'the example in C gives another file'
if has pkg-config 'the commands that docs/LIBRARY.md shows' && has python3 "the commands of docs/LIBRARY.md"; then
  mkdir "$scratch/shown"
  cp library/examples/*.c "$scratch/shown"
  for section in 'A file in ten fragments' 'What a loss costs'; do
    quietly 'docs/LIBRARY.md' env -i "PATH=$PATH" "PKG_CONFIG_PATH=$here/lib/pkgconfig" gate/examples.py section docs/LIBRARY.md \
      "$section" "$scratch/shown"
  done
fi
if has python3 'the example in Python'; then
  quietly 'the example in Python' python3 library/examples/lrc.py "$here/lib/liblrc.so.0"
  # Imported it runs nothing, and a number that ctypes would cut to one of a code is refused.
  quietly 'the example in Python, imported' env PYTHONPATH=library/examples PYTHONDONTWRITEBYTECODE=1 \
    python3 - "$here/lib/liblrc.so.0" << 'END'
import sys
import lrc
try:
    lrc.Library(sys.argv[1]).plan(256, ["x1", "x2", "px"], "x0")
except ValueError:
    sys.exit(0)
sys.exit("it takes 256 for a code")
END
  [ ! -s "$scratch/said" ] || fail "the example in Python writes when it is imported: $(cat "$scratch/said")"
fi
if has go 'the example in Go'; then
  cp -r library/examples/go "$scratch/go"
  quietly 'the example in Go' env -C "$scratch/go" "GOCACHE=$scratch/cache" GOFLAGS=-mod=mod CGO_ENABLED=1 "CGO_CFLAGS=-I$here/include" \
    "CGO_LDFLAGS=-L$here/lib -llrc -Wl,-rpath,$here/lib" go run .
fi
if has rustc 'the example in Rust'; then
  quietly 'the example in Rust' rustc --edition 2021 --crate-type rlib --crate-name lrc -o "$scratch/liblrc_rust.rlib" \
    library/examples/rust/src/lib.rs
  quietly 'the example in Rust' rustc --edition 2021 --extern "lrc=$scratch/liblrc_rust.rlib" -L "native=$here/lib" \
    -C "link-arg=-Wl,-rpath,$here/lib" -o "$scratch/rust" \
    library/examples/rust/examples/stripe.rs
  quietly 'the example in Rust' "$scratch/rust"
fi

# ---- ARM
target=aarch64-unknown-linux-gnu
if has aarch64-linux-gnu-gcc 'the library for ARM' && has qemu-aarch64 'the library for ARM'; then
  quietly 'make library for ARM' make -s library TARGET=$target JOBS=1 BELOW=by-ci
  for test in test-stores test-sums test; do
    # The questions what to read take minutes under qemu.
    short=()
    [ $test = test ] || short=(-DSHORT)
    quietly 'the tests for ARM' aarch64-linux-gnu-gcc -std=c11 -O2 "${warnings[@]}" -Ilibrary ${short[@]+"${short[@]}"} \
      -static -o "$scratch/arm" \
      library/$test.c crates/lrc_c/out/$target/liblrc_c.a
    qemu-aarch64 "$scratch/arm" > "$scratch/counts" || fail "on ARM: $(tail -n 1 "$scratch/counts")"
    echo "library: on ARM: $(tail -n 1 "$scratch/counts")"
  done
  quietly 'make install-library for ARM' make -s install-library TARGET=$target "DESTDIR=$scratch/arm-root" PREFIX=$prefix
  (cd "$scratch/arm-root$prefix" && find . \( -type f -o -type l \) -printf '%P\n') | LC_ALL=C sort | diff "$scratch/wanted" - ||
    fail 'make install-library for ARM: other files came (< must come, > came)'
  readelf -h "$scratch/arm-root$prefix/lib/liblrc.so.$version" | grep -q 'Machine: *AArch64' ||
    fail 'the shared object for ARM is of another machine'
fi
cmp "$shared" crates/lrc_c/out/liblrc.so.0 || fail 'the library for ARM came over that for this machine'

quietly 'make uninstall-library' make -s uninstall-library "PREFIX=$here"
[ -z "$(find "$here" -type f -o -type l)" ] || fail "make uninstall-library leaves $(find "$here" -type f -o -type l)"

# ---- the level that `make library` takes by itself where the processor has AVX2
if grep -q avx2 /proc/cpuinfo; then
  quietly 'make library for x86-64-v3' make -s library CPU=x86-64-v3 JOBS=1 BELOW=by-ci
  tests x86-64-v3
else
  left_out+=('the tests for x86-64-v3 (the processor has no AVX2)')
fi
for word in ${left_out[@]+"${left_out[@]}"}; do
  echo "library: left out: $word"
done
echo 'library: the archive, the header, the shared object and the examples are as they have to be'
