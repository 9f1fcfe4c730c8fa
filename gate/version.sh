#!/usr/bin/env bash
# Compares the versions that are said. What the built programs say is the version of their sources, of the manual pages and of the newest
# heading of the changelog; that of the C library's header, which has a number of its own, is what lrc_version answers and
# what the changelog and the wrapper in Rust say. They are changed in crates/command_line/src/definition.rt and, for rebuild-store, in
# crates/store_arguments/src/commands.rt, and in library/lrc.h. The version of glibc that README says is what the built programs need.
set -euo pipefail
cd "$(dirname "$0")/.."
scratch=$(mktemp -d)
trap 'rm -rf "$scratch"' EXIT

version=$(sed -n 's/^const VERSION: &str = "\(.*\)";$/\1/p' crates/command_line/src/definition.rt)
if ! [[ $version =~ ^[0-9]+\.[0-9]+\.[0-9]+$ ]]; then
  echo "version: the source has \"$version\", which is no version"
  exit 1
fi

# compare PLACE SAID: whether this place says the version of the source.
compare() {
  if [ "$2" != "$version" ]; then
    echo "version: $1 says \"$2\", and the source \"$version\""
    exit 1
  fi
}

for word in --version -V; do
  crates/rebuild/out/rebuild "$word" > "$scratch/said"
  compare "rebuild $word" "$(sed 's/^rebuild //' "$scratch/said")"
  crates/rebuild_store/out/rebuild_store "$word" > "$scratch/said"
  compare "rebuild-store $word" "$(sed 's/^rebuild-store //' "$scratch/said")"
done
compare 'rebuild-lists --version' "$(companion/rebuild-lists --version | sed 's/^rebuild-lists //')"
compare crates/store_arguments "$(sed -n 's/^const VERSION: &str = "\(.*\)";$/\1/p' crates/store_arguments/src/commands.rt)"
for page in man/*.[15]; do
  compare "$page" "$(sed -n 's/^\.Os rebuild //p' "$page")"
done
compare CHANGELOG.md "$(sed -n 's/^## //p' CHANGELOG.md | head -n 1)"
compare README.md "$(sed -n 's/.*bucketuntil_\([0-9.]*\)+git\*\.deb.*/\1/p' README.md)"
compare README.md "$(sed -n 's/.*rebuild-lists_\([0-9.]*\)+git\*\.deb.*/\1/p' README.md)"
compare README.md "$(sed -n 's/.*bucketuntil-\([0-9.]*\)+git\*-x86_64-linux\.tar\.gz.*/\1/p' README.md)"
echo "version: the programs, their manual pages and the changelog say $version"

if command -v objdump > "$scratch/said"; then
  glibc=$(objdump -T crates/rebuild/out/rebuild crates/rebuild_store/out/rebuild_store | grep -o 'GLIBC_[0-9.]*' | sort -uV | tail -n 1)
  said=$(sed -n 's/.*glibc \([0-9.]*\) or later.*/GLIBC_\1/p' README.md)
  if [ "$said" != "$glibc" ]; then
    echo "version: README.md says \"$said\", and the programs need $glibc"
    exit 1
  fi
  echo "version: the programs need $glibc, as README says"
fi

library=$(sed -n 's/^#define LRC_VERSION "\(.*\)"$/\1/p' library/lrc.h)
number=$(awk -F . '{ print 10000 * $1 + 100 * $2 + $3 }' <<< "$library")
# compare_library PLACE SAID WANTED: whether this place says what the header's version asks for.
compare_library() {
  if [ "$2" != "$3" ]; then
    echo "version: $1 says \"$2\", and not \"$3\", with library/lrc.h at \"$library\""
    exit 1
  fi
}
compare_library LRC_VERSION_NUMBER "$(sed -n 's/^#define LRC_VERSION_NUMBER //p' library/lrc.h)" "$number"
compare_library lrc_version "$(sed -n 's/^    \([0-9]*\)$/\1/p' crates/lrc_c/src/version.rt)" "$number"
for package in liblrc0 liblrc-dev; do
  compare_library "README.md of $package" "$(sed -n "s/.*${package}_\([0-9.]*\)+git\*\.deb.*/\1/p" README.md)" "$library"
done
compare_library library/examples/rust/Cargo.toml "$(sed -n 's/^version = "\(.*\)"$/\1/p' library/examples/rust/Cargo.toml)" "$library"
compare_library CHANGELOG.md "$(sed -n 's/.*`liblrc` \([0-9.]*[0-9]\).*/\1/p' CHANGELOG.md | head -n 1)" "$library"
echo "version: the C library, its wrapper in Rust and the changelog say $library"
