#!/usr/bin/env bash
# Tests `make install` and `make uninstall` in a scratch folder: which files come, with which content and rights, that the
# installed program runs, that just these files go, and what is said where the program isn't built.
set -euo pipefail
cd "$(dirname "$0")/.."
scratch=$(mktemp -d)
trap 'rm -rf "$scratch"' EXIT
# The arguments of a make that runs this script are not for the runs below.
unset MAKEFLAGS MFLAGS MAKELEVEL MAKEOVERRIDES PREFIX DESTDIR

fail() {
  echo "install: $1"
  exit 1
}

# The files below a prefix, with their rights and what each is a copy of.
wanted() {
  cat << END
755 $1/bin/rebuild crates/rebuild/out/rebuild
755 $1/bin/rebuild-lists companion/rebuild-lists
755 $1/bin/rebuild-store crates/rebuild_store/out/rebuild_store
644 $1/share/bash-completion/completions/rebuild completions/rebuild.bash
644 $1/share/bash-completion/completions/rebuild-lists completions/rebuild-lists.bash
644 $1/share/bash-completion/completions/rebuild-store completions/rebuild-store.bash
644 $1/share/doc/bucketuntil/NOTICES $scratch/NOTICES
644 $1/share/fish/vendor_completions.d/rebuild-lists.fish completions/rebuild-lists.fish
644 $1/share/fish/vendor_completions.d/rebuild-store.fish completions/rebuild-store.fish
644 $1/share/fish/vendor_completions.d/rebuild.fish completions/rebuild.fish
644 $1/share/man/man1/rebuild-lists.1 man/rebuild-lists.1
644 $1/share/man/man1/rebuild-store.1 man/rebuild-store.1
644 $1/share/man/man1/rebuild.1 man/rebuild.1
644 $1/share/man/man5/rebuild-store.5 man/rebuild-store.5
644 $1/share/man/man5/rebuild.5 man/rebuild.5
END
  for module in companion/rebuild_lists/*.py; do
    echo "644 $1/share/rebuild-lists/rebuild_lists/${module##*/} $module"
  done
  cat << END
644 $1/share/zsh/site-functions/_rebuild completions/_rebuild
644 $1/share/zsh/site-functions/_rebuild-lists completions/_rebuild-lists
644 $1/share/zsh/site-functions/_rebuild-store completions/_rebuild-store
END
}

# try ROOT PREFIX ARGUMENTS..: installs with these arguments into the root, and then removes what came.
try() {
  local root=$1 prefix=$2 rights place source
  shift 2
  mkdir -p "$root$prefix/bin"
  echo theirs > "$root$prefix/bin/other"
  make -s install "NOTICES=$scratch/NOTICES" "$@" > "$scratch/said" 2>&1 || fail "$(cat "$scratch/said")"
  rm "$root$prefix/bin/other"
  (cd "$root" && find . -type f -printf '%m /%P\n') | LC_ALL=C sort -k 2 > "$scratch/came"
  diff <(wanted "$prefix" | cut -d ' ' -f 1,2) "$scratch/came" || fail 'other files came (< must come, > came)'
  while read -r rights place source; do
    cmp "$source" "$root$place"
  done < <(wanted "$prefix")
  [ "$("$root$prefix/bin/rebuild" <<< 'a x0 1 x1=02 x2=03 px=00')" = 'rebuilt 01' ] || fail "the installed program doesn't run"
  [ "$("$root$prefix/bin/rebuild-store" --version | cut -d ' ' -f 1)" = rebuild-store ] || fail "the installed rebuild-store doesn't run"
  # The companion finds its modules, also by a link to it, and writes nothing beside them.
  ln -s "$root$prefix/bin/rebuild-lists" "$scratch/linked"
  "$scratch/linked" --version > "$scratch/said" || fail "the installed companion doesn't run"
  rm "$scratch/linked"
  (cd "$root" && find . -type f -printf '%m /%P\n') | LC_ALL=C sort -k 2 | diff "$scratch/came" - || fail 'a run leaves files'
  make -s install "NOTICES=$scratch/NOTICES" "$@" > "$scratch/said" 2>&1 || fail 'a second time is refused'
  echo theirs > "$root$prefix/bin/other"
  make -s uninstall "$@"
  [ "$(find "$root" -type f)" = "$root$prefix/bin/other" ] || fail "what stays is $(find "$root" -type f)"
  make -s uninstall "$@"
  [ ! -e "$root$prefix/share/rebuild-lists" ] || fail 'the folder of the modules stays'
  [ ! -e "$root$prefix/share/doc/bucketuntil" ] || fail 'the folder of the notices stays'
}

# `make build` makes the notices in out/; the proofs leave none.
make -s notices "NOTICES=$scratch/NOTICES"
for text in 'after the Rust crate csv' 'after the Rust crate thiserror' '^clap' 'Permission is hereby granted'; do
  grep -q "$text" "$scratch/NOTICES" || fail "the notices don't have: $text"
done
try "$scratch/usual" /usr/local "DESTDIR=$scratch/usual"
try "$scratch/packed root" /usr "DESTDIR=$scratch/packed root" PREFIX=/usr
try "$scratch/own" '' "PREFIX=$scratch/own"

mkdir "$scratch/unbuilt"
cp -r Makefile companion man completions "$scratch/unbuilt"
ended=0
make -s -C "$scratch/unbuilt" install "DESTDIR=$scratch/none" > "$scratch/said" 2>&1 || ended=$?
[ "$ended" = 2 ] || fail "without the program it ends with status $ended"
grep -qx "The programs aren't built: run 'make build' first." "$scratch/said" || fail "without the program it says $(cat "$scratch/said")"
[ ! -e "$scratch/none" ] || fail 'without the program it installs something'
echo "install: the $(wanted / | wc -l) files come and go with each of 3 folders to install in"
