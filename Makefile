# `make try` runs line mode unproved; `make demo` proves, builds and runs the program on the sample in demo/; `make test` is the gate,
# `make wrong-bodies` tries the wrong bodies that it leaves out, `make scale` runs what docs/SCALE.md shows of several jobs, and
# `make lifetime` draws its plot.

# The processor level that programs are built for: v3 has 32-byte vectors (AVX2), v2 those of 16 bytes.
CPU := $(shell grep -q avx2 /proc/cpuinfo && echo x86-64-v3 || echo x86-64-v2)

# The prover's allocator gives memory back a second after it is free, and has the system clear it anew when it is wanted: kept, a proof takes
# 4 % less of the processors (lrc_field).
export MIMALLOC_PURGE_DELAY := -1

# Where `make install` puts the program, its manual pages and its completions; DESTDIR comes before it, for those who pack them.
PREFIX := /usr/local
DESTDIR :=
PLACE = $(DESTDIR)$(PREFIX)
# Below its prefix: the modules of rebuild-lists, the notices, the completions of zsh (Debian's are in share/zsh/vendor-completions) and the
# libraries (on Debian lib/x86_64-linux-gnu).
MODULES := share/rebuild-lists/rebuild_lists
DOC := share/doc/bucketuntil
LIBRARY_DOC := share/doc/liblrc
ZSH := share/zsh/site-functions
LIBDIR := lib
# LEVEL=x86-64-v2 has what was built for that level installed or linked, in place of what was built last.
LEVEL :=
BUILT = out$(if $(LEVEL),/$(LEVEL))
# What has to go with a program or library, since parts of other works are in it.
NOTICES := out/NOTICES

# The C library's version, which its header says; the first number of the shared object's name changes with its calls.
LIBRARY_VERSION := $(shell sed -n 's/^.define LRC_VERSION "\(.*\)"$$/\1/p' library/lrc.h)
SONAME := liblrc.so.0
# TARGET=aarch64-unknown-linux-gnu has the library built, and installed, for another kind of processor. The shared object is linked by
# the compiler for it, which Debian's package gcc-aarch64-linux-gnu has.
TARGET :=
LIBRARY := crates/lrc_c/$(if $(TARGET),out/$(TARGET),$(BUILT))
LIBRARY_CC := $(if $(TARGET),$(subst -unknown,,$(TARGET))-gcc,$(CC))

.PHONY: build notices store demo try install uninstall library link-library install-library uninstall-library ceph install-ceph \
  uninstall-ceph try-ceph try-ceph-releases ceph-needs test levels wrong-bodies more-seeds scale lifetime bench listing packages \
  try-packages

# The programs, each with its crate, in whose out/ it is built; and what is installed: each has a manual page and completions.
PROGRAMS := rebuild rebuild-store
COMMANDS := $(PROGRAMS) rebuild-lists
# The manual pages of what the programs read and write.
FORM_PAGES := man/rebuild.5 man/rebuild-store.5

# Proves the programs and the crates that they use, and builds crates/rebuild/out/rebuild and crates/rebuild_store/out/rebuild_store.
# JOBS=N has it use N processors. BY=by-lib takes longer, and keeps what `rt check` goes on from.
build:
	@tools/build.py $(subst -,_,$(PROGRAMS)) $(CPU) $(JOBS) $(BY)
	@$(MAKE) --no-print-directory notices

# The notices of the crates of the toolchain that the programs and the library use.
notices:
	@mkdir -p $(dir $(NOTICES))
	@packaging/notices.py $(subst -,_,$(PROGRAMS)) lrc_c > $(NOTICES).new
	@mv $(NOTICES).new $(NOTICES)

# The program that repairs stores alone.
store:
	@tools/build.py rebuild_store $(CPU) $(JOBS) $(BY)

# Builds the program of the sample alone.
demo:
	@tools/build.py rebuild $(CPU) $(JOBS) $(BY)
	@tools/demo.sh

# Runs line mode on a few requests by the toolchain's interpreter, which takes one to two minutes and proves nothing.
try:
	@tools/try.sh

# Builds nothing, so that it can be run by an administrator who has no toolchain.
install:
	@for file in crates/rebuild/$(BUILT)/rebuild crates/rebuild_store/$(BUILT)/rebuild_store "$(NOTICES)"; do \
	  test -f "$$file" || { echo "The programs aren't built: run 'make build' first." >&2; exit 1; }; \
	done
	install -D -m 755 crates/rebuild/$(BUILT)/rebuild "$(PLACE)/bin/rebuild"
	install -D -m 755 crates/rebuild_store/$(BUILT)/rebuild_store "$(PLACE)/bin/rebuild-store"
	install -D -m 755 companion/rebuild-lists "$(PLACE)/bin/rebuild-lists"
	install -D -m 644 -t "$(PLACE)/$(MODULES)" companion/rebuild_lists/*.py
	install -D -m 644 "$(NOTICES)" "$(PLACE)/$(DOC)/NOTICES"
	install -D -m 644 -t "$(PLACE)/share/man/man5" $(FORM_PAGES)
	for name in $(COMMANDS); do \
	  install -D -m 644 man/$$name.1 "$(PLACE)/share/man/man1/$$name.1" && \
	  install -D -m 644 completions/$$name.bash "$(PLACE)/share/bash-completion/completions/$$name" && \
	  install -D -m 644 completions/_$$name "$(PLACE)/$(ZSH)/_$$name" && \
	  install -D -m 644 completions/$$name.fish "$(PLACE)/share/fish/vendor_completions.d/$$name.fish" || exit 1; \
	done

# Removes these files and nothing else: folders stay, but for those of the companion's modules and of the notices.
uninstall:
	rm -f $(patsubst %,"$(PLACE)/bin/%",$(COMMANDS))
	rm -f $(patsubst companion/rebuild_lists/%,"$(PLACE)/$(MODULES)/%",$(wildcard companion/rebuild_lists/*.py))
	rm -f $(patsubst man/%,"$(PLACE)/share/man/man5/%",$(FORM_PAGES)) "$(PLACE)/$(DOC)/NOTICES"
	-@for folder in "$(PLACE)/$(MODULES)" "$(PLACE)/$(dir $(MODULES))" "$(PLACE)/$(DOC)"; do \
	  test ! -d "$$folder" || rmdir --ignore-fail-on-non-empty "$$folder"; \
	done
	for name in $(COMMANDS); do \
	  rm -f "$(PLACE)/share/man/man1/$$name.1" "$(PLACE)/share/bash-completion/completions/$$name" "$(PLACE)/$(ZSH)/_$$name" \
	    "$(PLACE)/share/fish/vendor_completions.d/$$name.fish"; \
	done

# Proves the C library and the crates that it uses, and builds it: crates/lrc_c/out/liblrc_c.a and the shared object. JOBS=N as above.
# BELOW=by-ci takes the crates that it uses as `rt ci` proves them.
BELOW :=
library:
	@tools/build.py lrc_c $(or $(TARGET),$(CPU)) $(JOBS) $(BELOW)
	@$(MAKE) --no-print-directory link-library notices

# The shared object is linked each time, which takes no second, so that it never is of other flags or another archive.
link-library:
	@$(LIBRARY_CC) -shared -o $(LIBRARY)/$(SONAME) -Wl,--whole-archive $(LIBRARY)/liblrc_c.a -Wl,--no-whole-archive \
	  -Wl,-z,defs,-z,relro,-z,now -Wl,-soname,$(SONAME)

# Builds nothing, as `install`.
install-library:
	@for file in $(LIBRARY)/$(SONAME) "$(NOTICES)"; do \
	  test -f "$$file" || { echo "The library isn't built: run 'make library' first." >&2; exit 1; }; \
	done
	install -D -m 644 library/lrc.h "$(PLACE)/include/lrc.h"
	install -D -m 644 $(LIBRARY)/liblrc_c.a "$(PLACE)/$(LIBDIR)/liblrc.a"
	install -D -m 755 $(LIBRARY)/$(SONAME) "$(PLACE)/$(LIBDIR)/liblrc.so.$(LIBRARY_VERSION)"
	ln -sf liblrc.so.$(LIBRARY_VERSION) "$(PLACE)/$(LIBDIR)/$(SONAME)"
	ln -sf $(SONAME) "$(PLACE)/$(LIBDIR)/liblrc.so"
	install -d "$(PLACE)/$(LIBDIR)/pkgconfig"
	sed 's|@PREFIX@|$(PREFIX)|; s|@LIBDIR@|$(LIBDIR)|; s|@VERSION@|$(LIBRARY_VERSION)|' library/lrc.pc.in \
	  > "$(PLACE)/$(LIBDIR)/pkgconfig/lrc.pc"
	install -D -m 644 "$(NOTICES)" "$(PLACE)/$(LIBRARY_DOC)/NOTICES"

uninstall-library:
	rm -f "$(PLACE)/include/lrc.h" "$(PLACE)/$(LIBDIR)/liblrc.a" "$(PLACE)/$(LIBDIR)/pkgconfig/lrc.pc" "$(PLACE)/$(LIBRARY_DOC)/NOTICES"
	-@test ! -d "$(PLACE)/$(LIBRARY_DOC)" || rmdir --ignore-fail-on-non-empty "$(PLACE)/$(LIBRARY_DOC)"
	rm -f "$(PLACE)/$(LIBDIR)/liblrc.so" "$(PLACE)/$(LIBDIR)/$(SONAME)" "$(PLACE)/$(LIBDIR)/liblrc.so.$(LIBRARY_VERSION)"

# The erasure code plugin for Ceph over the C library: ceph/out/libec_azure_lrc.so. It needs Debian's libradospp-dev, librados-dev and g++,
# which is seen before anything is proved. CPU=x86-64-v2 has it run on processors without AVX2 too; each level's stays in ceph/out/LEVEL.
ceph: ceph-needs
	@$(MAKE) --no-print-directory library
	@$(MAKE) --no-print-directory -C ceph
	@$(MAKE) --no-print-directory -C ceph OUT=out/$(CPU) LIBRARY=../crates/lrc_c/out/$(CPU)/liblrc_c.a out/$(CPU)/libec_azure_lrc.so

ceph-needs:
	@$(MAKE) --no-print-directory -C ceph needs

# The folder in which Ceph's programs look for plugins.
CEPH_PLUGINS := /usr/lib/x86_64-linux-gnu/ceph/erasure-code

# Builds nothing, as `install`.
install-ceph:
	@test -f ceph/$(BUILT)/libec_azure_lrc.so || { echo "The plugin isn't built: run 'make ceph' first." >&2; exit 1; }
	install -D -m 644 ceph/$(BUILT)/libec_azure_lrc.so "$(DESTDIR)$(CEPH_PLUGINS)/libec_azure_lrc.so"
	install -D -m 755 ceph/rebuild-ceph "$(PLACE)/bin/rebuild-ceph"
	install -D -m 644 man/rebuild-ceph.1 "$(PLACE)/share/man/man1/rebuild-ceph.1"

uninstall-ceph:
	rm -f "$(DESTDIR)$(CEPH_PLUGINS)/libec_azure_lrc.so" "$(PLACE)/bin/rebuild-ceph" "$(PLACE)/share/man/man1/rebuild-ceph.1"

# Tries the plugin in Ceph itself, as far as that is installed, for both levels; half an hour to an hour. It is no part of the gate.
try-ceph:
	@$(MAKE) --no-print-directory ceph CPU=x86-64-v2
	@$(MAKE) --no-print-directory ceph
	ceph/try.sh

# The same in clean roots of Debian 12 and 13, with each release of Ceph that the plugin is for, and a cluster that goes from the one to the
# other; it needs root's rights, debootstrap and the network.
try-ceph-releases: store
	@$(MAKE) --no-print-directory library CPU=x86-64-v3
	@$(MAKE) --no-print-directory library CPU=x86-64-v2
	ceph/releases.sh

# What the gate runs over the programs and tests that the proofs leave in each crate's out/, as soon as these are there: FARM needs the
# program `rebuild` and tests; STORE needs both programs, and waits for all tests too, so that few proofs run beside what has time limits.
# No two of these share a file that one of them writes, so several run at once, first those that take long.
STORE := ceph/test.sh $(addprefix gate/,store-files.py store-strangers.py store-faults.py file-faults.py encode-store.py store-damage.py \
  repair-store.py store-watching.py store-sharing.py packages.sh store-life.py store-options.py store-arguments.py store-results.py \
  store-names.py store-records.py store-memory.py store-allocations.py store-file-allocations.py store-refusals.py store-disks.py \
  store-model.py store-file-model.py store-random-faults.py store-two-faults.py store-ends.py store-random-stops.py store-decisions.py \
  store-rare.py store-others.py store-failing.py store-gone.py store-choices.py store-file-choices.py store-links.py store-unread.py \
  store-writing.py store-several.py store-many.py no-compile.py examples.py manual.sh completions.sh install.sh version.sh)
FARM := $(addprefix gate/,refusals.py reference-lines.sh line-mode.py answers.py codes.py arguments.py lists.py farm-folders.py \
  farm-calls.py farm-batches.py farm-shelves.py ends.sh numbers.py tables.py growth.py memory.py) tools/demo.sh
FARM_NEEDS := rebuild,lrc_tests:tests,farm_lists_tests:tests,farm_tests:tests,store_tests:tests
STORE_NEEDS := $(FARM_NEEDS),rebuild_store
# Their files lie in memory if there is such a folder with room, whose programs may run, since programs wait for a disk at each sync, of which
# there are thousands.
IN_MEMORY := $(if $(TMPDIR),,$(shell test -w /dev/shm && ! grep -q ' /dev/shm [^ ]* [^ ]*noexec' /proc/mounts && \
  test $$(df --output=avail /dev/shm | tail -n 1) -gt 4000000 && echo TMPDIR=/dev/shm))

# What it runs before them, of sources and pages; none of these writes a file of the repository.
BEFORE := $(addprefix gate/,formatted.sh wrong-bodies.sh architecture.py sweep.py documented.py pages.py sentences.py messages.py \
  lifetime.py) \
  tools/format-page.py tools/speeds.py

# Last comes a table of the time that all of it took.
test:
	@tools/timed.py anew
	@$(MAKE) --no-print-directory --output-sync=target -j$(shell nproc) $(BEFORE)
	@$(MAKE) --no-print-directory proofs
	@tools/timed.py table

# A proof was seen to take 3 GB at most, less than rt allows for, so RT_JOBS has it run one on each processor, and two more, so that the
# longest chain of crates doesn't wait while tests are proved, which give way to it. ceph/tests/rebuild-ceph.py and tools/try.sh need nothing
# that is proved, so they take what the first proofs leave of the processors, of which few can begin; list_members is proved in half a
# minute. gate/library.sh builds in a copy of its own, over crates of which lrc_plan is proved last, gate/refused.py tries edits over those
# below farm_files and some of them, and gate/companion.py needs the program `rebuild` alone, so these run beside the proofs from then on,
# as the scripts above do, which run where few proofs are left.
SCRIPTS := make --no-print-directory --output-sync=target -j$(shell nproc)
proofs:
	tools/build.py settle
	RT_JOBS=$(shell expr $$(nproc) + 2) tools/timed.py proofs --beside list_members ceph/tests/rebuild-ceph.py \
	  --beside list_members tools/try.sh --beside lrc_plan gate/library.sh --beside farm_files gate/refused.py \
	  --beside rebuild gate/companion.py --beside $(FARM_NEEDS) '$(SCRIPTS) farm' --beside $(STORE_NEEDS) '$(SCRIPTS) store-scripts' rt ci

farm: $(FARM)
store-scripts: $(STORE)

.PHONY: proofs farm store-scripts $(BEFORE) $(FARM) $(STORE)
$(BEFORE):
	tools/timed.py script $@
$(FARM) $(STORE):
	$(IN_MEMORY) tools/timed.py script $@

# CRATES='NAME ..' tries those of these crates alone. What was refused and hasn't changed isn't tried again.
CRATES :=
wrong-bodies:
	tools/try-wrong-bodies.py $(CPU) $(CRATES)
	$(if $(CRATES),,tools/tested-wrong-bodies.py)

# The random tests of rebuild-store over SEEDS further stores each. It is no part of the gate.
SEEDS := 400
more-seeds: store
	tools/more-seeds.py crates/rebuild_store/out/rebuild_store $(SEEDS)

# Builds the program for each level that the processor has, and runs the gate's scripts over each. It is no part of the gate.
levels:
	tools/levels.sh $(JOBS)

# GNU parallel, sixty hosts of namespaces and Slurm over the built program, where they are installed. It is no part of the gate.
scale: build
	tools/scale.sh

# The plot of docs/SCALE.md, which gate/lifetime.py compares with what this draws.
lifetime:
	tools/lifetime.py --svg docs/lifetime.svg

# What users install who have no toolchain: out/packages gets a tarball, Debian packages, what they are made of, what was proved, and sums.
packages:
	@tools/packages.sh $(JOBS)

# Installs the packages in clean roots of Debian that debootstrap makes. It is no part of the gate.
try-packages: packages
	tools/try-packages.sh

bench: build library
	bench/kernels.sh $(CPU)
	bench/lines.sh $(CPU)
	bench/farm.py $(CPU)
	bench/library.sh $(CPU)
	bench/store.py $(CPU)
	bench/listing.py

# The table of docs/SCALE.md of what it takes to list a store, by the number of its files.
listing: store
	bench/listing.py
