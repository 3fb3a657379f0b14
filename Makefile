# The library for C programs and mmu-dump: archive, demo, tests, benchmark, installation. What is built from C lies in
# target/c.

RT ?= rt
PREFIX ?= /usr/local
LIBDIR ?= $(PREFIX)/lib
INCLUDEDIR ?= $(PREFIX)/include
BINDIR ?= $(PREFIX)/bin
MANDIR ?= $(PREFIX)/share/man
VERSION := 0.12.0
ARCHIVE ?= target/staticlib/libmmu.a
OUT := target/c
C_FLAGS := -std=c99 -Wall -Wextra -pedantic -O2 -Iinclude
SOURCES := $(shell find crates -path 'crates/*/out' -prune -o -type f -print 2>/dev/null) $(wildcard crates.txt)
# Before what runs rt or reads what it made: two makes, or a make and a gate, wait for each other.
LOCKED := tools/locked.sh
DUMP_SOURCES := $(wildcard dump/*.c)
PACKAGE := $(LIBDIR)/cmake/mmu
PACKAGE_FILES := mmu.pc mmuConfig.cmake mmuConfigVersion.cmake

.PHONY: all archive demo core cached tlb header check test test-c test-dump test-install documents bench install
.PHONY: package-files uninstall clean help
.PHONY: runner runner-demo runner-full test-runner
.DELETE_ON_ERROR:

all: archive $(OUT)/mmu-dump

archive: $(ARCHIVE)

target/staticlib/libmmu.a: $(SOURCES)
	@$(LOCKED) tools/archive.sh $(RT)

$(OUT)/%: examples/%.c include/mmu.h $(ARCHIVE)
	@mkdir -p $(OUT)
	@$(LOCKED) $(CC) $(C_FLAGS) $(CFLAGS) $< $(ARCHIVE) -o $@

$(OUT)/mmu-dump: $(DUMP_SOURCES) dump/dump.h $(OUT)/dump/page.h include/mmu.h $(ARCHIVE)
	@mkdir -p $(OUT)
	@$(LOCKED) $(CC) $(C_FLAGS) $(CFLAGS) -Idump -I$(OUT)/dump $(DUMP_SOURCES) $(ARCHIVE) -o $@

$(OUT)/dump/page.h: dump/page.html dump/page.sed
	@mkdir -p $(OUT)/dump
	@sed -f dump/page.sed dump/page.html > $@

demo: $(OUT)/frame_reuse
	@$(OUT)/frame_reuse

core: $(OUT)/core
	@$(OUT)/core

cached: $(OUT)/cached
	@$(OUT)/cached

tlb: $(OUT)/tlb
	@$(OUT)/tlb

header: $(ARCHIVE)
	python3 tools/check_header.py --self-test
	$(LOCKED) python3 tools/check_header.py $(ARCHIVE)

check:
	@tools/check.sh $(RT)

test:
	@.ci/run

test-c: $(ARCHIVE)
	$(LOCKED) tests/c/run.sh $(ARCHIVE)

test-dump: $(ARCHIVE)
	$(LOCKED) tests/dump/run.sh $(ARCHIVE)

test-qemu: $(ARCHIVE)
	$(LOCKED) tests/qemu/run.sh $(ARCHIVE)

test-install: $(ARCHIVE)
	$(LOCKED) tests/install/run.sh $(ARCHIVE)

documents: $(ARCHIVE)
	python3 tools/check_documents.py
	python3 tools/run_blocks.py --self-test
	$(LOCKED) python3 tools/run_blocks.py $(ARCHIVE)

$(OUT)/runner/runner: $(wildcard runner/*.c runner/*.h) runner/build.sh include/mmu.h $(ARCHIVE)
	@runner/install.sh libunicorn-dev
	@$(LOCKED) runner/build.sh $@ $(ARCHIVE)

runner: $(OUT)/runner/runner
	@echo 'built $<; without arguments it says how it is used'

runner-demo: $(ARCHIVE)
	@$(LOCKED) runner/demo/demo.sh $(ARCHIVE)

runner-full: $(ARCHIVE)
	@$(LOCKED) runner/demo/demo.sh --full $(ARCHIVE)

test-runner: $(ARCHIVE)
	$(LOCKED) tests/runner/run.sh $(ARCHIVE)

bench: $(ARCHIVE)
	$(LOCKED) bench/run.sh $(ARCHIVE)

.PHONY: test-qemu qemu qemu-linux qemu-marks qemu-lkdtm qemu-faults qemu-refusals
# The library inside QEMU, all under target/qemu; docs/QEMU.md. No lock: they take minutes and share nothing else.
qemu: $(ARCHIVE)
	@integrations/qemu/build.sh $(ARCHIVE)

qemu-marks: qemu
	@python3 integrations/qemu/run.py marks

qemu-linux qemu-lkdtm qemu-faults qemu-refusals: qemu
	@integrations/qemu/guests.sh $(@:qemu-%=%)
	@python3 integrations/qemu/run.py $(@:qemu-%=%)

# They name folders and version, so they are made anew at each installation; the package finds the header from its own
# folder, so that a tree installed under DESTDIR can be used where it stands.
package-files:
	@mkdir -p $(OUT)
	@for file in $(PACKAGE_FILES); do \
	    sed -e 's|@PREFIX@|$(PREFIX)|' -e 's|@LIBDIR@|$(LIBDIR)|' -e 's|@INCLUDEDIR@|$(INCLUDEDIR)|' \
	        -e 's|@VERSION@|$(VERSION)|' -e "s|@TO_INCLUDEDIR@|$$(realpath -m --relative-to=$(PACKAGE) $(INCLUDEDIR))|" \
	        tools/$$file.in > $(OUT)/$$file || exit 1; \
	done

install: $(ARCHIVE) $(OUT)/mmu-dump package-files
	install -d $(DESTDIR)$(LIBDIR)/pkgconfig $(DESTDIR)$(PACKAGE) $(DESTDIR)$(INCLUDEDIR) $(DESTDIR)$(BINDIR) \
	    $(DESTDIR)$(MANDIR)/man1
	install -m 644 $(ARCHIVE) $(DESTDIR)$(LIBDIR)/libmmu.a
	install -m 644 include/mmu.h $(DESTDIR)$(INCLUDEDIR)/mmu.h
	install -m 644 $(OUT)/mmu.pc $(DESTDIR)$(LIBDIR)/pkgconfig/mmu.pc
	install -m 644 $(OUT)/mmuConfig.cmake $(OUT)/mmuConfigVersion.cmake $(DESTDIR)$(PACKAGE)
	install -m 755 $(OUT)/mmu-dump $(DESTDIR)$(BINDIR)/mmu-dump
	install -m 644 dump/mmu-dump.1 $(DESTDIR)$(MANDIR)/man1/mmu-dump.1

# What install put there, and the one folder that is the library's own; give the same PREFIX, LIBDIR and DESTDIR.
uninstall:
	rm -f $(DESTDIR)$(LIBDIR)/libmmu.a $(DESTDIR)$(INCLUDEDIR)/mmu.h $(DESTDIR)$(LIBDIR)/pkgconfig/mmu.pc
	rm -f $(DESTDIR)$(BINDIR)/mmu-dump $(DESTDIR)$(MANDIR)/man1/mmu-dump.1
	rm -f $(DESTDIR)$(PACKAGE)/mmuConfig.cmake $(DESTDIR)$(PACKAGE)/mmuConfigVersion.cmake
	test ! -d $(DESTDIR)$(PACKAGE) || rmdir --ignore-fail-on-non-empty $(DESTDIR)$(PACKAGE)

clean:
	rm -rf $(OUT)

help:
	@echo 'make                    the archive, $(ARCHIVE), from the proved crates, and target/c/mmu-dump'
	@echo 'make archive            the archive alone'
	@echo 'make demo               builds and runs examples/frame_reuse.c: one frame lent anew to another address space'
	@echo 'make core               builds and runs examples/core.c: a small processor core'
	@echo 'make cached             builds and runs examples/cached.c: loads and stores with the translation cache'
	@echo 'make tlb                builds and runs examples/tlb.c: a software TLB that mmu_rights fills'
	@echo 'make check              for daily work: everything proved, all tests, without the must-fail edits'
	@echo 'make test               the whole gate, .ci/run: with the must-fail edits; what an earlier gate here has proved is kept'
	@echo 'make test-c             header and C tests under AddressSanitizer and valgrind'
	@echo 'make test-dump          mmu-dump beside the Rust model, its page in headless Chromium'
	@echo 'make test-qemu          the glue of integrations/qemu, without QEMU'
	@echo 'make test-install       installs into a temporary folder; pkg-config, CMake and uninstall'
	@echo 'make documents          lines and links of the documents; compiles and runs the C of README and C-GUIDE'
	@echo 'make runner             builds the runner: real PowerPC programs over the library; see docs/RUNNER.md'
	@echo 'make runner-demo        minigzip alone, twelve at once, and over an unmap that forgets the secondary group'
	@echo 'make runner-full        the same with bzip2 and Lua'
	@echo 'make test-runner        the tests of the runner'
	@echo 'make header             compares include/mmu.h with the archive, the Rattle source and VERSION'
	@echo 'make bench              the library beside plain C; bench/run.sh --write also writes docs/BENCHMARKS.md'
	@echo 'make qemu               fetches and builds QEMU with the library as its MMU, under target/qemu'
	@echo 'make qemu-linux         boots Linux on it: by its own code, by the library, by both compared'
	@echo 'make qemu-marks         loads and stores of 16,384 pages by the firmware, both compared'
	@echo 'make qemu-lkdtm         the execute and write tests of LKDTM, a test module of Linux, side by side'
	@echo 'make qemu-faults        the faults of QEMU, by a small program without an operating system'
	@echo 'make qemu-refusals      words that the library refuses, by another: its own code answers'
	@echo 'make install            archive, header, pkg-config and CMake files, mmu-dump and its manual page; PREFIX'
	@echo '                        (default /usr/local), LIBDIR, INCLUDEDIR, BINDIR, MANDIR and DESTDIR are honoured'
	@echo 'make uninstall          removes what install put there; give it the same folders'
	@echo 'make clean              removes target/c'
