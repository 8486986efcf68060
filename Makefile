# make try         builds both programs without proof, within minutes, and prints where they are
# make run         runs `platform_check` on its sample input; with PROVED=yes, proves and builds it first
# make lint MANIFEST=PATH  reports what is wrong or odd about the target keys of a manifest
# make test        runs every test over builds without proof, within minutes
# make prove       proves every crate and its tests, and runs all tests over the proved builds
# make mutants     judges all mutants, or with ONLY=".." those of some crates, and writes the record
# make build       proves and builds both programs, and prints where they are
# make install PREFIX=..  proves and installs both programs, manifest_check also as cargo-manifest-check, with a man
#                  page and completions. If there is a C compiler, it does what `make install-c` does too. With
#                  UNPROVED=yes, it proves nothing, and installs only the programs, which are marked as unproved builds
# make c-library   proves and builds the library for C, and prints where it is
# make install-c PREFIX=..  proves, builds and installs the library for C, shared and static, its header, a file for
#                  pkg-config, and the Python package where PYTHON looks for packages
# make wheel       builds a wheel of the Python package, with the shared library in it, in out/wheel
# make dist        proves and builds one archive in out/dist: the programs, the library for C and the wheel
# make take INTO=FOLDER CRATES=".."  copies crates into another repository, with those on which they depend
# make measure     measures how long calls take, and prints the tables that `measure/tables` reads
# make targets     writes the table of crates/known_targets from what the rustc on the PATH prints
# make fmt         formats all files
#
# These are parts of `make test`. With PROVED=yes, those that run a program take the proved one.
# make fits        checks that each mutant can still be applied
# make refusals    makes each allocation fail in turn, in each test case and in both programs, and counts what is
#                  released
# make second-reader  compares the library with a reader in Python, on test cases and on 1.3 million questions
# make manifests   tests manifest_check with questions whose answers are known, and with hostile input
# make workspaces  tests it at the roots of workspaces, without naming a manifest
# make graphs      tests its command graph
# make relations   compares the answers of `manifest_check compare` with all sets of facts, and tries hard conditions
# make cargo-select  compares the answers of `manifest_check select` with Cargo; it needs cargo and rustc 1.95.0
# make try-c       tests the library for C, Python and Rust from each language; it needs a C compiler
# make pages       checks the pages; `.ci/promises --write` renews their lists
# make depths      tests the programs with the deepest conditions that their inputs may have
.PHONY: try lint run test prove mutants build install install-programs say-how-long c-library install-c \
	install-library wheel dist take measure targets fmt fits refusals second-reader manifests workspaces graphs \
	relations cargo-select try-c pages depths rt

# What a target needs is made in the order in which it is named, also with -j.
.NOTPARALLEL:

PROGRAM := crates/platform_check
CHECK := crates/manifest_check
UNPROVED_BUILDS := out/unproved/platform_check/platform_check out/unproved/manifest_check/manifest_check
PREFIX ?= /usr/local
# Not every shell replaces a tilde that is not the first character of a word.
override PREFIX := $(patsubst ~/%,$(HOME)/%,$(PREFIX))
MANIFEST ?= Cargo.toml

rt:
	@command -v rt >/dev/null || { echo "make: rt, Rattle's command, is not on the PATH" >&2; exit 1; }

try: rt
	@.ci/unproved platform_check+manifest_check
	@echo "these are unproved builds: \`make build\` proves both programs"

# The status is that of the program: 1 if there is an error or a warning.
lint: rt
	@.ci/start manifest_check lint $(MANIFEST)

# The status is that of the program: 0 if the condition matches.
run: rt
	@$(if $(PROVED),.ci/build &&) .ci/start platform_check < $(PROGRAM)/stdin

test: rt
	@.ci/test

prove: rt
	@.ci/prove

mutants: rt
	@.ci/mutants $(ONLY)

build: rt
	@.ci/build platform_check
	@.ci/build manifest_check
	@echo "the programs are $(PROGRAM)/out/platform_check and $(CHECK)/out/manifest_check"

install-programs:
	install -d "$(DESTDIR)$(PREFIX)/bin"
	install $(if $(UNPROVED),$(UNPROVED_BUILDS),$(PROGRAM)/out/platform_check $(CHECK)/out/manifest_check) \
		"$(DESTDIR)$(PREFIX)/bin"
	ln -sf manifest_check "$(DESTDIR)$(PREFIX)/bin/cargo-manifest-check"
	install -d "$(DESTDIR)$(PREFIX)/share"
	cp -R share/. "$(DESTDIR)$(PREFIX)/share"

say-how-long:
	@echo "proving both programs and every crate below them: the first time, this takes nearly as long as \`make prove\`,"
	@echo "whose minutes docs/GATE.md states"
	@echo "\`make install UNPROVED=yes\` takes minutes and proves nothing"

ifdef UNPROVED
install: try install-programs
	@echo "installed unproved builds: \`manifest_check --version\` says so"
else
install: say-how-long build install-programs
	@! command -v $(CC) > /dev/null || $(MAKE) --no-print-directory install-c
endif

C_LIBRARY ?= crates/nevgrasi_c/out
PYTHON ?= python3

c-library: rt
	@.ci/c-library --library $(C_LIBRARY)
	@echo "the libraries are $(C_LIBRARY)/libnevgrasi.so and $(C_LIBRARY)/libnevgrasi.a"

install-c: c-library install-library

# Installs the library that was built in the folder C_LIBRARY.
install-library: FOLDER = $(DESTDIR)$(PREFIX)
install-library: PYTHON_FOLDER ?= $(shell $(PYTHON) .ci/python_folder.py "$(PREFIX)")
install-library:
	install -d "$(FOLDER)/lib/pkgconfig" "$(FOLDER)/include" "$(DESTDIR)$(PYTHON_FOLDER)/nevgrasi"
	install -m 644 include/nevgrasi.h "$(FOLDER)/include"
	install -m 644 $(C_LIBRARY)/libnevgrasi.a "$(FOLDER)/lib"
	cp -P --remove-destination $(C_LIBRARY)/libnevgrasi.so* "$(FOLDER)/lib"
	sed "s|@PREFIX@|$(PREFIX)|" include/nevgrasi.pc > "$(FOLDER)/lib/pkgconfig/nevgrasi.pc"
	install -m 644 python/nevgrasi/*.py python/nevgrasi/py.typed $(C_LIBRARY)/libnevgrasi.so \
		"$(DESTDIR)$(PYTHON_FOLDER)/nevgrasi"
	@echo "the Python package is in $(PYTHON_FOLDER), where $(PYTHON) finds it"

wheel: rt
	@.ci/c-library --wheel out/wheel

dist: build
	@! command -v $(CC) > /dev/null || $(MAKE) --no-print-directory c-library
	@.ci/dist out/dist

try-c: rt
	.ci/c-library

# With CACHE=yes, the cache of proofs is copied too: 1.2 GB for the library, once it has been proved here.
take:
	@.ci/take $(if $(CACHE),--cache) $(INTO) $(CRATES)

fits:
	@.ci/fits

measure: build
	measure/calls
	@if command -v cargo > /dev/null; then measure/graphs; else echo "measure/graphs is skipped: there is no cargo"; fi

targets:
	.ci/known-targets --renew

fmt: rt
	for crate in crates/*/; do (cd $$crate && rt fmt) || exit 1; done

refusals second-reader manifests workspaces graphs relations cargo-select depths: rt
	.ci/$@

pages: rt
	.ci/promises
	.ci/pages
