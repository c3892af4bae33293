# To begin:
#
#   make try            builds the programs l4 and l4_steps without proofs, in out/unproved, and runs a script (SCRIPT=FILE)
#   make check          runs the tests on what has been built, and proves nothing; TEST=NAME runs one group or folder of tests
#   make help           prints this list
#
# Without proofs, in minutes. What these targets build is in out/unproved, and nothing in it is proved:
#
#   make try-library    the C library, installed in out/unproved/usr for C, Rust and Python
#   make try-bed        the bed for L4 programs: out/unproved/bed/l4_bed
#   make try-web        the page that runs scripts in a browser: out/unproved/l4.html
#
# With proofs:
#
#   make                proves the crates, and builds the programs l4 and l4_steps, and the C library
#   make bed            builds the bed for L4 programs in bed/out, over the C library; make check-bed runs its checks
#   make web            builds web/l4.html, a page with the proved program that is opened as a file
#   make install        installs the programs, the C library with its header and packages, the bed and the manual pages under PREFIX (/usr/local);
#                       make install-library installs the C library alone (LIBDIR=FOLDER: in another folder than PREFIX/lib), and
#                       make install-bed the bed alone
#   make uninstall      removes what make install has installed under PREFIX
#   make test-programs  proves and builds what only tests run: l4_checker, l4_resumed, l4_growths, and l4 and l4_steps as Rattle's own compiler
#                       builds them
#   make test           the merge gate: everything from nothing, and then all tests on the programs that this leaves
#   make tidy           removes what the proofs left and keeps what is built; the next change is then proved from nothing
#
# For other kernels:
#
#   make suite          writes the suite that judges other kernels to out/suite: step lists with answers, in a folder for each rule

PREFIX ?= /usr/local
VERSION = 0.1.0

# The archive calls three of the toolchain's functions for memory, which are in this archive.
HEAP = $(shell tests/proofs/toolchain)/c/liblibc_c.a
PART = $(patsubst lib%.a,%,$(@F))
# Versions fit together if their first numbers are equal and, where these are 0, their second numbers are equal too. So these numbers are in
# the soname, and in the version of each name that the shared library exports.
ABI = $(if $(filter 0.%,$(VERSION)),$(basename $(VERSION)),$(basename $(basename $(VERSION))))
SONAME = libl4.so.$(ABI)
TRY = out/unproved
UNPROVED_BY = tests/proofs/build-unproved tests/proofs/compile-module

# UNPROVED=yes builds the library, the bed and the page without proofs. The targets `try-library`, `try-bed` and `try-web` set it.
WITHOUT = $(filter yes,$(UNPROVED))

ifeq ($(WITHOUT),yes)
OUT = $(TRY)/lib
PARTS = $(OUT)/libl4_c.a
MODULE = $(TRY)/l4_page.wasm
PAGE = $(TRY)/l4.html
BED = $(TRY)/bed
else
OUT = crates/l4_c/out
PARTS = $(OUT)/libl4_c.a $(foreach part,l4_c_locks l4_c_orders l4_c_checkpoints,crates/$(part)/out/lib$(part).a)
MODULE = crates/l4_page/out/l4_page.wasm
PAGE = web/l4.html
BED = bed/out
endif
SOURCES = crates.txt $(shell find crates -path '*/out' -prune -o \( -name '*.rt' -o -name '*.antt' \) -print)

all: programs library

# A program without proofs is built again when a source has changed.
SCRIPT ?= examples/first.script

try: toolchain
	@$(MAKE) -s -j 2 $(TRY)/l4 $(TRY)/l4_steps
	$(TRY)/l4 run $(SCRIPT)
	@echo 'Nothing has been proved yet: these programs are in $(TRY). `make check` tests them. `make` proves the crates and builds the proved programs.'

$(TRY)/l4 $(TRY)/l4_steps: $(SOURCES) $(UNPROVED_BY) | toolchain
	@tests/proofs/build-unproved $(@F) $@

# Ends a target that needs the Rattle toolchain, with one line, if it is missing.
toolchain:
	@tests/proofs/toolchain > /dev/null

# Installs the library without proofs, for the examples in C, Rust and Python.
try-library: toolchain
	@$(MAKE) -s UNPROVED=yes PREFIX='$(CURDIR)/$(TRY)/usr' DESTDIR= LIBDIR= install-library
	@echo
	@echo 'C:      cc examples/first.c $$(PKG_CONFIG_PATH=$(TRY)/usr/lib/pkgconfig pkg-config --cflags --libs l4) -o out/first && out/first'
	@echo 'Rust:   L4_LIB_DIR=$$PWD/$(TRY)/usr/lib cargo run --manifest-path bindings/rust/Cargo.toml --example exchange'
	@echo 'Python: L4_LIBRARY=$$PWD/$(TRY)/usr/lib/libl4.so PYTHONPATH=bindings/python python3 bindings/python/examples/walk.py'
	@echo 'Nothing has been proved yet. `make` proves the crates and builds the proved library.'

try-bed: toolchain bed-tools
	@$(MAKE) -s UNPROVED=yes bed
	$(TRY)/bed/l4_bed $(TRY)/bed/hello.elf
	@echo 'Nothing has been proved yet. `make bed` proves the library, and builds the bed in bed/out.'

try-web: toolchain
	@$(MAKE) -s UNPROVED=yes web
	@echo 'Open $(TRY)/l4.html in a browser.'
	@echo 'Nothing has been proved yet. `make web` proves the page'\''s program, and builds web/l4.html.'

programs: | toolchain
	@tests/proofs/prove l4 l4_steps

library: $(OUT)/libl4.a $(OUT)/$(SONAME)

# BUILT=yes takes the archives if they are there, and else builds them over the libraries that `rt ci` has just left. The library without
# proofs is one archive, which is built again when a source has changed.
ifeq ($(WITHOUT),yes)
$(PARTS): $(if $(BUILT),,$(SOURCES) $(UNPROVED_BY) | toolchain)
	@tests/proofs/build-unproved library $(@D)
else ifdef BUILT
$(PARTS):
	tests/proofs/static-library $(PART) || (cd crates/$(PART) && rt lib)
else
$(PARTS): $(SOURCES) | toolchain
	@tests/proofs/prove $(PART)
	@touch $@
endif

# The archive has an object for each part: a program that searches no orders links none of that part.
$(OUT)/libl4.a: $(PARTS)
	{ echo 'create $@'; for part in $^; do echo "addlib $$part"; done; echo save; echo end; } | ar -M
	cd $(OUT) && ar x $(HEAP) heap.pic.o && ar qs libl4.a heap.pic.o && rm heap.pic.o

# The shared library is all of the archive, and shows the names of the header alone.
$(OUT)/exports: include/l4.h Makefile
	mkdir -p $(@D)
	{ echo 'LIBL4_$(ABI) { global:'; sed -n 's/^[a-z0-9_]* \(l4_[a-z0-9_]*\)(.*/    \1;/p' $<; echo '    local: *; };'; } > $@

$(OUT)/$(SONAME): $(OUT)/libl4.a $(OUT)/exports
	$(CC) -shared -o $@ -Wl,-soname,$(SONAME) -Wl,--version-script=$(OUT)/exports -Wl,--whole-archive $< -Wl,--no-whole-archive

# The page has its module and its scripts in it, so that it can be opened as a file.
web: $(PAGE)

ifeq ($(WITHOUT),yes)
$(MODULE): $(SOURCES) web/heap.c $(UNPROVED_BY) | toolchain
	@tests/proofs/build-unproved page $@
else ifdef BUILT
$(MODULE):
	web/build-module
else
$(MODULE): $(SOURCES) web/build-module web/heap.c | toolchain
	@tests/proofs/prove l4_page
	web/build-module
endif

$(PAGE): $(MODULE) web/make-page $(wildcard web/*.mjs web/*.py web/*.litmus bindings/python/l4/views/* examples/*.script examples/*.litmus) \
    docs/user-guide.md docs/litmus.md docs/glossary.md
	web/make-page $(if $(WITHOUT),--unproved) $(MODULE) $@

suite:
	rm -rf out/suite
	suite/make out/suite

check:
	@tests/run $(TEST)

help:
	@sed -n '/^$$/q; s/^# \{0,1\}//p' Makefile

# `rt run --backend rattle` overwrites the build by LLVM, which is restored afterwards.
test-programs: programs
	cd crates/l4_checker && rt run < stdin
	cd crates/l4_resumed && rt run < stdin
	cd crates/l4_growths && rt run < /dev/null > /dev/null
	for name in l4 l4_steps; do \
	    cd crates/$$name/out && mkdir -p kept && cp -p $$name $$name.o $$name.stamp kept/ || exit; \
	    (cd .. && rt run --backend rattle -- --version); status=$$?; \
	    mv $$name $$name.by-rattle && mv kept/* . && rmdir kept && [ $$status = 0 ] && cd ../../.. || exit; \
	done

# The bed builds its own programs with a C compiler for 32-bit x86.
BED_FLAGS = $(if $(WITHOUT),OUT=../$(BED) L4_LIBS=../$(OUT)/libl4.a VERSION='$(VERSION) (the library was built without proofs)')
L4_FOLDER = $(if $(WITHOUT),$(TRY),crates/l4/out)
L4_STEPS_FOLDER = $(if $(WITHOUT),$(TRY),crates/l4_steps/out)

bed: bed-tools library
	$(MAKE) -C bed $(BED_FLAGS)

# Ends a target that builds the bed, with one line, if a tool is missing.
bed-tools:
	@missing=$$(bed/missing); [ -z "$$missing" ] || { echo "error: the bed cannot be built: $$missing" >&2; exit 1; }

check-bed: library
	L4='$(wildcard $(abspath $(L4_FOLDER)/l4))' L4_STEPS='$(wildcard $(abspath $(L4_STEPS_FOLDER)/l4_steps))' $(MAKE) -C bed check $(BED_FLAGS)

test:
	bash .ci/run

# What is built stays: the programs with their stamps, the C library and the page's module.
tidy:
	rm -rf crates/*/out/incremental crates/*/out/rlib

# PREFIX and DESTDIR may contain spaces, so recipes read them as the shell's variables.
export PREFIX DESTDIR VERSION UNPROVED LIBDIR

ifeq ($(WITHOUT),yes)
install:
	@echo '`make install` installs only what is proved. `make UNPROVED=yes install-library` installs the C library without proofs.' >&2; exit 1
else
install: programs install-library install-bed
	install -D -m 755 crates/l4/out/l4 "$$DESTDIR$$PREFIX/bin/l4"
	install -D -m 755 crates/l4_steps/out/l4_steps "$$DESTDIR$$PREFIX/bin/l4_steps"
	install -D -m 644 man/l4.1 "$$DESTDIR$$PREFIX/share/man/man1/l4.1"
	install -D -m 644 man/l4_steps.1 "$$DESTDIR$$PREFIX/share/man/man1/l4_steps.1"
	packages/completions "$$DESTDIR$$PREFIX" crates/l4/out/l4 crates/l4_steps/out/l4_steps
endif

uninstall:
	@packages/uninstall

install-library: library
	@packages/install $(OUT)/libl4.a $(OUT)/$(SONAME)

# The bed is left out where it cannot be built: bed/missing prints what is missing.
install-bed: library
	@missing=$$(bed/missing); if [ -n "$$missing" ]; then echo "l4_bed is not installed: $$missing"; \
	else $(MAKE) -s -C bed $(BED_FLAGS) install; fi

.PHONY: all help try try-library try-bed try-web toolchain programs library web bed bed-tools suite check check-bed test-programs test tidy install uninstall install-library install-bed
