# make            builds the library and the C programs from dist/, with a C compiler alone
# make run        a pump station on the store: power cuts at random, each opening checked; alarm panel and wear sheet at the end
# make quick      the edit loop: C programs from dist/ and quick tests, within two minutes and without the prover
# make test       runs every test and every proof; the prover's verdict is the last line; without the prover all that needs none
# make library    the proved archive for x86-64 Linux, target/staticlib/libkagutin.a; make LIB=that run and so on use it
# make dist       dist/kagutin.c again from the proved program; the gate fails where it differs
# make all-in-one dist/kagutin_all.c and .h, one file and one header to drop in; make sizes tells what they take on a Cortex-M4
# make validate   the files of dist/ shown equal to the proved program, for all inputs; make validate-check tests the validator, long
# make compare    a long comparison of the library, built in many ways, with the reference implementation, call by call
# make arm        the C file on an emulated Cortex-M board and other machines; port/packages.sh installs what it needs
# make rtos       the RTOS example, eight tasks on a store, on an emulated Cortex-M board
# make play       random histories on the reference implementation alone
# make bench      instructions and times of each call against the reference implementation; other stores, if installed
# make bench-worst the worst cases of every call, on the emulated boards too, and make bench-peers the other stores: parts of make bench that need no prover
# make bench-docs tables of docs/PERFORMANCE.md, docs/ring-cost.svg and the bounds of tests/worst from the last bench
# make install    program, manual pages, headers, libraries and pkg-config files, under DESTDIR and PREFIX; make uninstall takes them away; make arduino a library for it
# make debian-check the Debian packages built, judged by lintian and used; make chroot-check README's steps on a bare Debian 12 and 13, as root; both long
# make kagutin    the program, target/c/kagutin, and links to it by the names of the older programs: inspect, wear, bands, gauges, inflow, station
# make quickstart the example
# make c-check    tests of the C side alone; make c-kills KILLS=N kills a process at work N times
# make page       docs/page/index.html, a page that opens an image and lets anyone cut the power
# make evidence   after make test: the evidence of a safety assessment in target/evidence; make trace makes docs/TRACE.md
# make lint       layout and lint, as far as the tools are installed
# make fuzz       fuzzers of all readers, FUZZ_SECONDS each, where clang is installed; c-check has a short run of them
# make clean      removes all that was built and proved
# make help       this list

SHELL = /bin/bash
.SHELLFLAGS = -o pipefail -c

SEED ?= 1
# The cases of the definitions draw a new seed each run and print it; give it to repeat a run.
DEFINITIONS_SEED ?=
CUTS ?= 300
HISTORIES ?= 400

ARCHIVE = target/staticlib/libkagutin.a
GAUGES_ARCHIVE = target/staticlib/libgauges.a
INFLOW_ARCHIVE = target/staticlib/libinflow.a
ARCHIVES = $(ARCHIVE) $(GAUGES_ARCHIVE) $(INFLOW_ARCHIVE)
MACHINE_ARCHIVE = target/staticlib/libobject_machine.a

.PHONY: all help run quick test test-compared test-c compare play bench bench-peers bench-docs reference library clean

# The toolchain that this repository was checked with, as 'rt version' prints it.
RATTLE = rattle-kit-13f logic dac8208d650f15bf

all: kagutin station inspect quickstart gauges inflow bands wear

help:
	@sed -n '/^#/!q; s/^# //p' Makefile

include make/c.mk
include page/page.mk
include make/lint.mk
include make/validate.mk
include make/safety.mk

# Archives are made from proved crates only; rt proves what has changed, and a changed definition or proof counts as well.
library: $(ARCHIVE)

# Archive and the crate that it is of: the standalone ones have a prefix. The store's has the runner, too.
crate_of = $(if $(filter $(1),$(STANDALONE)),alone_)$(1)
more_of = $(if $(filter $(1),kagutin),$(filter-out kagutin,$(EXPORTS)))
define ARCHIVE_OF
target/staticlib/lib$(1).a: crates.txt $$(shell find crates.txt $(addprefix crates/,$(shell scripts/library.sh --crates $(call crate_of,$(1)) $(call more_of,$(1)))) -name out -prune -o -name '*.rt' -print -o -name '*.antt' -print)
	@scripts/library.sh $(call crate_of,$(1)) $(1) $(call more_of,$(1))
endef
$(foreach name,$(ARCHIVES:target/staticlib/lib%.a=%) object_machine,$(eval $(call ARCHIVE_OF,$(name))))

run: station
	$(C_OUT)/station --seed $(SEED) --cuts $(CUTS)

reference:
	cd rust && cargo build --release --offline --quiet

rust/target/release/compare: $(ARCHIVES) reference
	cd rust && cargo build --release --offline --quiet -p compare

compare: port-compare
	rust/target/release/compare --seed $(SEED) --calls 0 --damaged 0 --histories 0 --large-histories 20

play: reference
	rust/target/release/play --seed $(SEED) --histories $(HISTORIES)

rust/target/release/bench: $(ARCHIVES) reference
	cd rust && cargo build --release --offline --quiet -p bench

bench: rust/target/release/bench
	rust/target/release/bench --seed $(SEED)
	@$(MAKE) --no-print-directory bench-worst bench-peers

# Other stores, beside the C file, which needs no prover.
bench-peers: $(LIB)
	@if [ -x rust/bench/peers/run.sh ]; then LIB=$(LIB) rust/bench/peers/run.sh; fi

# What was measured goes into the documents; what was not stays.
bench-docs: bench-worst-docs
	@if [ -f target/bench/bench.tsv ]; then python3 rust/bench/plot.py target/bench/bench.tsv docs/ring-cost.svg; fi
	@python3 rust/bench/report.py target/bench/bench.tsv target/bench/peers.tsv docs/PERFORMANCE.md

# For the edit loop: what needs no prover and little time.
quick: all c-quick generator-quick
	@if command -v cargo > /dev/null; then echo "cargo test"; cd rust && cargo test --offline --quiet > ../target/quick.log 2>&1 \
	    && echo "reference: tests passed" || { cat ../target/quick.log; exit 1; }; \
	else echo "skipped the reference implementation: no cargo"; fi

# With the prover: the proofs come first, so that the library is made from what they have just proved; their verdict is printed again as the last line.
# Without it all that needs none, and what was left out as the last lines.
.PHONY: test-proved test-unproved test-reference
test:
	@if command -v rt > /dev/null; then $(MAKE) --no-print-directory test-proved; else $(MAKE) --no-print-directory test-unproved; fi

test-reference: reference
	cd rust && cargo test --release --offline --quiet

test-proved:
	@scripts/proofs.sh
	@$(MAKE) --no-print-directory test-rest
	@cat target/test/verdict.txt

test-unproved: all
	@if command -v cargo > /dev/null; then $(MAKE) --no-print-directory test-reference; \
	else echo "skipped the reference implementation: no cargo"; fi
	@if command -v python3 > /dev/null; then python3 tests/generator/forms.py && python3 tests/generator/buffers.py; \
	else echo "skipped the generator's tests: no python3"; fi
	$(MAKE) --no-print-directory c-check page-check board-check
	@echo "test: all passed that needs no prover. Left out, since rt is not on the path (docs/USING.md, Toolchain):"
	@echo "  the proofs; the definitions against the reference implementation; dist/ made again from the proved program; the comparisons, which link the proved archive"

# What is not rt ci's: three lanes that need nothing of each other, once the archives and the reference implementation are built. What each says is printed when all are done.
.PHONY: test-rest test-second archives
archives: $(ARCHIVES)

test-rest:
	@mkdir -p target/test && echo "test: archives, comparisons and the C side, some minutes; target/test has what they say meanwhile"
	@$(MAKE) --no-print-directory -j 4 archives reference
	@$(MAKE) --no-print-directory test-second > target/test/second.log 2>&1 & second=$$!; \
	$(MAKE) --no-print-directory test-compared > target/test/compared.log 2>&1 & compared=$$!; \
	failed=0; $(MAKE) --no-print-directory test-c > target/test/c.log 2>&1 || failed=1; \
	wait $$compared || failed=1; wait $$second || failed=1; \
	cat target/test/second.log target/test/compared.log target/test/c.log; exit $$failed

# The second opinion: the reference implementation's own tests, and the definitions held to it.
test-second: test-reference
	python3 tests/definitions/definitions.py 200 $(DEFINITIONS_SEED)

# The C object beside the proved machine; not in test-compared, since the archive takes two more minutes of proving.
.PHONY: machine-compare
machine-compare: $(MACHINE_ARCHIVE)
	@mkdir -p target/test
	$(CC) $(C_FLAGS) tests/store/machine_check.c dist/kagutin_all.c $(MACHINE_ARCHIVE) -o target/test/machine_check
	target/test/machine_check

test-compared: rust/target/release/bench
	$(MAKE) --no-print-directory dist-check
	$(MAKE) --no-print-directory validate
	$(MAKE) --no-print-directory validate-quick-check
	$(MAKE) --no-print-directory generator-check
	$(MAKE) --no-print-directory port-check
	$(MAKE) --no-print-directory units-compare
	$(MAKE) --no-print-directory board-check RECORD_LIB=$(ARCHIVE)
	rust/target/release/bench --seed $(SEED) --no-counts --out target/bench-test > /dev/null && echo "bench: the same answers on both sides"

test-c:
	$(MAKE) --no-print-directory lint
	$(MAKE) --no-print-directory trace-check
	python3 tests/exports/exports.py
	$(MAKE) --no-print-directory c-check
	$(MAKE) --no-print-directory c-check LIB=$(ARCHIVE) GAUGES_LIB=$(GAUGES_ARCHIVE) INFLOW_LIB=$(INFLOW_ARCHIVE) C_OUT=target/c-archive

clean:
	rm -rf target rust/target
