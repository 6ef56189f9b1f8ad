# The portable C files, dist/kagutin.c and one for each standalone call: made from the proved program, built, and compared. Included by make/c.mk.
#
# dist            makes them again, after proving what has changed
# dist-check      fails if a byte of them is not what the proved program gives
# generator-check tests of the generator
# port-compare    builds of it by gcc and clang, with sanitizers too, against the archive and the reference implementation: long
# port-docs       tables of the C file in docs/PERFORMANCE.md; board-docs those of the boards alone, which need no proved archive
# board-check     one emulated board with the worst cases on it, and the RTOS example, where the packages are there
# arm             trials and recorded calls with cuts on emulated boards (Cortex-M0+, M4, M33), Arm, RISC-V and a big-endian machine

# Crates whose extern "C" functions are the library, the header that declares them, and the structs of their results.
EXPORTS = kagutin object_runner
DIST_C = dist/kagutin.c
DIST_HEADERS = kagutin.h kagutin_chains.h
DIST_RESULTS = call_ask::Reply=kagutin_reply model::Usage=kagutin_places object_runner::Action=kagutin_action

PORT_OUT = target/port
GENERATOR = python3 port/generate.py --rlib crates --source crates
GENERATE_WORDS = --rlib crates --source crates $(EXPORTS:%=--export %) $(DIST_HEADERS:%=--header %) $(DIST_RESULTS:%=--result %)
GENERATE = python3 port/generate.py $(GENERATE_WORDS)

# The standalone calls, which need no store, each a crate and a C file of its own: a program takes those that it needs.
GENERATE_gauges = $(GENERATOR) --export alone_gauges --header kagutin_gauges.h --result alone_gauges::Comparison=kagutin_comparison
GENERATE_inflow = $(GENERATOR) --export alone_inflow --header kagutin_inflow.h --result alone_inflow::Bounds=kagutin_inflow_bounds
STANDALONE = gauges inflow
PROVED_PROGRAMS = $(EXPORTS) $(STANDALONE:%=alone_%) $(UNITS_CRATES)
DIST_FILES = $(DIST_C) $(STANDALONE:%=dist/kagutin_%.c)

.PHONY: dist dist-check generator-check generator-quick port-check port-compare

dist:
	@mkdir -p $(PORT_OUT)
	@scripts/built.sh $(PROVED_PROGRAMS)
	@$(GENERATE) --out $(DIST_C)
	@$(foreach b,$(STANDALONE),$(GENERATE_$(b)) --out dist/kagutin_$(b).c &&) true
	@$(MAKE) --no-print-directory units-dist all-in-one

dist-check:
	@scripts/built.sh $(PROVED_PROGRAMS)
	@rm -rf $(PORT_OUT)/again && mkdir -p $(PORT_OUT)/again
	@$(GENERATE) --out $(PORT_OUT)/again/kagutin.c
	@$(foreach b,$(STANDALONE),$(GENERATE_$(b)) --out $(PORT_OUT)/again/kagutin_$(b).c &&) true
	@for file in $(DIST_FILES); do cmp $(PORT_OUT)/again/$${file#dist/} $$file \
	    || { echo "$$file is not what the proved program gives; make dist makes it again" >&2; exit 1; }; done
	@echo "dist: $(DIST_FILES): what the proved program gives"
	@$(MAKE) --no-print-directory units-dist-check

# Tests of the generator itself. generator-quick: those that take seconds, and where nothing is proved only the one that needs no proved program.
generator-check:
	@scripts/built.sh $(PROVED_PROGRAMS)
	python3 tests/generator/forms.py
	python3 tests/generator/generator.py $(GENERATE_WORDS)
	python3 tests/generator/imports.py
	python3 tests/generator/translated.py
	python3 tests/generator/buffers.py

generator-quick:
	python3 tests/generator/forms.py
	@if [ -d crates/unit_alarms/out/rlib/unit_alarms.rlib ]; then python3 tests/generator/imports.py && python3 tests/generator/buffers.py; fi

# Shared objects that compare loads. no-passes.c is the same program without the generator's passes, gcc-plain without quicker helpers.
PORT_SHARED = -std=c99 -Iinclude -fPIC -shared
PORT_LEVELS = O0 O2 O3
PORT_COMPILERS = gcc $(shell command -v clang > /dev/null && echo clang)
PORT_BUILDS = $(foreach c,$(PORT_COMPILERS),$(PORT_LEVELS:%=$(PORT_OUT)/$(c)-%.so)) $(PORT_OUT)/gcc-plain.so $(PORT_OUT)/no-passes.so

$(PORT_OUT)/no-passes.c: $(DIST_C) $(wildcard port/*.py)
	@mkdir -p $(@D)
	$(GENERATE) --no-passes --out $@
	@touch $@

$(PORT_OUT)/no-passes.so: $(PORT_OUT)/no-passes.c include/kagutin.h
	gcc $(PORT_SHARED) -O1 $< -o $@

$(PORT_OUT)/gcc-%.so: $(DIST_C) include/kagutin.h
	@mkdir -p $(@D)
	gcc $(PORT_SHARED) -$* $< -o $@

$(PORT_OUT)/clang-%.so: $(DIST_C) include/kagutin.h
	@mkdir -p $(@D)
	clang $(PORT_SHARED) -$* $< -o $@

$(PORT_OUT)/gcc-plain.so: $(DIST_C) include/kagutin.h
	@mkdir -p $(@D)
	gcc $(PORT_SHARED) -O2 -DKAGUTIN_PLAIN_C $< -o $@

$(PORT_OUT)/gcc-sanitize.so: $(DIST_C) include/kagutin.h
	@mkdir -p $(@D)
	gcc $(PORT_SHARED) $(C_SANITIZE) $< -o $@

$(PORT_OUT)/clang-sanitize.so: $(DIST_C) include/kagutin.h
	@mkdir -p $(@D)
	clang $(PORT_SHARED) $(C_SANITIZE) -shared-libasan $< -o $@

# The sanitizers' runtime must be loaded before all else; without guard bytes it sees every access outside a lent part.
COMPARE = rust/target/release/compare
COMPARE_TIGHT = ASAN_OPTIONS=detect_leaks=0 LD_PRELOAD=$$($(1) -print-file-name=$(2)) $(COMPARE) --tight --build $(PORT_OUT)/$(1)-sanitize.so
GCC_TIGHT = $(call COMPARE_TIGHT,gcc,libasan.so)
CLANG_TIGHT = $(call COMPARE_TIGHT,clang,libclang_rt.asan-x86_64.so)

# What the gate runs.
PORT_CHECKED = gcc-O2 gcc-plain no-passes
port-check: $(COMPARE) $(PORT_CHECKED:%=$(PORT_OUT)/%.so) $(PORT_OUT)/gcc-sanitize.so
	$(COMPARE) --seed $(SEED) $(PORT_CHECKED:%=--build $(PORT_OUT)/%.so)
	$(GCC_TIGHT) --seed $(SEED) --calls 20000 --damaged 4000 --histories 60 --large 3 | tail -n 2

port-compare: $(COMPARE) $(PORT_BUILDS) $(PORT_COMPILERS:%=$(PORT_OUT)/%-sanitize.so)
	$(COMPARE) --seed $(SEED) --calls 1000000 --damaged 100000 --histories 5000 --torn 500 $(PORT_BUILDS:%=--build %)
	$(GCC_TIGHT) --seed $(SEED) --calls 200000 --damaged 40000 --histories 500 | tail -n 2
	if command -v clang > /dev/null; then $(CLANG_TIGHT) --seed $(SEED) --calls 200000 --damaged 40000 --histories 500 | tail -n 2; fi

# Other machines: the trials and CALLS_PLAYED calls with cuts are played on the host and recorded, then played there and held to the
# record. RECORD_LIB is the host's library; make test takes the archive.
CALLS_PLAYED ?= 5000
REPLAY_OUT = target/replay
REPLAYED = lend lasting history trials
REPLAY_FLAGS = -std=c99 -Wall -Wextra -Wshadow -Wconversion -Iinclude -Iport/replay
RECORD_LIB ?= $(C_OUT)/libkagutin.a

$(REPLAY_OUT)/recorded.h: $(REPLAYED:%=port/replay/%.c) port/replay/record.c port/replay/replay.h $(RECORD_LIB)
	@mkdir -p $(@D)
	$(CC) $(REPLAY_FLAGS) -O2 $(filter %.c %.a,$^) -o $(REPLAY_OUT)/record
	$(REPLAY_OUT)/record $(CALLS_PLAYED) > $@.new
	@mv $@.new $@

REPLAY_SOURCES = $(DIST_C) $(REPLAYED:%=port/replay/%.c) port/replay/check.c
REPLAY_FILES = $(REPLAY_SOURCES) $(wildcard port/replay/*) $(C_HEADERS) $(REPLAY_OUT)/recorded.h
REPLAY_CHECK = $(REPLAY_FLAGS) -I$(REPLAY_OUT) -DCALLS_PLAYED=$(CALLS_PLAYED) $(REPLAY_SOURCES)

# Boards: core, its flags, QEMU's machine, where program and data lie. A Cortex-M0+ program runs on a Cortex-M3.
BOARDS = m0plus m4 m33
m0plus_FLAGS = -mcpu=cortex-m0plus
m4_FLAGS = -mcpu=cortex-m4
m33_FLAGS = -mcpu=cortex-m33
m0plus_QEMU = -M mps2-an385
m4_QEMU = -M mps2-an386
m33_QEMU = -M mps2-an505
m0plus_MEMORY = -Wl,--defsym=CODE=0,--defsym=DATA=0x20000000
m4_MEMORY = $(m0plus_MEMORY)
m33_MEMORY = -Wl,--defsym=CODE=0x10000000,--defsym=DATA=0x38000000
BOARD_LINK = -nostartfiles -T port/replay/board.ld
BOARD_RUN = qemu-system-arm -display none -monitor none -serial none -chardev stdio,id=said -semihosting-config enable=on,target=native,chardev=said

$(REPLAY_OUT)/%.elf: $(REPLAY_FILES)
	arm-none-eabi-gcc -mthumb $($*_FLAGS) -O2 $(REPLAY_CHECK) port/replay/say_board.c $(BOARD_LINK) $($*_MEMORY) -o $@

# Linux programs under QEMU: compiler and emulator of each machine. s390x is big-endian.
LINUX = armhf aarch64 riscv64 s390x
armhf_CC = arm-linux-gnueabihf-gcc
aarch64_CC = aarch64-linux-gnu-gcc
riscv64_CC = riscv64-linux-gnu-gcc
s390x_CC = s390x-linux-gnu-gcc
armhf_QEMU = qemu-arm
aarch64_QEMU = qemu-aarch64
riscv64_QEMU = qemu-riscv64
s390x_QEMU = qemu-s390x

$(REPLAY_OUT)/%.linux: $(REPLAY_FILES)
	$($*_CC) -O2 -static $(REPLAY_CHECK) port/replay/say_stdio.c -o $@

BOARD_TESTS = $(BOARDS:%=on-%)
LINUX_TESTS = $(LINUX:%=on-%)
.PHONY: arm board-check $(BOARD_TESTS) $(LINUX_TESTS)

$(BOARD_TESTS): on-%: $(REPLAY_OUT)/%.elf
	@printf '%s: ' $* && $(BOARD_RUN) $($*_QEMU) -kernel $<

$(LINUX_TESTS): on-%: $(REPLAY_OUT)/%.linux
	@printf '%s: ' $* && $($*_QEMU) $<

arm: $(BOARD_TESTS) $(LINUX_TESTS) object-stack rtos-run

# Tables of docs/PERFORMANCE.md: size, stack and instructions on each core; instructions of the C file against the archive on x86-64.
COSTS = $(foreach b,$(BOARDS),$(foreach l,Os O2,$(REPLAY_OUT)/$(b)-$(l).cost))
core = $(word 1,$(subst -, ,$*))
level = -$(word 2,$(subst -, ,$*))
m0plus_TICK = 40
m4_TICK = 40
m33_TICK = 50

$(REPLAY_OUT)/%.cost: $(DIST_C) $(wildcard port/replay/*) $(C_HEADERS)
	@mkdir -p $(@D)
	arm-none-eabi-gcc -mthumb $($(core)_FLAGS) $(level) -std=c99 -Iinclude -fcallgraph-info=su -c $(DIST_C) -o $(REPLAY_OUT)/$*.o
	arm-none-eabi-gcc -mthumb $($(core)_FLAGS) $(level) $(REPLAY_FLAGS) -DNS_EACH_TICK=$($(core)_TICK) $(REPLAY_OUT)/$*.o \
	    port/replay/lend.c port/replay/measure.c port/replay/say_board.c $(BOARD_LINK) $($(core)_MEMORY) -o $(REPLAY_OUT)/$*.measure
	$(BOARD_RUN) -icount shift=0 $($(core)_QEMU) -kernel $(REPLAY_OUT)/$*.measure > $@.new
	@printf 'size\t%s\t0\n' $$(arm-none-eabi-size $(REPLAY_OUT)/$*.o | awk 'NR == 2 { print $$1 }') >> $@.new
	@mv $@.new $@

BENCHED = archive gcc clang
$(PORT_OUT)/archive/libkagutin.a: target/staticlib/libkagutin.a
	@mkdir -p $(@D)
	cp $< $@

$(PORT_OUT)/gcc/libkagutin.a $(PORT_OUT)/clang/libkagutin.a: $(PORT_OUT)/%/libkagutin.a: $(DIST_C) include/kagutin.h
	@mkdir -p $(@D)
	$* -std=c99 -O2 -Iinclude -c $< -o $(@D)/kagutin.o
	rm -f $@
	$(AR) rcs $@ $(@D)/kagutin.o

$(BENCHED:%=$(PORT_OUT)/%/bench.tsv): $(PORT_OUT)/%/bench.tsv: $(PORT_OUT)/%/libkagutin.a
	cd rust && KAGUTIN_LIB_DIR=$(CURDIR)/$(<D) CARGO_TARGET_DIR=$(CURDIR)/$(PORT_OUT)/bench cargo build --release --offline --quiet -p bench
	$(PORT_OUT)/bench/release/bench --seed $(SEED) --no-times --out $(@D) > /dev/null

.PHONY: port-docs board-docs
port-docs: $(BENCHED:%=$(PORT_OUT)/%/bench.tsv) board-docs

board-docs: $(COSTS)
	python3 port/report.py $(REPLAY_OUT) $(PORT_OUT) docs/PERFORMANCE.md

# What the gate runs: one board, where the packages are there.
board-check:
	@if command -v arm-none-eabi-gcc > /dev/null && command -v qemu-system-arm > /dev/null; then $(MAKE) --no-print-directory -s on-m4 object-stack rtos-run worst-board-check; \
	else echo "skipped the emulated board: no arm-none-eabi-gcc or qemu-system-arm (port/packages.sh installs them)"; fi
