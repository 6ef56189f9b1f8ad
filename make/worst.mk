# Worst cases of every call, counted in instructions: tests/worst. Included by make/c.mk.
#
# bench-worst         every call on every log, by callgrind and on the emulated boards where they are installed: target/bench/worst*.tsv; some minutes
# bench-worst-docs    tests/worst/bounds.tsv from those, and the tables of docs/PERFORMANCE.md from it
# worst-check         fails where a call takes more than its bound; part of c-check
# worst-board-check   the same on the emulated Cortex-M4; part of board-check

WORST = tests/worst
WORST_BOUNDS = $(WORST)/bounds.tsv
WORST_OUT = target/bench
C_WORST = $(addprefix $(WORST)/,logs damage calls cases host)
C_WORST_OBJECT = $(addprefix $(WORST)/,logs damage cases object) $(C_STORE)
C_WORST_UNITS = $(addprefix $(WORST)/,logs damage cases units)
C_WORST_HISTORY = $(addprefix $(WORST)/,logs damage cases history)
WORST_PROGRAMS = $(patsubst %,$(C_OUT)/%,worst worst_object worst_units worst_history)

$(eval $(call C_PROGRAM,worst,$(C_WORST),$(LIB)))
$(eval $(call C_PROGRAM,worst_object,$(C_WORST_OBJECT),$(LIB)))
$(eval $(call C_PROGRAM,worst_units,$(C_WORST_UNITS),$(UNITS_LIBS) $(LIB)))
$(eval $(call C_PROGRAM,worst_history,$(C_WORST_HISTORY),$(LIB)))

# Each board at the level that docs/PERFORMANCE.md gives for it; its largest store has 4,096 homes. The timer counts instructions: board.c.
WORST_BOARDS = m0plus-Os m4-O2

$(WORST_OUT)/worst-%.elf: $(patsubst %,$(WORST)/%.c,logs damage calls board) $(DIST_C) $(wildcard port/replay/*) $(C_HEADERS)
	@mkdir -p $(@D)
	arm-none-eabi-gcc -mthumb $($(core)_FLAGS) $(level) $(REPLAY_FLAGS) -Ic -DWORST_HOMES=4096 $(filter %.c,$(filter-out port/replay/%,$^)) port/replay/say_board.c \
	    $(BOARD_LINK) $($(core)_MEMORY) -o $@

$(WORST_OUT)/worst-%.txt: $(WORST_OUT)/worst-%.elf
	$(BOARD_RUN) -icount shift=6 $($(core)_QEMU) -kernel $< > $@.new
	@mv $@.new $@

BOARDS_THERE = $(shell command -v arm-none-eabi-gcc > /dev/null && command -v qemu-system-arm > /dev/null && echo there)

.PHONY: bench-worst bench-worst-docs worst-check worst-board-check
bench-worst: $(WORST_PROGRAMS) $(if $(BOARDS_THERE),$(WORST_BOARDS:%=$(WORST_OUT)/worst-%.txt))
	@mkdir -p $(WORST_OUT)
	@if command -v valgrind > /dev/null; then python3 $(WORST)/worst.py search $(C_OUT) $(WORST_OUT)/worst.tsv; else echo "skipped the worst cases: valgrind is not installed"; fi

bench-worst-docs:
	@python3 $(WORST)/worst.py bounds $(WORST_BOUNDS) $(wildcard $(WORST_OUT)/worst.tsv $(WORST_BOARDS:%=$(WORST_OUT)/worst-%.txt))
	@python3 $(WORST)/tables.py $(WORST_BOUNDS) docs/PERFORMANCE.md

worst-check: $(WORST_PROGRAMS)
	@if command -v valgrind > /dev/null && command -v python3 > /dev/null; then python3 $(WORST)/worst.py check $(C_OUT) $(WORST_BOUNDS); \
	else echo "skipped the worst cases: valgrind or python3 is not installed"; fi

worst-board-check: $(WORST_OUT)/worst-m4-O2.txt
	@python3 $(WORST)/worst.py check-board $< $(WORST_BOUNDS)

# Their bounds are those of the C file.
ifeq ($(LIB),$(C_OUT)/libkagutin.a)
c-check: worst-check
endif
