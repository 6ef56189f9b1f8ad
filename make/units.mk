# The units on the store: depth bands, pump hours, alarms. Included by make/c.mk.
#
# units-check   tests of the programs on them and of the calls on the store object; wear-check the wear sheet's alone
# units-dist    makes dist/kagutin_UNIT.c again from the proved crates; units-dist-check fails if a byte of them differs
# units-compare the calls against the reference implementation: histories with cuts, damaged images, homes, strips and lengths

# Each unit is one C file, dist/kagutin_UNIT.c, that calls the store's functions of dist/kagutin.c.
UNITS = bands hours alarms
UNITS_DIST = $(UNITS:%=dist/kagutin_%.c)
UNITS_LIBS ?= $(UNITS:%=$(C_OUT)/libkagutin_%.a)
# Their crates, and the structs of their results.
UNITS_CRATES = unit_bands unit_hours unit_alarms
GENERATE_UNIT = $(GENERATOR) --import kagutin --header kagutin_chains.h --result call_ask::Reply=kagutin_reply
GENERATE_bands = $(GENERATE_UNIT) --export unit_bands --header kagutin_bands.h --result unit_bands::Band=kagutin_band
GENERATE_hours = $(GENERATE_UNIT) --export unit_hours --header kagutin_hours.h \
    --result unit_hours::Hours=kagutin_hours --result unit_hours::Services=kagutin_services
GENERATE_alarms = $(GENERATE_UNIT) --export unit_alarms --header kagutin_alarms.h --result unit_alarms::Gravest=kagutin_alarm

.PHONY: units-dist units-dist-check

units-dist:
	@mkdir -p $(PORT_OUT)
	@scripts/built.sh $(UNITS_CRATES)
	@$(foreach u,$(UNITS),$(GENERATE_$(u)) --out dist/kagutin_$(u).c &&) true

units-dist-check:
	@rm -rf $(PORT_OUT)/units && mkdir -p $(PORT_OUT)/units
	@$(foreach u,$(UNITS),$(GENERATE_$(u)) --out $(PORT_OUT)/units/kagutin_$(u).c &&) true
	@for file in $(UNITS_DIST); do cmp $(PORT_OUT)/units/$${file#dist/} $$file \
	    || { echo "$$file is not what the proved program gives; make units-dist makes it again" >&2; exit 1; }; done
	@echo "dist: $(UNITS_DIST): what the proved program gives"

C_UNITS = units_check pump_image units_cost replies_check lock_check misuse_check
C_WEAR = $(addprefix c/wear/,wear options images remarks services last words text csv page page_parts) $(addprefix c/common/,page_file csv day)
C_UNITS_CHECK = tests/store/units_check c/store/units $(C_STORE)
C_PUMP_IMAGE = tests/programs/pump_image c/store/units $(C_STORE)
C_UNITS_COST = tests/costs/units_cost $(C_STORE)
C_REPLIES_CHECK = tests/store/replies_check tests/common/operations c/store/units $(C_STORE)
C_LOCK_CHECK = tests/store/lock_check tests/common/operations c/store/units $(C_STORE)
C_MISUSE_CHECK = tests/store/misuse_check tests/common/operations c/store/units $(C_STORE)
C_UNITS_PROGRAMS = $(C_UNITS:%=$(C_OUT)/%) $(C_UNITS:%=$(C_OUT)/sanitize/%)

.PHONY: units-check wear-check units-compare

c-sanitize: $(C_UNITS:%=$(C_OUT)/sanitize/%)

$(eval $(call C_PROGRAM,units_check,$(C_UNITS_CHECK),$(UNITS_LIBS) $(LIB)))
$(eval $(call C_PROGRAM,pump_image,$(C_PUMP_IMAGE),$(UNITS_LIBS) $(LIB)))
$(eval $(call C_PROGRAM,units_cost,$(C_UNITS_COST),$(UNITS_LIBS) $(LIB)))
$(eval $(call C_PROGRAM,replies_check,$(C_REPLIES_CHECK),$(UNITS_LIBS) $(LIB)))
$(eval $(call C_PROGRAM,lock_check,$(C_LOCK_CHECK),$(UNITS_LIBS) $(LIB)))
$(eval $(call C_PROGRAM,misuse_check,$(C_MISUSE_CHECK),$(UNITS_LIBS) $(LIB)))

# Calls of the object on a painted stack; not under sanitizers, which have a stack of their own.
$(C_OUT)/object_stack: tests/stack/object_stack.c port/replay/say_stdio.c $(C_STORE:%=$(C_OBJECTS)/%.o) $(C_OBJECTS)/c/store/units.o $(UNITS_LIBS) $(LIB)
	$(CC) $(C_FLAGS) $(CFLAGS) -Iport/replay $^ $(C_LIBS) -o $@

# The calls on the store object as an archive of their own. Installed, and gone again, where dist/ has the units.
C_UNITS_LIB = $(C_OUT)/libkagutin_units.a
UNITS_HEADERS = $(patsubst %,include/kagutin_%.h,chains $(UNITS) units)
UNITS_INSTALLED = $(notdir $(C_UNITS_LIB) $(UNITS_LIBS))

.PHONY: install-units uninstall-units c-dist-units

install-units: $(C_UNITS_LIB) $(UNITS_LIBS) $(UNITS_HEADERS)
	install -d "$(TO_INCLUDE)" "$(TO_LIB)"
	install -m 644 $(UNITS_HEADERS) "$(TO_INCLUDE)"
	install -m 644 $(C_UNITS_LIB) $(UNITS_LIBS) "$(TO_LIB)"

uninstall-units:
	for name in $(notdir $(UNITS_HEADERS)); do rm -f "$(TO_INCLUDE)/$$name"; done
	for name in $(UNITS_INSTALLED); do rm -f "$(TO_LIB)/$$name"; done

c-dist-units: $(UNITS_HEADERS) $(UNITS_DIST) c/store/units.c
	install -d $(DIST)
	install -m 644 $(UNITS_HEADERS) $(UNITS_DIST) $(DIST)
	install -m 644 c/store/units.c $(DIST)/kagutin_units.c

install: install-units
uninstall: uninstall-units
c-dist: c-dist-units

units-check: $(C_UNITS_PROGRAMS) $(C_OUT)/object_stack program
	CC="$(CC)" LIB="$(LIB)" sh tests/programs/units-check.sh $(C_OUT)
	sh tests/programs/wear-check.sh $(C_OUT)

wear-check: $(foreach program,wear station pump_image,$(C_OUT)/$(program) $(C_OUT)/sanitize/$(program))
	sh tests/programs/wear-check.sh $(C_OUT)

c-check: units-check

# Shared objects for the comparison: the store and the units in one, plain and with sanitizers.
UNITS_SOURCES = dist/kagutin.c $(UNITS_DIST)
UNITS_SHARED = $(PORT_OUT)/units.so
UNITS_TIGHT = $(PORT_OUT)/units-sanitize.so
COMPARE_UNITS = rust/target/release/units

$(PORT_OUT)/units.so: $(UNITS_SOURCES) $(C_HEADERS)
	@mkdir -p $(@D)
	gcc $(PORT_SHARED) -O2 $(UNITS_SOURCES) -o $@

$(PORT_OUT)/units-sanitize.so: $(UNITS_SOURCES) $(C_HEADERS)
	@mkdir -p $(@D)
	gcc $(PORT_SHARED) $(C_SANITIZE) $(UNITS_SOURCES) -o $@

$(COMPARE_UNITS): $(COMPARE)

units-compare: $(COMPARE_UNITS) $(UNITS_SHARED) $(UNITS_TIGHT)
	$(COMPARE_UNITS) --seed $(SEED) --build $(UNITS_SHARED)
	ASAN_OPTIONS=detect_leaks=0 LD_PRELOAD=$$(gcc -print-file-name=libasan.so) $(COMPARE_UNITS) --seed $(SEED) --tight \
	    --histories 40 --damaged 2000 --build $(UNITS_TIGHT) | tail -n 1

# Stack of the object's calls on a board.
OBJECT_SOURCES = $(patsubst %,c/store/%.c,store room usage rights units batch) $(DIST_C) $(UNITS_DIST)
$(REPLAY_OUT)/object-stack-m4: tests/stack/object_stack.c $(OBJECT_SOURCES) $(wildcard port/replay/*) $(C_HEADERS)
	@mkdir -p $(@D)
	arm-none-eabi-gcc -mthumb $(m4_FLAGS) -Os $(REPLAY_FLAGS) $(filter %.c,$(filter-out port/replay/%,$^)) port/replay/say_board.c $(BOARD_LINK) \
	    $(m4_MEMORY) -o $@

.PHONY: object-stack
object-stack: $(REPLAY_OUT)/object-stack-m4
	@printf 'm4: ' && $(BOARD_RUN) $(m4_QEMU) -kernel $<
