# The C side: header, driver, station, inspector. Included by the Makefile; from the root also
# make -f make/c.mk LIB=path/to/libkagutin.a station; without LIB the library is built from dist/kagutin.c
#
# quickstart                     the example of README.md, in target/c
# c-sanitize                     the same with address and undefined-behaviour sanitizers, in target/c/sanitize
# c-check                        tests of all of these
# c-quick                        the quick ones of them, without sanitizers
# wrapper-check                  tests of the C++ wrapper
# powerloss-check                the power-loss kit for drivers: finds its six broken ones, passes the good ones
# snippets-check                 the examples and commands of README, docs and headers: built, run and judged
# rights-cost                    what questions 19 and 20 cost, by callgrind
# question-cost                  what question 2 costs
# commit-cost                    what a commit of four blocks costs with all its calls
# wait-cost                      the longest waits: steps, reads, commits and trims over full logs
# object-cost                    the object's calls on a driver that does nothing
# worst-check                    the worst cases of every call against their bounds; make/worst.mk
# c-kills                        longer: KILLS kills of a process at work, on this disk
# c-dist                         headers and sources of the store object and its drivers into DIST
# install, uninstall             headers, libraries, pkg-config files, the program and its manual pages, under DESTDIR and PREFIX, or LIBDIR and INCLUDEDIR

LIB ?= $(C_OUT)/libkagutin.a
GAUGES_LIB ?= $(C_OUT)/libkagutin_gauges.a
INFLOW_LIB ?= $(C_OUT)/libkagutin_inflow.a
C_LIBS ?=
PREFIX ?= /usr/local
DESTDIR ?=
VERSION := $(shell sed -n 's/.define KAGUTIN_VERSION "\(.*\)"/\1/p' include/kagutin.h)
CFLAGS ?= -O2 -g
SEED ?= 1

C_FLAGS = -std=c99 -D_POSIX_C_SOURCE=200809L -Wall -Wextra -pedantic -Wshadow -Wconversion -Iinclude -Ic
C_SANITIZE = -O1 -g -fno-omit-frame-pointer -fsanitize=address,undefined -fno-sanitize-recover=all
C_OUT = target/c
C_OBJECTS = $(C_OUT)/obj
C_HEADERS = $(wildcard include/*.h c/*/*.h tests/*/*.h)

# Programs by their sources, from the root and without their ending.
C_STORE = $(addprefix c/store/,store room usage rights batch) $(addprefix c/drivers/,memory file file_io fram)
C_DRIVER_CHECK = tests/programs/driver_check c/station/driver c/station/driver_file $(C_STORE)
C_QUICKSTART = c/examples/quickstart $(C_STORE)
C_STORE_CHECK = tests/store/store_check tests/common/play $(C_STORE)
C_RESERVE_CHECK = tests/store/reserve_check $(C_STORE)
C_WORN_CHECK = tests/store/worn_check $(C_STORE)
C_MANY_CHECK = tests/store/many_check
C_HEADS_CHECK = tests/store/heads_check $(C_STORE)
C_RUNNER_CHECK = $(addprefix tests/store/,runner_check runner_trace hand_runner) $(C_STORE)
C_ROUND_CHECK = tests/store/round_check $(C_STORE)
C_RIGHTS_CHECK = tests/store/rights_check $(C_STORE)
C_FILE_CHECK = tests/drivers/file_check tests/common/play $(C_STORE)
C_CREATE_CHECK = tests/drivers/create_check $(C_STORE)
C_KILL_CHECK = tests/drivers/kill_check tests/common/play $(C_STORE)
C_FRAM_CHECK = tests/drivers/fram_check tests/common/play $(C_STORE)
C_DUMP_CHECK = tests/drivers/dump_check tests/common/play c/common/homes c/common/copy c/common/image_file c/common/rule $(C_STORE)
C_FORMAT_CHECK = tests/drivers/format_check tests/common/play $(C_STORE)
C_REOPEN_CHECK = tests/drivers/reopen_check tests/common/play $(C_STORE)
C_DISK_CHECK = tests/drivers/disk_check tests/common/play $(C_STORE)
C_SEAL_CHECK = tests/programs/seal_check $(C_STORE)
C_GAUGES_COST = tests/costs/gauges_cost
C_RIGHTS_COST = tests/costs/rights_cost
C_QUESTION_COST = tests/costs/question_cost
C_WAIT_COST = tests/costs/wait_cost
C_COMMIT_COST = tests/costs/commit_cost
C_OBJECT_COST = tests/costs/object_cost $(C_STORE)
C_PROGRAMS = quickstart driver_check store_check reserve_check worn_check many_check heads_check runner_check round_check rights_check file_check create_check kill_check fram_check dump_check format_check reopen_check disk_check seal_check gauges_cost rights_cost question_cost wait_cost commit_cost object_cost

.PHONY: quickstart c-sanitize c-check c-kills c-dist install uninstall c-clean

quickstart: $(C_OUT)/quickstart
c-sanitize: $(C_PROGRAMS:%=$(C_OUT)/sanitize/%)

$(C_OBJECTS)/%.o: %.c $(C_HEADERS)
	@mkdir -p $(@D)
	$(CC) $(C_FLAGS) $(CPPFLAGS) $(CFLAGS) -c $< -o $@

$(C_OUT)/sanitize/obj/%.o: %.c $(C_HEADERS)
	@mkdir -p $(@D)
	$(CC) $(C_FLAGS) $(C_SANITIZE) -c $< -o $@

# The libraries that the programs were linked with: with others they are linked again, even if these are older.
C_LINKED = $(C_OUT)/linked.txt
C_LINK = $(strip $(LIB) $(GAUGES_LIB) $(INFLOW_LIB) $(C_LIBS))

ifneq ($(shell cat $(C_LINKED) 2> /dev/null),$(C_LINK))
.PHONY: $(C_LINKED)
endif
$(C_LINKED):
	@mkdir -p $(@D)
	@echo '$(C_LINK)' > $@

# One program in both builds: its name, its objects, the libraries it needs.
define C_PROGRAM
$(C_OUT)/$(1): $(2:%=$(C_OBJECTS)/%.o) $(3) $(if $(3),$(C_LINKED))
	$$(CC) $$(CFLAGS) $$(LDFLAGS) $$(filter-out $(C_LINKED),$$^) $(if $(3),$$(C_LIBS)) -o $$@

$(C_OUT)/sanitize/$(1): $(2:%=$(C_OUT)/sanitize/obj/%.o) $(3:$(C_OUT)/%=$(C_OUT)/sanitize/%) $(if $(3),$(C_LINKED))
	$$(CC) $$(C_SANITIZE) $$(filter-out $(C_LINKED),$$^) $(if $(3),$$(C_LIBS)) -o $$@
endef

$(eval $(call C_PROGRAM,quickstart,$(C_QUICKSTART),$(LIB)))
$(eval $(call C_PROGRAM,driver_check,$(C_DRIVER_CHECK),$(LIB)))
$(eval $(call C_PROGRAM,store_check,$(C_STORE_CHECK),$(LIB)))
$(eval $(call C_PROGRAM,reserve_check,$(C_RESERVE_CHECK),$(LIB)))
$(eval $(call C_PROGRAM,worn_check,$(C_WORN_CHECK),$(LIB)))
$(eval $(call C_PROGRAM,many_check,$(C_MANY_CHECK),$(LIB)))
$(eval $(call C_PROGRAM,heads_check,$(C_HEADS_CHECK),$(LIB)))
$(eval $(call C_PROGRAM,runner_check,$(C_RUNNER_CHECK),$(LIB)))
$(eval $(call C_PROGRAM,round_check,$(C_ROUND_CHECK),$(LIB)))
$(eval $(call C_PROGRAM,rights_check,$(C_RIGHTS_CHECK),$(LIB)))
$(eval $(call C_PROGRAM,file_check,$(C_FILE_CHECK),$(LIB)))
$(eval $(call C_PROGRAM,create_check,$(C_CREATE_CHECK),$(LIB)))
$(eval $(call C_PROGRAM,kill_check,$(C_KILL_CHECK),$(LIB)))
$(eval $(call C_PROGRAM,fram_check,$(C_FRAM_CHECK),$(LIB)))
$(eval $(call C_PROGRAM,dump_check,$(C_DUMP_CHECK),$(LIB)))
$(eval $(call C_PROGRAM,format_check,$(C_FORMAT_CHECK),$(LIB)))
$(eval $(call C_PROGRAM,reopen_check,$(C_REOPEN_CHECK),$(LIB)))
$(eval $(call C_PROGRAM,disk_check,$(C_DISK_CHECK),$(LIB)))
$(eval $(call C_PROGRAM,seal_check,$(C_SEAL_CHECK),$(LIB)))
$(eval $(call C_PROGRAM,gauges_cost,$(C_GAUGES_COST),$(GAUGES_LIB)))
$(eval $(call C_PROGRAM,rights_cost,$(C_RIGHTS_COST),$(LIB)))
$(eval $(call C_PROGRAM,question_cost,$(C_QUESTION_COST),$(LIB)))
$(eval $(call C_PROGRAM,wait_cost,$(C_WAIT_COST),$(LIB)))
$(eval $(call C_PROGRAM,object_cost,$(C_OBJECT_COST),$(LIB)))
$(eval $(call C_PROGRAM,commit_cost,$(C_COMMIT_COST),$(LIB)))

c-check: $(C_PROGRAMS:%=$(C_OUT)/%) c-sanitize
	CC="$(CC)" LIB="$(LIB)" C_LIBS="$(C_LIBS)" sh tests/c-check.sh $(C_OUT)
	CC="$(CC)" LIB="$(LIB)" GAUGES_LIB="$(GAUGES_LIB)" sh tests/programs/gauges-check.sh $(C_OUT)
	CC="$(CC)" LIB="$(LIB)" GAUGES_LIB="$(GAUGES_LIB)" INFLOW_LIB="$(INFLOW_LIB)" sh tests/programs/inflow-check.sh $(C_OUT)

# The quick tests, in seconds.
C_QUICK = station inspect quickstart gauges inflow bands wear driver_check store_check reserve_check worn_check runner_check round_check rights_check file_check fram_check \
    format_check reopen_check powerloss_check units_check replies_check lock_check misuse_check
.PHONY: c-quick
c-quick: $(C_QUICK:%=$(C_OUT)/%)
	CC="$(CC)" LIB="$(LIB)" C_LIBS="$(C_LIBS)" sh tests/quick.sh $(C_OUT)

# Instructions of a store and a read under a list of rights, of question 2, of a commit, of the longest calls and of the object's, by callgrind.
.PHONY: rights-cost question-cost wait-cost commit-cost object-cost
rights-cost: $(C_OUT)/rights_cost
	sh tests/costs/rights-cost.sh $(C_OUT)

question-cost: $(C_OUT)/question_cost
	@if command -v valgrind > /dev/null; then sh tests/costs/question-cost.sh $(C_OUT) $(if $(filter $(C_OUT)/libkagutin.a,$(LIB)),--c-file); \
	else echo "skipped question 2: valgrind is not installed"; fi

commit-cost: $(C_OUT)/commit_cost
	@if command -v valgrind > /dev/null; then sh tests/costs/commit-cost.sh $(C_OUT); else echo "skipped a commit's cost: valgrind is not installed"; fi

wait-cost: $(C_OUT)/wait_cost
	@if command -v valgrind > /dev/null; then sh tests/costs/wait-cost.sh $(C_OUT); else echo "skipped the longest waits: valgrind is not installed"; fi

object-cost: $(C_OUT)/object_cost
	@if command -v valgrind > /dev/null; then sh tests/costs/object-cost.sh $(C_OUT); else echo "skipped the cost of the object: valgrind is not installed"; fi

# Their bounds are those of the C file.
ifeq ($(LIB),$(C_OUT)/libkagutin.a)
c-check: wait-cost commit-cost object-cost
endif

# A process killed at random instants, long.
KILLS ?= 1000
c-kills: $(C_OUT)/kill_check
	rm -f $(C_OUT)/kills.img
	$(C_OUT)/kill_check $(C_OUT)/kills.img $(KILLS) $(SEED)
	rm -f $(C_OUT)/kills.img

# The store object as an archive of its own; it calls the library.
STORE_LIB = $(C_OUT)/libkagutin_store.a

C_WRAPPER = include/kagutin.hpp
C_PUBLIC = kagutin kagutin_store kagutin_rights kagutin_file kagutin_memory kagutin_fram kagutin_seal

# NAME.c of c/store and c/drivers becomes kagutin_NAME.c there; all headers and sources of dist/ stand in one folder.
DIST ?= dist
C_PRIVATE = $(wildcard c/store/*.h c/drivers/*.h)
c-dist: $(C_PUBLIC:%=include/%.h) $(C_PRIVATE) $(C_STORE:%=%.c)
	install -d $(DIST)
	install -m 644 $(C_PUBLIC:%=include/%.h) $(C_PRIVATE) $(DIST)
	for name in $(C_STORE); do install -m 644 $$name.c $(DIST)/kagutin_$${name##*/}.c; done

# Standalone calls, each a header and an archive.
C_STANDALONE = kagutin_gauges kagutin_inflow

# Where things go. A prefix without a slash in front is one below this folder; spaces are allowed.
PREFIX_HERE = $(if $(filter /%,$(firstword $(PREFIX))),$(PREFIX),$(CURDIR)/$(PREFIX))
LIBDIR ?= $(PREFIX_HERE)/lib
INCLUDEDIR ?= $(PREFIX_HERE)/include
TO_LIB = $(DESTDIR)$(LIBDIR)
TO_INCLUDE = $(DESTDIR)$(INCLUDEDIR)

# Both ways to include them: by subject, and kagutin_all.h, as the README has it.
C_INSTALLED = $(C_PUBLIC:%=include/%.h) $(C_WRAPPER) $(C_STANDALONE:%=include/%.h) dist/kagutin_all.h
C_INSTALLED_LIBS = libkagutin.a libkagutin_store.a $(C_STANDALONE:%=lib%.a)
PC_FILES = kagutin.pc kagutin-units.pc

install: $(LIB) $(STORE_LIB) $(GAUGES_LIB) $(INFLOW_LIB) $(C_INSTALLED) $(PC_FILES:%=%.in)
	install -d "$(TO_INCLUDE)" "$(TO_LIB)/pkgconfig"
	install -m 644 $(C_INSTALLED) "$(TO_INCLUDE)"
	install -m 644 $(LIB) "$(TO_LIB)/libkagutin.a"
	install -m 644 $(STORE_LIB) "$(TO_LIB)/libkagutin_store.a"
	install -m 644 $(GAUGES_LIB) "$(TO_LIB)/libkagutin_gauges.a"
	install -m 644 $(INFLOW_LIB) "$(TO_LIB)/libkagutin_inflow.a"
	for file in $(PC_FILES); do \
	    sed -e 's|@PREFIX@|$(PREFIX_HERE)|' -e 's|@LIBDIR@|$(LIBDIR)|' -e 's|@INCLUDEDIR@|$(INCLUDEDIR)|' -e 's|@VERSION@|$(VERSION)|' \
	        -e 's|@LIBS@|$(C_LIBS)|' -e 's/ *$$//' $$file.in > "$(TO_LIB)/pkgconfig/$$file" && chmod 644 "$(TO_LIB)/pkgconfig/$$file" || exit 1; \
	done

uninstall:
	for name in $(notdir $(C_INSTALLED)); do rm -f "$(TO_INCLUDE)/$$name"; done
	for name in $(C_INSTALLED_LIBS) $(PC_FILES:%=pkgconfig/%); do rm -f "$(TO_LIB)/$$name"; done

include make/port.mk
include make/units.mk
include make/program.mk
include make/powerloss.mk
include make/rtos.mk
include make/worst.mk
include make/fuzz.mk
include make/all_in_one.mk
include make/build_systems.mk

# One archive in both builds: its name, its objects.
define C_ARCHIVE
$(C_OUT)/lib$(1).a: $(2:%=$(C_OBJECTS)/%.o)
	rm -f $$@
	$$(AR) rcs $$@ $$^

$(C_OUT)/sanitize/lib$(1).a: $(2:%=$(C_OUT)/sanitize/obj/%.o)
	rm -f $$@
	$$(AR) rcs $$@ $$^
endef

# Those of dist/, the store object, and the calls on units for the object.
$(foreach part,kagutin $(patsubst %,kagutin_%,$(STANDALONE) $(UNITS)),$(eval $(call C_ARCHIVE,$(part),dist/$(part))))
$(eval $(call C_ARCHIVE,kagutin_store,$(C_STORE)))
$(eval $(call C_ARCHIVE,kagutin_units,c/store/units))
$(eval $(call C_ARCHIVE,kagutin_powerloss,$(C_POWERLOSS)))

# Every C example of README, docs and headers, and every command there.
SNIPPET_LIBS = $(POWERLOSS_LIB) $(C_UNITS_LIB) $(UNITS_LIBS) $(STORE_LIB) $(LIB)
SNIPPET_SANITIZED = $(SNIPPET_LIBS:$(C_OUT)/%=$(C_OUT)/sanitize/%)
SNIPPET_PROGRAMS = $(patsubst %,$(C_OUT)/%,quickstart station bands wear gauges inflow)

.PHONY: snippets-check links-check
snippets-check: $(SNIPPET_LIBS) $(SNIPPET_SANITIZED) $(SNIPPET_PROGRAMS)
	@if command -v python3 > /dev/null; then \
	    CC="$(CC)" python3 tests/docs/snippets.py $(C_OUT) $(SNIPPET_LIBS) $(C_LIBS) --sanitized $(SNIPPET_SANITIZED) $(C_LIBS); \
	else echo "skipped the examples of the documents: python3 is not installed"; fi

# Every path that the documents name.
links-check:
	@if command -v python3 > /dev/null; then python3 tests/docs/links.py; else echo "skipped the links of the documents: python3 is not installed"; fi

# The C++ wrapper.
.PHONY: wrapper-check
wrapper-check: $(STORE_LIB) $(LIB)
	@sh tests/programs/wrapper-check.sh $(STORE_LIB) $(LIB) $(C_LIBS)

c-check: snippets-check links-check all-in-one-check wrapper-check build-check

c-clean:
	rm -rf $(C_OUT)
