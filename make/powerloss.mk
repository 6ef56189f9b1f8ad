# The power-loss kit for a driver of one's own. Included by make/c.mk.
#
# powerloss-check   it finds its six broken drivers and passes the good ones, on a simulated medium and with a process for a board
# powerloss-board   the same on the emulated Cortex-M4, cut by a reset; part of make arm
# install-powerloss, uninstall-powerloss   headers, archive, and the sources for a board, under DESTDIR and PREFIX

C_POWERLOSS = $(addprefix c/powerloss/,powerloss board history judge report shrink trial sim)
C_POWERLOSS_CHECK = tests/drivers/powerloss_check c/powerloss/broken $(C_POWERLOSS) $(C_STORE)
C_POWERLOSS_FAULTS = tests/drivers/powerloss_faults c/powerloss/broken $(C_POWERLOSS) $(C_STORE)
C_BROKEN_CHECK = tests/drivers/broken_check tests/common/play c/powerloss/broken c/powerloss/sim $(C_STORE)
C_RELAY_CHECK = tests/drivers/relay_check c/powerloss/broken $(C_POWERLOSS) $(C_STORE)
POWERLOSS_LIB = $(C_OUT)/libkagutin_powerloss.a
POWERLOSS_HEADERS = include/kagutin_powerloss.h include/kagutin_sim.h

$(eval $(call C_PROGRAM,powerloss_check,$(C_POWERLOSS_CHECK),$(LIB)))
$(eval $(call C_PROGRAM,powerloss_faults,$(C_POWERLOSS_FAULTS),$(LIB)))
$(eval $(call C_PROGRAM,broken_check,$(C_BROKEN_CHECK),$(LIB)))
$(eval $(call C_PROGRAM,relay_check,$(C_RELAY_CHECK),$(LIB)))

POWERLOSS_PROGRAMS = $(foreach program,powerloss_check powerloss_faults broken_check relay_check,$(C_OUT)/$(program) $(C_OUT)/sanitize/$(program))

.PHONY: powerloss-check install-powerloss uninstall-powerloss
powerloss-check: $(POWERLOSS_PROGRAMS)
	CC="$(CC)" LIB="$(LIB)" C_LIBS="$(C_LIBS)" sh tests/programs/powerloss-check.sh $(C_OUT)

c-check: powerloss-check

# ---- installing ----

TO_POWERLOSS = $(DESTDIR)$(PREFIX_HERE)/share/kagutin/powerloss
POWERLOSS_SOURCES = $(C_POWERLOSS:%=%.c) $(wildcard c/powerloss/*.h) c/powerloss/broken.c

install-powerloss: $(POWERLOSS_LIB) $(POWERLOSS_HEADERS) $(POWERLOSS_SOURCES)
	install -d "$(TO_INCLUDE)" "$(TO_LIB)" "$(TO_POWERLOSS)"
	install -m 644 $(POWERLOSS_HEADERS) "$(TO_INCLUDE)"
	install -m 644 $(POWERLOSS_LIB) "$(TO_LIB)/libkagutin_powerloss.a"
	install -m 644 $(POWERLOSS_SOURCES) "$(TO_POWERLOSS)"

uninstall-powerloss:
	for name in $(notdir $(POWERLOSS_HEADERS)); do rm -f "$(TO_INCLUDE)/$$name"; done
	for name in $(notdir $(POWERLOSS_SOURCES)); do rm -f "$(TO_POWERLOSS)/$$name"; done
	rm -f "$(TO_LIB)/libkagutin_powerloss.a"

install: install-powerloss
uninstall: uninstall-powerloss

# ---- on a board ----

POWERLOSS_BOARD = tests/drivers/powerloss_board.c $(C_POWERLOSS:%=%.c) c/powerloss/broken.c c/drivers/fram.c \
    $(patsubst %,c/store/%.c,store room usage rights batch) $(DIST_C)
$(REPLAY_OUT)/powerloss-m4: $(POWERLOSS_BOARD) $(wildcard port/replay/*) $(C_HEADERS)
	@mkdir -p $(@D)
	arm-none-eabi-gcc -mthumb $(m4_FLAGS) -Os $(REPLAY_FLAGS) -Ic $(POWERLOSS_BOARD) port/replay/say_board.c $(BOARD_LINK) $(m4_MEMORY) \
	    -Wl,--defsym=kept_memory=0x20200000 -o $@

.PHONY: powerloss-board
powerloss-board: $(REPLAY_OUT)/powerloss-m4
	@printf 'm4: ' && $(BOARD_RUN) $(m4_QEMU) -kernel $<

arm: powerloss-board
