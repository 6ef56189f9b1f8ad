# The RTOS example: eight tasks on a store, on the emulated Cortex-M4. Included by make/c.mk.
#
# rtos   builds and runs it, where port/packages.sh has installed what it needs; docs/RTOS.md. board-check and arm run it, too

RTOS_SOURCES = $(sort $(wildcard c/examples/rtos/*.c))
RTOS_STORE = $(patsubst %,c/store/%.c,store room usage rights batch) c/drivers/fram.c $(DIST_C)
RTOS_OUT = target/rtos
RTOS_FLAGS = -mthumb $(m4_FLAGS) -Os -ffunction-sections -fdata-sections $(REPLAY_FLAGS)

$(RTOS_OUT)/station.elf: $(RTOS_SOURCES) $(RTOS_STORE) $(wildcard port/replay/*) $(wildcard c/examples/rtos/*.h) $(C_HEADERS)
	@mkdir -p $(@D)
	arm-none-eabi-gcc $(RTOS_FLAGS) $(RTOS_SOURCES) $(RTOS_STORE) port/replay/say_board.c $(BOARD_LINK) $(m4_MEMORY) \
	    -Wl,--defsym=kept_memory=0x20200000 -Wl,--gc-sections -o $@

# Time is counted in instructions, so that every run is the same; while all tasks sleep none passes.
.PHONY: rtos rtos-run
rtos-run: $(RTOS_OUT)/station.elf
	@printf 'm4: ' && timeout 300 $(BOARD_RUN) -icount shift=5,sleep=off $(m4_QEMU) -kernel $<

rtos:
	@if command -v arm-none-eabi-gcc > /dev/null && command -v qemu-system-arm > /dev/null; then $(MAKE) --no-print-directory -s rtos-run; \
	else echo "skipped the RTOS example: no arm-none-eabi-gcc or qemu-system-arm (port/packages.sh installs them)"; fi
