/* A serial FRAM and its bus. */
#include "chip.h"

enum { WRITE_ENABLE = 0x06, WRITE = 0x02, READ = 0x03, LOOPS_A_BYTE = 20 /* about 8 bits at 8 MHz */ };

/* One byte on the bus takes its time, in which other tasks may run. */
static int exchange(struct chip *chip)
{
    volatile unsigned wait;

    for (wait = 0; wait < LOOPS_A_BYTE; wait++)
        ;
    if (chip->until_failure == 0 || --chip->until_failure > 0)
        return 0;
    chip->failures++;
    return CHIP_BUS_FAILED;
}

static void take_byte(struct chip *chip, size_t at, uint8_t byte)
{
    if (chip->until_cut > 0 && --chip->until_cut == 0)
        chip_power_gone();
    chip->bytes[at % CHIP_SIZE] = byte;
}

int chip_transfer(void *bus, const uint8_t *command, size_t command_size, const uint8_t *out, uint8_t *in, size_t size)
{
    struct chip *chip = (struct chip *)bus;
    size_t at = 0, i;
    int error = 0;

    for (i = 0; i < command_size && !error; i++) {
        error = exchange(chip);
        at = i > 0 ? at << 8 | command[i] : 0;
    }
    for (i = 0; i < size && !error; i++) {
        error = exchange(chip);
        if (!error && command[0] == READ && in)
            in[i] = chip->bytes[(at + i) % CHIP_SIZE];
        if (!error && command[0] == WRITE && out && chip->write_enabled)
            take_byte(chip, at + i, out[i]);
    }
    chip->write_enabled = !error && command[0] == WRITE_ENABLE;
    return error;
}
