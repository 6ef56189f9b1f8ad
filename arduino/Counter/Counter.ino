// Counts the board's own starts in a serial FRAM on SPI, chip select on pin 10. Cut the power: the count goes on.
// With a new chip hold pin 9 low at the first start.
#include <SPI.h>
#include <kagutin_all.h>

enum { GROUPS = 8, HOMES = 32, WRITER = 0, STARTS = 7, SELECT = 10, FORMAT = 9, ADDRESS_BYTES = 2 };

static uint8_t memory[KGT_MEMORY_SIZE(GROUPS, HOMES)];
static uint8_t scratch[KGT_FORMAT_SIZE(GROUPS, HOMES)];
static struct kagutin store;
static struct kgt_fram fram;

static int transfer(void *, const uint8_t *command, size_t command_size, const uint8_t *out, uint8_t *in, size_t size)
{
    SPI.beginTransaction(SPISettings(8000000, MSBFIRST, SPI_MODE0));
    digitalWrite(SELECT, LOW);
    for (size_t i = 0; i < command_size; i++)
        SPI.transfer(command[i]);
    for (size_t i = 0; i < size; i++) {
        uint8_t byte = SPI.transfer(out ? out[i] : 0);
        if (in)
            in[i] = byte;
    }
    digitalWrite(SELECT, HIGH);
    SPI.endTransaction();
    return 0;
}

// Formats a chip that has no store, if pin 9 asks for it. Not by itself: a store of another shape, a damaged header and
// a bus that does not answer look the same from here, and a format ends what is there.
static bool open_store()
{
    kgt_fram_init(&fram, GROUPS, 0, ADDRESS_BYTES, transfer, nullptr);
    if (kgt_init(&store, memory, sizeof memory, GROUPS, HOMES, kgt_fram_driver(&fram)).code != KAGUTIN_DONE)
        return false;
    uint64_t code = kgt_open(&store).code;
    if (code == KAGUTIN_BAD_HEADER && digitalRead(FORMAT) == LOW
        && kgt_format(&store, scratch, sizeof scratch).code == KAGUTIN_DONE)
        code = kgt_open(&store).code;
    return code == KAGUTIN_DONE;
}

// The next count, as soon as it is durable; 0: it was refused.
static uint32_t count_start()
{
    uint8_t block[KAGUTIN_BLOCK_SIZE];
    uint32_t starts;

    if (kgt_read(&store, WRITER, STARTS, block).code != KAGUTIN_DONE || kgt_begin(&store, WRITER).code != KAGUTIN_DONE)
        return 0;
    memcpy(&starts, block, sizeof starts);
    starts++;
    memcpy(block, &starts, sizeof starts);
    if (kgt_store(&store, WRITER, STARTS, block).code == KAGUTIN_DONE && kgt_commit_sync(&store, WRITER).code == KAGUTIN_DONE)
        return starts;
    kgt_abort(&store, WRITER);
    return 0;
}

void setup()
{
    Serial.begin(9600);
    pinMode(SELECT, OUTPUT);
    pinMode(FORMAT, INPUT_PULLUP);
    digitalWrite(SELECT, HIGH);
    SPI.begin();
    Serial.println(open_store() ? count_start() : 0);
}

void loop()
{
}
