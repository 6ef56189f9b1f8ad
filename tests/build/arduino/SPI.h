// Stands in for Arduino's headers: a serial FRAM of 32 KiB behind SPI, kept in the file that FRAM names. A pin is low if PIN_LOW has its number.
#pragma once
#include <cstddef>
#include <cstdint>
#include <cstdio>
#include <cstdlib>
#include <cstring>

enum { LOW, HIGH, OUTPUT, INPUT_PULLUP, MSBFIRST, SPI_MODE0 };

struct SPISettings {
    SPISettings(unsigned long, int, int)
    {
    }
};

struct Bus {
    uint8_t bytes[32768];
    uint8_t command[3];
    size_t sent;

    void begin()
    {
        transferFile("rb", true);
    }
    void beginTransaction(SPISettings)
    {
        sent = 0;
    }
    void endTransaction()
    {
    }

    uint8_t transfer(uint8_t byte)
    {
        size_t at = sent++;
        if (at < 3) {
            command[at] = byte;
            return 0;
        }
        uint8_t &cell = bytes[(command[1] * 256u + command[2] + at - 3) % sizeof bytes];
        if (command[0] == 0x02)
            cell = byte;
        return cell;
    }

    void transferFile(const char *mode, bool in)
    {
        if (FILE *file = std::fopen(std::getenv("FRAM"), mode)) {
            if ((in ? std::fread(bytes, 1, sizeof bytes, file) : std::fwrite(bytes, 1, sizeof bytes, file)) != sizeof bytes)
                std::abort();
            std::fclose(file);
        }
    }
};

struct Line {
    void begin(long)
    {
    }
    void println(uint32_t number)
    {
        std::printf("%lu\n", static_cast<unsigned long>(number));
    }
};

static Bus SPI;
static Line Serial;
static void pinMode(int, int)
{
}
static void digitalWrite(int, int)
{
}
static int digitalRead(int pin)
{
    const char *low = std::getenv("PIN_LOW");
    return low && std::atoi(low) == pin ? LOW : HIGH;
}
