/*
 * Makes an image whose pumps did what standard input says: pump_image FILE [HOMES]. A line is start, stop or runs: start
 * PUMP SECOND, stop PUMP SECOND, runs PUMP COUNT SECONDS PAUSE, so many runs of so many seconds from the pump's last event
 * on, each after a pause.
 */
#include <stdio.h>
#include <stdlib.h>
#include <string.h>

#include "kagutin_file.h"
#include "kagutin_units.h"

enum { GROUPS = 16, MOST_HOMES = 64, WRITER = 1 };

static uint32_t last_event[KAGUTIN_PUMPS];

static void expect(const char *what, uint64_t code)
{
    if (code == KAGUTIN_DONE)
        return;
    fprintf(stderr, "pump_image: %s: answer %llu\n", what, (unsigned long long)code);
    exit(1);
}

static void start(struct kagutin *store, unsigned pump, uint32_t second)
{
    expect("start", kgt_pump_start(store, WRITER, pump, second).code);
    last_event[pump % KAGUTIN_PUMPS] = second;
}

static void stop(struct kagutin *store, unsigned pump, uint32_t second)
{
    expect("stop", kgt_pump_stop(store, WRITER, pump, second).code);
    last_event[pump % KAGUTIN_PUMPS] = second;
}

static void play(struct kagutin *store)
{
    char word[16];
    unsigned pump, i;
    unsigned long numbers[3];

    while (scanf("%15s %u %lu", word, &pump, &numbers[0]) == 3) {
        if (strcmp(word, "start") == 0)
            start(store, pump, (uint32_t)numbers[0]);
        else if (strcmp(word, "stop") == 0)
            stop(store, pump, (uint32_t)numbers[0]);
        else if (scanf("%lu %lu", &numbers[1], &numbers[2]) == 2)
            for (i = 0; i < numbers[0]; i++) {
                start(store, pump, last_event[pump % KAGUTIN_PUMPS] + (uint32_t)numbers[2]);
                stop(store, pump, last_event[pump % KAGUTIN_PUMPS] + (uint32_t)numbers[1]);
            }
    }
}

int main(int count, char **words)
{
    static uint8_t memory[KGT_MEMORY_SIZE(GROUPS, MOST_HOMES)];
    size_t homes = count > 2 ? (size_t)strtoul(words[2], NULL, 10) : 32;
    struct kagutin store;
    struct kgt_file file;

    if (count < 2 || homes > MOST_HOMES || !kgt_file_create(&file, words[1], GROUPS, homes)) {
        fputs("usage: pump_image FILE [HOMES] < EVENTS\n", stderr);
        return 2;
    }
    expect("init", kgt_init(&store, memory, sizeof memory, GROUPS, homes, kgt_file_driver(&file)).code);
    expect("open", kgt_open(&store).code);
    play(&store);
    expect("sync", kgt_sync(&store).code);
    kgt_file_close(&file);
    return 0;
}
