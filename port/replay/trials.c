/* The paper's trials 1 and 3 to 13, with its figures (trial 2 is a tag alone, 14 a program). */
#include <string.h>

#include "replay.h"

enum { TRIAL_GROUPS = 4, TRIAL_HOMES = 8, ROOM = 4096 };

static struct kagutin_reply expect(enum call call, uint64_t writer, uint64_t home, uint64_t code, const char *what)
{
    struct kagutin_reply reply = play(call, writer, home);

    if (reply.code != code)
        complain(what);
    return reply;
}

static void hold(uint64_t got, uint64_t want, const char *what)
{
    if (got != want)
        complain(what);
}

/* A new format, opened. Answers of both are the paper's (10). */
static void fresh(void)
{
    struct kagutin_reply reply;

    lend(TRIAL_GROUPS, TRIAL_HOMES, ROOM);
    lasting_start();
    reply = expect(FORMAT, 0, 0, 0, "trial 10: format");
    hold(reply.size, 2746, "trial 10: format writes 2,746");
    lasting_run((size_t)reply.size, (size_t)-1);
    reply = expect(OPEN, 0, 0, 0, "trial 10: open");
    hold(reply.figure, 0, "trial 10: none back");
    hold(reply.size, 2136, "trial 10: 2,136 bytes");
    lasting_run((size_t)reply.size, (size_t)-1);
}

static void begin_and_store(uint64_t writer, unsigned from, unsigned to, int fill)
{
    unsigned home;

    expect(BEGIN, writer, 0, 0, "begin");
    for (home = from; home <= to; home++) {
        memset(lent.block, fill, sizeof lent.block);
        lasting_run((size_t)expect(STORE, writer, home, 0, "store").size, (size_t)-1);
    }
}

static uint64_t number8(const uint8_t *bytes)
{
    uint64_t x = 0;
    int i;

    for (i = 7; i >= 0; i--)
        x = x << 8 | bytes[i];
    return x;
}

static void tags_and_order(void)
{
    fresh();
    begin_and_store(0, 1, 2, 17);
    expect(COMMIT, 0, 0, 0, "trial 1: commit");
    hold(number8(lent.log + 64 + 8), 5, "trial 1: first tag");
    hold(number8(lent.log + 64 + 16), UINT64_C(2199023271947), "trial 1: second tag");
    hold(expect(FLUSH, 0, 0, 0, "trial 1: flush").size, 518, "trial 1: flush gives 518");
    fresh();
    begin_and_store(0, 1, 2, 255);
    expect(COMMIT, 0, 0, 0, "trial 1 with bytes of 255: commit");
    hold(number8(lent.log + 64 + 8), 5 + (UINT64_C(1) << 57), "trial 1 with bytes of 255: first tag");
    hold(number8(lent.log + 64 + 16), UINT64_C(2199023271947) + (UINT64_C(1) << 57), "trial 1 with bytes of 255: second tag");
    expect(READ, 1, 1, 0, "trial 1 with bytes of 255: read");
    hold(lent.block[63], 255, "trial 1 with bytes of 255: the last byte");
    fresh();
    begin_and_store(0, 3, 4, 'A');
    begin_and_store(1, 3, 3, 'B');
    expect(COMMIT, 1, 0, 0, "trial 3: B commits");
    expect(COMMIT, 0, 0, 0, "trial 3: A commits");
    expect(READ, 2, 3, 0, "trial 3: read");
    hold(lent.block[0], 'A', "trial 3: home 3 reads A's");
}

/* Trials 4 and 5: group 0 is lost with what the first writer stored, aborted or committed. */
static void lost_group(enum call end, uint64_t back, const char *what)
{
    struct kagutin_reply reply;

    fresh();
    begin_and_store(0, 0, 7, 1);
    lasting_run((size_t)expect(end, 0, 0, 0, what).size, (size_t)-1);
    begin_and_store(1, 5, 5, 2);
    expect(COMMIT, 1, 0, 0, what);
    expect(FLUSH, 0, 0, 0, what);
    memset(lent.log + 64, 0, KAGUTIN_GROUP_SIZE);
    reply = expect(OPEN, 0, 0, 0, what);
    hold(reply.figure, back, what);
}

static void full_log(void)
{
    unsigned k;

    fresh();
    expect(BEGIN, 0, 0, 0, "trial 6: begin");
    for (k = 0; k < 29; k++)
        expect(STORE, 0, k & 1, 0, "trial 6: the 29th is taken");
    expect(STORE, 0, 1, 8, "trial 6: the 30th");
    expect(COMMIT, 0, 0, 8, "trial 6: commit");
    expect(ABORT, 0, 0, 0, "trial 7: abort");
    hold(expect(FLUSH, 0, 0, 0, "trial 7: flush").size, 2, "trial 7: flush gives 2");
    hold(expect(SETTLE, 0, 0, 0, "trial 7: settle").size, 2, "trial 7: settle gives 2");
    hold(expect(TRIM, 0, 0, 0, "trial 7: trim").size, 68, "trial 7: trim gives 68");
    fresh();
    expect(BEGIN, 0, 0, 0, "trial 8: begin");
    hold(expect(COMMIT, 0, 0, 0, "trial 8: commit").figure, 0, "trial 8: ticket 0");
    fresh();
    begin_and_store(0, 1, 2, 3);
    expect(FLUSH, 0, 0, 0, "trial 9: flush");
    expect(SETTLE, 0, 0, 0, "trial 9: settle");
    hold(expect(TRIM, 0, 0, 0, "trial 9: trim").size, 0, "trial 9: trim gives 0");
}

static void sizes(void)
{
    static const struct {
        size_t groups, homes;
    } wrong[] = {{3, 8}, {1025, 8}, {4, 0}};
    static const struct {
        size_t groups, homes;
    } right[] = {{4, 1}, {1024, 1}, {4, 4097}, {1024, 4096}};
    unsigned k, call;

    for (k = 0; k < 3; k++) {
        lend(wrong[k].groups, wrong[k].homes, ROOM);
        for (call = FORMAT; call < CALLS; call++)
            expect((enum call)call, 0, 0, 1, "trial 11: a wrong size");
    }
    for (k = 0; k < 4; k++) {
        lend(right[k].groups, right[k].homes, kagutin_format_batch(right[k].groups, right[k].homes));
        expect(FORMAT, 0, 0, 0, "trial 11: format");
        expect(OPEN, 0, 0, 0, "trial 11: open");
        expect(BEGIN, 0, 0, 0, "trial 11: begin");
        expect(STORE, 0, right[k].homes - 1, 0, "trial 11: the last home");
        expect(STORE, 0, right[k].homes, 5, "trial 11: no such home");
    }
    fresh();
    expect(BEGIN, 8, 0, 4, "trial 11: writer 8");
    expect(BEGIN, 7, 0, 0, "trial 11: writer 7");
    expect(STORE, 7, 8, 5, "trial 11: home 8");
    expect(STORE, 7, 7, 0, "trial 11: home 7");
}

static void limits(void)
{
    static const struct {
        int64_t start;
        uint64_t code;
    } starts[] = {{-5, 0}, {-4, 0}, {-3, 10}, {0, 10}, {1, 3}};
    unsigned k, i;

    fresh();
    begin_and_store(0, 0, 6, 4);
    lent.batch_size = 515;
    expect(STORE, 0, 7, 9, "trial 12: a batch of 515");
    lent.batch_size = 516;
    expect(STORE, 0, 7, 0, "trial 12: a batch of 516");
    for (k = 0; k < 5; k++) {
        uint64_t start = KAGUTIN_MAX_START + (uint64_t)starts[k].start;

        fresh();
        for (i = 0; i < 6; i++)
            lent.log[2 + i] = (uint8_t)(start >> 8 * i);
        expect(OPEN, 0, 0, starts[k].code, "trial 13: a high start");
    }
    fresh();
    lent.log[1] = 0x48;
    expect(OPEN, 0, 0, 3, "a head mark of the older format");
}

void play_trials(void)
{
    tags_and_order();
    lost_group(ABORT, 1, "trial 4");
    lost_group(COMMIT, 0, "trial 5");
    full_log();
    sizes();
    limits();
}
