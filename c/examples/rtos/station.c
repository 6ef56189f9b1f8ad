/*
 * A store under eight tasks: each counts in two homes that belong together; a
 * ninth one makes room, and opens the store again when the bus has failed. One
 * more only computes. docs/RTOS.md tells what to copy.
 */
#include "station.h"

#include <string.h>

enum { TASK_WORDS = 448, MAINTAIN_WORDS = 1664, COMPUTE_WORDS = 96, COMPUTES = 8000 /* microseconds, of every 40 ms */ };
enum { MAINTAINS = 1, LAST = 2, COMPUTING = 3, FIRST = LAST + TASKS - 1 }; /* priorities: task 7 goes before all others */

static uint8_t memory[KGT_MEMORY_SIZE(GROUPS, HOMES)];
static struct kagutin store;
static struct kgt_fram fram;
static struct rtos_mutex mutex;

/* ---- the lock ---- */

static int take_lock(void *context)
{
    uint32_t asked = rtos_running() ? rtos_microseconds() : 0, waited;

    rtos_take((struct rtos_mutex *)context);
    waited = rtos_running() ? rtos_microseconds() - asked : 0;
    if (rtos_running() && rtos_running()->own_priority == FIRST && waited > kept->seen.longest_wait)
        kept->seen.longest_wait = waited;
    return 0;
}

static void give_lock(void *context)
{
    rtos_give((struct rtos_mutex *)context);
}

/* ---- starting ---- */

static bool init_store(void)
{
    kgt_fram_init(&fram, GROUPS, 0, 2, chip_transfer, &kept->chip);
    return kgt_init(&store, memory, sizeof memory, GROUPS, HOMES, kgt_fram_driver(&fram)).code == KAGUTIN_DONE
        && kgt_set_lock(&store, take_lock, give_lock, &mutex).code == KAGUTIN_DONE
        && kgt_set_room(&store, KGT_ROOM_BY_MAINTAIN).code == KAGUTIN_DONE;
}

bool format_store(void)
{
    static uint8_t scratch[KGT_FORMAT_SIZE(GROUPS, HOMES)];

    return init_store() && kgt_format(&store, scratch, sizeof scratch).code == KAGUTIN_DONE;
}

/* The bus may fail inside an opening, too: then once more. */
static bool open_store(void)
{
    unsigned tries;
    uint64_t code = KGT_DRIVER_FAILED;

    for (tries = 0; tries < 3 && code == KGT_DRIVER_FAILED; tries++)
        code = kgt_open(&store).code;
    return code == KAGUTIN_DONE;
}

/* ---- counts, in two homes each ---- */

static void put_count(uint8_t *block, uint64_t count)
{
    size_t i;

    for (i = 0; i < KAGUTIN_BLOCK_SIZE; i++)
        block[i] = (uint8_t)(count >> 8 * (i % 8));
}

static uint64_t get_count(const uint8_t *block)
{
    uint64_t count = 0;
    int i;

    for (i = 7; i >= 0; i--)
        count = count << 8 | block[i];
    return count;
}

/* The count that the store has of a task; it must be whole, and the same in both homes. */
static uint64_t read_count(unsigned task)
{
    uint8_t one[KAGUTIN_BLOCK_SIZE], other[KAGUTIN_BLOCK_SIZE], right[KAGUTIN_BLOCK_SIZE];

    must(kgt_read(&store, task, PAIR + task, one).code == KAGUTIN_DONE, "a count is read");
    must(kgt_read(&store, task, PAIR + TASKS + task, other).code == KAGUTIN_DONE, "a count is read");
    put_count(right, get_count(one));
    must(memcmp(one, right, sizeof one) == 0 && memcmp(one, other, sizeof one) == 0, "a pair is whole");
    return get_count(one);
}

/* After an opening: nothing confirmed is lost, nothing is there that was not asked for. */
static void check_count(unsigned task)
{
    uint64_t count = read_count(task);

    must(count >= kept->confirmed[task], "no confirmed count is lost");
    must(count <= kept->asked[task], "no count that was not asked for");
    kept->asked[task] = kept->confirmed[task] = count;
}

bool start_store(void)
{
    unsigned task;

    if (!init_store() || !open_store())
        return false;
    for (task = 0; task < TASKS; task++)
        check_count(task);
    return true;
}

/* ---- the eight tasks ---- */

struct writer {
    struct rtos_task task;
    uint32_t stack[TASK_WORDS] __attribute__((aligned(8)));
    unsigned number;
    uint64_t count, ticket; /* committed; its ticket, if it is not yet known to be durable */
};

static struct writer writers[TASKS];
static uint64_t durable;               /* the last mark of a sync; 64 bits, so two stores: rtos_hold */
static volatile uint32_t openings;     /* since the start; tasks that wait look at it */
static volatile bool is_parked[TASKS]; /* waits for the next opening, outside of every call */

static void set_durable(uint64_t mark)
{
    rtos_hold();
    durable = mark;
    rtos_let_go();
}

static bool is_durable(const struct writer *writer)
{
    bool reached;

    rtos_hold();
    reached = durable >= writer->ticket;
    rtos_let_go();
    return reached;
}

/* Answer 65: the driver has failed and the store is shut. Waits for the opening, and reads what has become of the last count. */
static void wait_for_opening(struct writer *writer)
{
    uint32_t before = openings;

    is_parked[writer->number] = true;
    while (openings == before)
        rtos_sleep(1);
    writer->count = read_count(writer->number);
    writer->ticket = KGT_NOT_TOLD;
}

/*
 * Opens a transaction for two stores. Even tasks have their places promised and
 * wait here if the log is full; then no later call is answered 8.
 */
static uint64_t begin(struct writer *writer)
{
    uint64_t code;

    if (writer->number % 2)
        return kgt_begin(&store, writer->number).code;
    while ((code = kgt_reserve(&store, writer->number, 2).code) == KAGUTIN_NO_PLACES) {
        kept->seen.full++;
        rtos_sleep(3); /* the task that maintains makes room */
    }
    return code;
}

/* Two stores and the commit. Tasks 0 to 3 want it durable at once; the others' tickets are reached by the next sync. */
static uint64_t commit_count(struct writer *writer)
{
    unsigned number = writer->number;
    uint8_t block[KAGUTIN_BLOCK_SIZE];
    struct kgt_ticket ticket;
    uint64_t code;

    must(writer->count >= kept->confirmed[number], "a task goes on from the count that came back");
    put_count(block, writer->count + 1);
    kept->asked[number] = writer->count + 1;
    code = kgt_store(&store, number, PAIR + number, block).code;
    if (code == KAGUTIN_DONE)
        code = kgt_store(&store, number, PAIR + TASKS + number, block).code;
    if (code != KAGUTIN_DONE)
        return code;
    ticket = number < TASKS / 2 ? kgt_commit_sync(&store, number) : kgt_commit(&store, number);
    if (ticket.ticket == KGT_NOT_TOLD)
        return ticket.code;
    writer->count++;
    writer->ticket = ticket.ticket;
    kept->seen.commits++;
    /* 18 instead of 0: committed, and durable once a later sync's mark reaches the ticket. */
    if (number < TASKS / 2 && ticket.code == KAGUTIN_DONE)
        kept->confirmed[number] = writer->count;
    return KAGUTIN_DONE;
}

/* One count more. Answer 8: the log is full; gives the transaction up and comes again. */
static void count_once(struct writer *writer)
{
    uint64_t code = begin(writer);

    if (is_durable(writer))
        kept->confirmed[writer->number] = writer->count;
    if (code == KAGUTIN_DONE)
        code = commit_count(writer);
    if (code == KAGUTIN_FULL) {
        kept->seen.full++;
        code = kgt_abort(&store, writer->number).code;
    }
    if (code == KGT_DRIVER_FAILED)
        wait_for_opening(writer);
    else
        must(code == KAGUTIN_DONE, "an answer that a task knows");
}

static void count_on(void *argument)
{
    struct writer *writer = (struct writer *)argument;

    for (;;) {
        rtos_sleep(6 + draw(16));
        count_once(writer);
    }
}

/* ---- the task that maintains ---- */

static struct rtos_task maintainer;
static uint32_t maintain_stack[MAINTAIN_WORDS] __attribute__((aligned(8)));

/* The store is shut for every task; when all have come out of their calls, it is opened again. */
static void open_again(void)
{
    unsigned task;

    for (task = 0; task < TASKS; task++)
        while (!is_parked[task])
            rtos_sleep(1);
    must(open_store(), "an opening after a failure");
    for (task = 0; task < TASKS; task++) {
        check_count(task);
        is_parked[task] = false;
    }
    set_durable(0);
    kept->seen.reopened++;
    openings++;
}

static void maintain_on(void *argument)
{
    struct kgt_mark mark;
    struct kgt_progress left;

    (void)argument;
    for (;;) {
        rtos_sleep(4);
        mark = kgt_sync(&store);
        if (mark.code == KAGUTIN_DONE)
            set_durable(mark.mark);
        do
            left = kgt_maintain(&store, 4); /* the tasks above this one come between */
        while (left.more);                  /* false after a failure */
        if (left.code == KGT_DRIVER_FAILED)
            open_again();
    }
}

/* ---- a task that computes, above the one that maintains and below most others, and never touches the store ---- */

static struct rtos_task computer;
static uint32_t compute_stack[COMPUTE_WORDS] __attribute__((aligned(8)));

static void compute_on(void *argument)
{
    uint32_t begun;

    (void)argument;
    for (;;) {
        begun = rtos_microseconds();
        while (rtos_microseconds() - begun < COMPUTES)
            ;
        rtos_sleep(32);
    }
}

void run_tasks(void)
{
    unsigned task;

    for (task = 0; task < TASKS; task++) {
        writers[task].number = task;
        writers[task].count = kept->confirmed[task];
        writers[task].ticket = KGT_NOT_TOLD;
        rtos_add(&writers[task].task, count_on, &writers[task], writers[task].stack, TASK_WORDS, LAST + task);
    }
    rtos_add(&computer, compute_on, NULL, compute_stack, COMPUTE_WORDS, COMPUTING);
    rtos_add(&maintainer, maintain_on, NULL, maintain_stack, MAINTAIN_WORDS, MAINTAINS);
    rtos_start();
}

/* ---- figures ---- */

void note_use(void)
{
    size_t used;
    unsigned task;

    for (task = 0; task < TASKS; task++) {
        used = rtos_stack_used(&writers[task].task);
        if (used > kept->seen.task_stack)
            kept->seen.task_stack = (uint32_t)used;
    }
    used = rtos_stack_used(&maintainer);
    if (used > kept->seen.maintain_stack)
        kept->seen.maintain_stack = (uint32_t)used;
    must(kept->seen.task_stack < sizeof writers->stack && kept->seen.maintain_stack < sizeof maintain_stack,
         "stacks are large enough");
    kept->seen.passed_on += mutex.passed_on;
}

size_t store_ram(void)
{
    return sizeof memory + sizeof store + sizeof fram;
}

size_t tasks_ram(void)
{
    return sizeof writers + sizeof maintainer + sizeof maintain_stack + sizeof computer + sizeof compute_stack;
}
