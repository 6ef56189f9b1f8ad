// kagutin.hpp: transactions that end with their object, on a store in plain memory. Status 1 if a check fails.
#include "kagutin.hpp"

#include <cstdio>
#include <cstring>
#include <stdexcept>
#include <type_traits>
#include <utility>

namespace {

constexpr std::size_t groups = 8, homes = 16;
using small_store = kgt::store<groups, homes>;

static_assert(!std::is_copy_constructible<kgt::transaction>::value, "a transaction has one owner");
static_assert(!std::is_copy_constructible<small_store>::value && !std::is_move_constructible<small_store>::value, "a store stays where it is");

std::array<std::uint8_t, kgt::log_size(groups)> log_area;
std::array<std::uint8_t, kgt::homes_size(homes)> home_area;
bool broken;
int failures;

std::uint8_t *place(kgt_area area, std::size_t at)
{
    return (area == KGT_LOG ? log_area.data() : home_area.data()) + at;
}

int load(void *, kgt_area area, std::size_t at, std::uint8_t *bytes, std::size_t size)
{
    std::memcpy(bytes, place(area, at), size);
    return 0;
}

int write(void *, kgt_area area, std::size_t at, const std::uint8_t *bytes, std::size_t size)
{
    if (!broken)
        std::memcpy(place(area, at), bytes, size);
    return broken ? 5 : 0;
}

int fence(void *)
{
    return broken ? 5 : 0;
}

kgt_driver driver()
{
    return kgt_driver{nullptr, load, write, fence, KGT_LANDS_WORDS};
}

void check(bool right, const char *what)
{
    if (!right) {
        std::printf("wrong: %s\n", what);
        failures++;
    }
}

kgt::block of(std::uint8_t byte)
{
    kgt::block bytes;

    bytes.fill(byte);
    return bytes;
}

bool holds(small_store &store, std::uint64_t home, std::uint8_t byte)
{
    kgt::block found = of(0xee);

    return kgt::done(store.read(0, home, found)) && found == of(byte);
}

void check_committed(small_store &store)
{
    kgt::transaction work = store.begin(0);

    check(work.active() && kgt::done(work.begun()), "begins");
    check(kgt::done(work.store(3, of(1))), "stores");
    check(kgt::done(work.commit_sync()) && !work.active(), "commits and has ended");
    check(work.store(3, of(2)).code == KAGUTIN_NOT_OPEN && work.commit().ticket == KGT_NOT_TOLD && work.abort().code == KAGUTIN_NOT_OPEN,
          "after that it refuses");
    check(kgt::done(store.open()) && holds(store, 3, 1), "what was durable is there after an opening");
}

void check_dropped(small_store &store)
{
    {
        kgt::transaction work = store.begin(0);
        check(kgt::done(work.store(3, of(9))), "stores");
    }
    try {
        kgt::transaction work = store.begin(0);
        check(work.active(), "the one before was aborted");
        check(kgt::done(work.store(4, of(9))), "stores");
        throw std::runtime_error("on the way");
    } catch (const std::runtime_error &) {
    }
    check(store.begin(0).active(), "an exception aborts too");
    check(holds(store, 3, 1) && holds(store, 4, 0), "and nothing of them is there");
}

void check_others(small_store &store)
{
    kgt::transaction first = store.begin(2);

    check(kgt::done(first.store(5, of(5))), "stores");
    {
        kgt::transaction second = store.begin(2);
        check(!second.active() && second.begun().code == KAGUTIN_NOT_IDLE, "a writer has one transaction");
        check(second.commit_sync().code == KAGUTIN_NOT_OPEN, "the refused one commits nothing");
    }
    kgt::transaction moved = std::move(first);
    check(!first.active() && moved.active(), "a move hands it on");
    const kgt_ticket commit = moved.commit();
    check(kgt::done(commit) && store.sync().mark >= commit.ticket && holds(store, 5, 5), "the first one was left alone, and its ticket is reached");
}

/* A transaction too long for the log is refused, stays active, and is aborted. */
void check_full(small_store &store)
{
    {
        kgt::transaction work = store.begin(1);
        kgt_reply reply = work.begun();
        for (std::uint64_t n = 0; kgt::done(reply) && n < 1000; n++)
            reply = work.store(n % 7, of(7));
        check(reply.code == KAGUTIN_FULL && reply.holder == 1 && work.active(), "a full log is told");
    }
    check(holds(store, 5, 5), "and nothing of it is there");
    kgt::transaction promised = store.reserve(1, 4);
    check(promised.active() && kgt::done(promised.store(6, of(6))) && kgt::done(promised.commit_sync()), "room again, with places promised");
}

void check_failed(small_store &store)
{
    {
        kgt::transaction work = store.begin(0);
        check(kgt::done(work.store(3, of(8))), "stores");
        broken = true;
        check(work.commit_sync().code == KGT_DRIVER_FAILED && !work.active(), "a driver that fails ends it");
        broken = false;
        check(kgt::done(store.open()), "opens again");
        kgt::transaction next = store.begin(0);
        check(kgt::done(next.store(4, of(4))) && kgt::done(next.commit_sync()), "the next one goes on");
    }
    check((holds(store, 3, 1) || holds(store, 3, 8)) && holds(store, 4, 4), "all or nothing");
}

} // namespace

int main()
{
    static small_store store(driver());
    static std::array<std::uint8_t, kgt::format_size(groups, homes)> scratch;

    check(kgt::done(store.format(scratch)) && kgt::done(store.open()), "a new store");
    check_committed(store);
    check_dropped(store);
    check_others(store);
    check_full(store);
    check_failed(store);
    check(kgt::done(store.sync()) && kgt::done(store.maintain(0)) && kgt_set_room(store.object(), KGT_ROOM_BY_MAINTAIN).code == KAGUTIN_DONE, "the other calls");
    std::puts(failures ? "wrapper_check: failed" : "wrapper_check: passed");
    return failures != 0;
}
