/*
 * The store object in C++11 and later: a store with its memory, and a
 * transaction that aborts when it is not committed. Header-only, over
 * kagutin_store.h; no heap, no exceptions, no old-style casts. Replies are those
 * of the C calls, and what these promise holds here.
 *
 * In the repository tests/store/wrapper_check.cpp is a whole program. Compile
 * kagutin_all.c, or the C files, as C.
 */
#ifndef KAGUTIN_HPP
#define KAGUTIN_HPP

#include <array>
#include <cstddef>
#include <cstdint>

/* The one header, where it stands alone. */
#if defined(__has_include)
#if __has_include("kagutin_all.h") && !__has_include("kagutin_store.h")
#define KGT_ALL_ALONE
#endif
#endif
#if defined(KGT_ALL_ALONE)
#include "kagutin_all.h"
#else
#include "kagutin_store.h"
#endif

#if __cplusplus >= 201703L
#define KGT_NODISCARD [[nodiscard]]
#else
#define KGT_NODISCARD
#endif

namespace kgt {

using block = std::array<std::uint8_t, KAGUTIN_BLOCK_SIZE>;

/* ---- sizes, as KGT_LOG_SIZE and so on ---- */

constexpr std::size_t log_size(std::size_t groups)
{
    return KAGUTIN_HEADER_SIZE + KAGUTIN_GROUP_SIZE * groups;
}

constexpr std::size_t homes_size(std::size_t homes)
{
    return KAGUTIN_BLOCK_SIZE * homes;
}

constexpr std::size_t touched(std::size_t groups, std::size_t homes)
{
    return homes < KAGUTIN_GROUP_ENTRIES * groups ? homes : KAGUTIN_GROUP_ENTRIES * groups;
}

constexpr std::size_t batch_size(std::size_t groups, std::size_t homes)
{
    return KAGUTIN_HW_SIZE * touched(groups, homes) + KAGUTIN_KW_SIZE + KAGUTIN_GW_SIZE * groups + 3 * KAGUTIN_FN_SIZE;
}

constexpr std::size_t memory_size(std::size_t groups, std::size_t homes)
{
    return log_size(groups) + homes_size(homes) + KAGUTIN_STATE_SIZE + KAGUTIN_POSITION_SIZE * homes + batch_size(groups, homes);
}

constexpr std::size_t format_size(std::size_t groups, std::size_t homes)
{
    return KAGUTIN_GW_SIZE * groups + KAGUTIN_HW_SIZE * homes + 2 * KAGUTIN_KW_SIZE + 3 * KAGUTIN_FN_SIZE;
}

/* A call is done. */
template <typename Reply> KGT_NODISCARD bool done(const Reply &reply)
{
    return reply.code == KAGUTIN_DONE;
}

/* ---- a transaction ---- */

/*
 * Begins with its object and ends with it: aborted unless commit was done. One
 * that was not begun, as active() tells, refuses every call with 7 and leaves
 * the writer's other transaction alone. Ends before the store is opened again.
 */
class transaction {
public:
    transaction(::kagutin &store, std::uint64_t writer)
        : store_(&store), writer_(writer), begun_(kgt_begin(&store, writer)), active_(begun_.code == KAGUTIN_DONE)
    {
    }

    /* With so many places of the log promised to it. */
    transaction(::kagutin &store, std::uint64_t writer, std::uint64_t places)
        : store_(&store), writer_(writer), begun_(kgt_reserve(&store, writer, places)), active_(begun_.code == KAGUTIN_DONE)
    {
    }

    transaction(const transaction &) = delete;
    transaction &operator=(const transaction &) = delete;
    transaction &operator=(transaction &&) = delete;

    transaction(transaction &&other) noexcept
        : store_(other.store_), writer_(other.writer_), begun_(other.begun_), active_(other.active_)
    {
        other.active_ = false;
    }

    ~transaction()
    {
        if (active_)
            static_cast<void>(kgt_abort(store_, writer_));
    }

    /* Begun, and neither committed nor aborted. */
    KGT_NODISCARD bool active() const
    {
        return active_;
    }

    /* What begin or reserve answered. */
    KGT_NODISCARD kgt_reply begun() const
    {
        return begun_;
    }

    KGT_NODISCARD kgt_reply store(std::uint64_t home, const block &bytes)
    {
        return active_ ? watch(kgt_store(store_, writer_, home, bytes.data())) : none();
    }

    KGT_NODISCARD kgt_ticket commit()
    {
        return end(active_ ? kgt_commit(store_, writer_) : no_ticket());
    }

    /* Done: durable. 18 with a ticket: committed, and durable once a later sync's mark reaches it. */
    KGT_NODISCARD kgt_ticket commit_sync()
    {
        return end(active_ ? kgt_commit_sync(store_, writer_) : no_ticket());
    }

    kgt_reply abort()
    {
        const kgt_reply reply = active_ ? watch(kgt_abort(store_, writer_)) : none();

        active_ = active_ && reply.code != KAGUTIN_DONE;
        return reply;
    }

private:
    static kgt_reply none()
    {
        return kgt_reply{KAGUTIN_NOT_OPEN, KGT_NO_HOLDER, 0};
    }

    static kgt_ticket no_ticket()
    {
        return kgt_ticket{KAGUTIN_NOT_OPEN, KGT_NOT_TOLD, KGT_NO_HOLDER, 0};
    }

    /* With a driver that failed no transaction is open any more. */
    template <typename Reply> Reply watch(Reply reply)
    {
        active_ = active_ && reply.code != KGT_DRIVER_FAILED;
        return reply;
    }

    kgt_ticket end(kgt_ticket reply)
    {
        active_ = active_ && reply.code != KAGUTIN_DONE && reply.ticket == KGT_NOT_TOLD;
        return watch(reply);
    }

    ::kagutin *store_;
    std::uint64_t writer_;
    kgt_reply begun_;
    bool active_;
};

/* ---- a store with its memory ---- */

/* Of a shape that is known when it is compiled; best a static object. Neither copied nor moved: the C object points into it. */
template <std::size_t Groups, std::size_t Homes> class store {
    static_assert(Groups >= KAGUTIN_MIN_GROUPS && Groups <= KAGUTIN_MAX_GROUPS, "groups");
    static_assert(Homes >= KAGUTIN_MIN_HOMES && Homes <= KAGUTIN_MAX_HOMES, "homes");

public:
    explicit store(kgt_driver driver) : memory_(), object_()
    {
        static_cast<void>(kgt_init(&object_, memory_.data(), memory_.size(), Groups, Homes, driver));
    }

    store(const store &) = delete;
    store &operator=(const store &) = delete;

    /* Once in a device's life. Takes its scratch from the caller, who has it back afterwards. */
    KGT_NODISCARD kgt_reply format(std::array<std::uint8_t, format_size(Groups, Homes)> &scratch)
    {
        return kgt_format(&object_, scratch.data(), scratch.size());
    }

    KGT_NODISCARD kgt_opened open()
    {
        return kgt_open(&object_);
    }

    KGT_NODISCARD transaction begin(std::uint64_t writer)
    {
        return transaction(object_, writer);
    }

    KGT_NODISCARD transaction reserve(std::uint64_t writer, std::uint64_t places)
    {
        return transaction(object_, writer, places);
    }

    KGT_NODISCARD kgt_reply read(std::uint64_t writer, std::uint64_t home, block &bytes)
    {
        return kgt_read(&object_, writer, home, bytes.data());
    }

    KGT_NODISCARD kgt_mark sync()
    {
        return kgt_sync(&object_);
    }

    KGT_NODISCARD kgt_progress maintain(std::uint64_t most)
    {
        return kgt_maintain(&object_, most);
    }

    /* For the other C calls: locks, room, rights, units. */
    KGT_NODISCARD ::kagutin *object()
    {
        return &object_;
    }

private:
    std::array<std::uint8_t, memory_size(Groups, Homes)> memory_;
    ::kagutin object_;
};

} // namespace kgt

#endif
