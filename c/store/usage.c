/* What the state tells of a log: its numbers, and who holds it back. */
#include "kagutin_store_inner.h"

static uint64_t half_number(const uint8_t *bytes)
{
    return bytes[0] | (uint32_t)bytes[1] << 8 | (uint32_t)bytes[2] << 16 | (uint32_t)bytes[3] << 24;
}

uint64_t kgt_inner_number(const uint8_t *state, size_t at)
{
    return half_number(state + at) | half_number(state + at + 4) << 32;
}

uint64_t kgt_inner_holder(const uint8_t *state, uint64_t *first)
{
    uint64_t holder = KGT_NO_HOLDER, begins;
    size_t writer;

    *first = 0;
    for (writer = 0; writer < KAGUTIN_WRITERS; writer++) {
        if (state[STATE_MODES + writer] != STATE_MODE_LOGGING)
            continue;
        begins = kgt_inner_number(state, STATE_WRITERS + STATE_WRITER_SIZE * writer + STATE_WRITER_FIRST);
        if (holder == KGT_NO_HOLDER || begins < *first) {
            holder = writer;
            *first = begins;
        }
    }
    return holder;
}

struct kgt_reply kgt_usage(struct kagutin *store, struct kagutin_places *places)
{
    static const struct kagutin_places none = {0, 0, 0, 0, 0, KGT_NO_HOLDER, 0};
    struct kgt_reply reply = kgt_inner_enter(store);
    struct kagutin_places found = none;

    if (reply.code == KAGUTIN_DONE) {
        found = kagutin_usage(KGT_AREAS(store), KGT_STATE(store));
        reply = kgt_inner_leave(store, kgt_inner_answer(found.code));
    }
    *places = reply.code == KAGUTIN_DONE ? found : none;
    places->code = reply.code;
    return reply;
}
