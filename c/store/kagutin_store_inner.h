/* What the files of the store object share: the lent memory, the lock, batches run, room made. Not for programs. */
#ifndef KAGUTIN_STORE_INNER_H
#define KAGUTIN_STORE_INNER_H

#include "kagutin_state_layout.h"
#include "kagutin_store.h"

/* What the library's calls are lent. */
#define KGT_AREAS(s) (s)->log, (s)->log_size, (s)->area, (s)->area_size
#define KGT_STATE(s) (s)->state, (size_t)KAGUTIN_STATE_SIZE
#define KGT_NEWEST(s) (s)->newest, (s)->newest_size
#define KGT_BATCH(s) (s)->batch, (s)->batch_size
#define KGT_MEMORY(s) KGT_AREAS(s), KGT_STATE(s), KGT_NEWEST(s)

/* A number of the state. */
uint64_t kgt_inner_number(const uint8_t *state, size_t at);

/* Writer whose open transaction begins first in the log, and where; KGT_NO_HOLDER and 0: none has entries there. */
uint64_t kgt_inner_holder(const uint8_t *state, uint64_t *first);

/* An answer that a call of the object gives by itself. */
struct kagutin_reply kgt_inner_answer(uint64_t code);

/*
 * Around every call. Enter takes the lock of a store that is open; unless the
 * reply is done it has given the lock back, and nothing was done. Leave makes
 * the reply of what the library answered, and gives the lock back.
 */
struct kgt_reply kgt_inner_enter(struct kagutin *store);
struct kgt_reply kgt_inner_leave(struct kagutin *store, struct kagutin_reply reply);

/* A reply with a ticket, the library's figure if the call is done. */
struct kgt_ticket kgt_inner_ticket(struct kgt_reply reply, uint64_t figure);

/* Between enter and leave. Runs the batch of a done call; from the first failure on the store is shut. */
struct kagutin_reply kgt_inner_run(struct kagutin *store, struct kagutin_reply reply);

/*
 * Between enter and leave. Makes room in a full log: true if the log's start has
 * moved, so that the refused call may be tried again; else reply is as it was,
 * or says what stopped it.
 */
bool kgt_inner_make_room(struct kagutin *store, struct kagutin_reply *reply);

/* Between enter and leave. Flush, with room made where promises forbid it, and confirm. */
struct kagutin_reply kgt_inner_sync(struct kagutin *store);

#endif
