/*
 * Who may touch what: the list of rights, 256 bytes in homes 8 to 11.
 *
 * All may read those four homes and only writer 0 may store to them. For each
 * writer the list has four ranges of homes to store to and four to read. From
 * the commit of a list on a store elsewhere is answered 19, a read 20, also for
 * writer 0. 256 zeros, or fewer than 12 homes, is no list: every other home is
 * then open to all. docs/HOMES.md has the bytes. kgt_store refuses these homes
 * (68) unless kgt_allow_list_stores was called: a block that was not meant for a
 * list would be one, and lock all writers out.
 *
 *     static bool give_rights(void)                              // true: no power cut takes the list away
 *     {
 *         struct kgt_rights list;
 *         struct kgt_ticket set;
 *
 *         kgt_rights_clear(&list);
 *         if (!kgt_rights_allow_store(&list, 3, 24, 6)           // writer 3, homes 24 to 29
 *             || !kgt_rights_allow_read(&list, 3, 0, 65535))     // and it may read all
 *             return false;
 *         set = kgt_set_rights(&store, &list);                   // done: it counts from now on
 *         return kgt_sync(&store).mark >= set.ticket;
 *     }
 */
#ifndef KAGUTIN_RIGHTS_H
#define KAGUTIN_RIGHTS_H

#include "kagutin_store.h"

#ifdef __cplusplus
extern "C" {
#endif

#define KGT_RIGHTS_HOME 8
#define KGT_RIGHTS_HOMES 4
#define KGT_RIGHTS_RANGES 4 /* of each kind, for each writer */
#define KGT_RIGHTS_SIZE (KGT_RIGHTS_HOMES * KAGUTIN_BLOCK_SIZE)

struct kgt_rights {
    uint8_t bytes[KGT_RIGHTS_SIZE];
};

/* A range of homes: those from first to below first + number. */
struct kgt_range {
    uint64_t first, number;
};

/* No list. */
void kgt_rights_clear(struct kgt_rights *list);

/*
 * Adds a range that a writer may store to, or read. False, and the list as it
 * was: no such writer, a first home or number above 65,535, or four ranges of
 * that kind already. A number of 0 adds nothing.
 */
bool kgt_rights_allow_store(struct kgt_rights *list, uint64_t writer, uint64_t first, uint64_t number);
bool kgt_rights_allow_read(struct kgt_rights *list, uint64_t writer, uint64_t first, uint64_t number);

/* One of the four ranges of a writer; writer below 8, index below 4. */
struct kgt_range kgt_rights_store_range(const struct kgt_rights *list, uint64_t writer, unsigned index);
struct kgt_range kgt_rights_read_range(const struct kgt_rights *list, uint64_t writer, unsigned index);

/* Is it a list? What does it let a writer below 8 do? The homes of the list itself are those of writer 0. */
bool kgt_rights_is_list(const struct kgt_rights *list);
bool kgt_rights_may_store(const struct kgt_rights *list, uint64_t writer, uint64_t home);
bool kgt_rights_may_read(const struct kgt_rights *list, uint64_t writer, uint64_t home);

/*
 * Commits a list as one transaction of writer 0, which must be idle; no power
 * cut leaves a part of it. It is durable once kgt_sync's mark reaches the ticket.
 * Makes room in a full log as kgt_commit does. Answers 5 (fewer than 12 homes),
 * 6, 8 (no room for four entries), 10, 64, 65, 66, 67; but for 65 nothing has
 * changed then, and after 65 an opening tells. [S-81]
 */
struct kgt_ticket kgt_set_rights(struct kagutin *store, const struct kgt_rights *list);

/*
 * Gives the list as the writer sees it: the committed one, but for what an open
 * transaction of writer 0 has stored there. All of one moment. Answers 4, 5, 64,
 * 65, 66, 67; the list is then as it was.
 */
struct kgt_reply kgt_get_rights(struct kagutin *store, uint64_t writer, struct kgt_rights *list);

#ifdef __cplusplus
}
#endif

#endif
