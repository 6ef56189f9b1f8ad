/* include/kagutin_rights.h: a list that counts, whole, or none. */
#include "tries.h"

#include "kagutin_rights.h"

static struct kagutin store;

#include "kagutin_rights.snippet"

static bool in_list(const struct try_case *now)
{
    struct kgt_rights found;
    struct kagutin *opened;
    bool given, met, there;

    try_start(&store, now->landing);
    try_fill(&store, now->log);
    try_arm(now);
    given = give_rights();
    met = try_disarm();
    try_check(met || given == (now->log <= TRY_FULL), "durable where there is room, or can be made");
    if (!given && !met) {
        try_check(kgt_get_rights(&store, 3, &found).code == KAGUTIN_DONE, "the list can be read");
        try_check(!kgt_rights_is_list(&found), "refused: no list");
        try_free(&store);
    }
    try_cut(now->lands);
    opened = try_opened();
    try_check(kgt_get_rights(opened, 3, &found).code == KAGUTIN_DONE, "the list can be read");
    there = kgt_rights_is_list(&found);
    try_check(!there || (kgt_rights_may_store(&found, 3, 24) && kgt_rights_may_read(&found, 3, 0)), "whole");
    try_check(!given || there, "what is called durable is there after a cut");
    try_check(given || met || !there, "what was refused is not there");
    try_check(kgt_begin(opened, 3).code == KAGUTIN_DONE, "begin");
    try_check(kgt_store(opened, 3, 1, found.bytes).code == (there ? KAGUTIN_STORE_DENIED : KAGUTIN_DONE), "and counts");
    return met;
}

int main(void)
{
    try_all(in_list);
    return try_end("kagutin_rights");
}
