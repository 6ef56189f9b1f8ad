/* Plays all on this machine and writes what came of each call, as C for the checker on another: record CALLS > recorded.h */
#include <inttypes.h>
#include <stdio.h>
#include <stdlib.h>

#include "replay.h"

static int wrong;

void observe(enum call call, struct kagutin_reply reply, uint64_t hash)
{
    printf("{ %u, %" PRIu64 "u, UINT64_C(%" PRIu64 "), %" PRIu64 "u, UINT64_C(0x%016" PRIx64 ") },\n", (unsigned)call, reply.code,
           reply.figure, reply.size, hash);
}

void complain(const char *what)
{
    fprintf(stderr, "record: %s\n", what);
    wrong = 1;
}

int main(int count, char **words)
{
    if (count != 2) {
        fprintf(stderr, "usage: record CALLS > recorded.h\n");
        return 2;
    }
    play_trials();
    play_histories(strtoul(words[1], NULL, 10));
    return wrong;
}
