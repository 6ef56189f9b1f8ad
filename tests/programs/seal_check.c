/* Sealed blocks: the checksum, every flipped bit and pair of bits, and a home of an image. Argument: an image to make, with a sealed home 5. */
/* Clauses: [S-84] */
#include <stdio.h>
#include <stdlib.h>
#include <string.h>

#include "kagutin_file.h"
#include "kagutin_seal.h"

enum { GROUPS = 4, HOMES = 30, HOME = 5, BITS = 512, MARK = 58 };

static uint8_t memory[KGT_MEMORY_SIZE(GROUPS, HOMES)];
static unsigned long checks;

static void check(int right, const char *what)
{
    checks++;
    if (right)
        return;
    printf("seal_check: wrong: %s, check %lu\n", what, checks);
    exit(1);
}

static void flip(uint8_t *block, unsigned bit)
{
    block[bit / 8] = (uint8_t)(block[bit / 8] ^ 1u << bit % 8);
}

/* No change of one or two bits passes for whole. */
static void check_flips(uint8_t *block)
{
    unsigned first, second;

    for (first = 0; first < BITS; first++) {
        flip(block, first);
        check(kagutin_look_at_seal(block) == (first / 16 == MARK / 2 ? KAGUTIN_SEAL_NONE : KAGUTIN_SEAL_BROKEN), "a flipped bit");
        for (second = 0; second < first; second++) {
            flip(block, second);
            check(kagutin_look_at_seal(block) != KAGUTIN_SEAL_WHOLE, "two flipped bits");
            flip(block, second);
        }
        flip(block, first);
    }
}

static void make_image(const char *path, const uint8_t *block)
{
    struct kgt_file file;
    struct kagutin store;

    if (!kgt_file_create(&file, path, GROUPS, HOMES)) {
        printf("seal_check: %s\n", file.message);
        exit(1);
    }
    check(kgt_init(&store, memory, sizeof memory, GROUPS, HOMES, kgt_file_driver(&file)).code == 0 && kgt_open(&store).code == 0,
          "open");
    check(kgt_begin(&store, 1).code == 0 && kgt_store(&store, 1, HOME, block).code == 0 && kgt_commit_sync(&store, 1).code == 0,
          "store");
    check(kgt_maintain(&store, 0).code == 0, "maintain");
    kgt_file_close(&file);
}

int main(int count, char **words)
{
    uint8_t block[64] = {0};
    unsigned i;

    check(kagutin_crc32((const uint8_t *)"123456789", 9) == 0xCBF43926u, "the known checksum");
    check(kagutin_look_at_seal(block) == KAGUTIN_SEAL_EMPTY, "an empty block");
    for (i = 0; i < KAGUTIN_SEALED_SIZE; i++)
        block[i] = (uint8_t)(7 * i + 1);
    check(kagutin_look_at_seal(block) == KAGUTIN_SEAL_NONE, "a block without a seal");
    kagutin_seal(block);
    check(kagutin_look_at_seal(block) == KAGUTIN_SEAL_WHOLE && block[0] == 1 && block[57] == (uint8_t)(7 * 57 + 1),
          "a sealed block");
    check_flips(block);
    if (count > 1)
        make_image(words[1], block);
    printf("seal_check: right, %lu checks\n", checks);
    return 0;
}
