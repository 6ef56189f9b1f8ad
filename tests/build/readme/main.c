/* The README's example, as readme.c, with a main: stores a block, starts again, and finds it. */
#include <stdio.h>
#include <string.h>

#include "readme.c"

int main(int count, char **words)
{
    uint8_t block[KAGUTIN_BLOCK_SIZE], back[KAGUTIN_BLOCK_SIZE];

    memset(block, 'k', sizeof block);
    if (count < 2 || !start(words[1]) || !keep(block))
        return 1;
    kgt_file_close(&file);
    if (!start(words[1]) || kgt_read(&store, 0, 7, back).code != KAGUTIN_DONE || memcmp(back, block, sizeof back) != 0)
        return 2;
    kgt_file_close(&file);
    printf("kept, version %s\n", kagutin_version());
    return 0;
}
