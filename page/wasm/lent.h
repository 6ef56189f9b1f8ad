/* The memory that the page's one store lends to its calls. */
#ifndef LENT_H
#define LENT_H

#include "kagutin.h"

struct lent {
    size_t groups, homes;
    uint8_t *log, *area, *state, *newest, *batch, *block;
    size_t log_size, area_size, newest_size, batch_size;
};

/* Programs that the page runs; all but the first are wrong on purpose. */
enum program { AS_PROVED, NO_FENCE, BLANKING_FIRST, BY_POSITION, PROGRAMS };

/* Takes the fences out of a batch; gives its new size. */
size_t wrong_no_fence(uint8_t *batch, size_t size);

/* Puts an opening's blank groups, and their fence, in front of its header. */
void wrong_blanking_first(uint8_t *batch, size_t size);

/* An opening whose homes get the entry of the highest position, not of the last commit. */
struct kagutin_reply wrong_open_by_position(struct lent *lent);

#endif
