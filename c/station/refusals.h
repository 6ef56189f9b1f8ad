/* Calls that must be refused, with every lent byte left as it was. */
#ifndef STATION_REFUSALS_H
#define STATION_REFUSALS_H

#include "station.h"

/* Remember the lent memory; check that a call was refused and left it alone. */
void refusal_prepare(struct station *station);
void refusal_check(struct station *station, const char *call, struct kagutin_reply reply, uint64_t code);

/*
 * On the loaded copies: if the start cannot move on, the opening must say so;
 * the image is then worn out.
 */
bool refusal_if_worn_out(struct station *station);

/* Make one call that must be refused, chosen at random. */
void refusal_try(struct station *station);
void refusal_try_open(struct station *station);

#endif
