/* The library's calls, each held against the book. */
#ifndef STATION_CALLS_H
#define STATION_CALLS_H

#include "station.h"

/* The driver has formatted: both copies and the image are those of an empty store. */
void call_formatted(struct station *station);

/*
 * Calls that must be done, checked against the book, their batches queued.
 * They give false, and leave all untouched: store and commit if the log is
 * full, reserve if too few places are free, flush if it would pass over
 * promised ones, read if the list of rights forbids it.
 */
void call_open(struct station *station);
void call_begin(struct station *station, unsigned writer);
bool call_reserve(struct station *station, unsigned writer, uint64_t places);
void call_abort(struct station *station, unsigned writer);
bool call_store(struct station *station, unsigned writer, size_t home, const uint8_t *block);
bool call_commit(struct station *station, unsigned writer);
bool call_flush(struct station *station);
void call_confirm(struct station *station);
void call_settle(struct station *station);
void call_begin_round(struct station *station);
void call_step_round(struct station *station, size_t homes);
void call_trim(struct station *station);
bool call_read(struct station *station, unsigned writer, size_t home, uint8_t *block);

/* Counts what fills the log. */
void call_usage(struct station *station);

#endif
