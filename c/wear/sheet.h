/* The wear sheet of one or more images, the pump to open first at the front. */
#ifndef WEAR_SHEET_H
#define WEAR_SHEET_H

#include <stdbool.h>
#include <stddef.h>
#include <stdint.h>
#include <stdio.h>

#include "common/day.h"
#include "options.h"

#define WEAR_CSV_MARK "order,image,pump,starts,run_seconds"
#define WEAR_PAGE_MARK "<!DOCTYPE html>\n<!-- Kagutin wear sheet"

/* How a number stands to the truth. */
enum wear_bound { WEAR_EXACT, WEAR_AT_LEAST, WEAR_AT_MOST, WEAR_ABOUT };

/* What the last sheet says of a pump. */
enum wear_change {
    WEAR_NOT_ASKED,
    WEAR_COMPARED,
    WEAR_NEW,      /* its station is not in the last sheet */
    WEAR_NOT_THEN, /* it could not be read then */
    WEAR_RESET     /* its book went back: exchanged, or begun anew */
};

struct wear_row {
    size_t station;
    unsigned pump;
    uint64_t starts, seconds; /* seconds of finished runs */
    uint64_t second;          /* of the last event: since when it runs, or stands */
    bool running;
    uint64_t run, counted_to;  /* running: seconds of this run, up to that second of the station's clock */
    enum wear_bound run_bound; /* at least, unless now was given */
    char serviced[24];         /* the last service, as given; empty if none is known */
    uint64_t worn;             /* seconds since the last service, or since the format */
    enum wear_bound bound;
    uint64_t services, left; /* worn is services whole intervals, and left */
    enum wear_change change;
    uint64_t more_starts, more_seconds; /* compared: since the last sheet */
    enum wear_bound more_bound;
};

struct wear_station {
    const char *path;
    bool read;            /* at least one of its pumps */
    bool unread, doubled; /* it could not be read; it was given before */
    uint64_t device, number, digest;
    size_t idle; /* pumps that never started and are left out */
    bool in_last;
};

enum wear_kind { WEAR_UNREAD, WEAR_GONE, WEAR_NOTE };
enum { WEAR_NO_PUMP = 255 };

/* What the sheet says before the pumps. */
struct wear_remark {
    enum wear_kind kind;
    char *image; /* null if it is about the sheet */
    unsigned pump;
    char *text;
};

struct wear_sheet {
    struct wear_row *rows;
    size_t count;
    struct wear_station *stations;
    size_t station_count, asked_count, read_count; /* given, without those given twice, read */
    size_t idle;
    struct wear_remark *remarks;
    size_t remark_count;
    uint64_t interval;       /* seconds */
    int64_t day, last_day;   /* of this sheet and of the last one; -1 if it has none */
    bool serviced, compared; /* services done, and a last sheet, were given */
};

/* ---- made ---- */

/* Reads the pumps of every image; what cannot be read becomes a remark. */
void wear_read_images(struct wear_sheet *sheet, const struct wear_options *options);

/* Compares with the last sheet: a CSV of this program. Ends the program if it cannot be read. */
void wear_compare(struct wear_sheet *sheet, const char *path);

/* Services done, from a CSV; path may be null. Ends the program if it cannot be read. Then what is worn and due. */
void wear_services(struct wear_sheet *sheet, const char *path);

/* Leaves out the pumps that never started, unless all are wanted, and puts the pump to open first at the front. */
void wear_order(struct wear_sheet *sheet, bool all);

/* ---- told ---- */

void wear_remark(struct wear_sheet *sheet, enum wear_kind kind, const char *image, unsigned pump, const char *format, ...);

/* The station of that name, as wear_match has it; station_count if there is none, or more than one. */
size_t wear_find(const struct wear_sheet *sheet, const char *name);

/* Room for so many more, or the end of the program. */
void *wear_room(void *old, size_t count, size_t size);

/* "3 stations", or "3 of 4 stations" if one could not be read. */
void wear_put_stations(const struct wear_sheet *sheet, FILE *file);

uint64_t wear_total(const struct wear_row *row);

/* Hours with two digits behind the point, cut off. */
#define WEAR_HOURS 32
const char *wear_hours(uint64_t seconds, char text[WEAR_HOURS]);

/* The same with what it is: >= at least, <= at most, ~ about. */
const char *wear_bounded(uint64_t seconds, enum wear_bound bound, char text[WEAR_HOURS]);
const char *wear_bound_name(enum wear_bound bound);
const char *wear_bound_sign(enum wear_bound bound);

/* How what is left stands to the truth, if what is gone stands so. */
enum wear_bound wear_bound_left(enum wear_bound bound);

/* What is to be known of a pump beside its figures: it runs, was serviced, exchanged. Empty if nothing. */
#define WEAR_STATE 400
const char *wear_state(const struct wear_row *row, char text[WEAR_STATE]);

void wear_text(const struct wear_sheet *sheet, FILE *file);
void wear_csv(const struct wear_sheet *sheet, FILE *file);
void wear_page(const struct wear_sheet *sheet, FILE *file);

/* A name, with question marks for bytes that are no text. */
void wear_put_name(const char *name, FILE *file);

#endif
