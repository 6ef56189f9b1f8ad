/*
 * The station's driver: it holds writes back, so that a power cut can choose
 * which of them persist. Its lasting memory is an image file or ordinary
 * memory.
 *
 * Records of a batch wait in the driver. driver_step issues them one by one:
 * a write is held back until its fence passes, so that a power cut can choose
 * any blocks of the writes since the last fence; a fence writes what was
 * issued and waits until it is in lasting memory.
 *
 * A function that fails returns false and leaves a message for driver_message.
 * After lasting memory has failed once no fence passes any more and nothing is
 * confirmed, until the image is opened anew.
 */
#ifndef STATION_DRIVER_H
#define STATION_DRIVER_H

#include <stdbool.h>
#include <stddef.h>
#include <stdint.h>

#include "kagutin_file.h"
#include "kagutin_memory.h"

struct driver {
    size_t groups, homes;
    size_t log_size, area_size;
    uint8_t *log, *area; /* the copies that are lent to calls */
    uint8_t state[KAGUTIN_STATE_SIZE];
    uint8_t *newest; /* the newest position of each home */
    size_t newest_size;
    uint8_t *batch;
    size_t batch_size;

    /*
     * Called for each write of which blocks persist; may be null. blocks: a bit
     * for each of its blocks of 64 bytes, the first lowest. number, for a GW with
     * a group's number: how many such came before it.
     */
    void (*persisted)(void *context, const struct kgt_record *record, uint64_t number, unsigned blocks);
    void *context;

    /* The rest is the driver's own. */
    struct kgt_file file;
    struct kgt_memory memory;
    uint8_t *image; /* of an unnamed one: what lasts, then what is written */
    struct kgt_runner runner;
    bool failed;
    uint8_t *queue; /* records not yet persisted, as in a batch */
    size_t queue_size, queue_room;
    size_t issued;        /* bytes at the front of the queue issued so far */
    size_t fences;        /* fences in the queue */
    uint64_t first_group; /* groups with a number before the queue */
    uint8_t *written;     /* blocks written since the last fence in the queue */
    char message[320];
};

/* Makes a driver of which nothing is held; driver_close is then safe. */
void driver_clear(struct driver *driver);

/* Makes an image file of an empty store; path must not exist. */
bool driver_create(struct driver *driver, const char *path, size_t groups, size_t homes);

/* Makes an image in ordinary memory. */
bool driver_create_unnamed(struct driver *driver, size_t groups, size_t homes);

/* Opens an image file and loads its areas. */
bool driver_open(struct driver *driver, const char *path);

/* Loads both whole areas afresh into the copies. */
bool driver_load(struct driver *driver);

/*
 * Queues the first size bytes of the driver's batch. A damaged batch, or one
 * that writes a block twice between two fences, is refused whole.
 */
bool driver_submit(struct driver *driver, uint64_t size);

/* Issues the next record, if one waits. */
bool driver_step(struct driver *driver);

/* Is a write the next record to be issued? */
bool driver_write_waits(const struct driver *driver);

/* Issues all records that wait. Writes after the last fence stay held back. */
bool driver_run(struct driver *driver);

/* Records that wait, not yet issued; writes issued since the last fence, and their blocks. */
size_t driver_waiting(const struct driver *driver);
size_t driver_issued(const struct driver *driver);
size_t driver_blocks_issued(const struct driver *driver);

/* Groups with a number issued since the image was opened. */
uint64_t driver_groups_issued(const struct driver *driver);

/* Confirms if every fence has passed; otherwise fails without the call. */
bool driver_confirm(struct driver *driver, struct kagutin_reply *reply);

/*
 * Power cut: of the blocks of the issued writes, in order, those that lands()
 * picks persist, the others and the other records are gone. So a group of
 * eight blocks can arrive torn. The copies, the state and the newest positions
 * are filled with noise.
 */
bool driver_cut(struct driver *driver, bool (*lands)(void *context, size_t index), void *context);

/* Releases everything. Records not yet persisted are gone, as in a cut. */
void driver_close(struct driver *driver);

/* What went wrong last. */
const char *driver_message(const struct driver *driver);

#endif
