/* Where the driver's lasting memory is: an image file, or ordinary memory. */
#include "driver_inner.h"

#include <stdlib.h>
#include <string.h>

void driver_close(struct driver *driver)
{
    kgt_file_close(&driver->file);
    free(driver->log);
    free(driver->area);
    free(driver->newest);
    free(driver->batch);
    free(driver->queue);
    free(driver->written);
    free(driver->image);
    driver->log = driver->area = driver->newest = driver->batch = NULL;
    driver->queue = driver->written = driver->image = NULL;
}

void driver_clear(struct driver *driver)
{
    memset(driver, 0, sizeof *driver);
    driver->file.descriptor = -1;
}

static bool allocate(struct driver *driver, size_t groups, size_t homes)
{
    driver->groups = groups;
    driver->homes = homes;
    driver->log_size = kagutin_log_size(groups);
    driver->area_size = kagutin_area_size(homes);
    driver->newest_size = kagutin_newest_size(homes);
    driver->batch_size = kagutin_format_batch(groups, homes);
    driver->log = calloc(1, driver->log_size);
    driver->area = calloc(1, driver->area_size);
    driver->newest = calloc(1, driver->newest_size);
    driver->batch = calloc(1, driver->batch_size);
    driver->written = calloc(1, 1 + groups + homes);
    if (!driver->log || !driver->area || !driver->newest || !driver->batch || !driver->written)
        return driver_fail(driver, "out of memory for the copies of the areas");
    return true;
}

/* Works on a file that has just been made or opened. */
static bool use_file(struct driver *driver, bool ready)
{
    if (!ready)
        return driver_fail(driver, "%s", driver->file.message);
    if (!allocate(driver, driver->file.groups, driver->file.homes))
        return false;
    kgt_runner_init(&driver->runner, kgt_file_driver(&driver->file), NULL, NULL, driver->groups, driver->homes);
    return driver_load(driver);
}

bool driver_create(struct driver *driver, const char *path, size_t groups, size_t homes)
{
    driver_clear(driver);
    return use_file(driver, kgt_file_create(&driver->file, path, groups, homes));
}

bool driver_open(struct driver *driver, const char *path)
{
    driver_clear(driver);
    return use_file(driver, kgt_file_open(&driver->file, path));
}

bool driver_create_unnamed(struct driver *driver, size_t groups, size_t homes)
{
    struct kagutin_reply reply;
    size_t size;

    driver_clear(driver);
    if (!allocate(driver, groups, homes))
        return false;
    size = driver->log_size + driver->area_size;
    driver->image = calloc(2, size);
    if (!driver->image)
        return driver_fail(driver, "out of memory for lasting memory");
    kgt_memory_init(&driver->memory, driver->image, driver->image + size, groups, homes);
    kgt_memory_keep_blocks(&driver->memory);
    kgt_runner_init(&driver->runner, kgt_memory_driver(&driver->memory), NULL, NULL, groups, homes);
    reply = kagutin_format(driver->log, driver->log_size, driver->area, driver->area_size, driver->batch, driver->batch_size);
    if (reply.code != KAGUTIN_DONE)
        return driver_fail(driver, "format answered %llu: %s", (unsigned long long)reply.code, kagutin_answer_text(reply.code));
    if (!driver_submit(driver, reply.size) || !driver_run(driver))
        return false;
    return true;
}
