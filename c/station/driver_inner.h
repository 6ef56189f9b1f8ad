/* Shared by the driver's two files. */
#ifndef STATION_DRIVER_INNER_H
#define STATION_DRIVER_INNER_H

#include "driver.h"

/* Leaves a message and returns false. */
bool driver_fail(struct driver *driver, const char *format, ...);

#endif
