/* docs/DRIVERS.md: the power-loss kit on the FRAM driver. */
#include "tries.h"

#include "drivers_powerloss.snippet"

int main(void)
{
    try_check(try_driver(), "the FRAM driver keeps its duties");
    try_check(kit.trials > 1000, "many trials");
    return try_end("drivers_powerloss");
}
