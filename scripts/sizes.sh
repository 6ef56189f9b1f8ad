#!/bin/sh
# Code and memory on a Cortex-M4, -Os: sizes.sh (run by make sizes from the root).
set -eu
tmp=$(mktemp -d)
trap 'rm -rf "$tmp"' EXIT
flags="-mthumb -mcpu=cortex-m4 -Os -std=c99 -ffunction-sections -fdata-sections -Idist"

# What a part of the calls takes, linked with nothing that it does not use.
code() { # name, macros, calls
    {
        echo '#include "kagutin_all.h"'
        echo 'void Reset_Handler(void);'
        echo 'static struct kagutin store;'
        echo 'static struct kgt_driver driver;'
        echo 'static volatile uint64_t code;'
        echo 'static uint8_t memory[1], block[64];'
        echo "void Reset_Handler(void) { $3 }"
    } > "$tmp/main.c"
    # shellcheck disable=SC2086
    arm-none-eabi-gcc $flags $2 -nostartfiles -Wl,--gc-sections -Wl,-eReset_Handler --specs=nano.specs --specs=nosys.specs \
        "$tmp/main.c" dist/kagutin_all.c -o "$tmp/linked" 2> "$tmp/log" || { cat "$tmp/log"; exit 1; }
    arm-none-eabi-size "$tmp/linked" | awk -v name="$1" 'NR == 2 { printf "code  %6d bytes  %s\n", $1 + $2, name }'
}
writes='code = kgt_begin(&store, 0).code + kgt_store(&store, 0, 7, block).code + kgt_commit_sync(&store, 0).code;'
opens='code = kgt_init(&store, memory, 1, 4, 4, driver).code + kgt_open(&store).code;'
reads='code = kgt_read(&store, 0, 7, block).code;'
rounds='code = kgt_maintain(&store, 4).code;'
units='code = kgt_bands_set(&store, 0, block, 5).code + kgt_pump_start(&store, 0, 1, 2).code + kgt_alarm_arrive(&store, 0, 1, 2, 3).code;'
code "init, open, begin, store, commit, sync, read" "" "$opens $writes $reads"
code "and maintain" "" "$opens $writes $reads $rounds"
code "and depth bands, pump hours, alarms" "" "$opens $writes $reads $rounds $units"
# shellcheck disable=SC2086
for macros in "" "-DKAGUTIN_FRAM"; do
    arm-none-eabi-gcc $flags $macros -c dist/kagutin_all.c -o "$tmp/whole.o"
    arm-none-eabi-size "$tmp/whole.o" | awk -v name="the whole file $macros" 'NR == 2 { printf "code  %6d bytes  %s; static data %d\n", $1, name, $2 + $3 }'
done

# Memory by shape: the lent memory and the object. Sizes of arrays, read from the symbols.
{
    echo '#include "kagutin_all.h"'
    echo 'struct kagutin object;'
    for shape in "4 8" "8 32" "16 32" "64 64" "64 256" "256 1024" "1024 4096"; do
        # shellcheck disable=SC2086
        set -- $shape
        echo "unsigned char lent_$1_$2[KGT_MEMORY_SIZE($1, $2)], lasting_$1_$2[KGT_LOG_SIZE($1) + KGT_HOMES_SIZE($2)];"
    done
} > "$tmp/shapes.c"
# shellcheck disable=SC2086
arm-none-eabi-gcc $flags -fno-common -c "$tmp/shapes.c" -o "$tmp/shapes.o"
arm-none-eabi-nm -S --radix=d "$tmp/shapes.o" | awk '
    $4 == "object" { printf "struct kagutin %d bytes\n", $2 }
    { split($4, part, "_"); key = part[2] " groups, " part[3] " homes" }
    part[1] == "lent" { lent[key] = $2; order[n++] = key }
    part[1] == "lasting" { lasting[key] = $2 }
    END { for (i = 0; i < n; i++) printf "RAM %8d bytes lent, %8d bytes of lasting memory: %s\n", lent[order[i]], lasting[order[i]], order[i] }' | sort -n -k2
