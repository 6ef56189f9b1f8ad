#!/bin/sh
# The quick tests of the C side, for the edit loop: quick.sh FOLDER-OF-THE-PROGRAMS (run by make c-quick from the root).
# make c-check has these at length, under sanitizers too, and the rest.
set -u
out=$1
cc=${CC:-cc}
lib=${LIB:-$out/libkagutin.a}
. tests/common/helpers.sh

# --- the store object and its drivers ---
gives 0 "quick start" "$out/quickstart" "$tmp/quickstart.img"
gives 0 "store: power gone after every 17 bytes" "$out/store_check" 17 500
gives 0 "store: places promised beforehand" "$out/reserve_check"
gives 0 "store: the runner beside one written by hand" "$out/runner_check"
gives 0 "store: a log that is worn out" "$out/worn_check"
gives 0 "store: settling in small steps" "$out/round_check"
gives 0 "store: the list of rights" "$out/rights_check"
gives 0 "files: written and mapped" "$out/file_check" "$tmp"
gives 0 "FRAM: power gone after every 13 bytes" "$out/fram_check" 13
gives 0 "format: over a damaged header" "$out/format_check" 9
gives 0 "reopening: a driver that fails at each call in turn" "$out/reopen_check" 2000
gives 0 "power-loss kit: its six broken drivers" "$out/powerloss_check" 61
gives 0 "units: events and cuts" "$out/units_check" 4
gives 0 "replies: no field misleads" "$out/replies_check"
gives 0 "a lock refused at each taking" "$out/lock_check"
gives 0 "calls before init, a refused format" "$out/misuse_check"
gives 0 "stack: built" "$cc" -std=c99 -D_GNU_SOURCE -O2 -Iinclude tests/stack/stack.c "$lib" ${C_LIBS:-} -o "$tmp/stack"
gives 0 "stack: every call within its bound" "$tmp/stack"

# --- programs ---
gives 0 "station's driver" "$out/driver_check" "$tmp/driver.img"
gives 0 "station" "$out/station" --seed 1 --cuts 60
gives 0 "station on a file" "$out/station" --seed 3 --cuts 10 --groups 12 --homes 40 --file "$tmp/station.img"
gives 0 "inspect it" "$out/inspect" "$tmp/station.img"
gives 0 "an image with events" "$out/units_check" --image "$tmp/north.img" 90 4
printf '0 899 1\n900 9999 2\n' > "$tmp/table.txt"
gives 0 "bands" "$out/bands" set "$tmp/north.img" "$tmp/table.txt"
gives 0 "wear" "$out/wear" --interval 500 "$tmp/north.img"
printf '0,1200\n1,1210\n' > "$tmp/levels.csv"
gives 0 "gauges" "$out/gauges" "$tmp/levels.csv" "$tmp/levels.csv"
gives 0 "inflow" "$out/inflow" --area 100 0 200 --pumped 5000

count c-quick
