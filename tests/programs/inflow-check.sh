#!/bin/sh
# Tests of the inflow from C: inflow-check.sh FOLDER-OF-THE-PROGRAMS (run by make c-check from the root).
# Prints one line per test; the last line counts them. Status 1 if one failed.
# Clauses: [S-72]
set -u
out=$1
san=$out/sanitize
cc=${CC:-cc}
lib=${LIB:-target/staticlib/libkagutin.a}
gauges=${GAUGES_LIB:-target/staticlib/libgauges.a}
inflow=${INFLOW_LIB:-target/staticlib/libinflow.a}
. tests/common/helpers.sh

# Least and most in litres and in cm² × mm, then the options.
bounds() {
    least="$1 litres *$2 cm"; most="$3 litres *$4 cm"; shift 4
    gives 0 "inflow $*" "$san/inflow" "$@"
    grep -q "^least inflow  *$least" "$tmp/out" && grep -q "^most  inflow  *$most" "$tmp/out"; report $? "and its figures"
}

# --- header, and all archives in one program ---
printf '#include "kagutin.h"\n#include "kagutin_gauges.h"\n#include "kagutin_inflow.h"\n' > "$tmp/header.c"
cp "$tmp/header.c" "$tmp/header.cpp"
gives 0 "header as c99" "$cc" -std=c99 -Wall -Wextra -pedantic -Werror -Iinclude -fsyntax-only "$tmp/header.c"
if command -v g++ > /dev/null; then
    gives 0 "header as c++11" g++ -std=c++11 -Wall -Wextra -pedantic -Werror -Iinclude -fsyntax-only "$tmp/header.cpp"
fi
cat >> "$tmp/header.c" << 'END'
int main(void)
{
    struct kagutin_inflow_bounds b = kagutin_inflow(1000000, 0, 65535, 0, 65535, 0, UINT32_MAX);
    return b.code || b.least != -65535000000 || b.most != 69829967295;
}
END
gives 0 "all archives link together" "$cc" -std=c99 -Iinclude "$tmp/header.c" -Wl,--whole-archive "$lib" "$gauges" "$inflow" -Wl,--no-whole-archive -o "$tmp/all"
gives 0 "the extremes" "$tmp/all"

# --- figures ---
bounds 0.0000 0 0.0000 0 --area 1 5 5
bounds -0.0010 -10 0.0010 10 --area 1 0..10 0..10
bounds -900.0000 -9000000 1100.0000 11000000 --area 10000 500..1400 500..1500 --pumped 0..1000000
bounds 2.5000 25000 2.5000 25000 --area 100 0 200 --pumped 5000
bounds -6553500.0000 -65535000000 6982996.7295 69829967295 --area 1000000 --pumped 0..4294967295 0..65535 0..65535
gives 0 "--help" "$san/inflow" --help
gives 0 "-h" "$san/inflow" -h
gives 0 "--version" "$san/inflow" --version
grep -q '^inflow (Kagutin) [0-9]' "$tmp/out"; report $? "and it says its version"

# --- refusals ---
says "depth before: the low end 10 is above the high end 9" 1 "a range the wrong way round" "$san/inflow" --area 5 10..9 1
says "depth after: the low end" 1 "the depth after" "$san/inflow" --area 5 1 7..6
says "pumped volume: the low end" 1 "the pumped volume" "$san/inflow" --area 5 1 1 --pumped 2..1
says "--area takes a whole number from 1 to 1000000, not '0'" 2 "area 0" "$san/inflow" --area 0 1 1
says "not '1000001'" 2 "area 1000001" "$san/inflow" --area 1000001 1 1
says "not '4294967297'" 2 "an area past 32 bits" "$san/inflow" --area 4294967297 1 1

# --- wrong options ---
says "area is missing" 2 "no area" "$san/inflow" 1 2
says "two depth ranges" 2 "one depth" "$san/inflow" --area 5 1
says "is a third" 2 "three depths" "$san/inflow" --area 5 1 2 3
says "unknown option" 2 "--frob" "$san/inflow" --frob
says "takes a value" 2 "--area at the end" "$san/inflow" 1 2 --area
says "takes a value" 2 "--pumped at the end" "$san/inflow" --area 5 1 2 --pumped
says "BEFORE takes whole numbers from 0 to 65535" 2 "a depth of 65536" "$san/inflow" --area 5 65536 1
says "AFTER takes whole numbers" 2 "a letter" "$san/inflow" --area 5 1 x
says "AFTER takes LOW..HIGH or one value" 2 "a single dot" "$san/inflow" --area 5 1 1.2
says "AFTER takes whole numbers" 2 "an open range" "$san/inflow" --area 5 1 1..
says "0 to 4294967295" 2 "a large pumped volume" "$san/inflow" --area 5 1 1 --pumped 4294967296
says "--area takes a whole number from 1 to 1000000" 2 "an area with a fraction" "$san/inflow" --area 5.5 1 1
says "--area takes a whole number from 1 to 1000000" 2 "an area of letters" "$san/inflow" --area x 1 1

if command -v valgrind > /dev/null; then
    gives 0 "under memcheck" valgrind -q --error-exitcode=9 --leak-check=full "$out/inflow" --area 10000 0..10 5..20
fi

count inflow-check
