#!/bin/sh
# Tests of dist/kagutin_all.c and its header: all-in-one-check.sh FOLDER (run by make all-in-one-check from the root).
# Clauses: [S-79]
set -u
made=$1
. tests/common/helpers.sh
strict="-Wall -Wextra -pedantic -Wshadow -Wconversion -Werror"
drivers="-DKAGUTIN_MEMORY -DKAGUTIN_FRAM -DKAGUTIN_FILE"

# --- made from these sources ---
for file in kagutin_all.c kagutin_all.h; do
    gives 0 "dist/$file: what its sources give; make all-in-one makes it again" cmp "$made/$file" "dist/$file"
done

# --- alone in a folder, as a program would have them ---
there=$tmp/alone
mkdir "$there" && cp dist/kagutin_all.c dist/kagutin_all.h "$there"
echo '#include "kagutin_all.h"' > "$there/header.cpp"
for compiler in gcc clang; do
    command -v $compiler > /dev/null || { echo "skipped $compiler: not installed"; continue; }
    for standard in c99 c11; do
        for macros in "" -DKAGUTIN_MEMORY -DKAGUTIN_FRAM -DKAGUTIN_FILE "$drivers" "$drivers -DKAGUTIN_CHECK_BUFFERS -DKAGUTIN_PLAIN_C"; do
            gives 0 "$compiler, $standard: ${macros:-no driver}" $compiler -std=$standard $strict $macros -fsyntax-only "$there/kagutin_all.c"
        done
    done
    gives 0 "$compiler, GNU C: all drivers" $compiler -std=gnu11 -D_GNU_SOURCE $strict $drivers -fsyntax-only "$there/kagutin_all.c"
    command -v "${compiler%cc}++" > /dev/null || continue
    gives 0 "header as C++ by $compiler" "${compiler%cc}++" -std=c++17 $strict -fsyntax-only "$there/header.cpp"
done

# --- names ---
gives 0 "without a driver: built" "${CC:-cc}" -std=c99 -O1 -fno-stack-protector -U_FORTIFY_SOURCE -c "$there/kagutin_all.c" -o "$tmp/bare.o"
[ -z "$(nm -u "$tmp/bare.o" | grep -v -w -E 'memcpy|memset|memmove|memcmp|_GLOBAL_OFFSET_TABLE_')" ]
report $? "it calls memcpy, memset, memmove and memcmp alone"
gives 0 "all drivers: built" "${CC:-cc}" -std=c99 -O1 $drivers -c "$there/kagutin_all.c" -o "$tmp/all.o"
[ -z "$(nm -g --defined-only "$tmp/all.o" | awk '{ print $3 }' | grep -v -E '^(kagutin|kgt)_')" ]; report $? "names seen from outside begin with kagutin_ or kgt_"

# --- README's example, and nothing else ---
{
    awk '/<!-- snippet: readme_store -->/ { on = 1; next } on && /^```c/ { take = 1; next } take && /^```$/ { exit } take' README.md
    cat << 'END'

int main(int count, char **words)
{
    uint8_t block[KAGUTIN_BLOCK_SIZE] = {0}, before[KAGUTIN_BLOCK_SIZE];

    if (count != 2 || !start(words[1]) || kgt_read(&store, 0, 7, before).code != KAGUTIN_DONE)
        return 90;
    block[0] = (uint8_t)(before[0] + 1);
    if (!keep(block))
        return 91;
    kgt_file_close(&file);
    return block[0];
}
END
} > "$there/example.c"
gives 0 "README's example" "${CC:-cc}" -std=c99 $strict -DKAGUTIN_FILE "$there/example.c" "$there/kagutin_all.c" -o "$tmp/example"
for start in 1 2 3; do
    gives $start "run $start of it brings back run $((start - 1))" "$tmp/example" "$tmp/example.img"
done
if command -v g++ > /dev/null; then
    gives 0 "the same in C++" g++ -x c++ -std=c++17 $strict -I"$there" "$there/example.c" -x none "$tmp/all.o" -o "$tmp/example"
    gives 4 "run 4" "$tmp/example" "$tmp/example.img"
fi

# --- the object's own tests with this file in the place of the libraries ---
try() { # name, sources, arguments
    gives 0 "$1: built on it" "${CC:-cc}" -std=c99 -D_POSIX_C_SOURCE=200809L -O1 -Iinclude -Ic -Itests/common $2 "$tmp/all.o" -o "$tmp/try"
    name=$1; shift 2
    gives 0 "$name" "$tmp/try" "$@"
}
try "store check" "tests/store/store_check.c tests/common/play.c" 97 200
try "rounds" "tests/store/round_check.c"
try "rights" "tests/store/rights_check.c"
try "units" "tests/store/units_check.c" 4
try "replies" "tests/store/replies_check.c tests/common/operations.c"
try "FRAM" "tests/drivers/fram_check.c tests/common/play.c" 61
try "files" "tests/drivers/file_check.c tests/common/play.c" "$tmp"
if command -v arm-none-eabi-gcc > /dev/null; then
    gives 0 "Cortex-M4, FRAM and memory" arm-none-eabi-gcc -mthumb -mcpu=cortex-m4 -Os -std=c99 $strict -DKAGUTIN_FRAM -DKAGUTIN_MEMORY \
        -c "$there/kagutin_all.c" -o "$tmp/board.o"
fi

count all-in-one
