#!/bin/sh
# Tests of the power-loss kit: powerloss-check.sh FOLDER-OF-THE-PROGRAMS (run by make powerloss-check from the root; LIB is the library).
# Prints one line per test; the last line counts them. Status 1 if one failed.
# Clauses: [S-86]
set -u
out=$1
san=$out/sanitize
. tests/common/helpers.sh

shows() {
    grep -q -e "$1" "$tmp/out"; report $? "output: '$1'"
}

# --- its sources, also as C++ ---
strict="-Wall -Wextra -pedantic -Wshadow -Wconversion -Werror -Iinclude -Ic"
for standard in c99 c11; do
    gives 0 "sources as $standard" "${CC:-cc}" -std=$standard $strict -fsyntax-only c/powerloss/*.c
done
if command -v g++ > /dev/null; then
    gives 0 "sources as C++" g++ -x c++ -std=c++11 $strict -fsyntax-only c/powerloss/*.c
fi

# --- the six broken drivers, each by its duty; the good ones ---
gives 0 "six broken drivers, each found; memory and FRAM pass" "$out/powerloss_check" 5 show
shows '^powerloss_check: no fence: fence returns when every earlier write is in lasting memory; [1-8] calls$'
shows '^powerloss_check: fence too early: fence returns when every earlier write is in lasting memory; [1-8] calls$'
shows '^powerloss_check: words torn: write: the bytes arrive in parts no smaller than the landing says; [1-8] calls$'
shows '^powerloss_check: load from a cache: load: all that it gives is still there after a cut; [1-8] calls$'
shows '^powerloss_check: late write after a failure: load: no earlier write arrives any more; [1-8] calls$'
shows '^powerloss_check: writes out of order across a fence: write: the bytes may arrive at any time up to the next fence, not after it; [1-8] calls$'
awk '/^```text/ { inside = 1; next } /^```/ { inside = 0 } inside' docs/DRIVERS.md | grep -v '^$' > "$tmp/shown"
grep -v -x -F -f "$tmp/out" "$tmp/shown" > "$tmp/log"
[ -s "$tmp/shown" ] && [ ! -s "$tmp/log" ]; report $? "the report in docs/DRIVERS.md is what is printed"
gives 0 "the same under sanitizers" "$san/powerloss_check" 97

# --- faults of drivers that were written from the documents: the report leads to them ---
gives 0 "torn header, mistaken address, lost error and others" "$san/powerloss_faults"

# --- what the kit calls broken does lose commits ---
gives 0 "five of the six broken drivers under a workload: commits lost or halved; the good one: none" "$out/broken_check" 2000 1000
gives 0 "the same under sanitizers" "$san/broken_check" 2000 50

# --- a duty's words are those of docs/DRIVERS.md ---
missing=0
for words in "returns when every earlier write is in lasting memory" "may arrive at any time up to the next fence" \
    "in parts no smaller than the landing says" "all that it gives is still there after a cut" "no earlier write arrives any more"; do
    grep -q "$words" docs/DRIVERS.md && grep -q "$words" c/powerloss/powerloss.c || { missing=1; echo "not in both: $words" > "$tmp/log"; }
done
report $missing "duties in the words of docs/DRIVERS.md"

# --- a process for a board, ended where its relay cuts ---
gives 0 "by a relay: notes carry it over each cut; files, killed" "$out/relay_check" "$tmp"
gives 0 "the same under sanitizers" "$san/relay_check" "$tmp"

# --- installed: the example of docs/DRIVERS.md, linked outside; the sources, as for a board ---
gives 0 "make install" "${MAKE:-make}" -s -f make/c.mk LIB="$LIB" C_LIBS="${C_LIBS:-}" PREFIX="$tmp/usr" install
awk '/^<!-- snippet: drivers_powerloss/ { inside = 1; next } /^```$/ { inside = 0 } inside && !/^```/' docs/DRIVERS.md > "$tmp/try.c"
printf 'int main(void)\n{\n    return !try_driver();\n}\n' >> "$tmp/try.c"
if command -v pkg-config > /dev/null; then
    flags=$(PKG_CONFIG_PATH="$tmp/usr/lib/pkgconfig" pkg-config --cflags --libs kagutin)
    gives 0 "the example, built outside" sh -c "${CC:-cc} -O1 '$tmp/try.c' -lkagutin_powerloss $flags -o '$tmp/try'"
    gives 0 "and run" "$tmp/try"
    shows '^powerloss: no duty was seen broken; [0-9]* trials$'
else
    echo "skipped the example outside: no pkg-config"
fi
gives 0 "the installed sources" sh -c "for file in '$tmp'/usr/share/kagutin/powerloss/*.c; do ${CC:-cc} -std=c99 -Wall -Werror -I'$tmp/usr/include' -c \$file -o '$tmp/one.o' || exit 1; done"

count powerloss-check
