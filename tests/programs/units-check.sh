#!/bin/sh
# Tests of depth bands, pump hours and alarms from C: units-check.sh FOLDER-OF-THE-PROGRAMS (run by make units-check from the root).
# Prints one line per test; the last line counts them. Status 1 if one failed.
# Clauses: [S-64, S-65, S-66, S-67, S-68, S-69, S-70]
set -u
out=$1
san=$out/sanitize
cc=${CC:-cc}
. tests/common/helpers.sh

shows() {
    grep -q -e "$1" "$tmp/out"; report $? "output: '$1'"
}

# --- headers ---
for unit in chains bands hours alarms units; do
    printf '#include "kagutin_%s.h"\n' "$unit" > "$tmp/header.c"
    cp "$tmp/header.c" "$tmp/header.cpp"
    gives 0 "kagutin_$unit.h as c99" "$cc" -std=c99 -Wall -Wextra -pedantic -Werror -Iinclude -fsyntax-only "$tmp/header.c"
    if command -v g++ > /dev/null; then
        gives 0 "kagutin_$unit.h as c++11" g++ -std=c++11 -Wall -Wextra -pedantic -Werror -Iinclude -fsyntax-only "$tmp/header.cpp"
    fi
done

# --- calls on the store object, with cuts ---
for seed in 1 2 3; do
    gives 0 "events and cuts, seed $seed" "$out/units_check" "$seed"
done
gives 0 "events and cuts with sanitizers" "$san/units_check" 4
gives 0 "replies: no field misleads, the driver failing at each call in turn, log full or not" "$san/replies_check"
gives 0 "a lock refused at each taking, in every call: nothing has changed" "$san/lock_check"
gives 0 "calls before init, a refused format, and who makes room" "$san/misuse_check"
gives 0 "stack of the object's calls, room made at once or left to the task that maintains" "$out/object_stack"

# --- bands ---
gives 0 "an image" "$out/units_check" --image "$tmp/north.img" 90 4
printf '# north\n0 299 0\n900 1499 2 # two\n\n300 899 1\n1500 9999 4\n' > "$tmp/table.txt"
cp "$tmp/north.img" "$tmp/before.img"
says "no table is set" 1 "show without a table" "$san/bands" show "$tmp/north.img"
gives 0 "the image stays" cmp "$tmp/north.img" "$tmp/before.img"
gives 0 "set" "$san/bands" set "$tmp/north.img" "$tmp/table.txt"
shows 'table of 4 rows set, durable$'
cp "$tmp/north.img" "$tmp/before.img"
gives 0 "show" "$san/bands" show "$tmp/north.img"
shows '^ *300   899      1$'
cp "$tmp/out" "$tmp/again.txt"
gives 0 "at 899" "$san/bands" at "$tmp/north.img" 899
shows '^899 mm: 1 pump, as from 300 to 899 mm$'
gives 0 "at 9999, another writer" "$san/bands" at --writer 7 "$tmp/north.img" 9999
shows '^9999 mm: 4 pumps, as from 1500 to 9999 mm$'
says "MM takes a whole number from 0 to 9999, not '10000'" 2 "at 10000" "$san/bands" at "$tmp/north.img" 10000
says "from 0 to 7" 2 "writer 8" "$san/bands" at --writer 8 "$tmp/north.img" 5
gives 0 "the image stays" cmp "$tmp/north.img" "$tmp/before.img"
gives 0 "what show prints can be set" "$san/bands" set "$tmp/north.img" "$tmp/again.txt"

# What a table file holds, the status, and the message; the image stays byte for byte.
cp "$tmp/north.img" "$tmp/before.img"
bad() {
    printf "$1" > "$tmp/bad.txt"
    says "bad.txt:*$3" "$2" "a table: $4" "$san/bands" set "$tmp/north.img" "$tmp/bad.txt"
    cmp -s "$tmp/north.img" "$tmp/before.img"; report $? "a table: $4: the image stays"
}
bad '' 1 ' no rows' "empty"
bad '# nothing\n' 1 ' no rows' "comments only"
bad '0 9998 1\n' 1 ' 9999 mm lies in no row, behind line 1' "a gap at the end"
bad '1 9999 1\n' 1 ' 0 mm lies in no row, before line 1' "a gap at the begin"
bad '0 99 1\n#\n200 9999 1\n' 1 ' 100 mm lies in no row, nor does any up to 199 mm, between line 1 and line 3' "a wide gap"
bad '0 500 1\n500 9999 2\n' 1 '2: 500 mm lies in this row and in that of line 1' "an overlap"
bad '0 9999 1\n0 9999 1\n5 4 1\n' 1 '3: from 5 is above to 4' "from above to, before an overlap"
bad '0 10000 1\n' 1 '1: to 10000 is above 9999' "to above 9999"
bad '0 9999 5\n' 1 '1: pumps above 4' "five pumps"
bad '0 9999 300\n' 1 '1: pumps above 4' "300 pumps"
bad '0 65536 1\n' 3 '1: to is above 65535' "to above 16 bits"
bad '0 9999\n' 3 '1: pumps is missing' "two numbers"
bad '0 9999 1 1\n' 3 '1: more than three numbers' "four numbers"
bad '0 9999 one\n' 3 '1: pumps is not a whole number' "a word"
bad '0 -1 1\n' 3 '1: to is not a whole number' "a negative number"
bad '0 9999 1\n\000\000' 3 '2: a zero byte' "zeros at the end"
awk 'BEGIN { for (i = 0; i < 32; i++) print i, i, 1; print 32, 9999, 1 }' > "$tmp/bad.txt"
says "bad.txt:33: row 33; a table has at most 32" 1 "33 rows" "$san/bands" set "$tmp/north.img" "$tmp/bad.txt"
awk 'BEGIN { for (i = 0; i < 31; i++) print i, i, 1; print 31, 9999, 1 }' > "$tmp/full.txt"
gives 0 "32 rows" "$san/bands" set "$tmp/north.img" "$tmp/full.txt"
gives 0 "32 rows shown" "$san/bands" show "$tmp/north.img"
[ "$(grep -vc '#' "$tmp/out")" -eq 32 ]; report $? "32 lines"

says "unknown command" 2 "a wrong command" "$san/bands" frob x
says "set takes an image and a table" 2 "set without a table" "$san/bands" set x
says "set, show or at" 2 "no command" "$san/bands"
says "unknown option" 2 "--frob" "$san/bands" show --frob
says "one word too many" 2 "four words" "$san/bands" set a b c
says "MM takes a whole number from 0 to 9999, not '12x'" 2 "at 12x" "$san/bands" at "$tmp/north.img" 12x
says "cannot be opened" 3 "a missing image" "$san/bands" show "$tmp/missing.img"
says "cannot be opened" 3 "a missing table" "$san/bands" set "$tmp/north.img" "$tmp/missing.txt"
says "no image" 3 "no image" "$san/bands" show "$tmp/table.txt"
head -c 9000 "$tmp/north.img" > "$tmp/short.img"
says "short file: 9000 bytes; 16 groups and 32 homes take 10304" 3 "a short image" "$san/bands" show "$tmp/short.img"
gives 0 "--help" "$san/bands" --help
gives 0 "--version" "$san/bands" --version
shows '^bands (Kagutin) [0-9]'

# --- the station's image, and images that hold something else ---
gives 0 "a station's image" "$san/station" --cuts 40 --csv --file "$tmp/station.img"
grep -q '^Panel: ' "$tmp/log"; report $? "its panel"
gives 0 "an image without events" "$out/units_check" --image "$tmp/other.img" 0 4
printf 'x' | dd of="$tmp/other.img" bs=1 seek=$((64 + 512 * 16 + 64 * 19 + 20)) conv=notrunc 2> /dev/null
cp "$tmp/other.img" "$tmp/before.img"
says "no station's list of rights; with --go-on" 3 "the station on an image of another's" "$san/station" --file "$tmp/north.img"
says "hold something else" 3 "the station on one with other bytes for a pump" "$san/station" --go-on --file "$tmp/other.img"
gives 0 "the image stays" cmp "$tmp/other.img" "$tmp/before.img"
says "no table is set" 1 "bands by the writer that has the right" "$san/bands" show "$tmp/station.img"
says "writer 2 has no right to read homes 12 to 14; writer 1 has" 1 "bands, a writer without rights" "$san/bands" show --writer 2 "$tmp/station.img"
cp "$tmp/station.img" "$tmp/before.img"
says "writer 0 has no right to store to homes 12 to 14; writer 1 has" 1 "set, a writer without rights" "$san/bands" set --writer 0 "$tmp/station.img" "$tmp/table.txt"
gives 0 "the image stays" cmp "$tmp/station.img" "$tmp/before.img"
gives 0 "set in the station's image" "$san/bands" set "$tmp/station.img" "$tmp/table.txt"
gives 0 "the station goes on with it" "$san/station" --cuts 5 --file "$tmp/station.img"
gives 0 "and the table stays" "$san/bands" at "$tmp/station.img" 899
shows '^899 mm: 1 pump, as from 300 to 899 mm$'
printf '\364\377\377\377\377\177' | dd of="$tmp/other.img" bs=1 seek=2 conv=notrunc 2> /dev/null
says "worn out" 3 "bands set in a worn-out image" "$san/bands" set "$tmp/other.img" "$tmp/table.txt"

# --- cost: the last call of each case, with no list of rights and with one in the log ---
if command -v valgrind > /dev/null; then
    "$out/units_cost" > "$tmp/cases"
    while read -r case function most; do
        for list in '' list; do
            valgrind --tool=callgrind --callgrind-out-file="$tmp/callgrind" --toggle-collect="$function" --zero-before="$function" \
                "$out/units_cost" "$case" $list > "$tmp/out" 2> "$tmp/log"
            cost=$(sed -n 's/.*Collected : //p' "$tmp/log")
            [ "${cost:-0}" -gt 0 ] && [ "$cost" -le "$most" ]
            report $? "cost, $case${list:+ with a list}: $cost instructions"
        done
    done < "$tmp/cases"
else
    echo "skipped cost: valgrind is not installed"
fi

count units-check
