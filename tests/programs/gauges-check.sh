#!/bin/sh
# Tests of the comparison of gauges from C: gauges-check.sh FOLDER-OF-THE-PROGRAMS (run by make c-check from the root).
# Prints one line per test; the last line counts them. Status 1 if one failed.
# Clauses: [S-71]
set -u
out=$1
san=$out/sanitize
cc=${CC:-cc}
lib=${LIB:-target/staticlib/libkagutin.a}
gauges=${GAUGES_LIB:-target/staticlib/libgauges.a}
. tests/common/helpers.sh

# A row of the report on standard output.
shows() {
    grep -q -e "$1" "$tmp/out"; report $? "report: '$1'"
}

# --- header, and both archives in one program ---
printf '#include "kagutin.h"\n#include "kagutin_gauges.h"\n' > "$tmp/header.c"
cp "$tmp/header.c" "$tmp/header.cpp"
gives 0 "header as c99" "$cc" -std=c99 -Wall -Wextra -pedantic -Werror -Iinclude -fsyntax-only "$tmp/header.c"
if command -v g++ > /dev/null; then
    gives 0 "header as c++11" g++ -std=c++11 -Wall -Wextra -pedantic -Werror -Iinclude -fsyntax-only "$tmp/header.cpp"
fi
cat >> "$tmp/header.c" << 'END'
int main(void)
{
    uint8_t a[1] = {0}, b[1] = {0}, c[1] = {7};
    return kagutin_format(a, 0, b, 0, c, 0).code != KAGUTIN_BAD_LENGTH || kagutin_compare_gauges(a, 0, b, 0, c, 1, 0).code || c[0] != 7;
}
END
gives 0 "both archives link together" "$cc" -std=c99 -Iinclude "$tmp/header.c" -Wl,--whole-archive "$lib" "$gauges" -Wl,--no-whole-archive -o "$tmp/both"
gives 0 "and run" "$tmp/both"

# --- the report ---
printf 'minute,millimetres\n0,1200\n1,1210\n3,1300\n5,5\n' > "$tmp/cell.csv"
printf '0,1203\r\n1; 1221\n# sounder restarted\n\n 2\t1250\n5,15\n65535,65535\n' > "$tmp/sounder.csv"
printf '' > "$tmp/empty.csv"
gives 1 "two lists" "$san/gauges" "$tmp/cell.csv" "$tmp/sounder.csv"
shows '^ *0  agreeing  *1200  *1203  *3$'
shows '^ *1  differing  *1210  *1221  *11$'
shows '^ *2  only second  *-  *1250$'
shows '^ *3  only first  *1300  *-$'
shows '^ *5  agreeing  *5  *15  *10$'
shows '^ *65535  only second  *-  *65535$'
shows '^agreeing 2, differing 1, only first 1, only second 2; 6 different minutes, tolerance 10 mm$'
gives 0 "tolerance 11" "$san/gauges" --tolerance 11 --brief "$tmp/cell.csv" "$tmp/sounder.csv"
shows '^agreeing 3, differing 0, only first 1, only second 2;'
grep -q '  agreeing' "$tmp/out"; [ $? -eq 1 ]; report $? "--brief leaves agreeing minutes out"
says "empty.csv: no rows" 3 "an empty list" "$san/gauges" "$tmp/cell.csv" "$tmp/empty.csv"
printf '# nothing yet\nminute,mm\n' > "$tmp/heading.csv"
says "heading.csv: no rows" 3 "a heading alone" "$san/gauges" "$tmp/cell.csv" "$tmp/heading.csv"
gives 0 "--help" "$san/gauges" --help
gives 0 "-h" "$san/gauges" -h
gives 0 "--version" "$san/gauges" --version
shows '^gauges (Kagutin) [0-9]'

# --- the plot ---
gives 1 "a plot" "$san/gauges" --plot "$tmp/plot.svg" "$tmp/cell.csv" "$tmp/sounder.csv"
[ "$(grep -c "class='differing'" "$tmp/plot.svg")" -eq 1 ] && [ "$(grep -c "class='only'" "$tmp/plot.svg")" -eq 3 ]
report $? "plot: one bar and three ticks"
printf '0,1\n' > "$tmp/single.csv"
gives 0 "a plot of one reading" "$san/gauges" --plot "$tmp/none.svg" "$tmp/single.csv" "$tmp/single.csv"
gives 0 "a plot up to the last minute" "$san/gauges" --plot "$tmp/last.svg" "$tmp/sounder.csv" "$tmp/sounder.csv"
grep -q '>70000<' "$tmp/last.svg"; report $? "with a mark behind it"
if command -v python3 > /dev/null; then
    gives 0 "plots are XML" python3 -c 'import sys, xml.dom.minidom
for name in sys.argv[1:]: xml.dom.minidom.parse(name)' "$tmp/plot.svg" "$tmp/none.svg"
fi
says "cannot be created" 3 "a plot in a missing folder" "$san/gauges" --plot "$tmp/no/plot.svg" "$tmp/cell.csv" "$tmp/cell.csv"
gives 1 "a plot over an older one" "$san/gauges" --plot "$tmp/plot.svg" "$tmp/cell.csv" "$tmp/sounder.csv"
cp "$tmp/cell.csv" "$tmp/same.csv"
says "holds something else" 3 "a plot over a list" "$san/gauges" --plot "$tmp/cell.csv" "$tmp/cell.csv" "$tmp/sounder.csv"
gives 0 "the list stays" cmp "$tmp/cell.csv" "$tmp/same.csv"

says "holds something else" 3 "a plot over a page of another's" sh -c 'echo "<html>" > "$1/other.html"; "$0" --plot "$1/other.html" "$1/cell.csv" "$1/cell.csv"' "$san/gauges" "$tmp"
[ "$(cat "$tmp/other.html")" = "<html>" ]; report $? "which stays"
if [ -w /dev/shm ] && mkdir "$tmp/disk" && mount -t tmpfs -o size=8k none "$tmp/disk" 2> /dev/null; then
    cp "$tmp/single.csv" "$tmp/disk/small.csv"
    "$san/gauges" --plot "$tmp/disk/plot.svg" "$tmp/single.csv" "$tmp/single.csv" > /dev/null 2>&1
    cp "$tmp/disk/plot.svg" "$tmp/plot.before"
    awk 'BEGIN { for (i = 0; i < 1440; i++) print i "," i }' > "$tmp/day.csv"
    says "cannot be written" 3 "a plot on a full disk" "$san/gauges" --plot "$tmp/disk/plot.svg" "$tmp/day.csv" "$tmp/day.csv"
    cmp -s "$tmp/disk/plot.svg" "$tmp/plot.before" && [ "$(ls "$tmp/disk" | wc -l)" -eq 2 ]; report $? "the one before stays, and nothing else"
    umount "$tmp/disk"
fi

# --- gaps: a step longer than the usual one ---
printf '0,1\n1,1\n2,1\n4,1\n5,1\n9,1\n' > "$tmp/gaps.csv"
printf '0,1\n5,1\n10,1\n15,1\n' > "$tmp/fives.csv"
gives 0 "a plot of lists with gaps" "$san/gauges" --plot "$tmp/gaps.svg" "$tmp/gaps.csv" "$tmp/fives.csv"
[ "$(grep -c "polyline class='first'" "$tmp/gaps.svg")" -eq 3 ] && [ "$(grep -c "polyline class='second'" "$tmp/gaps.svg")" -eq 1 ]
report $? "three stretches, and one where every fifth minute is usual"

# --- times of the clock, and days ---
printf 'time;level\n06:00;100\n06:01:00;120\n23:59;1\n' > "$tmp/clock.csv"
printf '\357\273\27706:00,105\n06:01,100\n' > "$tmp/clock2.csv"
gives 1 "clock times, a byte order mark" "$san/gauges" --plot "$tmp/clock.svg" --tolerance=10 "$tmp/clock.csv" "$tmp/clock2.csv"
shows '^ 06:00  agreeing  *100  *105  *5$'
shows '^ 23:59  only first  *1  *-$'
grep -q '>09:00<' "$tmp/clock.svg" && grep -q '>24:00<' "$tmp/clock.svg"; report $? "the plot's axis has hours"
printf '2026-11-16T23:59,100\n2026-11-17 00:00,100\n2026-11-17T00:01:00,150\n' > "$tmp/days.csv"
printf '2026-11-17T00:00,130\n2026-11-18T00:00,1\n' > "$tmp/days2.csv"
gives 1 "days" "$san/gauges" --plot "$tmp/days.svg" "$tmp/days.csv" "$tmp/days2.csv"
shows '^2026-11-16$'
shows '^ 00:00  differing  *100  *130  *30$'
shows '^all days: agreeing 0, differing 1, only first 2, only second 1; 4 different minutes'
[ "$(find "$tmp" -maxdepth 1 -name 'days-2026-11-1[678].svg' | wc -l)" -eq 3 ] && [ ! -e "$tmp/days.svg" ]; report $? "a plot for each day"
gives 0 "one day" "$san/gauges" --plot "$tmp/one.svg" --tolerance 30 "$tmp/days2.csv" "$tmp/days2.csv"
says "has clock times, .* days and times" 3 "times of two kinds" "$san/gauges" "$tmp/clock.csv" "$tmp/days.csv"

# --- wrong options ---
says "unknown option" 2 "--frob" "$san/gauges" --frob a b
says "none is given" 2 "no list" "$san/gauges"
says "one is given" 2 "one list" "$san/gauges" "$tmp/cell.csv"
says "is a third" 2 "three lists" "$san/gauges" a b c
says "from 0 to 65535" 2 "--tolerance 65536" "$san/gauges" --tolerance 65536 a b
says "from 0 to 65535" 2 "--tolerance -1" "$san/gauges" --tolerance -1 a b
says "takes a value" 2 "--tolerance at the end" "$san/gauges" a b --tolerance
says "takes a value" 2 "--plot at the end" "$san/gauges" a b --plot

# --- bad rows: what the file holds, and the message ---
bad() {
    printf "$1" > "$tmp/bad.csv"
    says "bad.csv:$2" 3 "a row: $3" "$san/gauges" "$tmp/cell.csv" "$tmp/bad.csv"
}
bad '1,2\n1,3\n' '2: minute 1 does not come after minute 1' "equal minutes"
bad '5,2\n\n3,3\n' '3: minute 3 does not come after minute 5' "falling minutes"
bad '1,2\n65536,3\n' '2: the minute is above 65535' "a large minute"
bad '1,70000\n' '1: the level in millimetres is above 65535' "a large level"
bad '1,99999999999999999999\n' '1: the level in millimetres is above' "a huge level"
bad '1,\n' '1: the level in millimetres is missing' "no level"
bad '1\n' '1: a comma is missing' "no comma"
bad '1,x\n' '1: the level in millimetres is not a whole number' "a letter"
bad '1,-4\n' '1: the level in millimetres is not a whole number' "a negative level"
bad '1,2.5\n' '1: a row has two numbers' "a fraction"
bad '1,2,3\n' '1: a row has two numbers' "three numbers"
bad '1,2\n\000\000\000' '2: a zero byte' "zeros at the end"
bad '1,2\n\033[2J\n' "2: the minute is not a whole number: '?\[2J'" "an escape"
bad 'O,1200\n1,2\n' "1: the minute is not a whole number: 'O,1200'" "a first row mistyped"
bad 'l,2OO\n1,2\n' "1: the minute is not a whole number" "both cells mistyped"
bad 'levels\n1,2\n' "1: the minute is not a whole number" "one word"
bad '24:00,1\n' '1: the time is not from 00:00 to 23:59' "24:00"
bad '6:00,1\n' '1: the time is not from' "one digit for the hour"
bad '06:00:30,1\n' '1: whole minutes are compared' "seconds"
bad '06:00,1\n7,1\n' '2: the rows before have clock times' "two kinds"
bad '06:01,1\n06:00,1\n' '2: minute 06:00 does not come after minute 06:01' "falling times"
bad '2026-02-30T00:00,1\n' '1: the day is not one' "30 February"
bad '2026-02-03,1\n' '1: a time HH:MM is missing' "a day alone"
bad '2026-02-03T00:00,1\n2026-02-02T23:59,1\n' '2: the day lies before' "falling days"
bad 'minute,mm\nagain,mm\n' '2: the minute is not a whole number' "two headings"
awk 'BEGIN { for (i = 0; i <= 1440; i++) print i "," i % 500 }' > "$tmp/long.csv"
says "long.csv:1441: more than 1440 rows" 3 "too many rows" "$san/gauges" "$tmp/long.csv" "$tmp/cell.csv"
head -n 1440 "$tmp/long.csv" > "$tmp/full.csv"
gives 0 "1440 rows each" "$san/gauges" "$tmp/full.csv" "$tmp/full.csv"
shows '^agreeing 1440, differing 0'
awk 'BEGIN { for (i = 0; i < 300; i++) printf "1" }' > "$tmp/wide.csv"
says "wide.csv:1: the line is too long" 3 "a long line" "$san/gauges" "$tmp/wide.csv" "$tmp/cell.csv"
says "cannot be opened" 3 "a missing file" "$san/gauges" "$tmp/cell.csv" "$tmp/missing.csv"

# --- cost: at most 60 instructions for each row read and line written; the archive asks of each of the three lent buffers whether it is null, in 5
# instructions, which shows where there is a single row ---
border=0
case $gauges in */staticlib/*) border=15 ;; esac
if command -v valgrind > /dev/null; then
    for case in $("$out/gauges_cost"); do
        valgrind --tool=callgrind --callgrind-out-file="$tmp/callgrind" --toggle-collect=kagutin_compare_gauges \
            "$out/gauges_cost" "$case" > "$tmp/out" 2> "$tmp/log"
        read -r rows lines < "$tmp/out"
        count=$(sed -n 's/.*Collected : //p' "$tmp/log")
        more=0
        [ "$rows" -gt 1 ] || more=$border
        [ "${count:-0}" -gt 0 ] && [ "$count" -le $((60 * (rows + lines) + more)) ]
        report $? "cost, $case: $count instructions for $rows rows and $lines lines"
    done
    gives 1 "under memcheck" valgrind -q --error-exitcode=9 --leak-check=full "$out/gauges" --plot "$tmp/plot.svg" "$tmp/cell.csv" "$tmp/sounder.csv"
else
    echo "skipped cost and memcheck: valgrind is not installed"
fi

count gauges-check
