#!/bin/sh
# Tests of the wear sheet: wear-check.sh FOLDER-OF-THE-PROGRAMS (run by make units-check from the root).
# Prints one line per test; the last line counts them. Status 1 if one failed. Pages are left in FOLDER/pages to be looked at.
set -u
out=$1
san=$out/sanitize
. tests/common/helpers.sh

shows() {
    grep -q -e "$1" "$tmp/out"; report $? "output: '$1'"
}

hides() {
    ! grep -q -e "$1" "$tmp/out"; report $? "output without '$1'"
}

# An image from events on standard input.
image() {
    "$out/pump_image" "$@" || echo "FAILED  image $1"
}

home=$(pwd)
wear=$(cd "$out" && pwd)/sanitize/wear

# --- the documents' images ---
docs=$tmp/docs
mkdir -p "$docs/2025"
printf 'runs 0 791 22136 14000\nruns 1 206 21810 40000\nruns 2 167 22427 50000\nruns 3 61 21853 60000\n' | image "$docs/north.img"
printf 'runs 0 129 20087 4000\nruns 1 17 26635 9000\n' | image "$docs/depot.img"
printf 'start 0 100\n' | image "$docs/harbour.img"
printf 'runs 0 500 22136 14000\nruns 1 106 21810 40000\nruns 2 167 22427 50000\n' | image "$docs/2025/north.img"
printf 'runs 0 329 20087 4000\nruns 1 7 26635 9000\n' | image "$docs/2025/depot.img"
printf 'runs 0 3 20087 4000\n' | image "$docs/2025/weir.img"
printf 'station,pump,last service\nnorth.img,0,4000h\nnorth.img,1,4000000\ndepot.img,0,2026-10-27\n' > "$docs/services.csv"

# Every command line of docs/WEAR.md; what stands in the block of text below it must be all that it prints.
awk -v folder="$docs" '
    /^```/ { kind = kind == "" ? substr($0, 4) : ""; next }
    kind == "sh" { n++; line = sprintf("%s/line.%02d", folder, n); to = sprintf("%s/want.%02d", folder, n)
        print > line; printf "" > to; close(line); close(to); next }
    kind == "text" && n { print >> to }' docs/WEAR.md
for line in "$docs"/line.*; do
    number=${line##*.}
    (cd "$docs" && sed "s|^target/c/wear|$wear|; s|^make |make -n -C $home |" "$line" | sh) > "$tmp/out" 2>&1
    status=$?
    case $(cat "$line") in
        make*) report $status "docs/WEAR.md: $(cat "$line")" ;;
        *) diff "$docs/want.$number" "$tmp/out" > "$tmp/log" 2>&1; report $? "docs/WEAR.md: $(cat "$line")" ;;
    esac
done
[ "${number:-0}" -ge 8 ]; report $? "docs/WEAR.md has its command lines"

# --- one image, and a fleet ---
cp "$docs/north.img" "$tmp/north.img"
printf 'runs 0 129 20087 4000\nruns 1 17 26635 9000\n' | image "$tmp/depot, \"old\".img"
gives 0 "one image" "$wear" --interval 100 "$tmp/north.img"
shows "^Wear sheet of $(date +%Y-%m-%d): 1 station, service interval 100 h"
gives 0 "the image stays" cmp "$tmp/north.img" "$docs/north.img"
gives 0 "a fleet as CSV" "$wear" --csv --all --interval 100 "$tmp/north.img" "$tmp/depot, \"old\".img"
cp "$tmp/out" "$tmp/fleet.csv"
[ "$(wc -l < "$tmp/out")" -eq 17 ]; report $? "16 pumps"
shows 'depot, ""old"".img"'
if command -v python3 > /dev/null; then
    gives 0 "services x interval + left over is what is worn, and the order falls" python3 - "$tmp/fleet.csv" << 'END'
import csv, sys
rows = list(csv.DictReader(open(sys.argv[1])))
for row in rows:
    worn, interval, due, left, to_next = (int(row[n]) for n in ('worn_seconds', 'interval_seconds', 'services_due', 'seconds_left_over', 'seconds_to_next'))
    assert due * interval + left == worn and left < interval and left + to_next == interval, row
    assert int(row['run_seconds']) + int(row['running_seconds']) == worn and None not in row, row
totals = [int(row['worn_seconds']) for row in rows]
assert totals == sorted(totals, reverse=True) and totals[0] > 0
assert [int(row['order']) for row in rows] == list(range(1, 17))
END
fi
gives 0 "a station's image" "$san/station" --cuts 40 --csv --file "$tmp/station.img"
sed 1d "$tmp/out" | cut -d, -f1-3 > "$tmp/sheet"
for writer in "" "--writer 7" "--writer=2"; do
    gives 0 "its pumps by the wear sheet, $writer" "$wear" --csv --all --interval 50 $writer "$tmp/station.img"
    sed 1d "$tmp/out" | cut -d, -f3-5 | sort | cmp - "$tmp/sheet" > "$tmp/log" 2>&1; report $? "the same starts and seconds"
done
says "writer 3 has no right to read the pumps' homes; writer 2 has" 3 "by a writer without the right" "$wear" --writer 3 "$tmp/station.img"
: | image "$tmp/new.img"
gives 0 "a sheet of nothing" "$wear" "$tmp/new.img"
shows '^8 pumps never started'
gives 0 "a page of nothing" "$wear" --html "$tmp/none.html" --interval 1000000 "$tmp/new.img"
gives 0 "--help" "$wear" --help
shows '^usage: kagutin wear '
gives 0 "--version" "$wear" --version
shows '^wear (Kagutin) [0-9]'

# --- pumps that run ---
printf 'start 0 100\n' | image "$tmp/year.img"
printf 'start 0 100\nruns 3 2 3600 900000\n' | image "$tmp/two.img"
gives 0 "a pump never stopped" "$wear" --interval 500 "$tmp/year.img" "$tmp/north.img"
shows 'year.img  *0  *1  *>=0.00  *>=0.00  *>=0  *<=500.00  RUNNING since second 100, counted to 100 only'
shows '^1 pump is running; 1 counted up to'
[ "$(grep -n 'year.img' "$tmp/out" | cut -d: -f1)" -lt "$(grep -n 'north.img  *3 ' "$tmp/out" | cut -d: -f1)" ]
report $? "it stands before every pump that is not due"
gives 0 "a pump never stopped, up to now" "$wear" --interval 500 --now 31536000 "$tmp/year.img" "$tmp/north.img"
[ "$(sed -n '/^station/{n;p;}' "$tmp/out" | grep -c 'year.img  *0  *1  *8759.97  .*17  .*RUNNING since second 100, counted to 31536000')" -eq 1 ]
report $? "it stands first, with its hours"
gives 0 "without now its hours go to the station's last event" "$wear" --csv "$tmp/two.img"
shows '^1,.*two.img,0,1,0,7200000,0,1807100,5392900,running,100,1807100,1807200,at least,1807100,at least,'
gives 0 "now for one station" "$wear" --csv --now=two.img=2000000 "$tmp/two.img" "$tmp/year.img"
shows 'two.img,0,1,0,.*,running,100,1999900,2000000,exact,1999900,exact,'
shows 'year.img,0,1,0,.*,running,100,0,100,at least,0,at least,'
gives 0 "now before the last event" "$wear" --now 500 "$tmp/two.img"
shows 'two.img: --now 500 lies before its last event, at second 1807200; pumps that run are counted up to that event only'
shows '  *>=501.97 .*counted to 1807200 only'
says "not among the images" 2 "now for a station that is none" "$wear" --now west.img=5 "$tmp/two.img"
says "from 0 to 4294967295" 2 "--now -1" "$wear" --now -1 "$tmp/two.img"
says "from 0 to 4294967295" 2 "--now two.img=" "$wear" --now two.img= "$tmp/two.img"

# --- what cannot be read is named at the top of all three ---
cp "$tmp/new.img" "$tmp/other.img"
printf 'x' | dd of="$tmp/other.img" bs=1 seek=$((64 + 512 * 16 + 64 * 19 + 20)) conv=notrunc 2> /dev/null
cp "$tmp/new.img" "$tmp/flip.img" # starts 0 and run seconds: no record
printf '\001' | dd of="$tmp/flip.img" bs=1 seek=$((64 + 512 * 16 + 64 * 17 + 6)) conv=notrunc 2> /dev/null
: | image "$tmp/small.img" 14
head -c 9000 "$tmp/north.img" > "$tmp/short.img"
mkfifo "$tmp/pipe.img"
cp "$tmp/new.img" "$tmp/locked.img"
printf '0 read 0\n0 store all\n1 nothing\n2 nothing\n3 nothing\n4 nothing\n5 nothing\n6 nothing\n7 nothing\n' > "$tmp/list.txt"
gives 0 "a list that hides the pumps" "$san/kagutin" rights set "$tmp/locked.img" "$tmp/list.txt"
set -- "$tmp/north.img" "$tmp/other.img" "$tmp/flip.img" "$tmp/missing.img" "$tmp/small.img" "$tmp/short.img" "$tmp/locked.img" \
    "$tmp/pipe.img" "$tmp"
gives 3 "images that cannot be read, as text" timeout 20 "$wear" "$@"
grep -c '^wear: ' "$tmp/log" | grep -qx 8; report $? "a line for each on standard error"
unread() { # name, text
    [ "$(grep -n -F -e "$2" "$tmp/out" | head -n 1 | cut -d: -f1)" -lt "$(grep -n 'north.img' "$tmp/out" | head -n 1 | cut -d: -f1)" ]
    report $? "$1 has at the top: $2"
}
unread_all() {
    unread "$1" "home 19 holds no record of pump 3"
    unread "$1" "home 17 holds no record of pump 1"
    unread "$1" "missing.img"
    unread "$1" "pumps take homes from 16 on; the image has 14 homes"
    unread "$1" "9000 bytes; 16 groups and 32 homes take 10304"
    unread "$1" "$2"
    unread "$1" "not a regular file"
}
unread_all text "no writer has the right to read the pumps' homes; 'kagutin rights set' can give it"
shows '^NOT READ, and missing below:$'
shows '^Wear sheet of .*: 3 of 9 stations, '
gives 3 "the same as CSV" timeout 20 "$wear" --csv "$@"
unread_all CSV "no writer has the right to read the pumps' homes; 'kagutin rights set' can give it"
shows '^,.*other.img,3,,,,,,,unread,'
gives 3 "the same as page" timeout 20 "$wear" --html "$tmp/unread.html" "$@"
cp "$tmp/unread.html" "$tmp/out"
unread_all page "no writer has the right to read the pumps&#39; homes; &#39;kagutin rights set&#39; can give it"
says "the right to read the pumps' homes" 3 "nothing can be read" "$wear" "$tmp/locked.img"
[ ! -s "$tmp/out" ] && [ "$(wc -l < "$tmp/log")" -eq 1 ]; report $? "and there is no sheet"

# --- one image twice ---
ln -s north.img "$tmp/link.img"
cp "$tmp/north.img" "$tmp/copy.img"
cp "$tmp/new.img" "$tmp/newer.img"
gives 0 "one image twice" "$wear" "$tmp/north.img" "$tmp/north.img" "$tmp/link.img" "$tmp/copy.img" "$tmp/new.img" "$tmp/newer.img" --csv
shows 'north.img,,,,,,,,note,.*given twice; it counts once'
shows 'link.img,,,,,,,,note,.*the same file as .*north.img; it counts once, as that'
shows 'copy.img,,,,,,,,note,.*holds the same bytes as .*north.img; both are in the sheet'
hides 'newer.img,.*same bytes'
[ "$(grep -c '^[0-9]*,.*north.img,[0-3],' "$tmp/out")" -eq 4 ]; report $? "its four pumps stand there once"

# --- services done ---
printf '\357\273\277station;pump;last service\r\nnorth.img;0;16000000;;\r\n"north.img", 0 , 4400.50 h\r\n# pump 2 later\r\n\r\nnorth.img,2,2026-11-07\r\n' > "$tmp/done.csv"
gives 0 "services" "$wear" --csv --interval 100 --date 2026-11-17 --done "$tmp/done.csv" "$tmp/north.img"
shows 'north.img,0,791,17509576,360000,4,69576,290424,stopped,.*,1509576,exact,16000000,'
shows 'north.img,2,167,3745309,360000,2,230400,129600,stopped,.*,950400,at most,2026-11-07,'
[ "$(cut -d, -f3 "$tmp/out" | head -n 5 | tr '\n' ' ')" = "pump 1 0 3 2 " ]; report $? "the order goes by what is worn since"
printf 'north,3,370h\n' > "$tmp/done.csv"
gives 0 "a service by the name without its ending" "$wear" --csv --done "$tmp/done.csv" "$tmp/new.img" "$tmp/north.img"
shows 'north.img,3,61,1333033,.*,1033,exact,370h,'
mkdir "$tmp/other"
cp "$tmp/new.img" "$tmp/other/north.img"
gives 0 "a service of two stations of one name" "$wear" --csv --done "$tmp/done.csv" "$tmp/other/north.img" "$tmp/north.img"
shows '^,north,3,,,,,,,note,.*is none of the images, or more than one'
printf 'north.img,0,5000h\nnorth.img,1,2026-11-18\nsouth.img,1,5\n' > "$tmp/done.csv"
gives 0 "services that cannot be" "$wear" --date=2026-11-17 --done="$tmp/done.csv" "$tmp/north.img"
shows 'north.img, pump 0: the service at 5000h (.*done.csv:1) lies beyond its run hours and does not count'
shows 'north.img, pump 1: the service of 2026-11-18 (.*done.csv:2) lies behind the day of this sheet'
shows 'south.img, pump 1: has a service in .*done.csv:3 and is none of the images'
shows 'north.img  *0  *791  *4863.77  *6.14  *4863.77 '
: > "$tmp/done.csv"
gives 0 "no services" "$wear" --done "$tmp/done.csv" "$tmp/north.img"
shows 'done.csv has no services'
bad() { # what the file holds, the message, the case
    printf "$1" > "$tmp/bad.csv"
    says "bad.csv:$2" 3 "services: $3" "$wear" --done "$tmp/bad.csv" "$tmp/north.img"
    [ ! -s "$tmp/out" ]; report $? "and no sheet"
}
bad 'north.img,8,5\n' "1: pumps are numbered 0 to 7, not '8'" "pump 8"
bad 'statoin,pump,last\n' "1: pumps are numbered 0 to 7, not 'pump'" "a mistyped heading"
bad 'north.img,1,5\nnorth.img,1\n' '2: a row has three fields' "two fields"
bad 'north.img,1,4000,25h\n' '1: a row has three fields' "a comma in a number"
bad 'north.img,1,04.05.2026\n' "1: the last service is .* not '04.05.2026'" "another kind of date"
bad 'north.img,1,2026-02-29\n' "1: the last service is" "no such day"
bad 'north.img,1,-5\n' "1: the last service is" "a negative number"
bad 'north.img,1,99999999999999999999\n' "1: the last service is" "a huge number"
bad '"north.img,1,5\n' '1: a quote is not closed' "an open quote"
bad 'north.img,1,5\n\000' '2: a zero byte' "a zero byte"
bad 'north.img,1,\033[2J\n' "1: the last service is .* not '?\[2J'" "an escape"
says "not a regular file" 3 "services from a pipe" timeout 20 "$wear" --done "$tmp/pipe.img" "$tmp/north.img"
says "not a regular file" 3 "services from a folder" timeout 20 "$wear" --done "$tmp" "$tmp/north.img"
says "cannot be opened" 3 "services that are not there" "$wear" --done "$tmp/missing.csv" "$tmp/north.img"

# --- the last sheet ---
mkdir "$tmp/then" "$tmp/now"
printf 'runs 0 10 3600 60\nruns 1 10 3600 60\nruns 2 5 3600 60\nstart 4 1000\n' | image "$tmp/then/a.img"
printf 'runs 0 30 3600 60\nruns 1 4 3600 60\nstart 4 1000\nruns 5 2 3600 60\n' | image "$tmp/now/a.img"
printf 'runs 0 9 3600 60\n' | image "$tmp/then/gone.img"
printf 'runs 0 9 3600 60\n' | image "$tmp/now/fresh.img"
printf 'runs 0 1 3600 60\n' | image "$tmp/then/unread.img"
cp "$tmp/then/unread.img" "$tmp/now/unread.img"
: > "$tmp/then/late.img"
printf 'runs 0 3 3600 60\n' | image "$tmp/now/late.img"
: > "$tmp/now/unread.img"
gives 3 "a sheet of last year" "$wear" --date 2025-11-17 --now 50000 --csv="$tmp/last.csv" "$tmp/then/a.img" "$tmp/then/gone.img" \
    "$tmp/then/unread.img" "$tmp/then/late.img"
set -- "$tmp/now/a.img" "$tmp/now/fresh.img" "$tmp/now/unread.img" "$tmp/now/late.img"
gives 3 "compared with it" "$wear" --date 2026-11-17 --now 150000 --since "$tmp/last.csv" --csv "$@"
shows 'now/a.img,0,30,108000,.*,20,72000,exact,compared,2026-11-17,$'
shows 'now/a.img,1,4,14400,.*,,,,exchanged or reset,2026-11-17,exchanged or reset$'
shows 'now/a.img,2,0,0,.*,never started,.*,,,,exchanged or reset,'
shows 'now/a.img,4,1,0,.*running,1000,149000,150000,exact,.*,0,100000,exact,compared,'
shows 'now/a.img,5,2,7200,.*,2,7200,exact,compared,'
shows 'now/late.img,0,3,10800,.*,,,,not read then,'
shows 'now/fresh.img,0,9,32400,.*,,,,new,'
shows '^,.*then/gone.img,,,,,,,,gone,'
shows '^,.*now/a.img,2,,,,,,,note,.*exchanged or reset: its book contradicts the last sheet'
shows '^,.*now/fresh.img,,,,,,,,note,.*new: not in the last sheet'
hides 'unread.img.*gone'
printf 'a.img,1,9000\na.img,2,2026-01-01\n' > "$tmp/done.csv"
gives 3 "services of a book before" "$wear" --date 2026-11-17 --since "$tmp/last.csv" --done "$tmp/done.csv" "$@"
shows 'a.img, pump 1: exchanged or reset since the last sheet: the service at 9000 (.*done.csv:1) may be of the book before'
shows 'New starts and hours are those since the sheet of 2025-11-17'
printf 'a.img,0,2025-12-24\n' > "$tmp/done.csv"
gives 0 "a service since the last sheet" "$wear" --date 2026-11-17 --now 150000 --since "$tmp/last.csv" --done "$tmp/done.csv" --csv "$tmp/now/a.img"
shows 'now/a.img,0,30,108000,.*,72000,at most,2025-12-24,'
gives 0 "more hours than days" "$wear" --date 2025-11-17 --csv --since "$tmp/last.csv" --now 150000 "$tmp/now/a.img"
shows 'a.img,4,,,,,,,note,.*ran 27.77 h since the last sheet, of 0 days before'
sed 's/,/;/g' "$tmp/last.csv" | sed '1s/^/\xEF\xBB\xBF/; s/$/\r/' > "$tmp/sheet.csv"
gives 0 "a last sheet as a spreadsheet saves it" "$wear" --date 2026-11-17 --now 150000 --since "$tmp/sheet.csv" --csv "$tmp/now/a.img"
shows 'now/a.img,0,30,108000,.*,20,72000,exact,compared,'
printf 'order,image,pump,starts,run_seconds,interval_seconds,services_due\n1,a.img,0,10,36000,5,7\n2,a.img,1,9,9,5,1\n3,a.img,4,1,0,5,0\n' \
    > "$tmp/old.csv"
gives 0 "a sheet of an earlier version" "$wear" --since "$tmp/old.csv" --csv "$tmp/now/a.img"
shows 'now/a.img,0,30,108000,.*,20,72000,at most,compared,'
shows 'now/a.img,1,4,.*,exchanged or reset,'
last() { # what the file holds, the message, the case
    printf "$1" > "$tmp/bad.csv"
    says "bad.csv$2" 3 "a last sheet: $3" "$wear" --since "$tmp/bad.csv" "$tmp/north.img"
}
last '' ': no wear sheet: it is empty' "empty"
last 'a,b\n' ':1: no wear sheet: the heading has no column image' "another CSV"
last 'image,pump,starts,run_seconds\nnorth.img,0,x,5\n' ":2: starts is no whole number: 'x'" "a word"
last 'image,pump,starts,run_seconds\nnorth.img,9,1,5\n' ":2: pumps are numbered 0 to 7, not '9'" "pump 9"
last 'image,pump,starts,run_seconds\na/north.img,0,1,5\nb/north.img,0,1,5\n' ": pump 0 of b/north.img stands there twice" "a pump twice"
says "not a regular file" 3 "a last sheet that is a pipe" timeout 20 "$wear" --since "$tmp/pipe.img" "$tmp/north.img"

# --- mistyped files: whatever they hold, a status and no crash ---
if command -v python3 > /dev/null; then
    gives 0 "services and last sheets with random mistakes" python3 - "$wear" "$tmp" << 'END'
import random, subprocess, sys
wear, tmp = sys.argv[1:]
random.seed(1)
good = {'--done': b'station,pump,last\nnorth.img,0,4000h\n"north.img";1;2026-01-31\n', '--since': open(tmp + '/last.csv', 'rb').read()}
for turn in range(120):
    option = random.choice(sorted(good))
    data = bytearray(good[option])
    for _ in range(random.randrange(1, 5)):
        at = random.randrange(len(data))
        data[at:at + random.randrange(3)] = bytes(random.choice(b'",;\n\r#-.0129hx\0\xef\xff ') for _ in range(random.randrange(3)))
    open(tmp + '/random.csv', 'wb').write(data)
    got = subprocess.run([wear, '--csv', option, tmp + '/random.csv', tmp + '/north.img', tmp + '/now/a.img'], capture_output=True)
    assert got.returncode in (0, 3) and b'Sanitizer' not in got.stderr and b'runtime error' not in got.stderr, (data, got)
END
fi

# --- options ---
says "an image is expected" 2 "no image" "$wear"
says "--interval takes a whole number from 1 to 1000000" 2 "--interval 0" "$wear" --interval 0 x
says "--interval takes a whole number from 1 to 1000000" 2 "--interval=1.5" "$wear" --interval=1.5 x
says "takes a value" 2 "--interval at the end" "$wear" x --interval
says "takes a value" 2 "--html at the end" "$wear" x --html
says "takes a value" 2 "--html=" "$wear" --html= x
says "takes a value" 2 "--csv=" "$wear" --csv= x
says "takes no value" 2 "--all=yes" "$wear" --all=yes x
says "takes a day" 2 "--date 2026-13-01" "$wear" --date 2026-13-01 x
says "number from 0 to 7" 2 "--writer=8" "$wear" --writer=8 x
says "unknown option '--frob'" 2 "--frob" "$wear" --frob=5 x
says "both the CSV and the page" 2 "one file for two" "$wear" --csv=a --html a x
cp "$tmp/north.img" "$tmp/--all"
(cd "$tmp" && "$wear" --csv -- --all > "$tmp/out"); shows '^1,--all,0,791,'

# --- files that are written ---
cp "$tmp/north.img" "$tmp/before.img"
says "holds something else" 3 "a page over an image" "$wear" --html "$tmp/north.img" "$tmp/new.img"
says "holds something else" 3 "a CSV over an image" "$wear" --csv="$tmp/north.img" "$tmp/new.img"
gives 0 "the image stays" cmp "$tmp/north.img" "$tmp/before.img"
printf '<html><body>my own</body></html>\n' > "$tmp/own.html"
printf 'order,image\n1,mine\n' > "$tmp/own.csv"
says "holds something else" 3 "a page over another page" "$wear" --html "$tmp/own.html" "$tmp/north.img"
says "holds something else" 3 "a CSV over another CSV" "$wear" --csv="$tmp/own.csv" "$tmp/north.img"
grep -q 'my own' "$tmp/own.html" && grep -q 'mine' "$tmp/own.csv"; report $? "both stay"
gives 0 "page and CSV" "$wear" --html "$tmp/page.html" --csv="$tmp/page.csv" "$tmp/north.img"
[ ! -s "$tmp/out" ]; report $? "and no text"
says "holds something else" 3 "a page over a CSV" "$wear" --html "$tmp/page.csv" "$tmp/north.img"
chmod 640 "$tmp/page.html"
ln -s page.html "$tmp/linked.html"
gives 0 "both again, by a link" "$wear" --html "$tmp/linked.html" --csv="$tmp/page.csv" "$tmp/depot, \"old\".img"
[ -L "$tmp/linked.html" ] && grep -q 'depot' "$tmp/page.html" && [ "$(stat -c %a "$tmp/page.html")" = 640 ]; report $? "link and rights stay"
cp "$tmp/page.html" "$tmp/before.html"
cp "$tmp/page.csv" "$tmp/before.csv"
says "cannot be opened" 3 "a page of a missing image" "$wear" --html "$tmp/page.html" "$tmp/missing.img"
(trap '' XFSZ; ulimit -f 1; "$out/wear" --html "$tmp/page.html" "$tmp/north.img" "$tmp/two.img") > "$tmp/out" 2> "$tmp/log"
[ $? -eq 3 ] && grep -q 'page.html: cannot be written: ' "$tmp/log"; report $? "a page on a full disk"
(trap '' XFSZ; ulimit -f 1; "$out/wear" --all --csv="$tmp/page.csv" "$tmp/north.img" "$tmp/two.img") > "$tmp/out" 2> "$tmp/log"
[ $? -eq 3 ] && grep -q 'page.csv: cannot be written: ' "$tmp/log"; report $? "a CSV on a full disk"
cmp "$tmp/page.html" "$tmp/before.html" && cmp "$tmp/page.csv" "$tmp/before.csv"; report $? "those from before stay"
[ -z "$(find "$tmp" -name '*.tmp')" ]; report $? "and no other file is left"
says "cannot be created: it is a folder" 3 "a page over a folder" "$wear" --html "$tmp/now" "$tmp/north.img"
says "cannot be created: not a regular file" 3 "a page into a pipe" timeout 20 "$wear" --html "$tmp/pipe.img" "$tmp/north.img"
says "cannot be created: not a regular file" 3 "a CSV into a device" "$wear" --csv=/dev/full "$tmp/north.img"
says "cannot be created" 3 "a page in a missing folder" "$wear" --html "$tmp/no/page.html" "$tmp/north.img"
if [ -e /dev/full ]; then
    "$wear" "$tmp/north.img" > /dev/full 2> "$tmp/log"
    [ $? -eq 3 ] && grep -q 'cannot write the output' "$tmp/log"; report $? "text on a full disk"
fi

# --- the page ---
long='Wastewater works at the old harbour, pump house 17 <reserve> & "spare", Kläranlage-am-alten-Hafen-Nord.img'
cp "$tmp/depot, \"old\".img" "$tmp/$long"
pages=$out/pages
mkdir -p "$pages"
rm -f "$pages"/page* "$pages"/look.html
printf 'north.img,0,4000h\n' > "$tmp/done.csv"
gives 3 "a page with everything" "$wear" --html "$pages/page.html" --interval 500 --date 2026-11-17 --now year.img=31536000 --done "$tmp/done.csv" \
    --since "$tmp/last.csv" "$tmp/north.img" "$tmp/$long" "$tmp/year.img" "$tmp/two.img" "$tmp/now/a.img" "$tmp/missing.img" "$tmp/north.img"
if command -v python3 > /dev/null; then
    gives 0 "the page is well formed and asks for nothing else" python3 - "$pages/page.html" << 'END'
import re, sys, xml.dom.minidom
text = open(sys.argv[1], encoding='utf-8').read()
table = text[text.index('<table'):text.index('</table>') + 8].replace('&nbsp;', ' ')
rows = xml.dom.minidom.parseString(table).getElementsByTagName('tr')
assert len(rows) - 2 == table.count('class="left"') > 10
for row in rows[1:-1]:
    assert len([n for n in row.childNodes if n.nodeName in ('td', 'th')]) == len(rows[0].getElementsByTagName('th')), row.toxml()
assert table.count('class="axis"') == 2 and table.count('RUNNING since') == 3
assert not re.search(r'(src|href)=|url\(|@import|https?:', text)
assert '&lt;reserve&gt; &amp; &quot;spare&quot;' in text and '<time datetime="2026-11-17">' in text
assert text.index('missing.img') < text.index('given twice') < text.index('<table')
END
fi

browser=$(command -v chromium || command -v chromium-browser || command -v google-chrome || true)
visit() { # address, what to do
    address=$1; shift
    timeout 120 "$browser" --headless --no-sandbox --disable-gpu --disable-dev-shm-usage --hide-scrollbars --user-data-dir="$tmp/browser" \
        --enable-logging=stderr --allow-file-access-from-files --no-pdf-header-footer "$@" "file://$address" 2> "$tmp/visit"
    grep 'CONSOLE' "$tmp/visit" > "$tmp/log"
    [ ! -s "$tmp/log" ]
}
if [ -n "$browser" ]; then
    pages=$(cd "$pages" && pwd)
    cp tests/programs/wear_page.html "$pages/look.html"
    for width in 420 1200; do
        visit "$pages/look.html#$width" --dump-dom --window-size=1300,3000 > "$tmp/out"; report $? "page at $width px: no script error"
        grep -o 'data-found="[^"]*"' "$tmp/out" > "$tmp/log"
        grep -q 'data-found="good"' "$tmp/log"; report $? "page at $width px: names whole, axes, sorting and filters"
        visit "$pages/look.html#$width" --screenshot="$pages/page-$width.png" --window-size="$((width < 500 ? 500 : width)),3000" > "$tmp/out"
        [ "$(wc -c < "$pages/page-$width.png")" -gt 20000 ]; report $? "page at $width px: a picture in pages/page-$width.png"
    done
    visit "$pages/page.html" --print-to-pdf="$pages/page.pdf" > "$tmp/out" && [ -s "$pages/page.pdf" ]; report $? "page on paper"
    if command -v pdftotext > /dev/null; then
        pdftotext -layout "$pages/page.pdf" "$tmp/page.txt"
        awk 'BEGIN { RS = "\f" } NF > 0 || !/^$/ { n++; print n ": " gsub(/pump [0-7]/, "") }' "$tmp/page.txt" > "$tmp/log"
        ! grep -q ': 0$' "$tmp/log" && [ -s "$tmp/log" ]; report $? "pumps on each sheet of paper, from the first on"
        pdfinfo "$pages/page.pdf" | grep -q 'Page size:.*A4'; report $? "A4"
    else
        echo "skipped the pages of the PDF: poppler-utils is not installed"
    fi
else
    echo "skipped pages in a browser: chromium is not installed"
fi

count wear-check
