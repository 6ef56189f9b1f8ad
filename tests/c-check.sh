#!/bin/sh
# Tests of the C side: c-check.sh FOLDER-OF-THE-PROGRAMS (run by make c-check from the root).
# Prints one line per test; the last line counts them. Status 1 if one failed.
set -u
out=$1
san=$out/sanitize
cc=${CC:-cc}
lib=${LIB:-target/staticlib/libkagutin.a}
tmp=$(mktemp -d) || exit 1
fast=$tmp
trap 'umount "$tmp/disk" 2> /dev/null; rm -rf "$tmp" "$fast"' EXIT
passed=0
failed=0

report() { # status, name
    if [ "$1" -eq 0 ]; then
        passed=$((passed + 1)); echo "ok      $2"
    else
        failed=$((failed + 1)); echo "FAILED  $2"
        sed 's/^/        /' "$tmp/log" | tail -n 12
    fi
}

# status, name, command: the command must end with that status, and no sanitizer may speak.
gives() {
    want=$1; name=$2; shift 2
    "$@" > "$tmp/out" 2> "$tmp/log"
    got=$?
    if grep -q 'Sanitizer\|runtime error' "$tmp/log"; then got=sanitizer; fi
    [ "$got" = "$want" ] || echo "status $got, not $want: $*" >> "$tmp/log"
    [ "$got" = "$want" ]; report $? "$name"
}

# The same, and a message on standard error.
says() {
    text=$1; shift
    gives "$@"
    grep -q -e "$text" "$tmp/log"; report $? "$2: says '$text'"
}

quiet() { "$@" > /dev/null 2>&1; }

# Scratch images on a memory disk, if there is one: syncs cost nothing there.
if [ -d /dev/shm ] && [ -w /dev/shm ]; then
    fast=$(mktemp -d /dev/shm/kagutin.XXXXXX) || exit 1
fi

# --- headers and the store's sources ---
strict="-Wall -Wextra -pedantic -Wshadow -Wconversion -Werror -Iinclude"
for header in include/*.h; do echo "#include \"${header#include/}\""; done > "$tmp/headers.c"
cp "$tmp/headers.c" "$tmp/headers.cpp"
for standard in c99 c11; do
    gives 0 "headers as $standard" "$cc" -std=$standard $strict -fsyntax-only "$tmp/headers.c"
    gives 0 "store object and drivers as $standard" "$cc" -std=$standard $strict -fsyntax-only c/store/*.c c/drivers/*.c
done
if command -v g++ > /dev/null; then
    for standard in c++11 c++17; do
        gives 0 "headers as $standard" g++ -std=$standard $strict -fsyntax-only "$tmp/headers.cpp"
        gives 0 "store object and drivers as $standard" g++ -x c++ -std=$standard $strict -fsyntax-only c/store/*.c c/drivers/*.c
    done
else
    echo "skipped headers as C++: no g++"
fi

# --- stack of each call ---
gives 0 "stack: built" "$cc" -std=c99 -D_GNU_SOURCE -Wall -Wextra -pedantic -O2 -Iinclude tests/stack/stack.c "$lib" ${C_LIBS:-} -o "$tmp/stack"
gives 0 "stack: every call within its bound, small log and large" "$tmp/stack"

# --- no heap in the object; nm prints what it calls ---
objects=$out/obj/c
quiet sh -c "nm -u $objects/store/store.o $objects/store/room.o $objects/store/usage.o $objects/store/rights.o $objects/store/batch.o $objects/drivers/fram.o | grep -E 'alloc|free'"
[ $? -ne 0 ]; report $? "the object and the FRAM driver use no heap"

# --- quick start, driver, station ---
gives 0 "quick start" "$san/quickstart" "$tmp/quickstart.img"
gives 0 "quick start again" "$san/quickstart" "$tmp/quickstart.img"
grep -q '^2 starts.*, durable' "$tmp/out"; report $? "quick start: two starts, durable"
gives 0 "quick start -h" "$san/quickstart" -h
grep -q '^quickstart (Kagutin) [0-9]' "$tmp/out"; report $? "quick start: says its version"
gives 2 "quick start --frob" "$san/quickstart" --frob
[ ! -e -h ] && [ ! -e --frob ]; report $? "quick start: makes no image of an option"
gives 0 "driver" "$san/driver_check" "$tmp/driver.img"

# --- the store object and its drivers ---
gives 0 "store: power gone after every byte, any words or blocks at a cut" "$out/store_check" 1 5000
gives 0 "store: the same under sanitizers, every 17 bytes" "$san/store_check" 17 1500
gives 0 "store: places promised beforehand" "$san/reserve_check"
gives 0 "store: a log that is worn out" "$san/worn_check"
gives 0 "store: calls on several homes, refusal by refusal" "$san/many_check"
gives 0 "store: many first words wait, power gone after every few bytes" "$san/heads_check"
gives 0 "store: the runner beside one written by hand, batches and histories" "$san/runner_check"
gives 0 "store: settling in small steps, cut inside a round" "$san/round_check"
gives 0 "store: the list of rights, its ranges and the moment it counts" "$san/rights_check"
gives 0 "files: written and mapped, stopped inside writes, locks, failures" "$san/file_check" "$fast"
gives 0 "files: made by many at once, by a process that is killed, or not at all" "$san/create_check" "$tmp"
gives 0 "FRAM: power gone after every byte, at work and inside a format" "$out/fram_check" 1
gives 0 "FRAM: under sanitizers" "$san/fram_check" 13
gives 0 "FRAM: dumps by the tools' readers, against the driver" "$san/dump_check" "$fast" 300
gives 0 "format: over a damaged header, cut with every choice of words or blocks" "$out/format_check" 1
gives 0 "format: the same under sanitizers" "$san/format_check" 5
gives 0 "reopening: a driver that fails at each call in turn, any choice landed" "$out/reopen_check" 20000
gives 0 "reopening: the same under sanitizers" "$san/reopen_check" 4000
gives 1 "reopening: a load that shows a cache breaks the store" "$out/reopen_check" 20000 cache
gives 1 "reopening: a load that lets writes arrive later does" "$out/reopen_check" 20000 late
gives 0 "reopening: image files after failed syncs, mapped by a second process" "$out/disk_check" "$fast" 10000
gives 0 "reopening: the same under sanitizers, on this disk" "$san/disk_check" "$tmp" 1000
sources="c/store/store.c c/store/room.c c/store/usage.c c/store/rights.c c/store/batch.c c/drivers/memory.c"
build_tasks() { "$cc" -std=c99 -O1 -g "$@" $strict tests/store/tasks_check.c $sources "$lib" ${C_LIBS:-} -pthread -o "$tmp/tasks"; }
gives 0 "tasks: built" build_tasks -fsanitize=thread
if "$tmp/tasks" 2>&1 | grep -q 'unexpected memory mapping'; then # some kernels give the race detector no room
    gives 0 "tasks: built without the race detector" build_tasks
fi
gives 0 "tasks: eight threads under a lock, no race" "$tmp/tasks"
gives 0 "300 kills of a process at work" "$out/kill_check" "$fast/kills.img" 300 1
gives 0 "40 kills on this disk, under sanitizers" "$san/kill_check" "$tmp/kills.img" 40 2
if mkdir "$tmp/disk" && mount -t tmpfs -o size=16k none "$tmp/disk" 2> /dev/null; then
    says "no room" 3 "station on a full disk of its own" "$san/station" --groups 1024 --file "$tmp/disk/full.img"
    [ -z "$(ls "$tmp/disk")" ]; report $? "which stays empty"
    umount "$tmp/disk"
fi

# --- station ---
for seed in 1 2 3 4; do
    gives 0 "station, seed $seed" "$san/station" --seed $seed --cuts 120
done
for shape in "4 30" "4 33" "5 40" "16 4096" "16 65535" "1024 30"; do
    set -- $shape
    gives 0 "station, $1 groups, $2 homes" "$san/station" --seed 9 --cuts 40 --groups "$1" --homes "$2"
done
gives 0 "station, largest" "$out/station" --seed 5 --cuts 3 --groups 1024 --homes 65535
"$out/station" --seed 7 --cuts 30 > "$tmp/one"; "$out/station" --seed 7 --cuts 30 > "$tmp/two"
cmp -s "$tmp/one" "$tmp/two"; report $? "station: a seed repeats a run"
gives 0 "station, CSV" "$san/station" --cuts 20 --csv
[ "$(wc -l < "$tmp/out")" -eq 9 ] && [ "$(head -n 1 "$tmp/out" | cut -d, -f1-3)" = pump,starts,run_seconds ]
report $? "station, CSV: a heading and eight pumps"
gives 0 "station --help" "$san/station" --help
gives 0 "station -h" "$san/station" -h
gives 0 "station --version" "$san/station" --version
grep -q '^station (Kagutin) [0-9]' "$tmp/out"; report $? "station: says its version"
gives 0 "station, every cut" "$san/station" --cuts 60 --verbose
[ "$(grep -c '^ *[0-9]* *\(at work\|opening\) ' "$tmp/out")" -eq 60 ]; report $? "station --verbose: a line for each cut"
[ "$(awk 'length > 99' "$tmp/out" | wc -l)" -eq 0 ]; report $? "station: no line of 100 columns"
grep -q '^log full (.* 0 free; task [0-7] holds it' "$tmp/out"; report $? "station: says why the log is full"
missing=0
for word in confirm settling trim live dead 'held back' promised unissued arrived replayed; do
    grep -q "^  $word  " "$tmp/out" || missing=1
done
report $missing "station: a legend for its words"
grep -q '^ *[0-9]* live at the end, [0-9]* dead, [0-9]* free$' "$tmp/out"; report $? "station: what fills the log at the end"
grep -q '[1-9][0-9]* times the radio task had its places promised' "$tmp/out"; report $? "station: the radio task has places promised"
grep -q '^ *[1-9][0-9]* stores and [1-9][0-9]* reads of a home that the list of rights does not give' "$tmp/out"
report $? "station: tasks that try another's home are refused"
grep -q '^ *[1-9][0-9]* starts and stops of pumps, [1-9][0-9]* alarms raised or cleared' "$tmp/out"; report $? "station: pumps switch, alarms come and clear"
grep -q '^Panel: \(alarm [0-9]*, class [1-9], since [0-9]*:[0-5][0-9]:[0-5][0-9]\|no alarm open\)$' "$tmp/out"; report $? "station: a panel with the gravest alarm"
grep -q '^ *[1-9][0-9]* rounds of settling begun, in [1-9][0-9]* steps' "$tmp/out"; report $? "station: settles in small steps"
"$san/station" --cuts 1000000 --csv > "$tmp/out" 2> "$tmp/log" &
sleep 1; kill -INT $!; wait $!; status=$?
[ $status -eq 130 ] && [ "$(wc -l < "$tmp/out")" -eq 9 ]; report $? "station interrupted: its sheet is written"

# --- options ---
says "unknown option" 2 "station --frob" "$san/station" --frob
says "takes a value" 2 "station --seed without a number" "$san/station" --seed
says "from 0 to" 2 "station --seed -1" "$san/station" --seed -1
says "from 1 to" 2 "station --cuts 0" "$san/station" --cuts 0
says "from 4 to" 2 "station --groups 3" "$san/station" --groups 3
says "from 4 to" 2 "station --groups 12x" "$san/station" --groups 12x
says "from 30 to" 2 "station --homes 65536" "$san/station" --homes 65536
says "goes with --file" 2 "station --keep-cut without a file" "$san/station" --keep-cut
says "an image is expected" 2 "inspect without an image" "$san/inspect"
says "unknown option" 2 "inspect --frob" "$san/inspect" --frob x
says "takes a value" 2 "inspect --groups without a number" "$san/inspect" "$tmp/none" --groups
says "from 4 to" 2 "inspect --groups 1025" "$san/inspect" --groups 1025 x
says "one image" 2 "inspect with two images" "$san/inspect" a b
says "cannot be opened" 3 "inspect of a missing file" "$san/inspect" "$tmp/none"

# --- files ---
image=$tmp/station.img
gives 0 "station on a new file" "$san/station" --seed 3 --cuts 10 --groups 12 --homes 40 --file "$image"
gives 0 "station goes on with it" "$san/station" --seed 4 --cuts 10 --file "$image"
says "other numbers" 3 "station with another shape" "$san/station" --groups 4 --file "$image"
says "another shape: " 1 "the station's image by the quick start" "$san/quickstart" "$image"
gives 0 "station leaves a cut" "$san/station" --seed 35 --cuts 7 --file "$image" --keep-cut
grep -q 'kept .*came back' "$tmp/out" && grep -q 'in the image' "$tmp/out"
report $? "and counts what is in it as not opened"
gives 0 "inspect a sound image" "$san/inspect" "$image"
grep -q '^commits ([1-9]' "$tmp/out"; report $? "inspect: finds commits"
grep -q '^the walk stopped: ' "$tmp/out"; report $? "inspect: says why the walk stopped"
grep -q '^  writer 3  stores to 3, 32 to 65534, 24 to 29; reads 3, 32 to 65534, 24 to 29$' "$tmp/out"; report $? "inspect: a writer's rights"
grep -q '^  writer 7 .*; reads 7, 32 to 65534, 0 to 65534$' "$tmp/out"; report $? "inspect: overlapping ranges"
gives 0 "inspect --json" "$san/inspect" --json "$image"
if command -v python3 > /dev/null; then
    quiet python3 -m json.tool "$tmp/out"; report $? "inspect: its JSON is JSON"
fi
if command -v python3 > /dev/null; then
    cp "$image" "$tmp/Pumpenhäuschen.img"
    "$san/inspect" --json "$tmp/Pumpenhäuschen.img" > "$tmp/out" 2> "$tmp/log"
    python3 -c 'import json,sys; v = json.load(open(sys.argv[1])); sys.exit(not (v["image"].endswith("/Pumpenhäuschen.img")
        and len(v["homes"]) == 40 and any(e.get("comes_back") for s in v["slots"] for e in s.get("entries", []))))' "$tmp/out" 2>> "$tmp/log"
    report $? "inspect: a name in UTF-8, every home, entries that come back"
    python3 -c 'import json,sys; r = json.load(open(sys.argv[1]))["rights"]
sys.exit(not (r["list"] and len(r["writers"]) == 8 and r["writers"][2]["store"] == [{"first": 2, "number": 1}, {"first": 32, "number": 65503},
    {"first": 16, "number": 8}] and r["writers"][7]["read"][2] == {"first": 0, "number": 65535}))' "$tmp/out" 2>> "$tmp/log"
    report $? "inspect: the list of rights as JSON"
    python3 -c 'import json,sys; v = json.load(open(sys.argv[1])); p = v["places"]
e = [x["comes_back"] for s in v["slots"] for x in s.get("entries", []) if x["kind"] != "nothing"]
t = [x for s in v["slots"] for x in s.get("entries", []) if x.get("torn")]
sys.exit(not (sum(p.values()) == 7 * len(v["slots"]) and p["committed"] == sum(e) and p["others"] == len(e) - sum(e) > 0
    and p["torn"] == len(t) + sum(s.get("torn", 0) for s in v["slots"]) > 0 < len(t) and all("has not arrived" in x["why"] for x in t)))' "$tmp/out" 2>> "$tmp/log"
    report $? "inspect: places with entries that come back, with others, torn, unused"
    bad=$(printf '%s/bad\377name.img' "$tmp"); cp "$image" "$bad"
    "$san/inspect" --json "$bad" > "$tmp/out" 2> "$tmp/log"
    quiet python3 -m json.tool "$tmp/out"; report $? "inspect: a name that is no UTF-8"
fi
gives 0 "inspect the quick start's image" "$san/inspect" "$tmp/quickstart.img"
grep -q '^rights: no list, homes 8 to 11 are zeros' "$tmp/out"; report $? "inspect: no list of rights"
grep -q '^ *7 .*2 starts.*from position' "$tmp/out"; report $? "inspect: a home's value, in text, and where it comes from"
printf 'torn' | dd of="$tmp/quickstart.img" bs=1 seek=$((64 + 512 * 9 + 70)) conv=notrunc 2> /dev/null
gives 0 "inspect a torn group whose number has not arrived" "$san/inspect" "$tmp/quickstart.img"
grep -q 'its number has not arrived' "$tmp/out"; report $? "inspect: says so"
grep -q '^places .* 1 torn, ' "$tmp/out"; report $? "inspect: and counts its block among the torn places"
grep -q 'blank, not written since' "$tmp/out"; report $? "inspect: names blank slots"
printf '\120\110' | dd of="$tmp/quickstart.img" bs=1 conv=notrunc 2> /dev/null
gives 1 "inspect an image of the older format" "$san/inspect" --groups 16 "$tmp/quickstart.img"
grep -q 'mark 50 48, an older format' "$tmp/out"; report $? "inspect: names it"
gives 1 "the older format by the quick start" "$san/quickstart" "$tmp/quickstart.img"
grep -q 'older format' "$tmp/log"; report $? "quick start: names it"
gives 0 "inspect -h" "$san/inspect" -h
gives 0 "inspect --version" "$san/inspect" --version
mkfifo "$tmp/fifo"
says "not a regular file" 3 "inspect a FIFO" timeout 10 "$san/inspect" "$tmp/fifo"
says "not a regular file" 3 "station on a FIFO" timeout 10 "$san/station" --file "$tmp/fifo"
cp "$image" "$tmp/huge.img"
if dd if=/dev/null of="$tmp/huge.img" bs=1 seek=21474836480 2> /dev/null; then
    gives 1 "inspect a file of 20 GiB" "$san/inspect" "$tmp/huge.img"
    grep -q 'file: 21474836480 bytes, more than' "$tmp/out"; report $? "inspect: says its size"
fi
rm -f "$tmp/huge.img"
cp "$image" "$tmp/kept.img"
gives 0 "station opens what the cut left" "$san/station" --seed 5 --cuts 3 --file "$image"
cp "$tmp/kept.img" "$image"
size=$(wc -c < "$image")

# --- images near the end of their numbers: 12 groups, so 2^47 - 12 and so on, little-endian ---
start() { printf "$2" | dd of="$1" bs=1 seek=2 conv=notrunc 2> /dev/null; }
for bytes in '\364\377\377\377\377\177' '\350\377\377\377\377\177' '\000\000\000\000\000\200'; do
    rm -f "$tmp/worn.img"
    quiet "$out/station" --seed 3 --cuts 1 --groups 12 --homes 40 --file "$tmp/worn.img"
    start "$tmp/worn.img" "$bytes"
    gives 4 "station on a worn-out image" "$san/station" --seed 3 --cuts 60 --file "$tmp/worn.img"
    grep -q 'worn out' "$tmp/out"; report $? "and says so"
    gives 0 "inspect it" "$san/inspect" "$tmp/worn.img"
    grep -q '^worn  *out' "$tmp/out"; report $? "inspect: says so"
    gives 0 "inspect it as JSON" "$san/inspect" --json "$tmp/worn.img"
    grep -q '"worn_out":true}' "$tmp/out"; report $? "inspect: says so"
done
gives 4 "station on one that it cannot open once" "$san/station" --file "$tmp/worn.img"
grep -q 'every opening' "$tmp/out"; [ $? -eq 1 ]; report $? "and it says nothing of openings"

mkdir "$tmp/folder"
says "regular file\|directory" 3 "station on a folder" "$san/station" --file "$tmp/folder"
says "cannot be created" 3 "station in a missing folder" "$san/station" --file "$tmp/none/x.img"
[ ! -e "$tmp/none" ]; report $? "nothing is left in the missing folder"
(ulimit -f 1; "$san/station" --file "$tmp/full.img") > "$tmp/out" 2> "$tmp/log"
[ $? -eq 3 ] && grep -q 'no room' "$tmp/log"; report $? "station on a full disk"
[ -z "$(find "$tmp" -name '*full*')" ]; report $? "a full disk leaves no file behind"
chmod 444 "$image"
says "read-only\|Permission" 3 "station on a read-only file" "$san/station" --file "$image"
chmod 644 "$image"
for length in 0 1 63 64 100 600 $((size - 1)) $((size - 64)); do
    head -c "$length" "$tmp/kept.img" > "$tmp/short.img"
    cp "$tmp/short.img" "$tmp/same.img"
    gives 3 "station on an image cut to $length bytes" "$san/station" --file "$tmp/short.img"
    cmp -s "$tmp/short.img" "$tmp/same.img"; report $? "and it leaves it alone"
    if [ "$length" -eq 0 ]; then damaged=3; else damaged=1; fi
    gives $damaged "inspect an image cut to $length bytes" "$san/inspect" "$tmp/short.img"
    gives $damaged "inspect it with --groups" "$san/inspect" --json --groups 12 "$tmp/short.img"
done
cat "$tmp/kept.img" "$tmp/headers.c" > "$tmp/long.img"
says "overlong" 3 "station on an overlong file" "$san/station" --file "$tmp/long.img"
gives 1 "inspect an overlong file" "$san/inspect" "$tmp/long.img"
says "no image" 3 "station on some other file" "$san/station" --file "$out/station"
gives 1 "inspect some other file" "$san/inspect" --groups 1024 "$out/station"

# --- garbled images: bytes overwritten at places that a fixed sequence gives ---
seed=12345
next() { seed=$(( (seed * 1103515245 + 12345) % 2147483648 )); drawn=$(( seed / 65536 % $1 )); }
trouble=0
round=0
while [ $round -lt 30 ]; do
    cp "$tmp/kept.img" "$tmp/garbled.img"
    for _ in 1 2 3 4; do
        next 4
        if [ $drawn -eq 0 ]; then next 64; at=$drawn; else next 12; at=$((64 + 512 * drawn)); next 64; at=$((at + drawn)); fi
        next 256
        printf "\\$(printf %03o $drawn)" | dd of="$tmp/garbled.img" bs=1 seek=$at conv=notrunc 2> /dev/null
    done
    for json in "" --json; do
        for groups in "" "--groups 12" "--groups 1024"; do
            "$san/inspect" $json $groups "$tmp/garbled.img" > "$tmp/out" 2> "$tmp/log"
            [ $? -le 1 ] || { trouble=1; break 3; }
            if grep -q 'Sanitizer\|runtime error' "$tmp/log"; then trouble=1; break 3; fi
        done
    done
    round=$((round + 1))
done
report $trouble "inspect 30 garbled images in six ways"

# --- valgrind ---
if command -v valgrind > /dev/null; then
    memcheck="valgrind -q --error-exitcode=9 --leak-check=full"
    gives 0 "station under memcheck" $memcheck "$out/station" --seed 6 --cuts 25 --groups 6 --homes 40
    gives 0 "inspect under memcheck" $memcheck "$out/inspect" "$tmp/kept.img"
    gives 0 "quick start under memcheck" $memcheck "$out/quickstart" "$tmp/memcheck.img"
    gives 0 "store under memcheck" $memcheck "$out/store_check" 499 30
    # shellcheck disable=SC2046 # no word where the library is the archive
    gives 0 "cost of question 2" sh tests/costs/question-cost.sh "$out" $([ "$lib" != "$out/libkagutin.a" ] || echo --c-file)
else
    echo "skipped memcheck and cost: valgrind is not installed"
fi

# --- the sources of the object in one folder, and a program built from them ---
gives 0 "make c-dist" "${MAKE:-make}" -f make/c.mk DIST="$tmp/dist" c-dist
gives 0 "build from that folder" "$cc" -std=c99 -I"$tmp/dist" c/examples/quickstart.c "$tmp"/dist/kagutin_*.c "$lib" ${C_LIBS:-} -o "$tmp/from-dist"
gives 0 "run it" "$tmp/from-dist" "$tmp/from-dist.img"

# --- install, and a program outside built against it ---
gives 0 "make install" "${MAKE:-make}" -f make/c.mk LIB="$lib" C_LIBS="${C_LIBS:-}" DESTDIR="$tmp/root" PREFIX=/opt/kagutin install
gives 0 "the installed program" "$tmp/root/opt/kagutin/bin/kagutin" make "$tmp/installed.img" 4 30
gives 0 "by an older name" "$tmp/root/opt/kagutin/bin/inspect" "$tmp/installed.img"
[ -r "$tmp/root/opt/kagutin/share/man/man1/kagutin-bands.1" ] && [ -r "$tmp/root/opt/kagutin/share/bash-completion/completions/bands" ]
report $? "manual pages and completion are there"
if command -v pkg-config > /dev/null; then
    cp c/examples/quickstart.c "$tmp/outside.c"
    flags=$(PKG_CONFIG_PATH="$tmp/root/opt/kagutin/lib/pkgconfig" PKG_CONFIG_SYSROOT_DIR="$tmp/root" pkg-config --cflags --libs kagutin)
    gives 0 "build outside with pkg-config" "$cc" "$tmp/outside.c" -o "$tmp/outside" $flags
    gives 0 "run it" "$tmp/outside" "$tmp/outside.img"
else
    echo "skipped the build outside: no pkg-config"
fi
gives 0 "make uninstall" "${MAKE:-make}" -f make/c.mk DESTDIR="$tmp/root" PREFIX=/opt/kagutin uninstall
[ -z "$(find "$tmp/root" ! -type d)" ]; report $? "and nothing is left"

echo "c-check: $passed passed, $failed failed"
[ $failed -eq 0 ]
