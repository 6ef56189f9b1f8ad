#!/bin/sh
# Seeds for the fuzzers: seeds.sh PROGRAM FOLDER fills FOLDER/image, FOLDER/text and FOLDER/sheet. The first byte of a seed is the fuzzer's choice.
set -eu
kagutin=$1
program=$(cd "$(dirname "$kagutin")" && pwd)/$(basename "$kagutin")
folder=$2
mkdir -p "$folder/image" "$folder/text" "$folder/sheet"
tmp=$(mktemp -d)
trap 'rm -rf "$tmp"' EXIT

# name, first byte, file
seed() { { printf "$2"; cat "$3"; } > "$folder/$1"; }

"$kagutin" make "$tmp/new.img" 4 30 > /dev/null
"$kagutin" station --groups 4 --homes 33 --cuts 3 --keep-cut --file "$tmp/cut.img" > /dev/null
"$kagutin" convert "$tmp/cut.img" "$tmp/cut.bin" > /dev/null
for name in new.img cut.img cut.bin; do
    seed "image/$name" '\000' "$tmp/$name"
    seed "image/json-$name" '\003' "$tmp/$name"
done
printf '0 299 0 # none\n300 899 1\n900 9999 4\n' > "$tmp/table.txt"
printf '0 store all\n0 read 1..5, 7\n1 nothing\n' > "$tmp/list.txt"
printf 'time,mm\n2026-11-16T23:59,100\n2026-11-17 00:00:00,100\n' > "$tmp/days.csv"
printf 'minute;mm\n0;5\n1;6\n' > "$tmp/minutes.csv"
printf '06:00,5\n06:01,6\n' > "$tmp/clock.csv"
printf 'station,pump,done\n"north, old.img",3,4000h\n' > "$tmp/services.csv"
"$kagutin" export "$tmp/cut.img" | head -n 4 | sed '$s/,$/]}/' > "$tmp/homes.json"
"$kagutin" export --as hex "$tmp/cut.img" | head -n 3 > "$tmp/homes.hex"
seed text/table '\000' "$tmp/table.txt"
seed text/list '\001' "$tmp/list.txt"
for name in days minutes clock; do seed "text/$name" '\002' "$tmp/$name.csv"; done
for name in json hex; do seed "text/homes-$name" '\003' "$tmp/homes.$name"; done
seed text/services '\004' "$tmp/services.csv"
printf 'station,pump,last\nnorth.img,0,4000h\n"2026/north.img";3;2026-01-31\ndepot,0,2000000\n' > "$tmp/done.csv"
seed sheet/done '\000' "$tmp/done.csv"
mkdir "$tmp/2025"
cp "$tmp/cut.img" "$tmp/2025/north.img"
(cd "$tmp" && "$program" wear --csv --all --date 2025-11-17 2025/north.img west.img > last.csv 2> "$tmp/log") || test $? -eq 3
seed sheet/last '\001' "$tmp/last.csv"
