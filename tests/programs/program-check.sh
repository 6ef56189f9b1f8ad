#!/bin/sh
# Tests of the program kagutin: program-check.sh FOLDER-OF-THE-PROGRAMS (run by make program-check from the root).
# Prints one line per test; the last line counts them. Status 1 if one failed.
set -u
out=$1
san=$out/sanitize
k=$san/kagutin
home=$(pwd)
. tests/common/helpers.sh

shows() {
    grep -q -e "$1" "$tmp/out"; report $? "output: '$1'"
}

commands="make inspect wear bands alarms rights gauges inflow convert export import station"

# --- the program ---
gives 0 "--help" "$k" --help
for command in $commands; do
    shows "^  $command  *[a-z]"
done
gives 0 "--version" "$k" --version
shows '^kagutin [0-9]'
says "a command is expected" 2 "no command" "$k"
says "unknown command 'frob'" 2 "a wrong command" "$k" frob
says "unknown option '--frob'" 2 "a wrong option" "$k" --frob
says "unknown command 'frob'" 2 "help of a wrong command" "$k" help frob
for command in $commands; do
    gives 0 "help $command" "$k" help "$command"
    cp "$tmp/out" "$tmp/help"
    gives 0 "$command -h" "$k" "$command" -h
    cmp -s "$tmp/out" "$tmp/help"; report $? "the same"
    gives 0 "$command --version" "$k" "$command" --version
    shows "^$command (Kagutin) [0-9]"
    says "unknown option '--frob'" 2 "$command --frob" "$k" "$command" --frob=1
done

gives 0 "make kagutin" "${MAKE:-make}" -n -B -f make/c.mk kagutin
for name in inspect wear bands gauges inflow station; do
    shows "^ln -sf kagutin .*/$name\$"
done

# --- make ---
gives 0 "make" "$k" make "$tmp/north.img" 16 32
says "exists already" 3 "make over an image" "$k" make "$tmp/north.img" 16 32
says "GROUPS takes a whole number from 4 to 1024" 2 "make with 3 groups" "$k" make "$tmp/x.img" 3 32
says "HOMES takes a whole number from 1 to 65535" 2 "make with 65536 homes" "$k" make "$tmp/x.img" 4 65536
says "groups and its homes are expected" 2 "make without a shape" "$k" make "$tmp/x.img"
says "cannot be created" 3 "make in a missing folder" "$k" make "$tmp/no/x.img" 4 1
gives 0 "the smallest" "$k" make "$tmp/small.img" 4 1
gives 0 "inspect it" "$k" inspect "$tmp/small.img"
gives 0 "inspect the other" "$k" inspect "$tmp/north.img"
shows '^bands: no table$'
shows '^  pump 7  never started$'
shows '^alarms: none open$'

# --- rights ---
says "no list is set" 1 "rights show without a list" "$k" rights show "$tmp/north.img"
cat > "$tmp/list.txt" << 'LIST'
# all but 5
0 store all
0 read all
1 store 1,12..14
1 read 0..65534
2 read 2
3 read 3
4 read 4
5 nothing
6 read 6
7 read all
LIST
gives 0 "rights set" "$k" rights set "$tmp/north.img" "$tmp/list.txt"
gives 0 "rights show" "$k" rights show "$tmp/north.img"
cp "$tmp/out" "$tmp/shown.txt"
shows '^1 store 1 12..14$'
shows '^5 nothing$'
gives 0 "what show prints can be set" "$k" rights set "$tmp/north.img" "$tmp/shown.txt"
cp "$tmp/north.img" "$tmp/before.img"
# What a list holds, the status, and the message; the image stays.
bad() {
    printf "$1" > "$tmp/bad.txt"
    says "bad.txt:*$3" "$2" "a list: $4" "$k" rights set "$tmp/north.img" "$tmp/bad.txt"
}
bad '' 1 ' it gives nobody anything' "empty"
bad '0 store all\n' 1 ' writer 1 could touch no home' "writers left out"
bad '0 read all\n1 store 8..11\n' 1 ' writer 1 could touch no home' "nothing but the list's homes"
bad '0 read all\n1 store 32..40\n' 1 ' writer 1 could touch no home below 32' "homes beyond D"
bad '8 read all\n' 3 "1: a writer from 0 to 7 is expected, not '8'" "writer 8"
bad 'one read all\n' 3 "1: a writer from 0 to 7" "a word"
bad '0 write all\n' 3 '1: a line is: W store HOMES' "write"
bad '0 store\n' 3 '1: homes are expected' "no homes"
bad '0 store 5..4\n' 3 "1: '5..4': homes go up to" "from above to"
bad '0 store 70000\n' 3 "1: '70000': homes go up to" "a large home"
bad '0 store 5-9\n' 3 "1: '5-9' is neither" "a dash"
bad '0 nothing at all\n' 3 '1: a line is' "words behind nothing"
bad '0 store 1 2 3 4 5\n' 3 '1: writer 0 has four ranges' "five ranges"
bad '0 store 1\n\0\n' 3 '2: a zero byte' "a zero byte"
gives 0 "the image stays" cmp "$tmp/north.img" "$tmp/before.img"
printf '\357\273\2770 read all\n0 store 0\n1 nothing\n2 nothing\n3 nothing\n4 nothing\n5 nothing\n6 nothing\n7 nothing\n' > "$tmp/bom.txt"
says "note: no writer may store to homes 16 to 23, the pumps" 0 "a list that leaves the pumps to nobody, with a byte order mark" "$k" rights set "$tmp/north.img" "$tmp/bom.txt"
printf '0 9999 1\n' > "$tmp/table.txt"
cp "$tmp/north.img" "$tmp/before.img"
says "no writer has the right to store to homes 12 to 14" 1 "bands under it" "$k" bands set "$tmp/north.img" "$tmp/table.txt"
gives 0 "the image stays" cmp "$tmp/north.img" "$tmp/before.img"
says "a list takes homes 8 to 11; the image has 1 homes" 1 "a list in a small image" "$k" rights set "$tmp/small.img" "$tmp/list.txt"
gives 0 "rights clear" "$k" rights clear "$tmp/north.img"
gives 0 "bands" "$k" bands set --writer=3 "$tmp/north.img" "$tmp/table.txt"
says "show, set or clear" 2 "rights alone" "$k" rights
says "unknown command" 2 "rights frob" "$k" rights frob x
says "set takes an image and a list" 2 "rights set without a list" "$k" rights set x

# --- dumps ---
gives 0 "a station's image" "$k" station --cuts 12 --groups 9 --homes 40 --file "$tmp/station.img"
gives 0 "convert" "$k" convert "$tmp/station.img" "$tmp/station.bin"
gives 0 "and back" "$k" convert "$tmp/station.bin" "$tmp/again.img"
gives 0 "the same image" cmp "$tmp/station.img" "$tmp/again.img"
gives 0 "into a chip" "$k" convert --base 300 --size=16384 "$tmp/station.img" "$tmp/chip.bin"
[ "$(wc -c < "$tmp/chip.bin")" -eq 16384 ]; report $? "of 16384 bytes"
says "no image.*; a store begins at byte 300: --base 300$" 3 "a chip without its base" "$k" convert "$tmp/chip.bin" "$tmp/none.img"
says "a store begins at byte 300: --base 300$" 1 "inspect a chip without its base" "$k" inspect "$tmp/chip.bin"
says "a store begins at byte 300: --base 300$" 3 "wear of a chip without its base" "$k" wear "$tmp/chip.bin"
[ "$(od -An -v -tx1 -w32 -N64 "$tmp/station.bin" | sort -u | wc -l)" -eq 1 ]; report $? "both copies of the header, the same"
gives 0 "inspect calls both whole" "$k" inspect "$tmp/station.bin"
shows "^dump  *of a serial FRAM: the header's copy at 0 counts, the one at 32 is the same; 0 bytes behind"
gives 0 "back from the chip" "$k" convert --base 300 "$tmp/chip.bin" "$tmp/chip.img"
gives 0 "the same image" cmp "$tmp/station.img" "$tmp/chip.img"
says "do not fit in 7000" 1 "a small chip" "$k" convert --size 7000 "$tmp/station.img" "$tmp/none.bin"
says "from 16777000 on do not fit in 16777216" 1 "beyond the end of every chip" "$k" convert --base 16777000 "$tmp/station.img" "$tmp/none.bin"
says "exists already" 3 "convert over a file" "$k" convert "$tmp/station.img" "$tmp/chip.bin"
says "image or dump" 2 "--to frob" "$k" convert --to frob a b
[ ! -e "$tmp/none.bin" ] && [ ! -e "$tmp/none.img" ] && [ -z "$(find "$tmp" -name '*.bin.*')" ]; report $? "nothing is left of what was refused"
gives 0 "a table" "$k" bands set "$tmp/again.img" "$tmp/table.txt"
gives 0 "its dump, and a chip with two stores" "$k" convert "$tmp/again.img" "$tmp/again.bin"
cat "$tmp/station.bin" "$tmp/again.bin" > "$tmp/twice.bin"
base=$(wc -c < "$tmp/station.bin")
gives 0 "the second store of a chip" "$k" convert --base "$base" "$tmp/twice.bin" "$tmp/second.img"
gives 0 "is that of the base" cmp "$tmp/second.img" "$tmp/again.img"
# A base that is a little wrong gives no other homes, and the message has the right one.
for off in -32 32; do
    says "the store begins at byte $base, not at $((base + off)): --base $base" 3 "a base off by $off" "$k" rights show --base $((base + off)) "$tmp/twice.bin"
done
for off in -33 -1 1 12 31 33 63 95; do
    says "a store begins at byte $base: --base $base" 3 "a base off by $off" "$k" rights show --base $((base + off)) "$tmp/twice.bin"
done
says "the store begins at byte 0, not at 32" 3 "the second copy of a header" "$k" inspect --base 32 "$tmp/again.bin"
cp "$tmp/twice.bin" "$tmp/worn.bin"
printf '\001' | dd of="$tmp/worn.bin" bs=1 seek=$((base + 13)) conv=notrunc 2> /dev/null
for off in -32 -1 1 33; do
    says "a store begins at byte $base: --base $base" 3 "a first copy that is torn, a base off by $off" "$k" alarms --base $((base + off)) "$tmp/worn.bin"
done
gives 0 "a first copy that is torn" "$k" alarms --base "$base" "$tmp/worn.bin"
# What a reader prints of a file is what it prints of a dump, at 0 or at a base.
same() {
    sed -e "s/\($1\)\.[a-z]*/xxx/" -e 's/[0-9]* bytes$//' -e '/^dump /d' -e 's/"bytes":.*"dump":.*,$//' "$tmp/out" | cmp - "$tmp/image.out" > "$tmp/log" 2>&1; report $? "the same"
}
for command in inspect "inspect --json" alarms "alarms --csv" "rights show" export wear "wear --csv" "bands show" "bands at"; do
    mm=
    if [ "$command" = "bands at" ]; then mm=5; fi
    gives 0 "$command of the image" "$k" $command "$tmp/again.img" $mm
    sed -e 's/again\.img/xxx/' -e 's/[0-9]* bytes$//' -e 's/"bytes":.*"dump":.*,$//' "$tmp/out" > "$tmp/image.out"
    gives 0 "$command of the dump" "$k" $command "$tmp/again.bin" $mm
    same again
    gives 0 "$command of the second store of a chip" "$k" $command --base="$base" "$tmp/twice.bin" $mm
    same twice
    gives 0 "$command of an image, a base for dumps given" "$k" $command --base 300 "$tmp/again.img" $mm
    same again
    says "none from 70000 on" 3 "$command beyond the end" "$k" $command --base 70000 "$tmp/twice.bin" $mm
    says "from 0 to 16777215, not '-1'" 2 "$command before the begin" "$k" $command --base -1 "$tmp/twice.bin" $mm
done
says "not changed in place" 2 "rights set at a base" "$k" rights set --base 5 "$tmp/twice.bin" "$tmp/list.txt"
says "not changed in place" 2 "bands set at a base" "$k" bands set --base 5 "$tmp/twice.bin" "$tmp/list.txt"
cp "$tmp/again.bin" "$tmp/torn.bin"
printf '\001' | dd of="$tmp/torn.bin" bs=1 seek=13 conv=notrunc 2> /dev/null
gives 0 "a dump with one damaged copy of its header" "$k" inspect "$tmp/torn.bin"
shows "the header's copy at 32 counts, the one at 0 is torn"
printf '\001' | dd of="$tmp/torn.bin" bs=1 seek=45 conv=notrunc 2> /dev/null
for command in alarms "rights show" export wear "bands show"; do
    says "a dump whose header is damaged in both copies" 3 "$command of a dump with two" "$k" $command "$tmp/torn.bin"
done
gives 1 "inspect it" "$k" inspect "$tmp/torn.bin"
shows '^  pump 7  [1-9]'
says "is not changed in place" 3 "bands set in a dump" "$k" bands set "$tmp/station.bin" "$tmp/table.txt"
says "is not changed in place" 3 "rights set in a dump" "$k" rights set "$tmp/station.bin" "$tmp/list.txt"

# --- homes as text ---
for kind in json csv hex; do
    gives 0 "export as $kind" "$k" export --as "$kind" "$tmp/station.img"
    cp "$tmp/out" "$tmp/homes.$kind"
    gives 0 "import it" "$k" import "$tmp/homes.$kind" "$tmp/$kind.img"
    gives 0 "export again" "$k" export --as "$kind" "$tmp/$kind.img"
    cmp -s "$tmp/out" "$tmp/homes.$kind"; report $? "the same homes, the list of rights among them"
    gives 0 "the station goes on with it" "$k" station --cuts 3 --file "$tmp/$kind.img"
done
says "exists already" 3 "import over an image" "$k" import "$tmp/homes.csv" "$tmp/csv.img"
says "does not fit in an image of 30 homes" 1 "import into fewer homes" "$k" import --homes 30 "$tmp/homes.csv" "$tmp/none.img"
gives 0 "import into more" "$k" import --groups 4 --homes 65535 "$tmp/homes.hex" "$tmp/large.img"
if command -v python3 > /dev/null; then
    gives 0 "JSON laid out otherwise" python3 -c 'import json, sys
json.dump(dict(note="x", **json.load(open(sys.argv[1]))), open(sys.argv[2], "w"), indent=3, sort_keys=True)' "$tmp/homes.json" "$tmp/other.json"
    gives 0 "import it" "$k" import "$tmp/other.json" "$tmp/other.img"
    gives 0 "export again" "$k" export "$tmp/other.img"
    cmp -s "$tmp/out" "$tmp/homes.json"; report $? "the same homes"
fi
# What a text holds, and the message.
text() {
    printf "$1" > "$tmp/bad.txt"
    says "$2" 3 "homes: $3" "$k" import --groups 4 --homes 8 "$tmp/bad.txt" "$tmp/none.img"
}
text '{"blocks":[' 'bad.txt:1: a home in braces' "JSON cut off"
text '{"blocks":[{"home":1}]}' 'bad.txt:1: a home has "home" and "block"' "no block"
text '{"blocks":[{"home":1,"block":"00"}]}' 'bad.txt:1: 64 bytes in hex' "a short block"
text '{"blocks":[]}\n\nx' 'bad.txt:3: the end is expected' "words behind"
text '{"groups":x}' 'bad.txt:1: a whole number' "no number"
text 'home,block\n1,00\n' 'bad.txt:2: home 1: 64 bytes' "a short row"
text 'x\n' 'bad.txt:1: a row is' "a word"
row=1,$(printf '%0128d' 0)
text "$row\n$row\n" 'bad.txt:2: home 1 stands here a second time' "twice"
text "99999$row\n" 'bad.txt:1: home 999991: homes go' "a large home"
text '\0' 'a zero byte' "a zero byte"
text '' 'bad.txt:1: no homes in it' "an empty text"
text '# groups 4 homes 8\n{}\n' 'bad.txt:2: a row is' "a brace"
for kind in csv hex; do
    sed '$d' "$tmp/homes.$kind" > "$tmp/cut.txt"
    says "cut.txt:.*: the text is cut off, or has lines too many: it tells of [0-9]* homes and has" 3 "a text as $kind cut off" "$k" import "$tmp/cut.txt" "$tmp/none.img"
    sed '1s/ blocks.*//' "$tmp/homes.$kind" > "$tmp/old.txt"
    rm -f "$tmp/old.img"
    gives 0 "a text that does not tell how many" "$k" import "$tmp/old.txt" "$tmp/old.img"
done
printf '{"groups":99999,"homes":12,"blocks":[]}' > "$tmp/shape.json"
says "groups go from 4 to 1024" 3 "a text with a wrong shape" "$k" import "$tmp/shape.json" "$tmp/none.img"
[ ! -e "$tmp/none.img" ]; report $? "none of them makes an image"
printf '%s\n' "$row" > "$tmp/plain.txt"
says "does not say how many groups" 3 "no shape" "$k" import "$tmp/plain.txt" "$tmp/none.img"
says "json, csv or hex" 2 "--as frob" "$k" export --as frob x

# --- worn-out and older images: 9 groups, so a start of 2^47 - 8 ---
"$k" export "$tmp/station.img" > "$tmp/station.json" 2> /dev/null
printf '\370\377\377\377\377\177' | dd of="$tmp/station.img" bs=1 seek=2 conv=notrunc 2> /dev/null
says "worn out" 3 "bands set in a worn-out image" "$k" bands set "$tmp/station.img" "$tmp/table.txt"
gives 0 "export it" "$k" export "$tmp/station.img"
cp "$tmp/out" "$tmp/worn.json"
gives 0 "alarms of it" "$k" alarms "$tmp/station.img"
gives 0 "import it" "$k" import "$tmp/worn.json" "$tmp/new.img"
gives 0 "the station goes on with it" "$k" station --cuts 3 --file "$tmp/new.img"
if command -v python3 > /dev/null; then
    # One group of the older format: entries of homes 3 and 5, the second closing, and blocks of FF, as no turn bit displaces theirs.
    gives 0 "an image of the older format" python3 - "$tmp/older.img" << 'END'
import struct, sys
groups, homes, start = 4, 8, 6
image = bytearray(64 + 512 * groups + 64 * homes)
image[:12] = b'PH' + start.to_bytes(6, 'little') + struct.pack('<HH', groups, homes)
number = 6
at = 64 + 512 * (number % groups)
group = bytearray(512)
group[:8] = b'PG' + number.to_bytes(6, 'little')
group[8:16] = (1 | 3 << 2).to_bytes(8, 'little')
group[16:24] = (3 | 5 << 2 | 1 << 14 | 2 << 40).to_bytes(8, 'little')
group[64:128] = b'\xff' * 64
group[128:192] = b'\x7f' * 64
image[at:at + 512] = group
image[64 + 512 * groups + 64 * 2:64 + 512 * groups + 64 * 3] = b'\x81' * 64
open(sys.argv[1], 'wb').write(image)
END
    gives 0 "export it" "$k" export --as csv "$tmp/older.img"
    [ "$(sed 1,2d "$tmp/out" | cut -c1-6 | tr '\n' ' ')" = "2,8181 3,ffff 5,7f7f " ]; report $? "its homes"
    grep -q "^3,$(printf '%0128d' 0 | tr 0 f)\$" "$tmp/out"; report $? "whole, to the last bit"
    cp "$tmp/out" "$tmp/older.csv"
    gives 1 "inspect names the format" "$k" inspect "$tmp/older.img"
    shows 'mark 50 48, an older format'
    gives 0 "import it" "$k" import "$tmp/older.csv" "$tmp/newer.img"
    gives 0 "inspect the new one" "$k" inspect "$tmp/newer.img"
fi

# --- alarms, and what lies in the homes of units and is none ---
gives 0 "alarms as CSV" "$k" alarms --csv "$tmp/new.img"
shows '^image,rank,identity,class,second,note$'
says "fewer than 30 homes" 1 "alarms of a small image" "$k" alarms "$tmp/small.img"
says "cannot be opened" 3 "alarms of a missing image" "$k" alarms "$tmp/missing.img" "$tmp/new.img"
shows 'alarm.* open'
shows 'missing.img: NOT READ: cannot be opened: No such file'
gives 3 "the same as CSV" "$k" alarms --csv "$tmp/missing.img" "$tmp/small.img" "$tmp/north.img" "$tmp/new.img"
shows 'missing.img,,,,,"not read: cannot be opened: No such file or directory"$'
shows 'small.img,,,,,"not read: homes 24 to 29 hold no list of alarms: the image has fewer than 30 homes"$'
shows 'north.img,,,,,no alarm open$'
gives 0 "an image" "$k" make "$tmp/units.img" 4 30
homes=$((64 + 512 * 4))
put() { printf "$2" | dd of="$tmp/units.img" bs=1 seek="$1" conv=notrunc 2> /dev/null; }
put $((homes + 64 * 12)) '\001'
put $((homes + 64 * 19 + 5)) '\001'
put $((homes + 64 * 24)) '\061'
cp "$tmp/units.img" "$tmp/stray.img"
printf 'hello' | dd of="$tmp/stray.img" bs=1 seek=$((homes + 64 * 8 + 40)) conv=notrunc 2> /dev/null
gives 1 "inspect a stray block in the list of rights" "$k" inspect "$tmp/stray.img"
shows '^  ! nobody may touch any other home: bytes of something else'
gives 1 "the same as JSON" "$k" inspect --json "$tmp/stray.img"
shows '"locks_out_all":true'
gives 1 "inspect homes that hold something else" "$k" inspect "$tmp/units.img"
shows '^bands: ! homes 12 to 14 hold no table: a millimetre lies in no row'
shows '^  pump 3  ! home 19 holds no record of a pump: no starts, but seconds$'
shows '^alarms: ! homes 24 to 29 hold no list of alarms: more than 48 alarms$'
shows '^damage (3)$'
shows '^  homes 12 to 14: no table of depth bands: a millimetre'
shows '^  home 19: no record of pump 3: no starts, but seconds$'
shows '^  homes 24 to 29: no list of alarms: more than 48 alarms$'
says "hold no list of alarms: more than 48" 1 "alarms there" "$k" alarms "$tmp/units.img"
says "homes 12 to 14 hold no table: a millimetre lies in no row" 1 "bands show there" "$k" bands show "$tmp/units.img"
says "homes 12 to 14 hold no table: a millimetre lies in no row" 1 "bands at there" "$k" bands at "$tmp/units.img" 5
says "home 19 holds no record of pump 3: no starts, but seconds" 3 "wear there" "$k" wear "$tmp/units.img"
if command -v python3 > /dev/null; then
    gives 1 "inspect --json" "$k" inspect --json "$tmp/units.img"
    cp "$tmp/out" "$tmp/units.json"
    gives 0 "bands, pumps and alarms as JSON" python3 -c 'import json, sys; v = json.load(open(sys.argv[1]))
assert "no row" in v["bands"]["why"] and v["pumps"][3]["why"] and v["pumps"][2]["starts"] == 0 and v["alarms"]["why"] and v["dump"] is None
assert len(v["damage"]) == 3 and v["not_read"] is None' "$tmp/units.json"
fi
put 10 '\377\377'
gives 1 "inspect --json of a damaged count of homes" "$k" inspect --json "$tmp/units.img"
[ "$(wc -c < "$tmp/out")" -lt 40000 ]; report $? "stays small"
put 8 '\377\003'
gives 1 "and of groups" "$k" inspect --json "$tmp/units.img"
[ "$(wc -c < "$tmp/out")" -lt 90000 ]; report $? "stays small"

# --- files that are cut off: what was not read is told so, at some thirty lengths ---
if command -v python3 > /dev/null; then
    gives 0 "inspect cut-off images" python3 tests/programs/cut_off.py "$k" "$tmp"
fi

# --- sealed blocks ---
gives 0 "seals, and an image with one" "$san/seal_check" "$tmp/seal.img"
gives 0 "inspect it" "$k" inspect "$tmp/seal.img"
gives 0 "export it" "$k" export "$tmp/seal.img"
[ ! -s "$tmp/log" ]; report $? "without a note"
put_seal() { printf "$2" | dd of="$tmp/seal.img" bs=1 seek="$1" conv=notrunc 2> /dev/null; }
put_seal $((64 + 512 * 4 + 64 * 5 + 20)) '\377'
gives 1 "inspect it with a byte changed" "$k" inspect "$tmp/seal.img"
shows '^  home 5: sealed, and its checksum does not fit$'
says "note: .*home 5 is sealed, and its checksum does not fit" 0 "export it" "$k" export "$tmp/seal.img"

# --- empty files ---
: > "$tmp/empty.img"
for words in inspect "inspect --json --groups 4" alarms "rights show" "rights clear" export wear "bands show" "station --file"; do
    says "empty\|short file: 0 bytes" 3 "$words of an empty file" "$k" $words "$tmp/empty.img"
done

# --- names that begin with a dash ---
(cd "$tmp" && "$home/$k" make -- -odd.img 4 30 && "$home/$k" inspect -- -odd.img && "$home/$k" alarms --csv -- -odd.img && "$home/$k" wear -- -odd.img) > "$tmp/out" 2> "$tmp/log"
report $? "names behind --"

# --- killed while a file is written: nothing is left of it, where the file system has files without a name ---
mkdir "$tmp/killed"
if python3 -c 'import os, sys; os.open(sys.argv[1], os.O_TMPFILE | os.O_RDWR)' "$tmp/killed" 2> "$tmp/log"; then
    for words in "make killed/x.img 16 32" "import homes.csv killed/x.img" "convert again.img killed/x.bin" "wear --html killed/x.html again.img" \
        "wear --all --csv=killed/x.csv again.img north.img new.img"; do
        (cd "$tmp" && ulimit -f 1 && exec "$home/$out/kagutin" $words) > "$tmp/out" 2> "$tmp/log"
        [ $? -gt 128 ] && [ -z "$(ls "$tmp/killed")" ]; report $? "$words: killed, and nothing is left"
    done
else
    echo "skipped kills while a file is written: no files without a name here"
fi

# --- the same files where the system has none without a name ---
hidden='mount -t tmpfs none /proc && exec "$0" "$@"'
if unshare -m sh -c 'mount -t tmpfs none /proc' 2> "$tmp/log"; then
    mkdir "$tmp/named"
    for words in "make named/x.img 16 32" "import homes.csv named/y.img" "convert again.img named/z.bin" "wear --html named/w.html --csv=named/w.csv again.img" \
        "wear --html named/w.html --csv=named/w.csv again.img new.img"; do
        (cd "$tmp" && unshare -m sh -c "$hidden" "$home/$out/kagutin" $words) > "$tmp/out" 2> "$tmp/log"; report $? "$words, by a temporary name"
    done
    [ "$(cd "$tmp/named" && echo *)" = "w.csv w.html x.img y.img z.bin" ]; report $? "and no other file is left"
    grep -q 'new.img' "$tmp/named/w.csv"; report $? "the second sheet is in the first one's place"
    gives 0 "the image by a temporary name" "$k" inspect "$tmp/named/x.img"
    gives 0 "and that of the import" "$k" inspect "$tmp/named/y.img"
else
    echo "skipped files by a temporary name: /proc cannot be hidden here"
fi

# --- FIFOs and folders ---
mkfifo "$tmp/fifo"
mkdir "$tmp/folder"
for file in "$tmp/fifo" "$tmp/folder"; do
    for words in "inspect $file" "alarms $file" "rights show $file" "rights set $tmp/new.img $file" "bands show $file" "bands set $tmp/new.img $file" \
        "convert $file $tmp/x" "export $file" "import $file $tmp/x" "gauges $file $file" "wear $file" "station --file $file"; do
        says "regular file\|irectory" 3 "$words" timeout 10 "$k" $words
    done
done

# --- the output cannot be written ---
if [ -w /dev/full ]; then
    for words in "--help" "inspect $tmp/new.img" "alarms $tmp/new.img" "rights show $tmp/new.img" "export $tmp/new.img" "inflow --area 5 1 2"; do
        "$k" $words > /dev/full 2> "$tmp/log"
        [ $? -eq 3 ] && grep -q 'cannot write the output' "$tmp/log"; report $? "$words, the output full"
    done
fi

# --- manual pages and completion ---
for command in $commands; do
    page=man/kagutin-$command.1
    [ -r "$page" ]; report $? "$page is there"
    for option in $("$k" "$command" --help | grep -o -e '--[a-z][a-z-]*' | grep -v -x -e --option | sort -u); do
        grep -q -e "Fl ${option#-}" "$page"; report $? "$page: $option"
        grep -q -e "$option" completion/kagutin.bash; report $? "completion: $option"
    done
done
if command -v mandoc > /dev/null; then
    for page in man/*.1; do
        gives 0 "mandoc: $page" mandoc -Tlint -Wwarning "$page"
    done
else
    echo "skipped the form of manual pages: no mandoc"
fi
if command -v bash > /dev/null; then
    # What is expected, then the words up to the one to complete.
    completes() {
        want=$1; shift
        got=$(bash -c '. completion/kagutin.bash; COMP_WORDS=("$@"); COMP_CWORD=$(($# - 1)); _kagutin; echo "${COMPREPLY[*]}"' bash "$@" 2> "$tmp/log")
        [ "$got" = "$want" ]; report $? "completion: $* gives $want"
    }
    completes "inspect inflow" kagutin in
    completes "import" kagutin imp
    completes "set show" kagutin bands s
    completes "show set" kagutin rights s
    completes "image dump" kagutin convert --to ''
    completes "--json" inspect --j
    completes "--keep-cut" kagutin station --k
    completes "--base" kagutin alarms --b
    completes "dump" kagutin convert --to = d
    completes "image dump" kagutin convert --to =
    completes "json" kagutin export --as = j
fi

# --- documents: every command line is run, and prints what stands there ---
if command -v python3 > /dev/null; then
    gives 0 "command lines of the documents" python3 tests/programs/documents.py "$san" docs/BANDS.md docs/GAUGES.md docs/INFLOW.md docs/ALARMS.md docs/HOMES.md man/*.1
fi

count program-check
