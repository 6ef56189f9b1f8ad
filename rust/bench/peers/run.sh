#!/bin/sh
# Kagutin, PMDK's libpmemobj, LMDB, SQLite, Berkeley DB and RocksDB doing the same
# transactions of blocks on a memory file system, the same reads, and an opening after the same
# power cut. Prints a table, writes target/bench/peers.tsv and, run by run,
# peers-runs.tsv; if it fails there is neither. A peer that is not installed is
# skipped; packages.sh installs them. Without valgrind no instructions are counted.
#
#   LIB     the library, target/c/libkagutin.a by default
#   FOLDER  a folder on a memory file system, /dev/shm by default
#   ROUNDS  how often the stores take turns, 7 by default
set -eu
cd "$(dirname "$0")/../../.."

here=rust/bench/peers
results=target/bench
LIB=${LIB:-target/c/libkagutin.a}
CC=${CC:-cc}
FOLDER=${FOLDER:-/dev/shm}
ROUNDS=${ROUNDS:-7}
flags="-std=c99 -D_POSIX_C_SOURCE=200809L -Wall -Wextra -pedantic -Wshadow -Wconversion -O2 -Iinclude -Ic -I$here"

give_up()
{
    echo "peers: $1" >&2
    exit 1
}

# build PROGRAM ARGUMENTS.. of the compiler
build()
{
    program=$1
    shift
    # shellcheck disable=SC2086 # one word for each flag
    "$CC" $flags "$here/workload.c" "$here/files.c" "$@" -o "$out/$program"
}

# available PEER HEADER LIBRARIES..: can a program with them be linked?
available()
{
    peer=$1 header=$2
    shift 2
    printf '#include <%s>\nint main(void) { return 0; }\n' "$header" > "$out/probe.c"
    "$CC" "$out/probe.c" "$@" -o "$out/probe" 2> "$out/probe.txt" && return
    echo "peers: $peer skipped: no $header or no $*; $here/packages.sh installs them"
    return 1
}

build_all()
{
    programs=kagutin
    build kagutin "$here/kagutin.c" "$LIB"
    if available libpmemobj libpmemobj.h -lpmemobj -lpmem; then
        build pmemobj "$here/pmemobj.c" -lpmemobj
        build pmemobj-count -DCOUNT_BYTES "$here/pmemobj.c" "$here/pmem_count.c" -lpmemobj -lpmem -ldl
        programs="$programs pmemobj pmemobj-msync"
    fi
    if available LMDB lmdb.h -llmdb; then
        build lmdb "$here/lmdb.c" -llmdb
        build lmdb-count -DCOUNT_PAGES "$here/lmdb.c" -llmdb
        programs="$programs lmdb"
    fi
    if available SQLite sqlite3.h -lsqlite3; then
        build sqlite "$here/sqlite.c" -lsqlite3
        programs="$programs sqlite"
    fi
    if available "Berkeley DB" db.h -ldb; then
        build berkeley "$here/berkeley.c" -ldb
        programs="$programs berkeley"
    fi
    if available RocksDB rocksdb/c.h -lrocksdb; then
        build rocksdb "$here/rocksdb.c" -lrocksdb
        programs="$programs rocksdb"
    fi
}

# libpmemobj reads at its start whether to flush cache lines (1) or to call msync (0).
force_of()
{
    case $1 in
    *-msync) echo 0 ;;
    *) echo 1 ;;
    esac
}

# measure_one NAME WHAT BLOCKS ROUND RUNS: its program's lines
measure_one()
{
    name=$1
    shift
    work=$(mktemp -d "$FOLDER/peers.XXXXXX")
    PMEM_IS_PMEM_FORCE=$(force_of "$name") "$out/${name%-msync}" "$work" "$@" || give_up "$name failed"
    rm -rf "$work"
}

# measure_all ROUND RUNS PROGRAMS..: the stores take turns, so that a busy machine slows all of them
measure_all()
{
    round=$1 runs=$2
    shift 2
    for store in "$@"; do
        measure_one "$store" reads 4 "$round" "$runs"
    done
    for store in "$@"; do
        measure_one "$store" recovery 4 "$round" $((3 * runs))
    done
    for together in 1 8; do
        for blocks in 1 4 16; do
            for store in "$@"; do
                measure_one "$store" $together $blocks "$round" "$runs"
            done
        done
    done
}

# count_reads NAME: the instructions of one read, for each store of its program. Without ERMS, memcpy is loops of wide moves
# and no "rep movsb", whose bytes would each count.
count_reads()
{
    work=$(mktemp -d "$FOLDER/peers.XXXXXX")
    GLIBC_TUNABLES=glibc.cpu.hwcaps=-ERMS PMEM_IS_PMEM_FORCE=$(force_of "$1") valgrind --tool=callgrind --collect-atstart=no \
        --toggle-collect=read_home --dump-after='counted_reads*' --callgrind-out-file="$out/callgrind" --log-file="$out/callgrind.log" \
        "$out/${1%-msync}" "$work" counted 4 0 1 > "$out/counted" || give_up "$1 failed under valgrind"
    rm -rf "$work"
    place=0
    while read -r store reads; do
        place=$((place + 1))
        awk -v store="$store" -v reads="$reads" '/^totals:/ { printf "%s\t%.1f\n", store, $2 / reads }' "$out/callgrind.$place"
    done < "$out/counted"
}

# The one that kagutin.c chooses.
flush_instruction()
{
    for instruction in clwb clflushopt; do
        grep -qw "$instruction" /proc/cpuinfo && break
        instruction=clflush
    done
    echo "$instruction"
}

[ "$(uname -sm)" = "Linux x86_64" ] || { echo "peers: skipped: cache lines are flushed as on x86-64 under Linux"; exit 0; }
[ -f "$LIB" ] || give_up "no $LIB; 'make bench-peers' makes it"
[ "$(stat -f -c %T "$FOLDER")" = tmpfs ] || give_up "$FOLDER is not on a memory file system; set FOLDER to one that is"
mkdir -p "$results"
rm -f "$results/peers.tsv" "$results/peers-runs.tsv"
trap 'rm -rf "${work:-}" "${out:-}"' EXIT
trap 'exit 1' HUP INT TERM
out=$(mktemp -d "$results/peers.XXXXXX") # of this run alone

build_all
: > "$out/counts.tsv"
: > "$out/instructions.tsv"
: > "$out/runs.tsv"
[ -n "${programs##*pmemobj*}" ] || measure_all 0 1 pmemobj-count pmemobj-count-msync >> "$out/counts.tsv"
[ -n "${programs##*lmdb*}" ] || measure_all 0 1 lmdb-count >> "$out/counts.tsv"
if command -v valgrind > /dev/null; then
    for name in $programs; do
        count_reads "$name" >> "$out/instructions.tsv"
    done
else
    echo "peers: no valgrind here, so the instructions of a read are not counted"
fi
n=0
while [ "$n" -lt "$ROUNDS" ]; do
    # shellcheck disable=SC2086 # one word for each program
    measure_all "$n" 3 $programs >> "$out/runs.tsv"
    n=$((n + 1))
done

awk -v counts="$out/counts.tsv" -v instructions="$out/instructions.tsv" -v tsv="$out/peers.tsv" -f "$here/table.awk" \
    "$out/counts.tsv" "$out/instructions.tsv" "$out/runs.tsv"
mv "$out/peers.tsv" "$results/peers.tsv"
mv "$out/runs.tsv" "$results/peers-runs.tsv"
cat "$here/notes.txt"
echo "Processor: $(sed -n 's/^model name[^:]*: //p' /proc/cpuinfo | head -n 1), cache lines flushed by $(flush_instruction)"
dpkg-query -W -f 'Package: ${Package} ${Version}\n' libpmemobj1 liblmdb0 libsqlite3-0 libdb5.3 'librocksdb*' 2> /dev/null || true
