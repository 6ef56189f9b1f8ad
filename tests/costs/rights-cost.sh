#!/bin/sh
# What questions 19 and 20 cost: rights-cost.sh FOLDER-OF-THE-PROGRAMS. For each case of rights_cost the instructions of a store and of a read, by
# callgrind, and what they are more than with 8 homes, where no list can be. Fails where that is above what request h allows.
set -eu
limit=150
out=$1
tmp=$(mktemp -d)
trap 'rm -rf "$tmp"' EXIT

# Instructions of one call.
instructions() {
    valgrind --tool=callgrind --callgrind-out-file="$tmp/callgrind" --toggle-collect="kagutin_$2" --zero-before=counted \
        "$out/rights_cost" "$1" "$2" > "$tmp/out" 2> "$tmp/log" || { cat "$tmp/out" "$tmp/log" >&2; exit 1; }
    sed -n 's/^totals: //p' "$tmp/callgrind"
}

over=
small_store=$(instructions small store)
small_read=$(instructions small read)
printf '%-18s %6s %6s\n' case store read
for case in $("$out/rights_cost"); do
    store=$(instructions "$case" store)
    read=$(instructions "$case" read)
    printf '%-18s %6s %6s   %+d, %+d\n' "$case" "$store" "$read" $((store - small_store)) $((read - small_read))
    [ $((store - small_store)) -le $limit ] && [ $((read - small_read)) -le $limit ] || over="$over $case"
done
[ -z "$over" ] || { echo "rights_cost: more than $limit:$over" >&2; exit 1; }
