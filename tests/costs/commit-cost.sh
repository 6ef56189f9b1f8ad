#!/bin/sh
# What a commit of four blocks costs with all its calls: commit-cost.sh FOLDER-OF-THE-PROGRAMS. For each case of commit_cost the instructions of one commit
# by callgrind, its share of flush, confirm, settle and trim and the copying of the batches in it. Fails where that is above what the case allows.
set -eu
out=$1
tmp=$(mktemp -d)
trap 'rm -rf "$tmp"' EXIT

over=
"$out/commit_cost" > "$tmp/cases"
printf '%-12s %12s %6s\n' case instructions most
while read -r case commits most; do
    GLIBC_TUNABLES=glibc.cpu.hwcaps=-ERMS valgrind --tool=callgrind --callgrind-out-file="$tmp/callgrind" --collect-atstart=no --toggle-collect=counted \
        "$out/commit_cost" "$case" > "$tmp/out" 2> "$tmp/log" || { cat "$tmp/out" "$tmp/log" >&2; exit 1; }
    cost=$(($(sed -n 's/^totals: //p' "$tmp/callgrind") / commits))
    printf '%-12s %12s %6s\n' "$case" "$cost" "$([ "$most" -gt 0 ] && echo "$most" || echo -)"
    [ "$most" -eq 0 ] || [ "$cost" -le "$most" ] || over="$over $case"
done < "$tmp/cases"
[ -z "$over" ] || { echo "commit_cost: more than allowed:$over" >&2; exit 1; }
