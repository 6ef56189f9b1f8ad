#!/bin/sh
# What the object's calls cost: object-cost.sh FOLDER-OF-THE-PROGRAMS [CASE..]. For each case of object_cost, or those named, the instructions of the
# call by callgrind, on a driver that does nothing, and the most that docs/PERFORMANCE.md allows. Fails where one is above that.
set -eu
out=$1
shift
tmp=$(mktemp -d)
trap 'rm -rf "$tmp"' EXIT

# Instructions of the call.
instructions() {
    valgrind --tool=callgrind --callgrind-out-file="$tmp/callgrind" --toggle-collect="kgt_$2" --zero-before=counted \
        "$out/object_cost" "$1" > "$tmp/out" 2> "$tmp/log" || { cat "$tmp/out" "$tmp/log" >&2; exit 1; }
    sed -n 's/^totals: //p' "$tmp/callgrind"
}

over=
"$out/object_cost" > "$tmp/cases"
printf '%-20s %12s %12s\n' case instructions most
while read -r case call most; do
    [ $# -eq 0 ] || case " $* " in *" $case "*) ;; *) continue ;; esac
    cost=$(instructions "$case" "$call")
    printf '%-20s %12s %12s\n' "$case" "$cost" "$([ "$most" -gt 0 ] && echo "$most" || echo -)"
    [ "$most" -eq 0 ] || [ "$cost" -le "$most" ] || over="$over $case"
done < "$tmp/cases"
[ -z "$over" ] || { echo "object_cost: more than allowed:$over" >&2; exit 1; }
