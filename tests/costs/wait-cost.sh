#!/bin/sh
# The longest waits: wait-cost.sh FOLDER-OF-THE-PROGRAMS [CASE..]. For each case of wait_cost, or those named, the instructions of the call by callgrind,
# what they are for each position of the log, and the most that docs/PERFORMANCE.md allows. Fails where one is above that, or a step above the settle of
# the same log, the one listed before it.
set -eu
out=$1
shift
tmp=$(mktemp -d)
trap 'rm -rf "$tmp"' EXIT

# Instructions of the call.
instructions() {
    valgrind --tool=callgrind --callgrind-out-file="$tmp/callgrind" --toggle-collect="kagutin_$2" --zero-before=counted \
        "$out/wait_cost" "$1" > "$tmp/out" 2> "$tmp/log" || { cat "$tmp/out" "$tmp/log" >&2; exit 1; }
    sed -n 's/^totals: //p' "$tmp/callgrind"
}

over=
"$out/wait_cost" > "$tmp/cases"
printf '%-20s %12s %10s %12s\n' case instructions "a position" most
while read -r case call positions most; do
    [ $# -eq 0 ] || case " $* " in *" $case "*) ;; *) continue ;; esac
    cost=$(instructions "$case" "$call")
    printf '%-20s %12s %8s.%s %12s\n' "$case" "$cost" $((cost / positions)) $((cost * 10 / positions % 10)) "$([ "$most" -gt 0 ] && echo "$most" || echo -)"
    case $case in
    settle-*) settle=$cost ;;
    step-all-* | step-few) ;;
    step-*) [ "$cost" -le "${settle:-$cost}" ] || over="$over $case" ;;
    esac
    [ "$most" -eq 0 ] || [ "$cost" -le "$most" ] || over="$over $case"
done < "$tmp/cases"
[ -z "$over" ] || { echo "wait_cost: more than allowed:$over" >&2; exit 1; }
