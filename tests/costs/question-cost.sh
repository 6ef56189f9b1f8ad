#!/bin/sh
# What question 2 costs: question-cost.sh FOLDER-OF-THE-PROGRAMS [--c-file]. For each case of question_cost the instructions of a confirm by callgrind, and of
# question 2 in it. Fails where question 2 takes more than the case allows in the archive, or with --c-file where confirm does.
set -eu
out=$1
c_file=${2:-}
tmp=$(mktemp -d)
trap 'rm -rf "$tmp"' EXIT

# Instructions of one function in the counted call.
instructions() {
    valgrind --tool=callgrind --callgrind-out-file="$tmp/callgrind" --toggle-collect="$2" --zero-before=counted \
        "$out/question_cost" "$1" > "$tmp/out" 2> "$tmp/log" || { cat "$tmp/out" "$tmp/log" >&2; exit 1; }
    sed -n 's/^totals: //p' "$tmp/callgrind"
}

over=
"$out/question_cost" > "$tmp/cases"
printf '%-12s %8s %11s %6s\n' case confirm "question 2" most
while read -r case most most_confirm; do
    confirm=$(instructions "$case" kagutin_confirm)
    question=$(instructions "$case" 'base_order*whole_in_order*')
    if [ -n "$c_file" ]; then most=$most_confirm cost=$confirm; else cost=${question:-0}; fi
    printf '%-12s %8s %11s %6s\n' "$case" "$confirm" "$([ "${question:-0}" -gt 0 ] && echo "$question" || echo inline)" "$([ "$most" -gt 0 ] && echo "$most" || echo -)"
    [ "$most" -eq 0 ] || [ "$cost" -le "$most" ] || over="$over $case"
done < "$tmp/cases"
[ -z "$over" ] || { echo "question_cost: more than allowed:$over" >&2; exit 1; }
