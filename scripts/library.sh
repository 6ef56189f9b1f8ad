#!/usr/bin/env bash
# library.sh [CRATE [NAME [MORE..]]]: proves the crates of a library, by default kagutin, and writes target/staticlib/libNAME.a, by default
# libCRATE.a, with the functions of CRATE and of MORE: those that the crates CRATE_c and so on export. Prints one line for each crate that is proved now;
# what the prover says goes to target/library.log, or target/library-NAME.log.
# library.sh --crates CRATE..: prints the crates of that library. library.sh --below CRATE..: these crates and all that they depend on.
# Where make test's rt ci has passed on these files, what it built is taken (scripts/over_proved.sh).
set -uo pipefail
cd "$(dirname "$0")/.." || exit
pinned=$(sed -n 's/^RATTLE = //p' Makefile)

# The crates named and all that they depend on.
below() {
    sed 's/#.*//' crates.txt | awk -F: -v named="$*" '
        NF > 1 { split($1, word, " "); deps[word[1]] = $2 }
        function visit(name,   list, n, i) {
            if (name in seen || !(name in deps)) return
            seen[name] = 1; print name
            n = split(deps[name], list, " ")
            for (i = 1; i <= n; i++) visit(list[i])
        }
        END { n = split(named, names, " "); for (j = 1; j <= n; j++) visit(names[j]) }'
}

case ${1:-} in
--below) below "${@:2}"; exit ;;
--crates) below "${@/%/_c}"; exit ;;
esac

crate=${1:-kagutin}
archive=target/staticlib/lib${2:-$crate}.a
log=target/library.log
[ "${2:-$crate}" = kagutin ] || log=target/library-${2:-$crate}.log
of=("$crate" "${@:3}")

if ! command -v rt > /dev/null; then
    echo "library: no rt on the path: the Rattle toolchain is needed (README, Toolchain)" >&2
    exit 2
fi
[ "$(rt version)" = "$pinned" ] || echo "library: rt is '$(rt version)'; this repository was checked with '$pinned'" >&2

total=$(below "${of[@]/%/_c}" | wc -l)
mkdir -p target/staticlib
[ -e "$archive" ] || [ "$total" -lt 5 ] || scripts/over_proved.sh --can "${of[@]}" \
    || echo "library: proving $total crates, some 20 minutes on two cores the first time; the prover's lines go to $log"
clock() { printf '%d:%02d' $((SECONDS / 60)) $((SECONDS % 60)); }

# One archive after the other; their lines are counted together. A crate for C has functions alone, each with the library's clauses.
made() {
    for name in "${of[@]}"; do
        deps=$(sed -n "s/^${name}_c staticlib: //p" crates.txt)
        # shellcheck disable=SC2086 # one word for each crate
        if scripts/over_proved.sh --can $deps; then
            mkdir -p "crates/${name}_c/out"
            scripts/over_proved.sh build "crates/${name}_c" "${name}_c" "$deps" --crate-type staticlib --toolchain KIT/toolchain --backend llvm -o "out/lib${name}_c.a" || return
        else
            (cd "crates/${name}_c" && rt lib) || return
        fi
    done
}

made 2>&1 | tee "$log" | {
    seen=" "
    done=0
    name=
    checked=0
    while IFS= read -r line; do
        case $line in
        "crate "*": modules loaded="*)
            name=${line#crate }
            name=${name%%:*}
            checked=${line##*checked=} ;;
        "logic=proved "*)
            case $seen in *" $name "*) continue ;; esac
            seen="$seen$name "
            done=$((done + 1))
            functions=${line##*functions=}
            [ "$checked" = 0 ] || echo "library: [$done of $total] $name proved (${functions%% *} functions), $(clock) elapsed" ;;
        esac
    done
}
status=${PIPESTATUS[0]}
if [ "$status" -ne 0 ]; then
    tail -n 15 "$log" >&2
    echo "library: not proved or not built; all of it is in $log" >&2
    exit "$status"
fi
rm -f "$archive"
for name in "${of[@]}"; do
    ar p "crates/${name}_c/out/lib${name}_c.a" "${name}_c.o" > "target/staticlib/$name.o" && ar rcs "$archive" "target/staticlib/$name.o" || exit 1
    rm -f "target/staticlib/$name.o"
done
echo "library: $total crate$([ "$total" -eq 1 ] || echo s) proved, $archive written, $(clock)"
