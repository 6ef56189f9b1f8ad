#!/usr/bin/env bash
# over_proved.sh build|check FOLDER NAME 'DEP..' [WORD..]: the prover on the crate NAME in FOLDER, over what rt ci has built of the crates DEP and of those below them,
# with WORD.. as further words of rattle. rt ci leaves what it built in crates/*/out/rlib, where rt check and rt lib would prove all of it again.
# over_proved.sh --can NAME..: whether it has left these crates and those below them, as they are now. make test notes when an rt ci that passed began
# (target/test/proved). In a clean clone all that it built is newer; elsewhere rt ci puts back what was there before, and rt lib brings that up to date.
set -uo pipefail
cd "$(dirname "$0")/.." || exit

can() {
    local proved=target/test/proved name
    [ -e "$proved" ] || return
    for name in $(scripts/library.sh --below "$@"); do
        [ -n "$(find "crates/$name/out/rlib/$name.rlib/toolchain/mir.json" -cnewer "$proved" 2> /dev/null)" ] || return
        [ -z "$(find crates.txt "crates/$name/src" "crates/$name/specs" "crates/$name/proofs" -newer "$proved" 2> /dev/null)" ] || return
    done
}

if [ "$1" = --can ]; then can "${@:2}"; exit; fi
verb=$1 folder=$2 name=$3 deps=$4
shift 4
rt=$(readlink -f "$(command -v rt)") || exit
kit=${rt%/bin/rt}
words=(--crate-name "$name" src/lib.rt --extern "std=$kit/rlibs/std.rlib" -L "dependency=$kit/rlibs")
for dep in $deps; do words+=(--extern "$dep=$PWD/crates/$dep/out/rlib/$dep.rlib"); done
# shellcheck disable=SC2086 # one word for each crate
for dep in $(scripts/library.sh --below $deps); do words+=(-L "dependency=$PWD/crates/$dep/out/rlib"); done
words+=(--antt-project "$kit/rattle/logic/antt-project.json" --logic-built "$kit/logic_built" --links "$name=" --jobs 2)
for word in "$@"; do words+=("${word//KIT/$kit}"); done
cd "$folder" && exec "$kit/bin/rattle" "$verb" "${words[@]}"
