#!/usr/bin/env bash
# built.sh CRATE..: proves and builds what has changed of these libraries and of those below them, so that the generator and the validator find each one's proved
# program in crates/NAME/out/rlib. Where make test's rt ci has passed on these files, it is there (scripts/over_proved.sh). What the prover says goes to target/built.log.
set -uo pipefail
cd "$(dirname "$0")/.." || exit
! scripts/over_proved.sh --can "$@" || exit 0
command -v rt > /dev/null || { echo "built: no rt on the path: the Rattle toolchain is needed (docs/USING.md, Toolchain)" >&2; exit 2; }
mkdir -p target
for name in "$@"; do
    (cd "crates/$name" && rt lib) > target/built.log 2>&1 || { tail -n 30 target/built.log; exit 1; }
done
