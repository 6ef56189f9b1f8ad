#!/usr/bin/env bash
# proofs.sh: rt ci on the checkout as it stands. What it says goes to target/test/ci.log too, and its last line to target/test/verdict.txt. Fails where rt ci fails, and
# where a must-fail edit is bad, which rt ci only counts: such an edit shows nothing of a contract. When it began is noted in target/test/proved (scripts/over_proved.sh), the toolchain's
# folder in target/test/kit.
set -euo pipefail
cd "$(dirname "$0")/.."
mkdir -p target/test
began=$(mktemp)
trap 'rm -f "$began"' EXIT
rt ci 2>&1 | tee target/test/ci.log
ok=$(grep '^rt: ok' target/test/ci.log | tail -n 1 || true)
if [ -z "$ok" ] || grep -qE ', [0-9]+ bad' <<< "$ok"; then
    echo "proofs: must-fail edits that cannot be applied, compiled or read: ${ok:-no line of rt says ok}" >&2
    exit 1
fi
touch -r "$began" target/test/proved
dirname "$(dirname "$(readlink -f "$(command -v rt)")")" > target/test/kit
tail -n 1 target/test/ci.log > target/test/verdict.txt
