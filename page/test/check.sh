#!/bin/sh
# Tests the page: it is the one that is made, and it does what it promises in headless Chromium.
# usage: check.sh "SOURCES" PAGE PROGRAMS, from the repository's root; PROGRAMS is the folder of inspect, station and wear.
set -eu

sources=$1
page=$2
programs=$3

clang=$(command -v clang-14 || command -v clang || true)
if [ -n "$clang" ] && "$clang" --version | grep -q 'Debian clang version 14\.0\.6' \
    && { command -v wasm-ld-14 || command -v wasm-ld; } > /dev/null; then
    sh page/build.sh "$sources" target/page/again.html > /dev/null
    cmp target/page/again.html "$page" || { echo "$page is not what its sources give; make page makes it again" >&2; exit 1; }
    echo "page: $page, what its sources give"
else
    echo "skipped making the page again: no Debian clang 14.0.6 with wasm-ld (page/packages.sh installs them)"
fi
if ! command -v python3 > /dev/null || ! python3 page/test/page_check.py --installed; then
    echo "skipped the page's tests: no Chromium, or no Python (page/packages.sh installs them)"
    exit 0
fi
exec python3 page/test/page_check.py "$page" "$programs"
