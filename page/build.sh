#!/bin/sh
# Makes the page: compiles the C for wasm32 and puts style, scripts and program into one HTML file.
# usage: build.sh "SOURCES" OUT, from the repository's root; SOURCES are those of the proved program and of the inspector.
# Needs clang and wasm-ld alone (page/packages.sh installs them); CLANG names another clang.
set -eu

sources=$1
page=$2
work=target/page

pick()
{
    for name in "$@"; do
        if command -v "$name" > /dev/null; then
            echo "$name"
            return
        fi
    done
    echo "page: no $1 or $2 here; page/packages.sh installs clang and lld" >&2
    exit 1
}

clang=${CLANG:-$(pick clang-14 clang)} || exit 1
pick wasm-ld-14 wasm-ld > /dev/null || exit 1
mkdir -p "$work" "$(dirname "$page")"

# No host header is seen: the compiler's own, those of page/wasm and the repository's. Names and paths do not reach the file.
flags="--target=wasm32 -std=c99 -Os -nostdinc -isystem $("$clang" -print-resource-dir)/include
    -Ipage/wasm/include -Ipage/wasm -Iinclude -Ic -Wall -Wextra -pedantic -Wshadow -Wconversion -fvisibility=hidden
    $(for source in $sources; do echo "-I${source%/*}"; done | sort -u)"
link="-nostdlib -Wl,--no-entry -Wl,--strip-all -Wl,-z,stack-size=131072"

# Without -fno-builtin a memcpy in a loop would become a call of itself.
# shellcheck disable=SC2086 # lists of words
"$clang" $flags -fno-builtin -c page/wasm/memory.c -o "$work/memory.o"
# shellcheck disable=SC2086
"$clang" $flags $link page/wasm/calls.c page/wasm/host.c page/wasm/print.c page/wasm/wrong.c "$work/memory.o" $sources \
    -o "$work/kagutin.wasm"
base64 -w 160 "$work/kagutin.wasm" > "$work/kagutin.base64"

# Each line @name of the frame gives way to the file or files of that name.
scripts=$(grep -v '^#' page/src/order.txt)
{
    echo '"use strict";'
    echo '(() => {'
    for name in $scripts; do
        cat "page/src/$name.js"
    done
    echo '})();'
} > "$work/page.js"
awk -v work="$work" '
    function put(file,   line) { while ((getline line < file) > 0) print line; close(file) }
    $0 == "@style" { put("page/src/style.css"); next }
    $0 == "@way" { put("page/src/way.html"); next }
    $0 == "@script" { put(work "/page.js"); next }
    $0 == "@program" { put(work "/kagutin.base64"); next }
    { print }' page/src/frame.html > "$page"

size=$(wc -c < "$page")
if [ "$size" -gt 409600 ]; then
    echo "page: $page has $size bytes, more than 400 KiB" >&2
    exit 1
fi
echo "page: $page, $size bytes, by $("$clang" --version | head -n 1)"
