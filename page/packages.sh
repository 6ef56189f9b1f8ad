#!/bin/sh
# Installs what the page needs: clang and lld to make it, Chromium and Python to test it. Nothing calls it by itself. packages.sh --list names them.
set -eu

packages="clang lld make gcc libc6-dev python3 chromium"

as_root()
{
    if [ "$(id -u)" -eq 0 ]; then
        "$@"
    else
        sudo "$@"
    fi
}

[ "${1:-}" != --list ] || { echo "$packages"; exit; }
command -v apt-get >/dev/null || { echo "packages.sh: no apt-get here; install by hand: $packages" >&2; exit 1; }
as_root apt-get update
# shellcheck disable=SC2086 # one word for each package
as_root apt-get install -y --no-install-recommends $packages
