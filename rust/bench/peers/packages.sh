#!/bin/sh
# Installs what the comparison with other stores needs. Nothing calls it by itself. packages.sh --list names them.
set -eu

packages="gcc libc6-dev libpmemobj-dev liblmdb-dev libsqlite3-dev libdb-dev librocksdb-dev valgrind"

as_root()
{
    if [ "$(id -u)" -eq 0 ]; then
        "$@"
    else
        sudo "$@"
    fi
}

[ "${1:-}" != --list ] || { echo "$packages"; exit; }
command -v apt-get >/dev/null || { echo "packages.sh: no apt-get here; install by hand: $packages" >&2; exit 1; }
as_root apt-get update
# shellcheck disable=SC2086 # one word for each package
as_root apt-get install -y --no-install-recommends $packages
