#!/bin/sh
# Installs the Debian packages that make test needs, those that are missing; the toolchain of the proofs is not among them. The gate calls it.
# packages.sh --list names them.
set -eu

packages="gcc g++ libc6-dev make python3 python3-z3 python3-pycparser cargo valgrind pkg-config"

# A tool that came another way counts as there.
missing=
for package in $packages; do
    case $package in
    libc6-dev | python3-z3 | python3-pycparser) dpkg -s "$package" > /dev/null 2>&1 || missing="$missing $package" ;;
    *) command -v "$package" > /dev/null || missing="$missing $package" ;;
    esac
done

if [ "${1:-}" = --list ]; then
    echo "$packages"
    exit
fi
[ -n "$missing" ] || exit 0
command -v apt-get > /dev/null || { echo "packages.sh: no apt-get here; install by hand:$missing" >&2; exit 1; }

as_root()
{
    if [ "$(id -u)" -eq 0 ]; then
        "$@"
    else
        sudo "$@"
    fi
}

as_root apt-get update
# shellcheck disable=SC2086 # one word for each package
as_root apt-get install -y --no-install-recommends $missing
