#!/bin/sh
# Installs what the builds for other machines and other compilers need, and cvc5 for make validate SOLVER=cvc5. Nothing calls it by itself.
# packages.sh --list names them.
set -eu

packages="gcc libc6-dev clang make python3 valgrind cvc5
    gcc-arm-none-eabi libnewlib-arm-none-eabi qemu-system-arm
    qemu-user gcc-arm-linux-gnueabihf gcc-aarch64-linux-gnu gcc-riscv64-linux-gnu gcc-s390x-linux-gnu
    libc6-dev-armhf-cross libc6-dev-arm64-cross libc6-dev-riscv64-cross libc6-dev-s390x-cross"

as_root()
{
    if [ "$(id -u)" -eq 0 ]; then
        "$@"
    else
        sudo "$@"
    fi
}

command -v apt-get >/dev/null || { echo "packages.sh: no apt-get here; install by hand: $packages" >&2; exit 1; }
# The sanitizers' runtime of the clang that this Debian has: 14 on Debian 12, 19 on Debian 13.
runtime() { apt-cache depends clang | sed -n 's/.*Depends: clang-\([0-9]*\)$/libclang-rt-\1-dev/p'; }

[ "${1:-}" != --list ] || { echo "$packages" "$(runtime)"; exit; }
as_root apt-get update
# shellcheck disable=SC2046,SC2086 # one word for each package
as_root apt-get install -y --no-install-recommends $packages $(runtime)
