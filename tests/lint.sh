#!/bin/sh
# Layout and lint: lint.sh SHELL-FILES C-FOLDERS C-FILES (run by make lint from the root). A tool that is not installed is skipped with a line.
set -u
failed=0

# name, a word that tells whether it is there, command
try() {
    name=$1 there=$2; shift 2
    if ! sh -c "$there" > /dev/null 2>&1; then
        echo "skipped $name: not installed"
    elif "$@" > "$log" 2>&1; then
        echo "ok      $name"
    else
        echo "FAILED  $name"; tail -n 20 "$log" | sed 's/^/        /'; failed=1
    fi
}

log=$(mktemp) || exit 1
trap 'rm -f "$log"' EXIT
try "cargo fmt" "cargo fmt --version" cargo fmt --manifest-path rust/Cargo.toml --all --check
try "cargo clippy, the crate" "cargo clippy --version" cargo clippy --manifest-path rust/Cargo.toml --offline --quiet -p kagutin --all-targets -- -D warnings
# shellcheck disable=SC2086 # one word for each file
try "shellcheck" "command -v shellcheck" shellcheck --severity=warning $1
# shellcheck disable=SC2086
try "cppcheck" "command -v cppcheck" cppcheck --quiet --std=c99 --enable=warning,portability -D__GNUC__ --inline-suppr --error-exitcode=1 -Iinclude -Ic $2
# Another version of clang-format lays some lines out otherwise.
# shellcheck disable=SC2086
try "clang-format 14" "clang-format --version | grep -q 'version 14'" clang-format --dry-run -Werror $3
exit $failed
