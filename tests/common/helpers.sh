# shellcheck shell=sh
# What the tests of the C programs share: a folder $tmp, a line for each test, and their count.
tmp=$(mktemp -d) || exit 1
trap 'rm -rf "$tmp"' EXIT
passed=0
failed=0

report() { # status, name
    if [ "$1" -eq 0 ]; then
        passed=$((passed + 1)); echo "ok      $2"
    else
        failed=$((failed + 1)); echo "FAILED  $2"
        sed 's/^/        /' "$tmp/log" | tail -n 12
    fi
}

# status, name, command: the command must end with that status, and no sanitizer may speak.
gives() {
    want=$1; name=$2; shift 2
    "$@" > "$tmp/out" 2> "$tmp/log"
    got=$?
    if grep -q 'Sanitizer\|runtime error' "$tmp/log"; then got=sanitizer; fi
    [ "$got" = "$want" ] || echo "status $got, not $want: $*" >> "$tmp/log"
    [ "$got" = "$want" ]; report $? "$name"
}

# The same, and a message on standard error.
says() {
    text=$1; shift
    gives "$@"
    grep -q -e "$text" "$tmp/log"; report $? "$2: says '$text'"
}

# name: the last line, and the status of all.
count() {
    echo "$1: $passed passed, $failed failed"
    [ $failed -eq 0 ]
}
