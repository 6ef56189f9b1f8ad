# shellcheck shell=sh
# The README's example as a program. Sourced from the root.

# folder: the example as README.md has it, and a main.
readme_program() {
    mkdir -p "$1" && cp tests/build/readme/main.c "$1"
    awk '/^<!-- snippet: readme_store -->$/ { found = 1 } found && /^```$/ { exit } inside; found && /^```c$/ { inside = 1 }' README.md > "$1/readme.c"
    test -s "$1/readme.c"
}
