#!/bin/sh
# Kagutin in other build systems, from a copy of what a checkout has: build-check.sh (run by make build-check from the root).
set -u
. tests/common/helpers.sh
there() { command -v "$1" > /dev/null || { echo "skipped $2: no $1"; false; }; }
version=$(sed -n 's/.define KAGUTIN_VERSION "\(.*\)"/\1/p' include/kagutin.h)

# A project of tests/build with main.c, and Kagutin in its folder $2.
project() {
    at=$tmp/$1
    cp -r "tests/build/$1" "$at" && cp c/examples/quickstart.c "$at/main.c" && mkdir -p "$at/$2"
    cp -r CMakeLists.txt CMakePresets.json meson.build meson_options.txt dist include zephyr "$at/$2"
}

# A counter that was built counts its starts.
counts() {
    gives 0 "$2: run" "$1" "$at/counter.img"
    gives 0 "$2: run again" "$1" "$at/counter.img"
    grep -q '^2 starts.*, durable' "$tmp/out"; report $? "$2: two starts, durable"
}

# --- versions ---
for file in meson.build library.json idf_component.yml arduino/library.properties debian/changelog rust/kagutin/Cargo.toml kagutin.wrap; do
    grep -q -F "$version" $file; report $? "$file is of version $version"
done
if there python3 library.json; then
    gives 0 "library.json is JSON" python3 -m json.tool library.json
    gives 0 "its sources and headers are there" test -f dist/kagutin_all.c -a -f dist/kagutin_all.h
fi

# --- CMake ---
if there cmake CMake; then
    for name in cmake-inside esp-idf zephyr; do
        project $name kagutin
        gives 0 "$name: configured" cmake -S "$at" -B "$at/build"
        gives 0 "$name: built" cmake --build "$at/build"
        counts "$at/build/counter" $name
    done
    gives 0 "zephyr: drivers on stub devices, power gone after every byte" "$at/build/devices"
    cat "$tmp/out"
    gives 1 "zephyr: a chip that is done too early is found out" "$at/build/devices" wrong
    project cmake-installed source
    gives 0 "cmake: library configured" cmake -S "$at/source" -B "$at/library" -DCMAKE_INSTALL_PREFIX="$at/with space"
    gives 0 "cmake: library installed" cmake --build "$at/library" --target install
    gives 0 "cmake-installed: configured" cmake -S "$at" -B "$at/build" -DCMAKE_PREFIX_PATH="$at/with space"
    gives 0 "cmake-installed: built" cmake --build "$at/build"
    counts "$at/build/counter" cmake-installed
    gives 1 "cmake-installed: another major version is refused" sh -c "sed 's/kagutin 1.0/kagutin 2.0/' '$at/CMakeLists.txt' > '$at/source/other' \
        && mkdir '$at/other' && mv '$at/source/other' '$at/other/CMakeLists.txt' && cmake -S '$at/other' -B '$at/other/build' -DCMAKE_PREFIX_PATH='$at/with space'"
    if there arm-none-eabi-gcc "CMake presets"; then
        for core in m0plus m4 m33; do
            gives 0 "preset cortex-$core: configured" sh -c "cd '$at/source' && cmake --preset cortex-$core"
            gives 0 "preset cortex-$core: built" cmake --build "$at/source/target/cmake/cortex-$core"
        done
    fi
fi

# --- Meson ---
if there meson Meson && there ninja Meson; then
    project meson subprojects/kagutin
    gives 0 "meson: configured" meson setup "$at/build" "$at"
    gives 0 "meson: built" meson compile -C "$at/build"
    counts "$at/build/counter" meson
    if there git "the Meson wrap"; then
        project meson-wrap source && mkdir "$at/subprojects" && rm -rf "$tmp/origin" && mv "$at/source" "$tmp/origin"
        gives 0 "meson-wrap: a repository to fetch from" sh -c "cd '$tmp/origin' && git init -q && git add . && git -c user.name=a -c user.email=a@b commit -q -m a && git tag v$version"
        sed "s|^url = .*|url = $tmp/origin|" kagutin.wrap > "$at/subprojects/kagutin.wrap"
        gives 0 "meson-wrap: fetched and configured" meson setup "$at/build" "$at"
        gives 0 "meson-wrap: built" meson compile -C "$at/build"
        counts "$at/build/counter" meson-wrap
    fi
fi

# --- Arduino: the library's folder, and its example with stand-ins for Arduino's headers ---
gives 0 "arduino: made" "${MAKE:-make}" -s arduino
if there g++ "the Arduino example"; then
    library=target/arduino/Kagutin
    gives 0 "arduino: library compiled" "${CC:-cc}" -O1 -I$library/src -c $library/src/kagutin_all.c -o "$tmp/arduino.o"
    gives 0 "arduino: example built" g++ -std=gnu++11 -Wall -Wextra -Itests/build/arduino -I$library/examples/Counter -I$library/src \
        tests/build/arduino/main.cpp "$tmp/arduino.o" -o "$tmp/sketch"
    sketch() { # what it prints, name, what stands in the environment
        printed=$1 name=$2; shift 2
        gives 0 "arduino: $name" env FRAM="$tmp/chip" "$@" "$tmp/sketch"
        [ "$(cat "$tmp/out")" = "$printed" ]; report $? "arduino: it prints $printed"
    }
    sketch 0 "a new chip that nobody asks to format"
    sketch 1 "a new chip, the pin low" PIN_LOW=9
    sketch 2 "the pin still low" PIN_LOW=9
    sketch 3 "the pin high"
    cp "$tmp/chip" "$tmp/chip.before"
    printf 'X' | dd of="$tmp/chip" bs=1 conv=notrunc 2> /dev/null
    printf 'X' | dd of="$tmp/chip" bs=1 seek=32 conv=notrunc 2> /dev/null
    sketch 0 "a damaged header"
    dd if="$tmp/chip.before" of="$tmp/chip" bs=64 count=1 conv=notrunc 2> /dev/null
    sketch 4 "nothing was formatted"
fi

# --- make install: prefixes with spaces and relative ones, a library folder of its own, units by pkg-config ---
installs() { # name, what is given to make, prefix, library folder
    "${MAKE:-make}" -s install "$2" ${4:+"LIBDIR=$4"} > "$tmp/out" 2> "$tmp/log"; report $? "install, $1"
    at=$tmp
    there pkg-config "$1" || return
    for package in kagutin kagutin-units; do
        flags=$(PKG_CONFIG_PATH="${4:-$3/lib}/pkgconfig" pkg-config --cflags --libs $package 2> "$tmp/log"); report $? "install, $1: pkg-config $package"
    done
    printf '#include <kagutin_units.h>\nint main(void)\n{\n    static struct kagutin s;\n    return kgt_alarm_gravest(&s, 0).code != KGT_NOT_INIT;\n}\n' > "$tmp/units.c"
    gives 0 "install, $1: units built" sh -c "${CC:-cc} '$tmp/units.c' -o '$tmp/units' $flags"
    gives 0 "install, $1: run" "$tmp/units"
    "${MAKE:-make}" -s uninstall "$2" ${4:+"LIBDIR=$4"} > "$tmp/out" 2> "$tmp/log"
    [ -d "$3" ] && [ -z "$(find "$3" ${4:+"$4"} -type f)" ]; report $? "install, $1: uninstall leaves nothing"
}
installs "a prefix with a space" PREFIX="$tmp/with space" "$tmp/with space" ""
installs "a relative prefix" PREFIX=target/relative "$PWD/target/relative" ""
installs "a library folder" PREFIX="$tmp/usr" "$tmp/usr" "$tmp/usr/lib/x86_64-linux-gnu"
rm -rf target/relative

# A staging folder with a space: all lies below it, and the pkg-config files do not know of it.
stage="$tmp/a stage"
gives 0 "install, DESTDIR with a space" "${MAKE:-make}" -s install DESTDIR="$stage" PREFIX=/usr
[ -f "$stage/usr/lib/libkagutin.a" ] && [ -x "$stage/usr/bin/kagutin" ] && grep -q '^prefix=/usr$' "$stage/usr/lib/pkgconfig/kagutin.pc"
report $? "install, DESTDIR with a space: in its place"
gives 0 "uninstall, DESTDIR with a space" "${MAKE:-make}" -s uninstall DESTDIR="$stage" PREFIX=/usr
[ -z "$(find "$stage" -type f)" ]; report $? "uninstall, DESTDIR with a space: nothing is left"

count build-check
