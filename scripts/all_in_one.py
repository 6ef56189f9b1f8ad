#!/usr/bin/env python3
"""Joins dist/, the store object, the units and the drivers into one C file and one header.

all_in_one.py FOLDER   (run by make all-in-one from the root; writes kagutin_all.c and kagutin_all.h there)

Nothing is changed but for names: a name that one source keeps to itself, and that another source uses too, gets the source's name in
front. Macros end with their source. The includes of our own headers go, since their text is there.
"""
import re
import sys

HEADERS = ["kagutin", "kagutin_chains", "kagutin_store", "kagutin_rights", "kagutin_bands", "kagutin_hours", "kagutin_alarms", "kagutin_units",
           "kagutin_memory", "kagutin_fram", "kagutin_file"]
INNER = ["c/store/kagutin_state_layout.h", "c/store/kagutin_store_inner.h"]

# Source, the prefix of its names, the macro that takes it in.
SOURCES = [("dist/kagutin.c", "core", None), ("dist/kagutin_bands.c", "bands", None), ("dist/kagutin_hours.c", "hours", None),
           ("dist/kagutin_alarms.c", "alarms", None), ("c/store/store.c", "object", None), ("c/store/room.c", "room", None),
           ("c/store/usage.c", "usage", None), ("c/store/rights.c", "rights", None), ("c/store/batch.c", "batch", None),
           ("c/store/units.c", "units", None), ("c/drivers/memory.c", "memory", "KAGUTIN_MEMORY"), ("c/drivers/fram.c", "fram", "KAGUTIN_FRAM"),
           ("c/drivers/file.c", "file", "KAGUTIN_FILE"), ("c/drivers/file_io.c", "file_io", "KAGUTIN_FILE")]
INNER_OF = {"c/store/store.c": INNER, "c/drivers/file.c": ["c/drivers/kagutin_file_inner.h"]}

TOKEN = re.compile(r'/\*.*?\*/|"(?:\\.|[^"\\])*"|\'(?:\\.|[^\'\\])*\'|[A-Za-z_]\w*|->|\s+|.', re.S)
WORD = re.compile(r"[A-Za-z_]\w*$")

HEADER_HEAD = """/*
 * Kagutin, all of its headers in one: store, object, units and drivers.
 * Made by scripts/all_in_one.py from include/; do not edit: run `make all-in-one`.
 */
"""
SOURCE_HEAD = """/*
 * Kagutin in one C99 file: store, object and units, and the drivers that are asked for.
 * Made by scripts/all_in_one.py from dist/ and c/; do not edit: run `make all-in-one`.
 *
 * Needs kagutin_all.h, memcpy, memmove, memset and memcmp; no heap. Drivers by macro:
 *     -DKAGUTIN_FRAM    serial FRAM or MRAM
 *     -DKAGUTIN_FILE    image files, on POSIX
 *     -DKAGUTIN_MEMORY  for tests: plain memory in which power cuts are played
 * A driver of your own is three functions; kgt_driver says what they owe.
 */
#ifdef KAGUTIN_FILE /* before the first header */
#ifndef _DEFAULT_SOURCE
#define _DEFAULT_SOURCE 1
#endif
#ifndef _POSIX_C_SOURCE
#define _POSIX_C_SOURCE 200809L
#endif
#endif

#include "kagutin_all.h"
"""


def text_of(path):
    with open(path, encoding="utf-8") as file:
        return file.read()


def without_includes(text):
    """Without the includes of our own headers, and without the macros that stand in SOURCE_HEAD."""
    return re.sub(r'^#include "kagutin\w*\.h"\n|^#define _(?:DEFAULT|POSIX_C)_SOURCE .*\n', "", text, flags=re.M)


def words(text):
    return [token for token in TOKEN.findall(text) if not token.isspace() and not token.startswith("/*")]


def kept_names(text):
    """What a source keeps to itself: static functions and objects, tags, constants of its enums."""
    tokens = words(re.sub(r"^#.*(?:\\\n.*)*", "", text, flags=re.M))
    names, depth, static, at_start = set(), 0, False, True
    for i, token in enumerate(tokens):
        if token in "{}":
            depth += 1 if token == "{" else -1
        if token in ("struct", "union", "enum") and tokens[i + 2] == "{":
            names.add(tokens[i + 1])
        if token == "enum" and "{" in tokens[i + 1:i + 3]:
            names |= constants(tokens[i + 1:])
        if depth == 0:
            static = token == "static" if at_start else static
            if static and WORD.match(token) and tokens[i + 1] in ("(", "=", ";", "[") and token != "__attribute__":
                names.add(token)
            at_start = token in (";", "}")
    return names


def constants(tokens):
    body = tokens[tokens.index("{") + 1:tokens.index("}")]
    return {token for i, token in enumerate(body) if WORD.match(token) and (i == 0 or body[i - 1] == ",")}


def renamed(text, names, prefix):
    """The text with the prefix before each of the names, but for members, strings and comments."""
    last, out = "", []
    for token in TOKEN.findall(text):
        out.append(prefix + "_" + token if token in names and last not in (".", "->") else token)
        last = last if token.isspace() else token
    return "".join(out)


def ended_macros(text):
    return "".join("#undef %s\n" % name for name in sorted(set(re.findall(r"^#define (\w+)", text, re.M))))


def header():
    parts = [HEADER_HEAD, "#ifndef KAGUTIN_ALL_H\n#define KAGUTIN_ALL_H\n"]
    parts += ["/* ==== %s.h ==== */\n\n%s" % (name, without_includes(text_of("include/%s.h" % name))) for name in HEADERS]
    return "\n".join(parts + ["#endif\n"])


def joined():
    texts = {path: without_includes(text_of(path)) for path, _, _ in SOURCES}
    used = {path: set(words(text)) for path, text in texts.items()}
    public = set(words(header() + "".join(text_of(path) for paths in INNER_OF.values() for path in paths)))
    parts = [SOURCE_HEAD]
    for path, prefix, macro in SOURCES:
        elsewhere = public.union(*(used[other] for other in used if other != path))
        text = renamed(texts[path], kept_names(texts[path]) & elsewhere, prefix)
        inner = "".join(without_includes(text_of(name)) + "\n" for name in INNER_OF.get(path, []))
        part = "/* ==== %s ==== */\n\n%s%s\n%s" % (path, inner, text, ended_macros(text))
        parts.append("#ifdef %s\n%s#endif\n" % (macro, part) if macro else part)
    return "\n".join(parts)


def main():
    for name, text in (("kagutin_all.h", header()), ("kagutin_all.c", joined())):
        with open("%s/%s" % (sys.argv[1], name), "w", encoding="utf-8") as file:
            file.write(text)


if __name__ == "__main__":
    main()
