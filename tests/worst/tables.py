#!/usr/bin/env python3
"""Tables of the worst cases in docs/PERFORMANCE.md, between its marks.

usage: tables.py BOUNDS.tsv DOCUMENT
"""
import re
import string
import sys

from worst import SHAPES, read_rows

BOARD_SHAPES = SHAPES[:3]
BOARDS = (("m0plus-Os", "M0+"), ("m4-O2", "M4"))
ROOMS = (("", "at once"), (", room by maintain", "by maintain"))


class Letters:
    """A letter for each log that is the worst of something, with what is special about the call on it."""

    def __init__(self):
        self.known = {}

    def of(self, row):
        name = row["log"] + (f"; {row['variant']}" if row["variant"] else "")
        if name not in self.known:
            more, last = divmod(len(self.known), 26)
            self.known[name] = string.ascii_lowercase[more - 1:more] + string.ascii_lowercase[last]
        return self.known[name]

    def table(self):
        return table(["", "log, and what is special about the call"], [[letter, name] for name, letter in self.known.items()])


def table(head, rows):
    lines = [head, ["---"] + ["---:"] * (len(head) - 1) if head[0] else ["---", "---"]] + rows
    return "\n".join("| " + " | ".join(cells) + " |" for cells in lines)


def shape_name(shape):
    return f"G {shape[0]:,}, D {shape[1]:,}"


def found(rows, machine, shape, call, kind):
    for row in rows:
        if (row["machine"], row["groups"], row["homes"], row["call"], row["kind"]) == (machine,) + shape + (call, kind):
            return row
    return None


def cell(row, letters):
    return f"{row['instructions']:,} {letters.of(row)}" if row else "–"


def calls_of(rows, machine):
    return list(dict.fromkeys(row["call"] for row in rows if row["machine"] == machine))


def library(rows, letters, kind, machine="x86-64"):
    lines = [[call] + [cell(found(rows, machine, shape, call, kind), letters) for shape in SHAPES] for call in calls_of(rows, machine)]
    return table([f"call, {kind}"] + [shape_name(shape) for shape in SHAPES], lines)


def boards(rows, letters, kind):
    head = [f"call, {kind}"] + [f"{title}, {shape_name(shape)}" for shape in BOARD_SHAPES for _, title in BOARDS]
    lines = [[call] + [cell(found(rows, machine, shape, call, kind), letters) for shape in BOARD_SHAPES for machine, _ in BOARDS] for call in calls_of(rows, "m4-O2")]
    return table(head, lines)


def both(rows, shape, call, room, letters):
    """What is written as blocks and as words, with the log of the second."""
    blocks, words = (found(rows, "object", shape, call, medium + room) for medium in ("blocks", "words"))
    if not blocks or not words:
        return "–"
    shown = f"{words['instructions']:,}" if blocks["instructions"] == words["instructions"] else f"{blocks['instructions']:,} / {words['instructions']:,}"
    return f"{shown} {letters.of(words)}"


def object_calls(rows, letters, room, title):
    lines = [[call] + [both(rows, shape, call, room, letters) for shape in SHAPES] for call in calls_of(rows, "object")]
    return table([f"call, room {title}"] + [shape_name(shape) for shape in SHAPES], lines)


def fill(text, name, new):
    pattern = re.compile(rf"(<!-- {name} -->\n).*?(<!-- end -->)", re.S)
    if not pattern.search(text):
        sys.exit(f"tables.py: the document has no mark {name}")
    return pattern.sub(lambda match: match[1] + new + "\n" + match[2], text)


def main():
    bounds, document = sys.argv[1:]
    rows = read_rows(bounds)
    letters = Letters()
    tables = {f"worst-{kind}": library(rows, letters, kind) for kind in ("valid", "damaged")}
    tables["worst-units"] = "\n\n".join(library(rows, letters, kind, "units") for kind in ("valid", "damaged"))
    tables["worst-object"] = "\n\n".join(object_calls(rows, letters, room, title) for room, title in ROOMS)
    tables["worst-boards"] = "\n\n".join(boards(rows, letters, kind) for kind in ("valid", "damaged"))
    tables["worst-logs"] = letters.table()
    with open(document, encoding="utf-8") as file:
        text = file.read()
    for name, new in tables.items():
        text = fill(text, name, new)
    with open(document, "w", encoding="utf-8") as file:
        file.write(text)


if __name__ == "__main__":
    main()
