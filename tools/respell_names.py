#!/usr/bin/env python3
"""Spells this repository's own definitions and lemmas as today's Rattle does: words in snake case, types and modules in camel case.

usage: respell_names.py [--list] [FOLDER]

FOLDER is the top of a checkout in which the kit's port.py has run (default: this one). It rewrites the .rt and .antt files of crates/: each
word of a name that begins with a small letter and goes on with capitals, as groupAt, becomes group_at, also as a part of a lemma's
name (length-putHome: length-put_home). Texts in quotes, functions of src/ and exported names have no such words and stay. Where the
plain new name stands for something else already, OTHER says what is written instead. --list prints each old name with its new one.
A second run changes nothing.
"""
import glob
import os
import re
import sys

# Names that would fall together with another one, or be read as another thing.
OTHER = {
    "homesIn": "home_count",
    "groupsIn": "group_count",
    "inOrder": "is_in_order",
    "isOpen": "is_open_now",
    "goesOn": "goes_further",
    "heldBack": "held_back_by",
    "givesUp": "gives_up_at",
    "handsOut": "hands_out_now",
    "readRight": "right_to_read",
    "storeRight": "right_to_store",
    "oneMore": "one_more_than",
    "leftBy": "left_under",
    "owedAll": "all_owed",
    "entryIn": "entry_within",
    "homeKnown": "is_home_known",
    "keptOf": "kept_for_home",
    "firstGroup": "group_of_first",
    "hasRoom": "has_room_left",
    "keptBy": "kept_under",
    "keptEntry": "entry_kept",
    "heldBy": "held_under",
    "foundIn": "found_within",
    "readBack": "read_again",
    "goesTo": "goes_onto",
    "goesBy": "goes_past",
    "underNext": "below_next",
    "underFirst": "below_first",
    "readsSo": "reads_thus",
    "eachOf": "each_among",
    "inUse": "is_in_use",
    "leavesAll": "leaves_everything",
    "openOf": "open_transaction",
    "noRoom": "without_room",
    "notThere": "is_absent",
    "shownBy": "shown_with",
    "storeBeside": "store_next_to",
    "sameHome": "is_same_home",
}
WORD = re.compile(r"(?<![A-Za-z0-9_'\"])[a-z][a-z0-9]*(?:[A-Z][a-z0-9]*)+(?![A-Za-z0-9_\"])")
QUOTED = re.compile(r'b?"(?:[^"\\\n]|\\.)*"')


def spelled(word):
    return OTHER.get(word) or re.sub(r"[A-Z]", lambda m: "_" + m[0].lower(), word)


def turned(text, seen=None):
    """The text with each such word outside quotes spelled anew; seen gathers the words."""
    parts, at = [], 0

    def turn(piece):
        def one(m):
            if seen is not None:
                seen.setdefault(m[0], spelled(m[0]))
            return spelled(m[0])

        return WORD.sub(one, piece)

    for m in QUOTED.finditer(text):
        parts += [turn(text[at : m.start()]), m[0]]
        at = m.end()
    return "".join(parts) + turn(text[at:])


def sources(root):
    for pattern in ("specs/**/*.antt", "proofs/**/*.antt", "src/**/*.rt"):
        yield from sorted(glob.glob(os.path.join(root, "crates", "*", pattern), recursive=True))


def main(argv):
    listing = "--list" in argv
    rest = [a for a in argv if a != "--list"]
    root = rest[0] if rest else os.path.join(os.path.dirname(os.path.abspath(__file__)), "..")
    seen, changed = {}, 0
    for path in sources(root):
        with open(path, encoding="utf-8") as f:
            old = f.read()
        new = turned(old, seen)
        if new != old:
            changed += 1
            if not listing:
                with open(path, "w", encoding="utf-8") as f:
                    f.write(new)
    if listing:
        for word in sorted(seen):
            print(f"{word}\t{seen[word]}")
    print(f"respell: {len(seen)} names in {changed} files", file=sys.stderr)
    return 0


if __name__ == "__main__":
    raise SystemExit(main(sys.argv[1:]))
