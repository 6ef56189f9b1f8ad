#!/usr/bin/env python3
"""Puts the tables of the last bench into docs/PERFORMANCE.md, between its marks <!-- NAME --> and <!-- end -->; of two files those that are there.

usage: report.py BENCH.TSV PEERS.TSV DOCUMENT
"""

import csv
import os
import re
import sys


def rows_of(path):
    with open(path, newline="") as file:
        return list(csv.DictReader(file, delimiter="\t"))


def number(text, digits=0):
    return f"{float(text):,.{digits}f}" if text else "–"


def ratio(above, below):
    if not above or not below or float(below) == 0:
        return "–"
    value = float(above) / float(below)
    return f"**{value:.2f}**" if value > 1.2 else f"{value:.2f}"


def table(head, lines):
    rule = ["---"] + ["---:"] * (len(head) - 1)
    return "\n".join("| " + " | ".join(cells) + " |" for cells in [head, rule] + lines)


def call_table(rows):
    head = ["case, call", "library", "reference", "ratio", "floor", "library ns", "reference ns"]
    lines = []
    for row in rows:
        name = f"{row['case']}: {row['call']}"
        counts = [number(row["library"]), number(row["reference"]), ratio(row["library"], row["reference"]), number(row["floor"])]
        lines.append([name] + counts + [number(row["library_ns"]), number(row["reference_ns"])])
    return table(head, lines)


def size_table(rows):
    head = ["call, groups in use of G", "library", "per group of the ring", "per group in use", "reference", "ratio"]
    lines = []
    for row in rows:
        library, groups, used = float(row["library"]), int(row["groups"]), int(row["used"])
        cells = [number(row["library"]), number(library / groups), number(library / used), number(row["reference"])]
        lines.append([f"{row['call']}, {used:,} of {groups:,}"] + cells + [ratio(row["library"], row["reference"])])
    return table(head, lines)


def peer_table(rows):
    head = ["store, blocks", "median ns", "best ns", "bytes written", "best ÷ Kagutin's best"]
    lines = []
    for row in rows:
        written = number(row["bytes"]) if row["bytes"] not in ("", "n/a") else "–"
        cells = [number(row["median_ns"]), number(row["best_ns"]), written, f"{float(row['ratio_of_best']):.2f}"]
        lines.append([f"{row['store']}, {row['blocks']}"] + cells)
    return table(head, lines)


def read_table(rows):
    head = ["store", "median ns", "best ns", "best ÷ Kagutin's best", "instructions"]
    lines = []
    for row in rows:
        cells = [number(row["median_ns"]), number(row["best_ns"]), f"{float(row['ratio_of_best']):.2f}", number(row["instructions"])]
        lines.append([row["store"]] + cells)
    return table(head, lines)


def recovery_table(rows):
    head = ["store", "median µs", "best µs", "bytes written", "best ÷ Kagutin's best"]
    lines = []
    for row in rows:
        micros = [number(float(row[name]) / 1000) for name in ("median_ns", "best_ns")]
        written = number(row["bytes"]) if row["bytes"] not in ("", "n/a") else "–"
        lines.append([row["store"]] + micros + [written, f"{float(row['ratio_of_best']):.2f}"])
    return table(head, lines)


def main():
    if len(sys.argv) != 4:
        sys.exit(__doc__)
    bench, peers, document = sys.argv[1:]
    tables = {}
    if os.path.exists(bench):
        rows = rows_of(bench)
        for name in ("calls", "durable", "worst"):
            tables[name] = call_table([row for row in rows if row["table"] == name])
        tables["size"] = size_table([row for row in rows if row["table"] == "size"])
    if os.path.exists(peers):
        stores = rows_of(peers)
        tables["single"] = peer_table([row for row in stores if row["what"] == "1"])
        tables["eight"] = peer_table([row for row in stores if row["what"] == "8"])
        tables["reads"] = read_table([row for row in stores if row["what"] == "reads"])
        tables["recovery"] = recovery_table([row for row in stores if row["what"] == "recovery"])
    with open(document) as file:
        text = file.read()
    for name, body in tables.items():
        mark = f"<!-- {name} -->"
        if mark not in text:
            sys.exit(f"{document} has no mark {mark}")
        text = re.sub(re.escape(mark) + r".*?<!-- end -->", lambda _: f"{mark}\n{body}\n<!-- end -->", text, flags=re.S)
    with open(document, "w") as file:
        file.write(text)


main()
