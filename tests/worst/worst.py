#!/usr/bin/env python3
"""Worst cases of every call, by callgrind.

worst.py search FOLDER-OF-THE-PROGRAMS OUT.tsv     every call on every log, at all shapes
worst.py bounds BOUNDS.tsv SEARCHED..              the greatest of each, with its bound, into the file that the checks and the tables are made from
worst.py check FOLDER-OF-THE-PROGRAMS BOUNDS.tsv   the worst of them again, and all of the smallest shape; status 1 where one takes more than its bound
worst.py check-board SEARCHED.txt BOUNDS.tsv       what a board has said
"""
import csv
import math
import os
import re
import subprocess
import sys
import tempfile

SHAPES = ((64, 64), (64, 1024), (1024, 4096), (1024, 65535))
SEARCHED = ("x86-64",) + SHAPES[0]  # a check makes every call there, so that another log that has become the worst is seen
HISTORY_SHAPES, HISTORY_SEEDS, HISTORY_CALLS = SHAPES[:2], (1, 2, 3), 1500
FIELDS = ("machine", "groups", "homes", "call", "kind", "log", "variant", "answer", "instructions")
BOUND_FIELDS = FIELDS + ("bound",)
BOARD_FIELDS = ("groups", "homes", "log", "kind", "call", "variant", "answer", "instructions")
HEADERS = [f"include/kagutin{part}.h" for part in ("", "_chains", "_bands", "_hours", "_alarms")]
MACHINES = ("x86-64", "units", "object", "m0plus-Os", "m4-O2")
# "rep movsb" and "rep stosb" would count once for each byte, and wider moves than all x86-64 machines have would make them differ; the environment lies above the
# stack and would shift it.
ENVIRONMENT = {"PATH": os.environ.get("PATH", ""), "GLIBC_TUNABLES": "glibc.cpu.hwcaps=-ERMS,-AVX2"}
# Program, what its functions' names begin with, and the calls that it makes.
PROGRAMS = {
    "x86-64": ("worst", "kagutin_", "format open begin reserve abort store commit flush confirm settle begin_round step_round trim read usage fetch revise transact next_action"),
    "units": ("worst_units", "kagutin_", "bands_set bands_look_up pump_start pump_stop pump_hours pump_services alarm_arrive alarm_clear alarm_gravest"),
    "object": ("worst_object", "kgt_", "format open begin reserve abort store commit commit_sync sync read maintain usage"),
}


def counted(folder, machine, groups, homes, words=(), other=None):
    """A row for each call that the machine's program makes on its logs, or on the cases named; or another program."""
    program, prefix, calls = PROGRAMS[machine]
    program = other or program
    with tempfile.TemporaryDirectory() as scratch:
        out = os.path.join(scratch, "out")
        command = ["valgrind", "--tool=callgrind", f"--callgrind-out-file={out}", f"--log-file={scratch}/log", "--dump-after=counted", "--zero-before=counted", "--dump-line=no"]
        command += [f"--toggle-collect={prefix}{call}" for call in calls.split()]
        command += [os.path.join(folder, program), str(groups), str(homes)] + list(words)
        ran = subprocess.run(command, capture_output=True, text=True, env=ENVIRONMENT, check=False)
        if ran.returncode:
            sys.exit(f"worst: {program} {groups} {homes}: {ran.stderr}")
        rows = []
        for number, line in enumerate(ran.stdout.splitlines(), 1):
            log, kind, call, variant, answer = line.split("\t")
            rows.append({"machine": machine, "groups": groups, "homes": homes, "call": call, "kind": kind, "log": log, "variant": variant, "answer": answer,
                         "instructions": totals(f"{out}.{number}")})
        return rows


def totals(path):
    with open(path, encoding="utf-8", errors="replace") as file:
        for line in file:
            if line.startswith("totals:"):
                return int(line.split()[1])
    sys.exit(f"worst: {path} has no totals")


def read_rows(path):
    """Rows of a search, of a board or of the bounds."""
    with open(path, newline="", encoding="utf-8") as file:
        if path.endswith(".txt"):
            machine = os.path.basename(path)[len("worst-"):-len(".txt")]
            rows = list(csv.DictReader(file, BOARD_FIELDS, delimiter="\t"))
            rows = [dict(row, machine=machine) for row in rows]
        else:
            rows = list(csv.DictReader(file, delimiter="\t"))
    for row in rows:
        for name in ("groups", "homes", "instructions", "bound"):
            if name in row:
                row[name] = int(row[name])
    return rows


def write_rows(path, fields, rows):
    with open(path, "w", newline="", encoding="utf-8") as file:
        writer = csv.DictWriter(file, fields, delimiter="\t", lineterminator="\n")
        writer.writeheader()
        writer.writerows(rows)


def key_of(row):
    return row["machine"], row["groups"], row["homes"], row["call"], row["kind"]


def greatest(rows):
    """The row with most instructions of each call; the first of equals."""
    best = {}
    for row in rows:
        if key_of(row) not in best or row["instructions"] > best[key_of(row)]["instructions"]:
            best[key_of(row)] = row
    return best


def bound_of(instructions):
    """A hundredth more, rounded up to three digits."""
    more = math.ceil(instructions * 1.01)
    step = 10 ** max(0, len(str(more)) - 3)
    return -(-more // step) * step


def try_histories(folder, known):
    """Random histories of the small shapes: a call that takes more there than on any of the logs is a log that is left out."""
    best = greatest(known)
    found = [row for shape in HISTORY_SHAPES for seed in HISTORY_SEEDS for row in counted(folder, "x86-64", *shape, (str(seed), str(HISTORY_CALLS)), "worst_history")]
    dearer = [row for row in greatest(found).values() if row["instructions"] > best[key_of(row)]["instructions"]]
    for row in dearer:
        print(f"worst: {row['call']} takes {row['instructions']:,} in a random history at G {row['groups']:,}, D {row['homes']:,}: more than on any log of logs.c")
    if dearer:
        sys.exit(1)
    print(f"worst: {len(found):,} calls of random histories, none dearer than on the logs")


def search(folder, path):
    rows = []
    for machine in PROGRAMS:
        for groups, homes in SHAPES:
            found = counted(folder, machine, groups, homes)
            print(f"worst: {machine}, G {groups:,}, D {homes:,}: {len(found):,} calls", flush=True)
            rows += found
    try_histories(folder, rows)
    write_rows(path, FIELDS, rows)


def bounds(path, searched):
    """Machines that were not searched keep what they have."""
    rows = list(greatest([row for source in searched for row in read_rows(source)]).values())
    machines = {row["machine"] for row in rows}
    kept = [row for row in read_rows(path) if row["machine"] not in machines] if os.path.exists(path) else []
    rows = [dict(row, bound=bound_of(row["instructions"])) for row in rows] + kept
    write_rows(path, BOUND_FIELDS, sorted(rows, key=lambda row: (MACHINES.index(row["machine"]), row["groups"], row["homes"])))


def judge(found, known):
    """Ends the program if a call takes more than its bound, or has none."""
    bound = {key_of(row): row["bound"] for row in known}
    over = [row for row in greatest(found).values() if row["instructions"] > bound.get(key_of(row), 0)]
    for row in over:
        print(f"worst: {row['machine']}, G {row['groups']:,}, D {row['homes']:,}, {row['call']}, {row['kind']}, '{row['log']}': "
              f"{row['instructions']:,} instructions, more than {bound.get(key_of(row), 0):,}")
    left = set(bound) - {key_of(row) for row in found}
    if left:
        print(f"worst: not made: {sorted(left)}")
    if over or left:
        sys.exit(1)
    print(f"worst: {len(found):,} calls, none above its bound of {len(bound)}")


def left_out():
    """Calls that the headers declare and no program here makes."""
    made = {prefix + call for _, prefix, calls in PROGRAMS.values() for call in calls.split()}
    declared = set()
    for header in HEADERS:
        with open(header, encoding="utf-8") as file:
            declared |= set(re.findall(r"^struct \w+ (kagutin_\w+)\(", file.read(), re.M))
    return sorted(declared - made)


def check(folder, path):
    if left_out():
        sys.exit(f"worst: no worst case is searched for of {', '.join(left_out())}: tests/worst/calls.c and PROGRAMS of worst.py")
    known = [row for row in read_rows(path) if row["machine"] in PROGRAMS]
    found = []
    for machine in PROGRAMS:
        for groups, homes in SHAPES:
            rows = [row for row in known if (row["machine"], row["groups"], row["homes"]) == (machine, groups, homes)]
            cases = [f"{row['log']}:{row['call']}:{row['variant']}:{row['kind']}" for row in rows]
            found += counted(folder, machine, groups, homes, [] if (machine, groups, homes) == SEARCHED else cases)
    judge(found, known)


def check_board(path, bounds_path):
    found = read_rows(path)
    judge(found, [row for row in read_rows(bounds_path) if row["machine"] == found[0]["machine"]])


def main():
    words = sys.argv[1:]
    if words[:1] == ["search"] and len(words) == 3:
        search(*words[1:])
    elif words[:1] == ["check"] and len(words) == 3:
        check(*words[1:])
    elif words[:1] == ["check-board"] and len(words) == 3:
        check_board(*words[1:])
    elif words[:1] == ["bounds"] and len(words) >= 2:
        bounds(words[1], words[2:])
    else:
        sys.exit(__doc__)


if __name__ == "__main__":
    main()
