#!/usr/bin/env python3
"""target/evidence: what a safety assessment asks for, as one JSON file and one page. Run by make evidence, after make test.

Takes what make test left in target/ (the prover's logs, the verdict, the validator's report and its wrong edits), the trace, the coverage of dist/kagutin.c that evidence-coverage has
measured, the stack that evidence-stack has, and the bounds of tests/worst, which make test has held the calls to. Rows stand in evidence.json and in files of their own: crates, wrong_programs, validator_edits, worst_cases, stack.
All but the line of date and times is the same in every run over the same files.
"""
import csv
import glob
import hashlib
import html
import json
import os
import re
import subprocess
import sys
import time

OUT = "target/evidence"
ROWS = ("crates", "wrong_programs", "validator_edits", "worst_cases", "stack", "stack_on_boards")  # each also a file of its own


def text_of(path):
    try:
        with open(path, encoding="utf-8", errors="replace") as file:
            return file.read()
    except FileNotFoundError:
        return ""


def said_by(*words):
    try:
        return subprocess.run(words, capture_output=True, text=True, check=False).stdout.strip()
    except FileNotFoundError:
        return "not installed"


def first_line(*words):
    return (said_by(*words).split("\n") or [""])[0]


def verdict():
    lines = [line for line in text_of("target/test/verdict.txt").split("\n") if line.strip()]
    return lines[-1] if lines else "none: run make test first"


def crates():
    """Each listed crate: proved or not, functions, axioms, by what rt ci said of it in the run of make test; of a crate that was proved in an earlier run of the same
    files on this machine, as it says, the functions are those of the program that it kept."""
    said, rows = text_of("target/test/ci.log"), []
    for line in text_of("crates.txt").split("\n"):
        name = line.split(":")[0].split(" ")[0].strip()
        if not name or line.startswith("#"):
            continue
        part = re.search(rf"^== {name}\n(.*?)^rt: {name} (?:NOT )?(?i:proved)", said, re.M | re.S)
        last = re.findall(r"^logic=.*$", part.group(1), re.M) if part else []
        fields = dict(re.findall(r"(\w[\w-]*)=(\S+)", last[-1])) if last else {}
        kept = re.search(rf"^rt: {name} is kept: ", said, re.M)
        program = text_of(f"crates/{name}/out/rlib/{name}.rlib/toolchain/mir.json")
        functions = int(fields.get("functions", 0)) or (len(json.loads(program)) if kept and program else 0)
        axioms = sum(int(n) for n in re.findall(r"^axioms .*\((\d+) of the \d+ declared\)", part.group(1), re.M)) if part else 0
        rows.append({"crate": name, "logic": fields.get("logic", "proved in an earlier run" if kept else "not run"), "functions": functions, "axioms": axioms})
    return rows


def wrong_programs():
    """Each must-fail edit, and what the prover first said against it."""
    said, rows = text_of("target/test/ci.log"), []
    for path in sorted(glob.glob("crates/*/must-fail/*.edit")):
        crate, label = path.split("/")[1], os.path.basename(path)[: -len(".edit")]
        told = re.search(rf"^rt: must-fail {crate}/{re.escape(label)}\.edit: (.*)$", said, re.M)
        outcome = re.match(r"refused|NOT REFUSED|BAD EDIT|NOT TRIED", told.group(1)) if told else None
        error = re.search(r"error: (.*)", told.group(1)) if told else None
        says = text_of(path).split("\n")[0].lstrip("# ")
        rows.append({"edit": f"{crate}/{label}", "says": says, "clauses": re.findall(r"S-\d+", says),
                     "outcome": {"refused": "refused", "NOT REFUSED": "accepted"}.get(outcome.group(0), "bad") if outcome else "not run",
                     "first_error": error.group(1)[:160] if error else ""})
    return rows


def validator_edits():
    """Each wrong edit that the validator was given and what became of it: of the long test if it has run, else of the gate's part."""
    for path in ("target/validate-check.json", "target/validate-quick-check.json"):
        if os.path.exists(path):
            return json.loads(text_of(path))
    return []


def worst_cases():
    """The most instructions of each call, with the log they were found on, and the bound that make test holds them to."""
    rows = list(csv.DictReader(text_of("tests/worst/bounds.tsv").splitlines(), delimiter="\t"))
    for row in rows:
        row.update({name: int(row[name]) for name in ("groups", "homes", "answer", "instructions", "bound")})
    return rows


def measured_stack():
    """What the programs of tests/stack say, one row for each call: bytes."""
    rows = []
    for line in text_of(f"{OUT}/stack.txt").split("\n"):
        head = re.match(r"(?:(\w+): )?G (\d+), (?:D (\d+)|(room [a-z ]+)): ?(.*)", line)
        if not head:
            continue
        machine, groups, homes, room, told = head.groups()
        for call, size in re.findall(r"(\w+) (\d+)", told):
            rows.append({"machine": machine or "x86-64", "of": "object" if room else "library", "groups": int(groups), "homes": int(homes or 64), "room": room or "", "call": call, "bytes": int(size)})
    return rows


def stack_bounds():
    """The table of docs/PERFORMANCE.md: by the compiler's call graph and measured on the boards."""
    found = re.search(r"<!-- c-stack -->\n(.*?)\n<!-- end -->", text_of("docs/PERFORMANCE.md"), re.S)
    lines = [[cell.strip() for cell in line.strip("| ").split("|")] for line in found.group(1).split("\n")] if found else []
    return [{"call": cells[0], "column": name, "bytes": int(cell.replace(",", ""))} for cells in lines[2:] for name, cell in zip(lines[0][1:], cells[1:])]


def report_of(path, pattern):
    return [line for line in text_of(path).split("\n") if re.search(pattern, line)]


def coverage():
    """Branches of the C file by gcov: taken, not taken, and why the others cannot be or are not."""
    reasons = {}
    for line in text_of("tests/coverage/reasons.txt").split("\n"):
        match = re.match(r"(\w+): (.*)", line)
        if match:
            reasons[match.group(1)] = match.group(2)
    found = {"functions": 0, "lines": 0, "lines_run": 0, "branches": 0, "branches_taken": 0, "open": []}
    raw = text_of(f"{OUT}/coverage.json")
    if not raw:
        return found
    for file in json.loads(raw)["files"]:
        if not file["file"].endswith("kagutin.c"):
            continue
        found["functions"] = len(file["functions"])
        left = {}
        for line in file["lines"]:
            found["lines"] += 1
            found["lines_run"] += line["count"] > 0
            for branch in line["branches"]:
                found["branches"] += 1
                found["branches_taken"] += branch["count"] > 0
                if branch["count"] == 0:
                    left.setdefault(line.get("function_name", "?"), []).append(line["line_number"])
        for name, at in sorted(left.items()):
            found["open"].append({"function": name, "branches": len(at), "lines": sorted(set(at)), "reason": reasons.get(name, "")})
    return found


def hashes():
    rows = []
    for path in sorted(said_by("git", "ls-files").split("\n")):
        if os.path.isfile(path):
            with open(path, "rb") as file:
                rows.append({"file": path, "sha256": hashlib.sha256(file.read()).hexdigest()})
    return rows


def page(told):
    def row(cells, tag="td"):
        return "<tr>" + "".join(f"<{tag}>{html.escape(str(cell))}</{tag}>" for cell in cells) + "</tr>"

    def table(title, heads, rows):
        return f"<h2>{html.escape(title)}</h2><table>{row(heads, 'th')}{''.join(row(r) for r in rows)}</table>"

    c = told["coverage"]
    parts = [
        "<!doctype html><html lang='en'><meta charset='utf-8'><title>Kagutin: evidence</title><style>body{font:15px/1.4 sans-serif;max-width:70em;margin:2em auto;padding:0 1em}"
        "table{border-collapse:collapse;margin:1em 0}td,th{border:1px solid #bbb;padding:.2em .5em;text-align:left;vertical-align:top}code{font-size:.95em}</style>",
        f"<h1>Kagutin {html.escape(told['version'])}: evidence</h1><p>Made {html.escape(told['made'])} from commit <code>{html.escape(told['commit'])}</code>.</p>",
        f"<p><b>The prover's verdict:</b> {html.escape(told['verdict'])}</p>",
        table("Versions", ["tool", "version"], told["tools"].items()),
        table("Crates", ["crate", "logic", "functions proved", "axioms"], [(r["crate"], r["logic"], r["functions"], r["axioms"]) for r in told["crates"]]),
        table("Wrong programs refused", ["edit", "what it is", "outcome", "first error"], [(r["edit"], r["says"], r["outcome"], r["first_error"]) for r in told["wrong_programs"]]),
        table("Validator", ["report"], [(line,) for line in told["validator"]]),
        table("Wrong edits given to the validator", ["kind", "subject", "function", "edit", "outcome"],
              [(r["kind"], r["subject"], r["function"], r["edit"], r["outcome"]) for r in told["validator_edits"]]),
        table("Worst cases, instructions", ["machine", "G", "D", "call", "kind", "log", "instructions", "bound"],
              [(r["machine"], r["groups"], r["homes"], r["call"], r["kind"], r["log"], f"{r['instructions']:,}", f"{r['bound']:,}") for r in told["worst_cases"]]),
        table("Stack, bytes, measured", ["machine", "of", "G", "D", "room", "call", "bytes"],
              [(r["machine"], r["of"], r["groups"], r["homes"], r["room"], r["call"], f"{r['bytes']:,}") for r in told["stack"]]),
        table("Stack, bytes, on the boards", ["call", "core, level", "bytes"], [(r["call"], r["column"], f"{r['bytes']:,}") for r in told["stack_on_boards"]]),
        table("Coverage of dist/kagutin.c by the comparison", ["", ""], [("functions", c["functions"]), ("lines run", f"{c['lines_run']} of {c['lines']}"),
              ("branches taken", f"{c['branches_taken']} of {c['branches']}")]),
        table("Branches not taken", ["function", "branches", "reason"], [(r["function"], r["branches"], r["reason"]) for r in c["open"]]),
        "<h2>Clauses</h2><p><code>docs/SPEC.md</code>, <code>docs/TRACE.md</code>, copied beside this page.</p>",
        table("Files", ["file", "SHA-256"], [(r["file"], r["sha256"]) for r in told["files"]]),
        "</html>",
    ]
    return "\n".join(parts) + "\n"


def main():
    os.makedirs(OUT, exist_ok=True)
    told = {
        "version": re.search(r'KAGUTIN_VERSION "(.*?)"', text_of("include/kagutin.h")).group(1),
        "made": time.strftime("%Y-%m-%d %H:%M UTC", time.gmtime()),
        "commit": said_by("git", "rev-parse", "HEAD") + (" with changes" if said_by("git", "status", "--porcelain") else ""),
        "verdict": verdict(),
        "tools": {"rattle": first_line("rt", "version"), "gcc": first_line("gcc", "--version"), "python": first_line("python3", "--version"),
                  "z3": first_line("python3", "-c", "import z3; print(z3.get_version_string())"), "cargo": first_line("cargo", "--version")},
        "crates": crates(),
        "wrong_programs": wrong_programs(),
        "validator": report_of("target/test/compared.log", r"^validate"),
        "validator_edits": validator_edits(),
        "worst_cases": worst_cases(),
        "stack": measured_stack(),
        "stack_on_boards": stack_bounds(),
        "coverage": coverage(),
        "files": hashes(),
    }
    with open(f"{OUT}/evidence.json", "w", encoding="utf-8") as file:
        json.dump(told, file, indent=1)
    for name in ROWS:
        with open(f"{OUT}/{name}.json", "w", encoding="utf-8") as file:
            json.dump(told[name], file, indent=1)
    with open(f"{OUT}/index.html", "w", encoding="utf-8") as file:
        file.write(page(told))
    for name in ("SPEC.md", "TRACE.md", "SAFETY.md", "ASSURANCE.md", "PERFORMANCE.md", "DRIVERS.md"):
        with open(f"{OUT}/{name}", "w", encoding="utf-8") as file:
            file.write(text_of(f"docs/{name}"))
    c = told["coverage"]
    unexplained = [r["function"] for r in c["open"] if not r["reason"]]
    print(f"evidence: {', '.join(f'{len(told[name])} rows of {name}' for name in ROWS)}")
    print(f"evidence: {OUT}/index.html and evidence.json; verdict '{told['verdict']}', {c['branches_taken']} of {c['branches']} branches of dist/kagutin.c taken")
    if unexplained:
        print(f"evidence: {len(unexplained)} functions with branches not taken and no reason in tests/coverage/reasons.txt: {', '.join(unexplained)}")
        sys.exit(1)


main()
