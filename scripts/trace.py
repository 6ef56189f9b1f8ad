#!/usr/bin/env python3
"""docs/TRACE.md from the clauses of docs/SPEC.md and the marks beside definitions, statements, contracts, wrong programs and tests.

A mark is a clause's number in brackets, [S-17] or [S-17, S-18], in a comment: above a definition or statement of crates/*/specs (or a law of proofs), above a function of
crates/*/src, above a call of include/, in the first line of a must-fail edit, or anywhere in a test. An edit without a mark counts for the clauses of the definition or
function that it changes.

trace.py            writes docs/TRACE.md
trace.py --check    fails where it differs, where a clause has no definition or neither statement nor contract, where a mark names no clause or stands above nothing, and where an
                    exported call or an answer number is in no clause
"""
import glob
import os
import re
import sys

MARK = re.compile(r"\[(S-\d+(?:, S-\d+)*)\]")
ANTT = re.compile(r"^\s*(?:unfoldable |abbrev )?(?:pub )?(record |data )?([^\s:({]+)\s*(?:[({][^:]*)?:(.*)$")
RECORD = re.compile(r"^\s*(?:pub )?(record|data) (\S+)(.*)$")
RUST = re.compile(r'^\s*(?:pub )?(?:extern "C" )?fn (\w+)')
C_CALL = re.compile(r"\b(k(?:gt|agutin)_\w+)\s*\(")
KINDS = ("definition", "statement", "contract", "law", "header", "edit", "test")


def text_of(path):
    with open(path, encoding="utf-8") as file:
        return file.read()


def clauses():
    found = {}
    for line in text_of("docs/SPEC.md").split("\n"):
        match = re.match(r"- \*\*(S-\d+)\*\* (.*)", line)
        if match:
            if match.group(1) in found:
                sys.exit(f"trace: {match.group(1)} stands twice in docs/SPEC.md")
            found[match.group(1)] = match.group(2)
    return found


def is_comment(path, line):
    start = line.lstrip()
    if path.endswith(".antt"):
        return start.startswith("--")
    if path.endswith(".rt"):
        return start.startswith("//") or start.startswith("#[")
    return start.startswith(("*", "/*", "//"))


def antt_name(lines, at):
    """The name that is declared from line `at` on, and whether it is a statement: a type."""
    for line in lines[at:]:
        match = RECORD.match(line)
        if match:
            return match.group(2), match.group(1) == "record"
        match = ANTT.match(line)
        if match:
            return match.group(2), bool(re.search(r"Type( 0)?\s*$", match.group(3)))
        if line.strip() and not line.lstrip().startswith("--"):
            return None, False
    return None, False


def below(path, lines, at):
    """What the comment that has line `at` stands above: kind and name."""
    while at < len(lines) and is_comment(path, lines[at]):
        at += 1
    if path.endswith(".antt"):
        name, statement = antt_name(lines, at)
        kind = "law" if "/proofs/" in path else "statement" if statement else "definition"
        return kind, name
    if path.endswith(".rt"):
        match = RUST.match(lines[at]) if at < len(lines) else None
        return "contract", match and match.group(1)
    for line in lines[at : at + 4]:
        match = C_CALL.search(line)
        if match:
            return "header", match.group(1)
        match = re.match(r"(?:struct|enum) (\w+)|#define (\w+)", line)
        if match:
            return "header", match.group(1) or match.group(2)
    return "header", None


def marks(known):
    """All marks but those of edits: kind, clause, path, name; and what is wrong with some."""
    found, wrong = [], []
    paths = glob.glob("crates/*/specs/**/*.antt", recursive=True) + glob.glob("crates/*/proofs/**/*.antt", recursive=True)
    paths += glob.glob("crates/*/src/**/*.rt", recursive=True) + glob.glob("include/*.h")
    for path in sorted(paths):
        lines = text_of(path).split("\n")
        for at, line in enumerate(lines):
            for match in MARK.finditer(line):
                kind, name = below(path, lines, at)
                if not name:
                    wrong.append(f"{path}:{at + 1}: a mark above nothing")
                for clause in match.group(1).split(", "):
                    if clause not in known:
                        wrong.append(f"{path}:{at + 1}: no clause {clause}")
                    found.append((kind, clause, path, name))
    for path in sorted(test_files()):
        for match in MARK.finditer(text_of(path)):
            for clause in match.group(1).split(", "):
                if clause not in known:
                    wrong.append(f"{path}: no clause {clause}")
                found.append(("test", clause, path, os.path.basename(path)))
    return found, wrong


def test_files():
    for root in ("tests", "rust", "port/replay", "page/tests", "validate"):
        for folder, folders, files in os.walk(root):
            folders[:] = [name for name in folders if name not in ("target", "out")]
            for name in files:
                if name.endswith((".c", ".h", ".sh", ".py", ".rs", ".mjs", ".js")):
                    yield os.path.join(folder, name)


def changed_place(crate, edit):
    """The file that an edit changes, and the name of the declaration that its text lies in."""
    head = re.search(r"^file: (.*)$", edit, re.M)
    old = re.search(r"^old: (.*)$", edit, re.M)
    path = f"crates/{crate}/{head.group(1).strip()}" if head else None
    if not path or not old or not os.path.exists(path):
        return path, None
    lines = text_of(path).split("\n")
    at = next((i for i, line in enumerate(lines) if old.group(1).strip() in line), None)
    while at is not None and at >= 0:
        line = lines[at]
        if path.endswith(".rt"):
            match = RUST.match(line)
            if match:
                return path, match.group(1)
        elif re.match(r"(?:unfoldable |abbrev )?pub ", line):
            return path, antt_name(lines, at)[0]
        at -= 1
    return path, None


def edits(found):
    """Must-fail edits by the marks of what they change, and by their own."""
    at_name = {}
    for kind, clause, path, name in found:
        if kind in ("definition", "statement", "contract", "law"):
            at_name.setdefault((path, name), []).append(clause)
    out, unplaced = [], []
    for path in sorted(glob.glob("crates/*/must-fail/*.edit")):
        crate, label = path.split("/")[1], os.path.basename(path)[: -len(".edit")]
        edit = text_of(path)
        named = [c for match in MARK.finditer(edit) for c in match.group(1).split(", ")]
        if not named:
            place, name = changed_place(crate, edit)
            named = at_name.get((place, name), [])
        if not named:
            unplaced.append(path)
        out += [("edit", clause, path, label) for clause in sorted(set(named), key=number)]
    return out, unplaced


def number(clause):
    return int(clause[2:])


def in_record(before):
    """Whether an indented line after this text is a record's field, which is no proof."""
    head = next((line for line in reversed(before.split("\n")) if re.match(r"\S", line) and not line.startswith("--")), "")
    return bool(re.match(r"(?:pub )?record ", head))


def proof_of(name, path):
    """Proof files in which the type of something public ends in the statement of that file; the theorems before what stands on them."""
    crate, module = re.match(r"crates/(\w+)/specs/(.*)\.antt", path).groups()
    used = re.compile(rf"^(?:\w+ )*use Rattle\.{crate}\.specs\.{re.escape(module.replace('/', '.'))}\.\{{[^}}]*(?<![\w-]){re.escape(name)}(?![\w-])", re.M)
    ends = re.compile(rf"^[ \t]*pub \S+ :(?:.*→)?\s*{re.escape(name)}(?![\w-])[^→\n]*$(?!\n\s*→)", re.M)
    found = []
    for proof in glob.glob("crates/*/proofs/**/*.antt", recursive=True):
        text = text_of(proof)
        if used.search(text) and any(not in_record(text[: match.start()]) for match in ends.finditer(text)):
            owner = proof.split("/")[1]
            found.append((owner != crate, owner != "theorems", proof))
    return [proof for *_, proof in sorted(found)]


def cell(items):
    return "; ".join(items) if items else "–"


def short(path):
    return path[len("crates/") :] if path.startswith("crates/") else path


def by_file(rows):
    """Names of marks of one kind, gathered by file."""
    files = {}
    for path, name in rows:
        files.setdefault(path, [])
        if name and name not in files[path]:
            files[path].append(name)
    return [(f"`{', '.join(names)}` in " if names else "") + f"`{short(path)}`" for path, names in files.items()]


def table(known, found):
    lines = [
        "# From clauses to proofs and tests",
        "",
        "Made by `make trace` from the marks beside definitions, statements, contracts, wrong programs and tests; not edited by hand. Paths without a folder are of `crates/`.",
        "A wrong program is an edit that the prover must refuse (`must-fail`).",
        "",
        "| clause | defined by | stated by, or contract | proved in | wrong programs refused | tested by |",
        "| --- | --- | --- | --- | --- | --- |",
    ]
    for clause in sorted(known, key=number):
        of = {kind: [(p, n) for k, c, p, n in found if c == clause and k == kind] for kind in KINDS}
        proofs = []
        for path, name in of["statement"]:
            proofs += [f"`{short(p)}`" for p in proof_of(name, path)[:2]]
        proofs += [f"`{short(p)}` (`{n}`)" for p, n in of["law"]]
        if not proofs and of["contract"]:
            proofs = ["the contract's own proof"]
        stated = by_file(of["statement"] + of["contract"] + of["law"] + of["header"])
        labels = sorted({f"`{p.split('/')[1]}/{n}`" for p, n in of["edit"]})
        more = f", and {len(labels) - 4} more" if len(labels) > 4 else ""
        tests = [f"`{p}`" for p in sorted({p for p, _ in of["test"]})]
        proved = cell(sorted(set(proofs))) if proofs else ("not proved: C, tested" if of["header"] else "–")
        lines.append(f"| {clause} | {cell(by_file(of['definition']))} | {cell(stated)} | {proved} | {', '.join(labels[:4]) + more if labels else '–'} | {cell(tests)} |")
    lines += ["", "## From files to clauses", "", "| file | clauses |", "| --- | --- |"]
    files = {}
    for kind, clause, path, _ in found:
        if kind != "edit":
            files.setdefault(path, set()).add(clause)
    for path in sorted(files):
        lines.append(f"| `{path}` | {', '.join(sorted(files[path], key=number))} |")
    return "\n".join(lines) + "\n"


def exported():
    calls = set()
    for path in glob.glob("crates/*/src/**/*.rt", recursive=True):
        calls |= set(re.findall(r'pub extern "C" fn (\w+)', text_of(path)))
    for path in glob.glob("include/*.h"):
        calls |= set(re.findall(r"^[a-z][\w *]*\b(kgt_\w+)\(", text_of(path), re.M))
    return calls


def answer_numbers():
    numbers = set()
    for path in ("include/kagutin.h", "include/kagutin_store.h"):
        for body in re.findall(r"enum \w*answer\w* \{(.*?)\};", text_of(path), re.S):
            numbers |= {int(n) for n in re.findall(r"= (\d+)", body)}
    return numbers - {0}


def failures(known, found, wrong):
    out = list(wrong)
    for clause in sorted(known, key=number):
        kinds = {kind for kind, c, _, _ in found if c == clause}
        if not kinds & {"definition", "header"}:
            out.append(f"{clause}: no definition")
        if not kinds & {"statement", "contract", "law", "header"}:
            out.append(f"{clause}: neither a statement nor a contract")
        if not kinds & {"edit", "test"}:
            out.append(f"{clause}: no wrong program and no test")
    spec = text_of("docs/SPEC.md")
    marked = {name for kind, _, _, name in found if kind in ("contract", "header")}
    for call in sorted(exported()):
        if call not in marked and not re.search(rf"\b{call}\b", spec):
            out.append(f"{call}: an exported call in no clause")
    said = " ".join(known.values())
    for n in sorted(answer_numbers()):
        if not re.search(rf"(?<![\d,.]){n}(?![\d]|,\d)", said):
            out.append(f"answer {n} in no clause")
    return out


def main():
    known = clauses()
    found, wrong = marks(known)
    more, unplaced = edits(found)
    found += more
    made = table(known, found)
    if "--check" not in sys.argv[1:]:
        with open("docs/TRACE.md", "w", encoding="utf-8") as file:
            file.write(made)
    elif not os.path.exists("docs/TRACE.md") or text_of("docs/TRACE.md") != made:
        wrong.append("docs/TRACE.md is not what the marks say: make trace")
    bad = failures(known, found, wrong)
    for line in bad:
        print(f"trace: {line}")
    count = {kind: len({(p, n) for k, _, p, n in found if k == kind}) for kind in KINDS}
    print(f"trace: {len(known)} clauses, {count['definition']} definitions, {count['statement'] + count['law']} statements and laws, {count['contract']} contracts, "
          f"{count['edit']} wrong programs ({len(unplaced)} more for no clause), {count['test']} tests, {len(bad)} faults")
    sys.exit(1 if bad else 0)


main()
