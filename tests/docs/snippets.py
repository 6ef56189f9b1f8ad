#!/usr/bin/env python3
"""Every C example of README, docs and headers, taken out of the text, compiled, run and judged; and every command there.

snippets.py OUT LIBRARY.. [--sanitized LIBRARY..]   (run by make snippets-check from the root; OUT holds the programs)

Examples. In Markdown a block fenced as c with <!-- snippet: NAME --> in the line above; in a header the indented part of a comment,
whose NAME is the header's. tests/docs/snippets/NAME.c is its frame: what the example leaves open, a main and a judge; it includes the
example as "NAME.snippet". Each is built by gcc and clang, those that are there, as C99, C11 and C++17, and each build runs. Then wrong
examples, made by one change: the judge must refuse them.

Commands. Every line of a block fenced as sh is run here, in a folder for each page with the files that the page shows
(<!-- file: NAME -->) and those of inputs(); what stands under <!-- printed --> must have been printed. ELSEWHERE and
OTHER_TEST name those that are not run here, and why. make builds into OUT as it was told to; the rest runs in the folder.
Sessions, fenced as console, are run by tests/programs/documents.py; blocks fenced as rust by cargo test, on the pages that RUST_CRATE takes in.

Prints a line for each test; the last line counts them. Status 1 if one failed.
"""
import concurrent.futures
import glob
import os
import re
import shutil
import subprocess
import sys
import tempfile

# --- paths, from the root ---
DOCUMENTS = ["README.md"] + sorted(glob.glob("docs/*.md"))
HEADERS = sorted(glob.glob("include/*.h"))
FRAMES = "tests/docs/snippets"
SHARED = FRAMES + "/tries.c"
INCLUDE = ["-Iinclude", "-Idist", "-I" + FRAMES]
PROGRAMS = "target/c"  # as the pages name it
README_SIZE = 7000
RUST_CRATE = "rust/kagutin/src/lib.rs"

STRICT = "-Wall -Wextra -pedantic -Wshadow -Wconversion -Werror -O1".split()
CASTS = {"gcc": ["-Wold-style-cast", "-Wuseless-cast"], "clang": ["-Wold-style-cast"]}  # as C++: examples and headers have none
SANITIZE = "-g -fno-omit-frame-pointer -fsanitize=address,undefined -fno-sanitize-recover=all".split()
CC = os.environ.get("CC", "cc").split()  # made the libraries
BUILDS = [(family, standard) for family in ("gcc", "clang") for standard in ("c99", "c11", "c++17")]

ELSEWHERE = {"make test": "it is the gate, and runs this test", "make quick": "its tests are part of the gate",
             "make rtos": "board-check runs it"}

# Pages whose commands another test runs, all that they print compared.
OTHER_TEST = {"docs/WEAR.md": "tests/programs/wear-check.sh"}

# Snippet, what stands there, what is put in its place: each misreads a reply, or leaves something undone.
WRONG = [
    ("readme_store", "kgt_commit_sync(", "kgt_commit("),
    ("readme_store", "    kgt_abort(&store, 0);", "    "),
    ("using_bare", "    if (!done(kagutin_flush(AREAS, STATE, BATCH)))\n        return false;\n",
     "    done(kagutin_flush(AREAS, STATE, BATCH));\n"),
    ("using_bare", "return reply.code == KAGUTIN_DONE && run(batch, reply.size);",
     "run(batch, reply.size);\n    return reply.code == KAGUTIN_DONE;"),
    ("using_bare", "        kagutin_abort(AREAS, STATE, 0);", "        "),
    ("kagutin_store", "kgt_commit_sync(", "kgt_commit("),
    ("kagutin_store", "kgt_abort(&store, 0);", ""),
    ("kagutin_rights", "return kgt_sync(&store).mark >= set.ticket;", "return kgt_sync(&store).code + 1 > 0 && set.ticket > 0;"),
    ("kagutin_rights", "return kgt_sync(&store).mark >= set.ticket;", "return set.code == KAGUTIN_DONE;"),
    ("drivers_driver", "    return flush_cache();", "    flush_cache();\n    return 0;"),
    ("drivers_driver", "return error;", "return 0;"),
    ("drivers_powerloss", "kit.bytes_in_order = true;", ""),
    ("drivers_powerloss", "bytes, CHIP, 1)", "bytes, CHIP, 8)"),
    ("drivers_maintain", "while (left.more)", "while (left.more || left.error == 1)"),
    ("drivers_maintain", "synced == KAGUTIN_DONE && ", ""),
    ("drivers_maintain", "return synced == KAGUTIN_DONE && left.code == KAGUTIN_DONE;", "return synced == KAGUTIN_DONE;"),
    ("drivers_room", "&& turns < 10", ""),
    ("drivers_room", "    kgt_abort(&store, 3);", "    "),
    ("drivers_room", "kgt_commit_sync(&store, 3)", "kgt_commit(&store, 3)"),
    ("alarms_panel", "gravest.shown == KGT_NONE_OPEN", "gravest.shown != KGT_ALARM_OPEN"),
    ("alarms_panel", "return kgt_sync(&store).mark >= arrival.ticket;", "kgt_sync(&store);\n    return arrival.code == KAGUTIN_DONE;"),
    ("bands_calls", "if (band.code == KAGUTIN_DONE)", "if (band.pumps > 0)"),
    ("bands_calls", "return kgt_sync(&store).mark >= table.ticket;", "return table.code == KAGUTIN_DONE;"),
    ("wear_calls", "if (services.code == KAGUTIN_DONE)", "if (services.left > 0)"),
    ("wear_calls", "return kgt_sync(&store).mark >= event.ticket;", "return kgt_sync(&store).code == KAGUTIN_DONE;"),
]

counts = {"passed": 0, "failed": 0}


def report(right, name, log=""):
    counts["passed" if right else "failed"] += 1
    print(("ok      " if right else "FAILED  ") + name, flush=True)
    if not right:
        for line in log.strip().split("\n")[-12:]:
            print("        " + line)
    return right


# --- taken out of the text ---

class Block:
    def __init__(self, page, line, kind, marker):
        self.page, self.line, self.kind, self.marker, self.lines = page, line, kind, marker, []

    def named(self, key):
        found = re.fullmatch(r"<!-- %s: (\S+) -->" % key, self.marker)
        return found.group(1) if found else None


def text_of(path):
    with open(path, encoding="utf-8") as file:
        return file.read()


def fenced(page, text):
    """The fenced blocks of a page, and what is wrong with its form."""
    blocks, wrong, inside, marker, last = [], [], None, "", ""
    for number, line in enumerate(text.split("\n"), 1):
        if inside:
            if line == "```":
                inside = None
            else:
                inside.lines.append(line)
        elif line.startswith("```"):
            inside = Block(page, number, line[3:], marker)
            blocks.append(inside)
            if inside.kind == "c" and not inside.named("snippet"):
                wrong.append("%s:%d: a C block without the name of a snippet" % (page, number))
            if inside.kind == "rust" and '/%s"' % page not in text_of(RUST_CRATE):
                wrong.append("%s:%d: a Rust block on a page that the crate does not test" % (page, number))
            if inside.kind not in ("c", "sh", "text", "console", "rust"):
                wrong.append("%s:%d: a block of kind '%s'; c, sh, text, console and rust are known" % (page, number, inside.kind))
        elif re.match(r" {4}\S", line) and not last.strip():
            wrong.append("%s:%d: an indented block; fence it as c, sh or text" % (page, number))
        elif marker.startswith("<!-- snippet"):
            wrong.append("%s:%d: no C block under the name of a snippet" % (page, number))
        marker, last = line, line
    return blocks, wrong


def in_comments(header_text):
    """The examples in a header's comments, as (line, lines): indented by five or more, after an empty line of the comment."""
    examples, example, last = [], None, ""
    for number, line in enumerate(header_text.split("\n"), 1):
        text = line[3:] if line.startswith(" * ") else "" if line == " *" else None
        if text is not None and text.startswith("    ") and (example or not last):
            if not example:
                example = (number, [])
                examples.append(example)
            example[1].extend([""] * (number - example[0] - len(example[1])))
            example[1].append(text[4:])
        elif text != "":
            example = None
        last = "none" if text is None else text.strip()
    return examples


def check_forms():
    """What must be found in a page, and what in a header."""
    pages = [("```c\nint x;\n```", "without the name"), ("<!-- snippet: x -->\ntext", "no C block"), ("```\nx\n```", "kind ''"),
             ("```rust\nx\n```", "does not test"),
             ("text\n\n    int x;\n", "indented"), ("<!-- snippet: x -->\n```c\nint x;\n```\n- item\n    more of it", None)]
    right = True
    for text, complaint in pages:
        wrong = fenced("page", text)[1]
        right = right and (complaint in wrong[0] if complaint else not wrong)
    header = "/*\n * Text\n *     and more\n *\n *     int x;\n *\n *     int y;\n * Text\n */\n"
    right = right and in_comments(header) == [(5, ["int x;", "", "int y;"])]
    report(right, "forms: blocks without a name, indented ones, unknown kinds; examples in comments")


def snippets():
    """Name to (page, line, text)."""
    found, wrong, pages = {}, [], {}
    for page in DOCUMENTS:
        blocks, bad = fenced(page, text_of(page))
        pages[page] = blocks
        wrong += bad
        for block in blocks:
            name = block.named("snippet")
            if block.kind == "c" and name in found:
                wrong.append("%s:%d: a second snippet %s" % (page, block.line, name))
            elif block.kind == "c" and name:
                found[name] = (page, block.line + 1, "\n".join(block.lines) + "\n")
    for header in HEADERS:
        examples = in_comments(text_of(header))
        name = os.path.splitext(os.path.basename(header))[0]
        if len(examples) > 1:
            wrong.append("%s: more than one example" % header)
        for line, lines in examples[:1]:
            found[name] = (header, line, "\n".join(lines) + "\n")
    return found, wrong, pages


def frames():
    """Frames are the C files that include a snippet; theirs is the one of their own name."""
    found, wrong = set(), []
    for path in sorted(glob.glob(FRAMES + "/*.c")):
        name = os.path.splitext(os.path.basename(path))[0]
        included = re.findall(r'#include "(\w+)\.snippet"', text_of(path))
        if included == [name]:
            found.add(name)
        elif path != SHARED:
            wrong.append("%s: includes %s, not its own snippet" % (path, included or "none"))
    return found, wrong


# --- built and run ---

def run(command, folder=None, limit=120):
    try:
        done = subprocess.run(command, cwd=folder, stdout=subprocess.PIPE, stderr=subprocess.STDOUT, timeout=limit)
        return done.returncode, done.stdout.decode("utf-8", "replace")
    except subprocess.TimeoutExpired:
        return -1, "not over after %d seconds: %s" % (limit, " ".join(command))


def compiler(family, standard):
    if standard.startswith("c++"):
        return ["g++" if family == "gcc" else "clang++", "-x", "c++", *CASTS[family]]
    return [family]


def build_and_run(job):
    """Compiles a frame with a snippet, links and runs it. (name of the test, should it be right, snippet, command, libraries, folder)"""
    test, right, name, command, libraries, folder = job
    os.makedirs(folder, exist_ok=True)
    frame, program, output = "%s/%s.c" % (FRAMES, name), folder + "/run", folder + "/frame.o"
    status, log = run(command + ["-I" + folder, *INCLUDE, "-c", frame, "-o", output])
    if status == 0:
        linker = [word for word in command if word not in ("-x", "c++")]
        status, log = run(linker + [output, *libraries, "-o", program])
    if status != 0:
        return test, False, log
    status, log = run([program, folder + "/image"])
    if "Sanitizer" in log or "runtime error" in log:
        return test, False, log
    shutil.rmtree(folder, ignore_errors=True)
    return test, (status == 0) == right and (right or "wrong:" in log), log or "status %d" % status


def write_snippet(folder, name, page, line, text):
    os.makedirs(folder, exist_ok=True)
    with open("%s/%s.snippet" % (folder, name), "w", encoding="utf-8") as out:
        out.write('#line %d "%s"\n%s' % (line, page, text))


def jobs(found, libraries, sanitized, tmp):
    made = []

    def add(test, right, name, command, linked, text=None):
        folder = "%s/%d" % (tmp, len(made))
        page, line, original = found[name]
        write_snippet(folder, name, page, line, original if text is None else text)
        made.append((test, right, name, command, linked, folder))

    for family, standard in BUILDS:
        tool = compiler(family, standard)
        if not shutil.which(tool[0]):
            print("skipped the examples as %s by %s: not installed" % (standard, tool[0]))
            continue
        for name in sorted(found):
            add("%s (%s): %s, %s" % (name, found[name][0], tool[0], standard), True, name, tool + ["-std=" + standard] + STRICT, libraries)
    for name in sorted(found) if sanitized else []:
        add("%s: under sanitizers" % name, True, name, CC + ["-std=c99"] + STRICT + SANITIZE, sanitized)
    for number, (name, there, instead) in enumerate(WRONG, 1):
        text = found[name][2].replace(there, instead) if name in found else None
        if text is None or text == found[name][2]:
            report(False, "wrong example %d of %s: '%s' is not in the text" % (number, name, there))
            continue
        change = " ".join(instead.split()) or "without " + there.strip()
        add("%s: a judge refuses '%s'" % (name, change), False, name, CC + ["-std=c99", "-O1"], libraries, text)
    return made


def shared_object(tmp, flags, name):
    output = "%s/%s" % (tmp, name)
    status, log = run([*CC, "-std=c99", *STRICT, *flags, *INCLUDE, "-c", SHARED, "-o", output])
    report(status == 0, "%s compiles%s" % (SHARED, " with sanitizers" if flags else ""), log)
    return output


# --- commands ---

def inputs(out, folder):
    """Files that pages speak of and do not show."""
    for image in ("north.img", "depot.img"):
        run([out + "/quickstart", os.path.join(folder, image)])
    for name, offset in (("cell.csv", 0), ("sounder.csv", 4)):
        with open(os.path.join(folder, name), "w") as table:
            table.write("minute,millimetres\n" + "".join("%d,%d\n" % (minute, 1200 + minute + offset) for minute in range(60)))


def commands(out, pages, tmp):
    for page in sorted(pages):
        lines = [line for block in pages[page] if block.kind == "sh" for line in block.lines if line.strip() and not line.startswith("#")]
        if page in OTHER_TEST:
            report(True, "%s: its commands are run by %s" % (page, OTHER_TEST[page]))
            continue
        if not lines:
            continue
        folder = os.path.join(tmp, page.replace("/", "-"))
        os.makedirs(os.path.join(folder, os.path.dirname(PROGRAMS)))
        os.symlink(os.path.abspath(out), os.path.join(folder, PROGRAMS))
        inputs(out, folder)
        for block in pages[page]:
            if block.named("file"):
                with open(os.path.join(folder, block.named("file")), "w", encoding="utf-8") as shown:
                    shown.write("\n".join(block.lines) + "\n")
        printed = ""
        for line in lines:
            command = re.sub(r"\s+#.*", "", line)
            if command in ELSEWHERE:
                report(True, "%s: %s: not here: %s" % (page, command, ELSEWHERE[command]))
                continue
            status, log = run(["sh", "-c", command], None if command.startswith("make ") else folder)
            printed += log
            report(status == 0, "%s: %s" % (page, command), log)
        for block in pages[page]:
            if block.marker == "<!-- printed -->":
                missing = [line for line in block.lines if line not in printed.split("\n")]
                report(not missing, "%s:%d: what it shows is printed" % (page, block.line), "\n".join(missing))


def main(words):
    if not words or words[0].startswith("-"):
        sys.exit(__doc__)
    split = words.index("--sanitized") if "--sanitized" in words else len(words)
    out, libraries, sanitized = words[0], words[1:split], words[split + 1:]
    check_forms()
    size = os.path.getsize("README.md")
    report(size <= README_SIZE, "README.md is one page: %d bytes of %d" % (size, README_SIZE))
    found, wrong, pages = snippets()
    framed, misplaced = frames()
    wrong += misplaced
    wrong += ["%s:%d: snippet %s has no frame %s/%s.c" % (found[name][0], found[name][1], name, FRAMES, name) for name in sorted(set(found) - framed)]
    wrong += ["%s/%s.c: a frame without a snippet" % (FRAMES, name) for name in sorted(framed - set(found))]
    report(not wrong, "every C block of %d pages and %d headers has a frame, every frame a block" % (len(DOCUMENTS), len(HEADERS)), "\n".join(wrong))
    found = {name: found[name] for name in found if name in framed}
    fast = "/dev/shm" if os.access("/dev/shm", os.W_OK) else None
    with tempfile.TemporaryDirectory(prefix="kagutin.", dir=fast) as tmp:
        shared = [shared_object(tmp, [], "tries.o")]
        tight = [shared_object(tmp, SANITIZE, "tries-sanitized.o")] if sanitized else []
        work = jobs(found, shared + libraries, tight + sanitized if sanitized else [], tmp)
        with concurrent.futures.ThreadPoolExecutor(os.cpu_count() or 1) as pool:
            for test, right, log in pool.map(build_and_run, work):
                report(right, test, log)
        commands(out, pages, tmp)
    print("snippets: %(passed)d passed, %(failed)d failed" % counts)
    return counts["failed"] > 0


if __name__ == "__main__":
    sys.exit(main(sys.argv[1:]))
