#!/usr/bin/env python3
"""Validates C files against the proved program they were made from: for all inputs, on every target, each function.

    python3 validate/validate.py [--solver z3|cvc5] [--jobs N] [--only NAME] [--joined dist/kagutin_all.c] --include include \\
        --file dist/kagutin.c --rlib crates --source crates --export kagutin --header kagutin.h ...

After each --file come the words that the generator got for it. Ends with status 1 if anything is refused, unknown or not decided.
"""
import multiprocessing
import os
import sys
import time

from files import File, Words
from helpers_check import check_forms
from joined import check_joined
from preprocess import check_machines
from program import Program
from solver import Solver
from targets import targets
from terms import Refused

LONG = 60           # functions of one piece of work
FILES = {}          # (path, target's name) -> File, in each process
SHARED = {}         # program, include and solver, before the processes start


def read_words(argv):
    """The options before the first --file, and the Words of each file."""
    at = [i for i, word in enumerate(argv) if word == '--file'] + [len(argv)]
    options = dict(zip(argv[:at[0]:2], argv[1:at[0]:2]))
    unknown = set(options) - {'--solver', '--jobs', '--only', '--include', '--joined'}
    if unknown or len(at) == 1:
        sys.exit(__doc__)
    return options, [Words(argv[i + 1], argv[i + 2:j]) for i, j in zip(at, at[1:])]


def opened(words, target):
    key = words.path, target.name
    if key not in FILES:
        FILES[key] = File(SHARED['program'], words, SHARED['include'], target)
    return FILES[key]


def work(piece):
    """One piece of work: (what, words, target, names). Gives what was refused, and counts."""
    what, words, target, names = piece
    solver, refused, forms = Solver(SHARED['solver']), [], 0
    for name in names:
        try:
            if what == 'texts':
                forms += check_machines(words.path, SHARED['include'], targets())
                continue
            file = opened(words, target)
            if what == 'helpers':
                file.check_helper(solver, name)
            else:
                forms += file.validate(solver, name)[0]
        except Refused as error:
            refused.append(f'{words.path}: {name} ({target.name if target else what}): {error}')
        except Exception as error:                                  # a form that nothing here was made for
            refused.append(f'{words.path}: {name} ({target.name if target else what}): {type(error).__name__}: {error}')
    return refused, forms, solver.asked, solver.seconds, what


def pieces(all_words, only):
    """What is to be done, each text on each width once; and what is refused before that."""
    todo, refused, seen, defined, declared = [], [], set(), [], set()
    for words in all_words:
        todo += [('texts', words, None, [words.path])] if only is None else []
        for target in targets():
            try:
                file = opened(words, target)
                file.check_border()
                declared |= file.declared()
            except Refused as error:
                refused.append(f'{words.path} ({target.name}): {error}')
                continue
            helpers = [name for name in file.matcher.helpers if file.helper_text(name) not in seen]
            seen |= {file.helper_text(name) for name in helpers}
            todo += [('helpers', words, target, [name]) for name in helpers]
            key = words.path, target.int_bits, target.size_bits, file.text()
            if key not in seen:
                seen.add(key)
                names = [name for name in file.functions() if only in (None, name)]
                todo += [('functions', words, target, names[i:i + LONG]) for i in range(0, len(names), LONG)]
        if (words.path, target.name) in FILES:
            defined += FILES[words.path, target.name].matcher.exported
    if only is None and (declared - set(defined) or len(set(defined)) != len(defined)):
        refused.append(f'declared and not defined, or defined twice: {sorted(declared - set(defined))}')
    return todo, refused


def main():
    sys.setrecursionlimit(100000)
    start = time.time()
    options, all_words = read_words(sys.argv[1:])
    only = options.get('--only')
    SHARED.update(program=Program(all_words[0].one('--rlib')), include=options.get('--include', 'include'), solver=options.get('--solver', 'z3'))
    check_forms(Solver(SHARED['solver']))
    todo, refused = pieces(all_words, only)
    joined = options.get('--joined')
    try:
        parts = check_joined(joined, joined[:-2] + '.h', [words.path for words in all_words], SHARED['include']) if joined else 0
    except Refused as error:
        refused.append(f'{joined}: {error}')
    jobs = int(options.get('--jobs', os.cpu_count() or 1))
    with multiprocessing.get_context('fork').Pool(jobs) as pool:
        done = list(pool.imap_unordered(work, todo))
    refused += [line for result in done for line in result[0]]
    for line in sorted(refused):
        print(f'REFUSED {line}')
    count = sum(len(names) for what, _, _, names in todo if what == 'functions')
    if joined and not refused:
        print(f'validate: {joined} has {parts} of the files word for word')
    print(f'validate: {len(all_words)} files on {len(list(targets()))} targets, {count} functions with their widths, '
          f'{sum(what == "helpers" for what, *_ in todo)} helpers; {len(refused)} refused; '
          f'{sum(r[1] for r in done if r[4] == "texts")} ways to define macros, {sum(r[1] for r in done if r[4] == "functions")} goals by form, '
          f'{sum(r[2] for r in done)} questions to {SHARED["solver"]}, {sum(r[3] for r in done):.1f} s of them; all {time.time() - start:.0f} s')
    sys.exit(1 if refused or not count else 0)


if __name__ == '__main__':
    main()
