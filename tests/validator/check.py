#!/usr/bin/env python3
"""Tests of validate/: what is right it must accept, what is wrong it must refuse.

    check.py [--quick] [--seed N] [--jobs N] [--done FILE] [--rows FILE] VALIDATE-WORDS      the words after --include that make validate gives

Random programs, translated with the passes and without: accepted, and both builds give the same. Wrong edits of their C: refused, unless
both texts give the same on many inputs. Wrong edits of dist/: refused, unless the compiler makes the same code of both or equivalent.py
says why they mean the same. Tricks and faults in port/: refused, all of them.

The file of --done holds what was done, and what it was done with; the next call goes on from there. That of --rows gets a row for each
wrong edit, as JSON: what was edited, how, and what became of it.
"""
import hashlib
import json
import multiprocessing
import os
import random
import shutil
import sys
import tempfile
import time

from subjects import ROOT, TARGETS, Failed, build, generate, machine_code, refusal, refusals, refused_somewhere, same_behaviour, text_of, write

from enums import same_address, write_enums  # noqa: E402
from equivalent import EQUIVALENT  # noqa: E402
from faults import FAULTS  # noqa: E402
from files import Words  # noqa: E402
from joined import check_joined  # noqa: E402
from mutations import functions, mutant, wrong_edits  # noqa: E402
from program import Program  # noqa: E402
from programs import write_program  # noqa: E402
from terms import Refused  # noqa: E402
from tricks import JOINED, TRICKS  # noqa: E402
from validate import read_words  # noqa: E402

TOGETHER = 10           # wrong edits of one file at once
SHARED = {}             # include folder, words of the files and the program, before the processes start


def given(path):
    """The words that the makefiles have for a file of dist/."""
    words = next(words for words in SHARED['words'] if words.path == path)
    return [word for pair in words.given for word in pair]


class Tally:
    """What became of a task's wrong edits: counts by name, and a row for each."""

    def __init__(self, **counts):
        self.counts, self.rows = counts, []

    def add(self, subject, function, edit, outcome):
        self.counts[outcome] = self.counts.get(outcome, 0) + 1
        self.rows.append({'subject': subject, 'function': function, 'edit': edit, 'outcome': outcome})


# ---- one task each: gives a tally, or raises Failed

WRITERS = {'random': write_program, 'enums': write_enums}


def random_program(seed, mutants, kind='random'):
    with tempfile.TemporaryDirectory() as folder:
        words = WRITERS[kind](folder, seed)
        program, target = Program(f'{folder}/crates'), TARGETS[seed % len(TARGETS)]
        path, plain = f'{folder}/random.c', f'{folder}/plain.c'
        for out, passes in ((path, ()), (plain, ('--no-passes',))):
            said = generate(os.path.join(ROOT, 'port'), words, out, *passes) or refusal(program, words, out, folder, target)
            if said:
                raise Failed(f'{kind} program {seed}, {target.name} {" ".join(passes)}: {said}')
        if not same_behaviour(folder, path, plain, 'right'):
            raise Failed(f'{kind} program {seed}: with the passes and without, two behaviours')
        rng, tally, text = random.Random(seed), Tally(programs=1), text_of(path)
        tally.counts['functions'] = len(functions(text))
        for k in range(mutants):
            name, wrong, what = mutant(rng, text, functions(text))
            write(f'{folder}/wrong.c', wrong)
            if not build(folder, f'{folder}/wrong.c', f'built{k}'):  # a wrong type where no input leads, say
                outcome = 'no C'
            elif refusal(program, words, f'{folder}/wrong.c', folder, target, [name]):
                outcome = 'refused'
            elif same_behaviour(folder, path, f'{folder}/wrong.c', f'wrong{k}'):
                outcome = 'do the same'
            else:
                raise Failed(f'{kind} program {seed}, {target.name}: {name} was accepted with {what}')
            tally.add(f'{kind} program {seed}', name, what, outcome)
        return tally


def enum_program(seed, mutants):
    return random_program(seed, mutants, 'enums')


def dist_edits(k):
    """Wrong edits, each of another function of one file: a call there is not interpreted, so they do not meet. Two of three times the
    store's own file, else all files in turn."""
    files = [words.path for words in SHARED['words']]
    right = files[0] if k % 3 else files[k // 3 % len(files)]
    lines, edits = text_of(right).split('\n'), wrong_edits(random.Random(k), text_of(right), TOGETHER)
    with tempfile.TemporaryDirectory() as folder:
        path, target = os.path.join(folder, os.path.basename(right)), TARGETS[k % len(TARGETS)]

        def against(names):
            write(path, '\n'.join({**dict(enumerate(lines)), **{n: line for name in names for n, line in edits[name][0].items()}}.values()))
            return refusals(SHARED['program'], given(right), path, SHARED['include'], target, names)
        refused = against(list(edits))
        refused = {name for name in edits if against([name])} if '' in refused else set(refused)
        tally = Tally()
        for name in sorted(edits):
            if name not in refused:
                against([name])
            tally.add(right, name, edits[name][1], 'refused' if name in refused else explained(right, path, name, edits[name][1], folder))
        return tally


def only(subject, edit, outcome):
    """The tally of a task with one wrong edit."""
    tally = Tally()
    tally.add(subject, '', edit, outcome)
    return tally


def explained(right, path, name, what, folder):
    """Why an accepted edit means the same."""
    if machine_code(path, SHARED['include'], f'{folder}/wrong.o') == machine_code(right, SHARED['include'], f'{folder}/right.o'):
        return 'the same machine code'
    if (name, what) in EQUIVALENT:
        return 'the same by a reason in equivalent.py'
    raise Failed(f'{right}: {name} was accepted with an edit that equivalent.py does not explain: {what}')


def trick(k):
    right, old, new, what = TRICKS[k]
    text = text_of(right)
    if old not in text:
        raise Failed(f'no text in {right} to make wrong: {old}')
    with tempfile.TemporaryDirectory() as folder:
        path = os.path.join(folder, os.path.basename(right))
        write(path, text.replace(old, new, 1))
        if machine_code(path, SHARED['include'], f'{folder}/wrong.o') is None:
            raise Failed(f'{right}: a trick that does not compile: {what}')
        if not refused_somewhere(right, path, SHARED['include'], SHARED['program'], given(right)):
            raise Failed(f'{right}: a trick that is not refused: {what}')
    return only(right, what, 'refused')


def joined_edit(k):
    old, new, in_header, what = JOINED[k]
    texts = {'.c': text_of(SHARED['joined']), '.h': text_of(SHARED['joined'][:-2] + '.h')}
    at = texts['.c'].index('==== dist/kagutin_hours.c') if not in_header else 0
    which = '.h' if in_header else '.c'
    with tempfile.TemporaryDirectory() as folder:
        for end, text in texts.items():
            write(f'{folder}/all{end}', text[:at] + text[at:].replace(old, new, 1) if end == which else text)
        if text_of(f'{folder}/all{which}') == texts[which]:
            raise Failed(f'no text in the joined file to make wrong: {old}')
        try:
            check_joined(f'{folder}/all.c', f'{folder}/all.h', [words.path for words in SHARED['words']], SHARED['include'])
        except Refused:
            return only(SHARED['joined'], what, 'refused')
    raise Failed(f'an edit of the joined file that is not refused: {what}')


def port_with(folder, file, old, new):
    port = os.path.join(folder, 'port')
    shutil.copytree(os.path.join(ROOT, 'port'), port, ignore=shutil.ignore_patterns('__pycache__', 'replay'))
    text = text_of(os.path.join(port, file))
    if old not in text:
        raise Failed(f'no text in {file} to make wrong: {old}')
    write(os.path.join(port, file), text.replace(old, new))
    return port


def fault(k):
    """A fault in port/: what it makes of a file of dist/, or of one of two random programs, is refused."""
    file, old, new, subject = FAULTS[k]
    with tempfile.TemporaryDirectory() as folder:
        port = port_with(folder, file, old, new)
        for seed in (1, 2) if subject in WRITERS else (None,):
            if seed:
                part = os.path.join(folder, str(seed))
                words, include, right, wrong = WRITERS[subject](part, seed), part, f'{part}/right.c', f'{part}/wrong.c'
                generate(os.path.join(ROOT, 'port'), words, right)
            else:
                words, include, right, wrong = given(subject), SHARED['include'], subject, os.path.join(folder, os.path.basename(subject))
            if generate(port, words, wrong):
                return only(f'port/{file}', f'{old} -> {new}', 'the generator stops')
            if refused_somewhere(right, wrong, include, Program(Words('', words).one('--rlib')), words):
                return only(f'port/{file}', f'{old} -> {new}', 'refused')
    raise Failed(f'a fault that is not refused: {file}: {old}')


def address(op, answer):
    """A local's address compared with itself, where the program holds the local as a value: refused, whatever C answers."""
    name, body = 'random__same', 'static inline bool random__same(uint64_t x)\n{\n    (void)x;\n    return ' + answer + ';\n}\n\n'
    with tempfile.TemporaryDirectory() as folder:
        words, path = write_enums(folder, 1, ['random::same', same_address(op)]), f'{folder}/random.c'
        generate(os.path.join(ROOT, 'port'), words, path)
        write(path, text_of(path).replace('uint64_t call_0(', body + 'uint64_t call_0(', 1))
        if name not in refusals(Program(f'{folder}/crates'), words, path, folder, TARGETS[0], [name]):
            raise Failed(f'two addresses of a local, {op}, C answers {answer}: accepted')
    return only('random.c', f'{op} of a local\'s address with itself, C answers {answer}', 'refused')


# ---- all of them

KINDS = {'random': (random_program, 'random programs with wrong edits'), 'enums': (enum_program, 'such programs with enums and instances'),
         'address': (address, 'comparisons of addresses'), 'dist': (dist_edits, 'times ten wrong edits of dist/'), 'trick': (trick, 'tricks in dist/'),
         'joined': (joined_edit, 'wrong edits of the joined file'), 'fault': (fault, 'faults in port/')}


def tasks(quick, fresh):
    """(kind, arguments). The gate has fixed ones; the long form has more, and random programs of a new seed."""
    seeds, mutants = ([1, 2, 3], 8) if quick else ([932512, *range(1, 13), *range(fresh, fresh + 8)], 15)
    return [(kind, [seed, mutants]) for kind in WRITERS for seed in seeds] + [('dist', [k]) for k in range(3 if quick else 30)] \
        + [('address', [op, answer]) for op in ('Eq', 'Ne') for answer in ('false', 'true')] \
        + [('trick', [k]) for k in range(len(TRICKS))] + [('joined', [k]) for k in range(len(JOINED))] \
        + [('fault', [k]) for k in range(0, len(FAULTS), 6 if quick else 1)]


def work(task):
    kind, arguments = task
    try:
        tally = KINDS[kind][0](*arguments)
        return task, tally.counts, None, [{'kind': kind, **row} for row in tally.rows]
    except Failed as failed:
        return task, None, str(failed), [{'kind': kind, 'subject': '', 'function': '', 'edit': str(failed), 'outcome': 'accepted, and should not be'}]


def digest():
    """Of all that a result depends on."""
    out = hashlib.sha256()
    for folder in ('dist', 'include', 'port', 'validate', 'tests/validator'):
        for place, _, files in sorted(os.walk(os.path.join(ROOT, folder))):
            for name in sorted(files):
                if name.endswith(('.c', '.h', '.py')):
                    out.update(text_of(os.path.join(place, name)).encode())
    return out.hexdigest()


def resumed(path, fresh):
    """(seed, finished tasks) of an earlier call with the same files, or of this one."""
    if path and os.path.isfile(path):
        lines = [json.loads(line) for line in text_of(path).splitlines()]
        if lines and lines[0]['digest'] == digest():
            return lines[0]['seed'], [tuple(line) for line in lines[1:]]
    if path:
        write(path, json.dumps({'digest': digest(), 'seed': fresh}) + '\n')
    return fresh, []


def report(kind, results):
    counts = {}
    for _, found, *_ in results:
        for name, n in (found or {}).items():
            counts[name] = counts.get(name, 0) + n
    print(f'validate-check: {len(results)} {KINDS[kind][1]}: {", ".join(f"{n} {name}" for name, n in counts.items() if n)}', flush=True)


def main():
    sys.setrecursionlimit(100000)
    start, argv = time.time(), sys.argv[1:]
    at = argv.index('--include')
    quick, options = '--quick' in argv[:at], dict(zip(argv[:at], argv[1:at] + ['']))
    fresh, done = resumed(options.get('--done'), int(options.get('--seed', int(time.time()) % 1000000)))
    given_words, all_words = read_words(argv[at:])
    SHARED.update(include=given_words['--include'], joined=given_words['--joined'], words=all_words, program=Program(all_words[0].one('--rlib')))
    if not quick:
        print(f'validate-check: new random programs from seed {fresh} (--seed repeats them); {len(done)} tasks were done before', flush=True)
    finished = [task for task, *_ in done]
    todo = [task for task in tasks(quick, fresh) if list(task) not in finished]
    with multiprocessing.get_context('fork').Pool(int(options.get('--jobs', os.cpu_count() or 1)), maxtasksperchild=20) as pool:
        for result in pool.imap_unordered(work, todo):
            done.append(result)
            if result[2]:
                print(f'validate-check: FAILED: {result[2]}', flush=True)
            elif '--done' in options:
                with open(options['--done'], 'a', encoding='utf-8') as handle:
                    handle.write(json.dumps(result) + '\n')
    for kind in KINDS:
        report(kind, [result for result in done if result[0][0] == kind])
    if '--rows' in options:
        rows = sorted((row for result in done for row in result[3]), key=lambda row: tuple(row.values()))
        write(options['--rows'], json.dumps(rows, indent=1) + '\n')
    failed = sum(bool(result[2]) for result in done)
    print(f'validate-check: {len(done)} tasks, {failed} failed; {time.time() - start:.0f} s')
    sys.exit(1 if failed else 0)


if __name__ == '__main__':
    main()
