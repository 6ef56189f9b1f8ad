#!/usr/bin/env python3
"""Fills the tables of the C file in docs/PERFORMANCE.md: report.py FOLDER-OF-THE-BOARDS FOLDER-OF-THE-BENCHES DOCUMENT. Without benches those of the boards alone."""
import os
import re
import sys

CORES = (('m0plus', 'Cortex-M0+'), ('m4', 'Cortex-M4'), ('m33', 'Cortex-M33'))
LEVELS = ('Os', 'O2')
LIST = 'tests/common/calls.h'


def table(head, rows):
    lines = [head, ['---'] + ['---:'] * (len(head) - 1)] + rows
    return '\n'.join('| ' + ' | '.join(str(cell) for cell in line) + ' |' for line in lines)


def number(n):
    return f'{n:,.0f}'


def costs(folder):
    """(core, level) -> name -> (instructions, stack)."""
    out = {}
    for core, _ in CORES:
        for level in LEVELS:
            with open(f'{folder}/{core}-{level}.cost', encoding='ascii') as handle:
                rows = [line.rstrip('\n').split('\t') for line in handle]
            out[core, level] = {name: (int(each), int(stack)) for name, each, stack in rows}
    return out


def bounds(folder, core, level):
    """Function -> the most that its frames and those below it can take, as gcc says; memset and division are not in it."""
    with open(f'{folder}/{core}-{level}.ci', encoding='ascii') as handle:
        text = handle.read()
    frames = {title: int(size) for title, size in re.findall(r'title: "([^"]+)" label: "[^"]*?(\d+) bytes \(static', text)}
    calls = {}
    for source, to in re.findall(r'sourcename: "([^"]+)" targetname: "([^"]+)"', text):
        calls.setdefault(source, set()).add(to)

    def deepest(name):
        return frames.get(name, 0) + max((deepest(to) for to in calls.get(name, ())), default=0)
    return {name.split(':')[-1]: deepest(name) for name in frames}


def sizes(cost):
    return table(['core', '-Os', '-O2'], [[title] + [number(cost[core, level]['size'][0]) for level in LEVELS] for core, title in CORES])


def measured_calls(found):
    """The calls of the list that a board has measured."""
    with open(LIST, encoding='ascii') as handle:
        names = re.findall(r'CALL\([A-Z_]+, (\w+),', handle.read())
    return [name for name in names if any(row.split(',')[0] == name for row in found)]


def measured_stack(found, call):
    return max(stack for name, (_, stack) in found.items() if name.split(',')[0] == call)


def stacks(cost, folder):
    rows = []
    bound = {level: bounds(folder, 'm4', level) for level in LEVELS}
    for call in measured_calls(cost[CORES[0][0], LEVELS[0]]):
        row = [call]
        for level in LEVELS:
            row += [number(bound[level][f'kagutin_{call}'])] + [number(measured_stack(cost[core, level], call)) for core, _ in CORES]
        rows.append(row)
    head = ['call'] + [f'{what}, -{level}' for level in LEVELS for what in ['M4, bound', 'M0+', 'M4', 'M33']]
    return table(head, rows)


def instructions(cost):
    names = ['begin', 'store', 'commit', 'flush', 'confirm', 'abort', 'settle', 'trim', 'read, full log', 'settle, full log',
             'begin_round', 'step_round, 8 homes, full log', 'open, full log', 'format']
    columns = [(core, level) for core, _ in CORES for level in LEVELS]
    rows = [['**begin, 4 × store, commit**'] + [
        '**' + number(cost[c]['begin'][0] + 4 * cost[c]['store'][0] + cost[c]['commit'][0]) + '**' for c in columns]]
    rows += [[name] + [number(cost[c][name][0]) for c in columns] for name in names]
    return table(['call'] + [f'{title[7:]}, -{level}' for _, title in CORES for level in LEVELS], rows)


def bench(path):
    """Row -> instructions of the library."""
    with open(path, encoding='utf-8') as handle:
        rows = [line.rstrip('\n').split('\t') for line in handle][1:]
    return {tuple(row[:5]): float(row[7]) for row in rows if row[7]}


def label(key):
    kind, case, groups, used, call = key
    return f'{call}, {used} of {int(groups):,}' if kind == 'size' else f'{case}: {call}'


def against_archive(folder):
    archive, gcc, clang = (bench(f'{folder}/{name}/bench.tsv') for name in ('archive', 'gcc', 'clang'))
    rows = []
    for key, count in archive.items():
        if key[0] not in ('calls', 'worst', 'size'):
            continue
        ratios = [build[key] / count for build in (gcc, clang)]
        shown = [f'**{ratio:.2f}**' if ratio > 1.2 else f'{ratio:.2f}' for ratio in ratios]
        rows.append([label(key), number(count), number(gcc[key]), number(clang[key])] + shown)
    return table(['case, call', 'archive', 'gcc -O2', 'clang -O2', 'gcc ÷ archive', 'clang ÷ archive'], rows)


def fill(text, name, new):
    pattern = re.compile(rf'(<!-- {name} -->\n).*?(\n<!-- end -->)', re.S)
    if not pattern.search(text):
        raise SystemExit(f'report.py: no place for the table {name}')
    return pattern.sub(lambda match: match[1] + new + match[2], text)


def main():
    boards, benches, document = sys.argv[1:]
    cost = costs(boards)
    with open(document, encoding='utf-8') as handle:
        text = handle.read()
    tables = {'c-size': sizes(cost), 'c-stack': stacks(cost, boards), 'c-boards': instructions(cost)}
    if os.path.exists(f'{benches}/archive/bench.tsv'):
        tables['c-archive'] = against_archive(benches)
    for name, new in tables.items():
        text = fill(text, name, new)
    with open(document, 'w', encoding='utf-8') as handle:
        handle.write(text)


if __name__ == '__main__':
    main()
