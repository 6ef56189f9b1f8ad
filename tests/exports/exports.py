#!/usr/bin/env python3
"""Each function of a crate NAME_c, which C links, has the signature and the clauses of its namesake in the crate NAME, calls that alone, and none is missing.
Run from the root. That it proves is the prover's to say; this holds the text that a reader of the library believes to what C is promised.
"""
import os
import re
import sys

EXPORT = re.compile(r'^#\[unsafe\(no_mangle\)\]\n(?:#\[[^\n]*\n)*pub extern "C" fn (\w+)\(([^)]*)\) -> (\w+)\n(.*?)^\{\n(.*?)^\}', re.M | re.S)


def plain(text):
    return re.sub(r'\s+', ' ', text).strip().rstrip(',')


def exports(crate):
    """Name -> (module, signature, clauses, body) of each."""
    found = {}
    for file in sorted(os.listdir(f'crates/{crate}/src')):
        with open(f'crates/{crate}/src/{file}', encoding='utf-8') as handle:
            text = handle.read()
        module = crate if file == 'lib.rt' else f'{crate}::{file[:-3]}'
        for name, params, result, clauses, body in EXPORT.findall(text):
            found[name] = module, f'({plain(params)}) -> {result}', plain(clauses), plain(body)
        if len(EXPORT.findall(text)) != text.count('no_mangle'):
            sys.exit(f'exports: {file} of {crate} has an export that is written in another way')
    return found


def main():
    count, wrong = 0, []
    crates = [name for name in sorted(os.listdir('crates')) if name.endswith('_c') and os.path.isdir(f'crates/{name[:-2]}')]
    for crate in crates:
        ours, theirs = exports(crate), exports(crate[:-2])
        wrong += [f'{name}: in one of {crate} and {crate[:-2]} only' for name in sorted(set(ours) ^ set(theirs))]
        for name in sorted(set(ours) & set(theirs)):
            count += 1
            args = ', '.join(re.findall(r'(\w+) ?:', ours[name][1]))
            if ours[name][1:3] != theirs[name][1:3]:
                wrong.append(f'{name}: another signature or other clauses in {crate}')
            if re.sub(r'[( ,]+', ' ', ours[name][3]).rstrip(') ') != re.sub(r'[( ,]+', ' ', f'{theirs[name][0]}::{name}({args})').rstrip(') '):
                wrong.append(f'{name}: another body in {crate}')
    for line in wrong:
        print(f'exports: {line}')
    print(f'exports: {count} calls of {len(crates)} crates for C with the clauses of the libraries\' calls')
    sys.exit(1 if wrong or not count else 0)


main()
