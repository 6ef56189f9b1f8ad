#!/usr/bin/env python3
"""Makes one portable C99 file of the proved program.

    python3 port/generate.py --rlib crates --source crates --export kagutin --header kagutin.h \\
        --result call_ask::Reply=kagutin_reply --out dist/kagutin.c

The functions of the exported crates that are marked `#[unsafe(no_mangle)] pub extern "C"` get external linkage under their own names; all
that they reach becomes static, but for the marked functions of imported crates (--import), which are called as another C file
has them. A form that is not known stops it with the function's name and the form, and nothing is written.
"""
import argparse
import os
import sys

import helpers
import sources
from blocks import as_branches, as_values
from c_functions import FunctionText
from c_types import Types, c_name
from fold import fold, simplify
from forms import Block, Call, Stop, statements
from inline import inline
from library import put_in_place
from pointers import infer_pointers
from reader import Program
from words import join_words
from wrap import wrap

HEAD = '''/*
 * Kagutin as one C99 file, made by port/generate.py from the proved program.
 * Do not edit: change the sources under crates/ and run `make dist`.
 *
 * Needs {headers}, memcpy and memset; no heap, no other library{but}, no state
 * of its own. All that is not declared there is static. Where a compiler is
 * known, some helpers have a quicker form; -DKAGUTIN_PLAIN_C leaves them out.
 */
#include <stdbool.h>
#include <stddef.h>
#include <stdint.h>
#include <string.h>

{includes}

#if defined(__GNUC__) && !defined(__clang__) && SIZE_MAX < UINT64_MAX
/* Counts are 64 bits wide and proved to stay in memory; gcc warns of turns that they never reach. */
#pragma GCC diagnostic ignored "-Waggressive-loop-optimizations"
#endif
'''


class Generator:
    def __init__(self, options):
        self.options, self.field_names = options, {}
        self.program = Program(options.rlib, options.kit, self.described)
        self.imported = {}                              # path -> what another C file has
        self.results = dict(pair.split('=') for pair in options.result)

    def reach(self, name, treat, state):
        """Treats the function after all that it calls. Recursion stops: the stack of the C program is bounded."""
        if state.get(name) == 'done':
            return
        if name in state:
            raise Stop(f'{name}: recursion')
        state[name] = 'open'
        function = self.program.function(name)
        self.tried(name, self.in_place, function)
        for statement in statements(function.body):
            if isinstance(statement, Call):
                self.reach(statement.name, treat, state)
        state[name] = 'done'
        self.tried(name, treat, function)

    def tried(self, name, step, function):
        """One step with a function; what stops it is said with the function's name."""
        try:
            step(function)
        except Stop as stop:
            raise Stop(f'{name}: {stop}')
        except (LookupError, TypeError, ValueError, AttributeError) as error:
            raise Stop(f'{name}: a form that is not handled ({error!r})')

    def described(self, crate):
        """What the sources say of a crate that is read."""
        self.field_names.update(sources.fields(self.options.source, crate))
        return sources.described(self.options.source, crate)

    def in_place(self, function):
        """The library's functions in place of their calls, before anything else is done with the function."""
        if function.name not in self.imported:
            put_in_place(self.program, function)

    def prepare(self, function):
        """The passes; without them (--no-passes) every temporary and call stays as the prover has it."""
        if function.name in self.imported:
            return
        infer_pointers(function)
        tests = as_branches(function)
        if not self.options.no_passes:
            for step in (simplify, fold, simplify, fold):
                step(function)
            as_values(function, tests)
            for step in (wrap, fold):
                step(function)
            inline(self.program, function, self.prepare)
            as_values(function, tests)
            for step in (fold, join_words, fold, join_words):
                step(function)

    def read_imports(self):
        """A function that another C file has loses its body, so that it is neither copied nor put in place of its calls."""
        for crate in self.options.imports:
            self.program.crate(crate)
            for export in sources.exports(self.options.source, crate):
                self.imported[export.path] = export
                self.program.function(export.path).body = (Block(()),)

    def text(self):
        exported = []
        self.read_imports()
        for crate in self.options.export:
            self.program.crate(crate)
            found = sorted(sources.exports(self.options.source, crate), key=lambda export: export.name)
            if not found:
                raise Stop(f'crate {crate} exports nothing')
            exported += found
        self.pass_over(exported, self.prepare)
        for head in list(self.program.declared):
            if not head.startswith('('):
                self.program.crate(head.split('::')[0])
        types = Types(self.program.shapes, self.field_names, self.program.heads)
        out = FunctionText(types, self.program)
        names = {}

        def write(function):
            if names.setdefault(c_name(function.name), function.name) != function.name:
                raise Stop(f'its C name is also that of {names[c_name(function.name)]}')
            if function.name in self.imported:
                out.imported(function, self.imported[function.name], self.results)
            else:
                out.function(function)
        self.pass_over(exported, write)
        signed_fields = {field for crate in self.program.crates - self.program.library.keys() for field in sources.signed_fields(self.options.source, crate)}
        for export in exported:
            try:
                out.exported(self.program.function(export.path), export, self.results, signed_fields)
            except Stop as stop:
                raise Stop(f'{export.path}: {stop}')
        functions = '\n'.join(out.out).rstrip('\n') + '\n'
        return self.head() + types.text() + helpers.texts(out.helpers) + '\n' + functions

    def pass_over(self, exported, treat):
        state = {}
        for export in exported:
            self.reach(export.path, treat, state)

    def head(self):
        includes = '\n'.join(f'#include "{header}"' for header in self.options.header)
        but = ' but that of ' + ' and '.join(self.options.imports) if self.options.imports else ''
        return HEAD.format(headers=' and '.join(self.options.header), but=but, includes=includes) + '\n'


def main():
    parser = argparse.ArgumentParser(description='Makes one portable C99 file of the proved program.')
    parser.add_argument('--rlib', required=True, help='folder of the crates, with what the prover has built of each')
    parser.add_argument('--source', required=True, help='folder of the crates, for exported names and comments')
    parser.add_argument('--kit', help="the toolchain's folder, which has the library's proved programs; that of the command rt if not given")
    parser.add_argument('--export', required=True, action='append', help='crate whose extern "C" functions are exported; may be given again')
    parser.add_argument('--import', default=[], action='append', dest='imports',
                        help='crate whose extern "C" functions another C file has; may be given again')
    parser.add_argument('--header', required=True, action='append', help='header that declares them; may be given again')
    parser.add_argument('--result', default=[], action='append', help='declared type=struct of the header, for results')
    parser.add_argument('--no-passes', action='store_true', help='leave the passes out')
    parser.add_argument('--out', required=True, help='the C file; untouched if nothing changes')
    options = parser.parse_args()
    sys.setrecursionlimit(100000)
    try:
        text = Generator(options).text()
    except Stop as stop:
        sys.exit(f'generate.py: {stop}')
    os.makedirs(os.path.dirname(options.out) or '.', exist_ok=True)
    if os.path.exists(options.out):
        with open(options.out, encoding='utf-8') as handle:
            if handle.read() == text:
                return
    with open(options.out, 'w', encoding='utf-8') as handle:
        handle.write(text)


if __name__ == '__main__':
    main()
