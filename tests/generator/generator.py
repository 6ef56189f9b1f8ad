#!/usr/bin/env python3
"""Tests of port/generate.py: what it does not know stops it with the function's name and the form, and writes nothing; its output
does not depend on the run; the C file defines the headers' calls and no other external name. Run from the root, after the proofs, with
the words that make/port.mk gives the generator.
"""
import json
import os
import re
import subprocess
import sys
import tempfile

RLIB = os.path.abspath('crates')
DIST = 'dist/kagutin.c'
ARCHIVE = 'target/staticlib/libkagutin.a'
WORDS = sys.argv[1:]        # of the generator, as make/port.mk has them


def generate(rlib, out, words, seed='0'):
    """A later --rlib counts."""
    command = [sys.executable, 'port/generate.py'] + words + ['--rlib', rlib, '--out', out]
    return subprocess.run(command, capture_output=True, text=True, env=dict(os.environ, PYTHONHASHSEED=seed))


def replaced(text, old, new):
    if old not in text:
        raise SystemExit(f'generator.py: no {old} to change')
    return text.replace(old, new, 1)


def edited(folder, function, old, new):
    """A folder of proved crates in which one form of one function is another."""
    crate = function.split('::')[0]
    for name in os.listdir(RLIB):
        if name != crate:
            os.symlink(os.path.join(RLIB, name), os.path.join(folder, name))
    toolchain = os.path.join(crate, 'out', 'rlib', crate + '.rlib', 'toolchain')
    os.makedirs(os.path.join(folder, toolchain))
    with open(os.path.join(RLIB, toolchain, 'mir.json'), encoding='utf-8') as handle:
        forms = json.load(handle)
    for pair in forms:
        if pair[0] == function:
            pair[1] = json.loads(replaced(json.dumps(pair[1]), old, new))
    with open(os.path.join(folder, toolchain, 'mir.json'), 'w', encoding='utf-8') as handle:
        json.dump(forms, handle)
    return folder


# what is changed: function, old form, new form, what the generator says of it
EDITS = [
    ('base_areas::lengths::log_right', '{"Mul": "Unsigned"}', '{"Mul": "Other"}', 'base_areas::lengths::log_right: operation'),
    ('base_areas::lengths::log_right', '{"Int": 64}', '{"Int": 128}', 'base_areas::lengths::log_right: type {"Int": 128}'),
    ('base_areas::lengths::log_right', '{"Int": 64}', '{"Float": 64}', 'base_areas::lengths::log_right: type {"Float": 64}'),
    ('base_areas::lengths::log_right', '"Return"', '"Abort"', 'base_areas::lengths::log_right: statement'),
    ('base_areas::lengths::log_right', '"Fn": ["base_areas::lengths::log_groups"', '"Fn": ["base_areas::lengths::log_right"', 'recursion'),
    ('base_areas::lengths::log_right', '"Fn": ["base_areas::lengths::log_groups"', '"Fn": ["base_areas::lengths::other"', 'no proved function'),
    ('base_areas::lengths::log_right', '"Fn": ["base_areas::lengths::log_groups"', '"Fn": ["nowhere::other"', 'no proved program'),
    ('base_areas::lengths::log_right', '"types": [], "dicts"', '"types": [{"Int": 8}], "dicts"', 'base_areas::lengths::log_right: statement'),
    ('base_codec::blocks::clear', '{"Deref": {"Int": 8}}', '{"Deref": {"Int": 16}}', 'base_codec::blocks::clear: memory of'),
    ('base_codec::marks::put_fence_mark', '"values": [70, 78]', '"values": [70, 78, 79]', 'base_codec::marks::put_fence_mark: a constant of 8 bits'),
    ('base_codec::marks::has_header_mark', '"ty": "Bool"', '"ty": "Ptr"', 'base_codec::marks::has_header_mark: a constant lent in a function whose result'),
    ('base_codec::marks::has_header_mark', '{"AddrOf": {"local": 3', '{"AddrOf": {"local": 1', 'base_codec::marks::has_header_mark'),
    ('base_writers::places::begun', '"MemorySlot"', '"ValueLocal"', 'base_writers::places::begun: the address of value local'),
    ('base_bitmap::ones', '"CountOnes"', '"ReverseBits"', 'base_bitmap::ones: operation'),
]


def fail(message):
    raise SystemExit(f'generator.py: FAILED: {message}')


def stops(rlib, words, said):
    with tempfile.TemporaryDirectory() as folder:
        out = os.path.join(folder, 'out.c')
        run = generate(rlib, out, words)
        if run.returncode == 0 or not run.stderr.startswith('generate.py: ') or said not in run.stderr:
            fail(f'"{said}" expected, status {run.returncode}: {run.stderr.strip() or "nothing said"}')
        if os.path.exists(out):
            fail(f'{said}: something was written')


def one_name_each():
    """Two types whose names are the same in C stop it."""
    sys.path.insert(0, 'port')
    from c_types import Types
    from forms import U8, U64, Fields, Named, Slice, Stop
    types = Types({'a::b::c': Fields((U8,)), 'a::b__c': Fields((U64,))}, {})
    for first, second in ((Named('a::b::c'), Named('a::b__c')), (Slice(False, Slice(False, U8)), Slice(False, Slice(False, U64)))):
        types.c(first)
        try:
            types.c(second)
        except Stop:
            continue
        fail(f'{first} and {second} have one name in C')


def names(command):
    """External names of an object or archive: defined, and not."""
    symbols = subprocess.run(command, capture_output=True, text=True, check=True).stdout.split('\n')
    words = [line.split() for line in symbols if line.strip() and not line.endswith(':')]
    return {w[-1] for w in words if w[-2] in 'TDBRC'}, {w[-1] for w in words if w[-2] == 'U'}


def external_names():
    declared = set()
    for word, header in zip(WORDS, WORDS[1:]):
        if word == '--header':
            with open(os.path.join('include', header), encoding='utf-8') as handle:
                declared |= set(re.findall(r'^(?!static)\w[\w ]* \*?(kagutin_\w+)\(', handle.read(), re.M))
    with tempfile.TemporaryDirectory() as folder:
        for level in ('-O0', '-O2'):
            obj = os.path.join(folder, 'kagutin.o')
            subprocess.run([os.environ.get('CC', 'cc'), '-std=c99', level, '-Iinclude', '-c', DIST, '-o', obj], check=True)
            defined, needed = names(['nm', '-g', obj])
            if defined != declared or needed - {'memcpy', 'memset', '_GLOBAL_OFFSET_TABLE_'}:
                fail(f'external names {sorted(defined ^ declared)}, needed {sorted(needed)}')
    calls = {name for name in names(['nm', '-g', ARCHIVE])[0] if name.startswith('kagutin_')} if os.path.exists(ARCHIVE) else set()
    if calls - declared:
        fail(f'the archive has other names: {sorted(calls - declared)}')


def main():
    for function, old, new, said in EDITS:
        with tempfile.TemporaryDirectory() as folder:
            stops(edited(folder, function, old, new), WORDS, said)
    no_result = [word for word in WORDS if word != '--result' and '=' not in word]
    stops(RLIB, no_result, 'exported with the result')
    with open(DIST, encoding='utf-8') as handle:
        text = handle.read()
    for seed in ('1', '2'):
        with tempfile.TemporaryDirectory() as folder:
            out = os.path.join(folder, 'out.c')
            generate(RLIB, out, WORDS, seed)
            with open(out, encoding='utf-8') as handle:
                if handle.read() != text:
                    fail('two runs write different text')
    external_names()
    one_name_each()
    print(f'generator: {len(EDITS) + 3} unknown forms refused, the same text in each run, no external names but the calls')


if __name__ == '__main__':
    main()
