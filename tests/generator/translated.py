#!/usr/bin/env python3
"""Programs that a translation gets wrong easily: tests/generator/translated.rt.txt is proved, made into C by port/generate.py, with its passes and without,
and run against the same functions in Python. Run from the root; needs the prover and a C compiler.
"""
import ctypes
import os
import shutil
import subprocess
import sys
import tempfile

SOURCE = 'tests/generator/translated.rt.txt'  # another ending than a crate's: the gate proves the listed crates alone
HEADER = '''#include <stddef.h>
#include <stdint.h>
uint64_t branch(uint64_t n);
uint64_t branches(uint64_t n);
int64_t minus(void);
uint64_t bit(void);
uint64_t inverse(void);
uint64_t copies(uint64_t x, uint64_t n);
uint64_t marks(uint64_t n);
uint64_t refused(uint64_t a, uint64_t b);
uint64_t found(uint64_t a, uint64_t b);
uint64_t variants(uint64_t a, uint64_t b);
uint64_t instances(uint8_t a, uint16_t b);
uint64_t sums(uint64_t a, uint64_t b, uint16_t c);
uint64_t slices(uint8_t *bytes, size_t bytes_size, size_t n);
uint64_t other_side(uint64_t a, uint64_t b);
uint64_t other_value(uint64_t a, uint64_t b);
uint64_t guarded(uint64_t a, uint64_t b);
uint64_t repoints(uint64_t a, uint64_t b);
uint64_t called(uint64_t a, uint64_t b);
uint64_t called_again(uint64_t a, uint64_t b);
uint64_t inner_blocks(uint64_t a, uint64_t b);
'''
BUILDS = (['-O0'], ['-O2'], ['-O2', '-DKAGUTIN_PLAIN_C'])
WARN = ['-std=c99', '-fPIC', '-shared', '-Wall', '-Wextra', '-Werror', '-Wno-unused-function']
ALL = (1 << 64) - 1


def branch(n):
    x, y = (n & 15, (n & 15) ^ 1) if n > 3 else (7, 0)
    return x | y << 8


def branches(n):
    if n > 9:
        return branch(n)
    x, y = (7, 0) if n > 3 else (n & 1, n & 1 | 2)
    return x | y << 8


def pick(a, b, n):
    r, k = n & 3, 0
    if a == 1:
        r |= 4
        k = r << 1
    if b == 1:
        r |= 8
        k ^= r << 2
    if k == n:
        r |= 16
    return r | k << 8


def copies(x, n):
    return (pick(1, x, n) ^ pick(x, 1, n) << 20 ^ pick(1, 1, n) << 40) & ALL


def marks(n):
    return 0x4241 ^ 0xff00 if n < 3 else (0x44434241 | n << 32) & ALL


def both_right(a, b):
    """A number, or the name of a refusal."""
    return 'Length' if a >= 8 else 'Order' if b < 8 else 'Writer' if b == 60 else b // 2 + 1


def refused(a, b):
    c = both_right(a, b)
    if isinstance(c, int):
        return c ^ (c & 7) << 20 ^ min(c, 255) << 40
    code = {'Length': 1, 'Order': 2, 'Writer': 4}[c]
    return 1000 ^ code ^ (300 if c == 'Length' else 400 ^ code) << 20 ^ 5 << 40


def found(a, b):
    return a - 3 if a >= 3 else 7000 if b == 0 else (b - 1 ^ (b - 3 if b >= 3 else 3) << 8) & ALL


def make_item(a, b):
    return [('Nothing',), ('One', b), ('Two', b, 4)][a] if a < 3 else ('Flag', b == 3)


def held(item):
    return {'Nothing': lambda: 5, 'One': lambda a: a, 'Two': lambda a, b: a ^ b, 'Flag': lambda is_set: 10 ^ is_set}[item[0]](*item[1:])


def make_why(a):
    return 'Length' if a < 3 else 'Order' if a == 3 else 'Writer'


def variants(a, b):
    first, second = make_item(a, b), make_item(b, a)
    r = (first == second) | (first != ('One', 7)) << 1 | (a == b and make_why(a) == make_why(b)) << 2 | (make_why(a) == 'Order') << 3
    return (r ^ held(first) << 8 ^ held(second) << 24) & ALL


def table(count, x):
    total = 0
    for _ in range(count):
        total = total * 3 + x
    return total ^ count


def instances(a, b):
    measured = (a << 4 | 1) << 32 ^ (b << 8 | 2) << 40
    return (table(3, a) ^ table(5, a) << 16 ^ measured ^ (b == 9) ^ (b == 3) << 1) & ALL


def sums(a, b, c):
    first = (min(a, b) + max(b, 3) - a) * 5
    second = max(a - b, 0) ^ max(c - 4, 0) ^ min(a + b, ALL)
    third = (c + 1) % 65536 ^ min((c - 9) % 65536, 40000) ^ abs(a - b)
    return (first ^ second ^ third ^ (a % 4 == 0)) & ALL


def slices(data, n):
    first, other = data[0] if data else 300, data[n] if n < len(data) else 400
    return first ^ other << 10 ^ (not data) << 20 ^ (9 if n < len(data) else 500) << 30


def other_side(a, b):
    return a ^ b if a < 3 and b < 4 and a != b else 9


def other_value(a, b):
    p, q = (a & 3, b & 1), (b & 3, a & 1)
    if not (p[0] == 1 if b < 3 else p[1] == 1):
        return 7
    return a & 255 | 512 | 256 if p == q else (a & 255) ^ 1024


def guarded(a, b):
    return 3 if a in (1, 60) and b < 3 or a == 2 and b > 4 else 8


def repoints(a, b):
    return (a ^ ((77 ^ 78) if b < 4 else a ^ 3) << 8) & ALL


def called(a, b):
    x, y, table, third = a & 15, a >> 2, bytearray(512), 0
    first = 77 if x < 3 and b < 4 else y
    table[b & 511] = x
    table[y & 511] = b & 255
    second = table[x] ^ table[5] << 8
    for k in range(4):
        if not third and not b >> k & 1:
            if x == 5 + k:
                third = k + 1
            else:
                y ^= 100 + k
    return (first ^ second << 8 ^ (third or x) << 24 ^ y << 32) & ALL


def called_again(a, b):
    def twice(k, n):
        return b ^ n & 7 if k == 1 else twice(k - 1, n) ^ twice(k - 1, n >> k - 1) << k - 1
    return ((77 if b < 3 and a < 4 else a & 255) ^ twice(6, a) << 8) & ALL


def inner_blocks(a, b):
    left = [a < b, b < 4]
    return ([2, 1][left[0]] ^ [2, 1][left[1]] << 4 ^ (a if all(left) else 3) << 8) & ALL


NUMBERS = [*range(80), 1 << 32, 1 << 63, ALL]
CASES = [(branch, [(n,) for n in NUMBERS]), (branches, [(n,) for n in NUMBERS]), (marks, [(n,) for n in NUMBERS]), (copies, [(x, n) for x in (0, 1, 2) for n in NUMBERS])]
PAIRS = [(a, b) for a in (*range(12), 60, 255, 1 << 40, ALL - 1, ALL) for b in (*range(12), 60, 61, 600, 1 << 63, ALL)]
CASES += [(f, PAIRS) for f in (refused, found, variants, other_side, other_value, guarded, repoints, called, called_again, inner_blocks)]
CASES += [(instances, [(a, b) for a in (0, 1, 7, 255) for b in (0, 2, 3, 4, 9, 65535)]), (sums, [(a, b, c) for a, b in PAIRS for c in (0, 4, 8, 40008, 65535)])]
SLICES = [(data, n) for data in (b'', b'\x07', bytes(range(200, 209))) for n in (0, 1, 8, 9, 1 << 40)]
KEPT = ('early', 'tabled', 'doubled')       # functions that are not put in place of their calls
MOST = 25000                                # bytes of C: what is put in place is not written again and again
CONSTANTS = {'minus': ALL, 'bit': 1 << 40, 'inverse': ALL - 1}


def run(*command, **words):
    done = subprocess.run(command, capture_output=True, text=True, **words)
    if done.returncode:
        sys.exit(f'translated.py: {" ".join(command)}:\n{done.stdout}{done.stderr}')


def result_of(library, name, args):
    function = getattr(library, name)
    function.restype = ctypes.c_uint64
    return function(*map(ctypes.c_uint64, args))


def check(library, how):
    """How many calls give what they shall; the first that does not ends the test."""
    calls = [(f.__name__, args, f(*args)) for f, many in CASES for args in many] + [(name, (), want) for name, want in CONSTANTS.items()]
    for name, args, want in calls:
        got = result_of(library, name, args)
        if got != want:
            sys.exit(f'translated.py: FAILED: {name}{args} is {got}, not {want} ({" ".join(how)})')
    for data, n in SLICES:
        memory = ctypes.create_string_buffer(data, len(data) + 1)
        library.slices.restype = ctypes.c_uint64
        got = library.slices(memory, ctypes.c_size_t(len(data)), ctypes.c_size_t(n))
        if got != slices(data, n) or memory.raw != b'\x09' * len(data) + b'\x00':
            sys.exit(f'translated.py: FAILED: slices of {data} at {n} is {got}, and leaves {memory.raw} ({" ".join(how)})')
    return len(calls) + len(SLICES)


def main():
    with tempfile.TemporaryDirectory() as folder:
        os.makedirs(os.path.join(folder, 'crates', 'translated', 'src'))
        shutil.copy(SOURCE, os.path.join(folder, 'crates', 'translated', 'src', 'lib.rt'))
        for name, text in (('crates.txt', 'translated:\n'), ('translated.h', HEADER)):
            with open(os.path.join(folder, name), 'w', encoding='utf-8') as handle:
                handle.write(text)
        run('rt', 'lib', cwd=os.path.join(folder, 'crates', 'translated'))
        count = 0
        for passes in ([], ['--no-passes']):
            out = os.path.join(folder, 'translated.c')
            run(sys.executable, 'port/generate.py', '--rlib', f'{folder}/crates', '--source', f'{folder}/crates', '--export', 'translated',
                '--header', 'translated.h', '--out', out, *passes)
            with open(out, encoding='utf-8') as handle:
                text = handle.read()
            gone = [name for name in KEPT if f'translated__{name}(' not in text]
            if gone or not passes and len(text) > MOST:
                sys.exit(f'translated.py: FAILED: put in place of their calls: {gone}, {len(text)} bytes of C')
            for k, words in enumerate(BUILDS):
                library = os.path.join(folder, f'translated{len(passes)}{k}.so')
                run('cc', *WARN, *words, '-I' + folder, out, '-o', library)
                count += check(ctypes.CDLL(library), words + passes)
    print(f'translated: {count} calls of programs that are easily got wrong, each right')


if __name__ == '__main__':
    main()
