#!/usr/bin/env python3
"""Every operation on numbers that port/generate.py knows, at every width: made into C, run there on edge and random numbers that the
operation's condition allows, and held to the definitions of the kit's Mir/Val.antt, written here in Python's own integers.
Run from the root; needs a C compiler and no prover.
"""
import json
import os
import random
import subprocess
import sys
import tempfile

WIDTHS = (8, 16, 32, 64)
COMPILERS = ([], ['-O2'], ['-O2', '-DKAGUTIN_PLAIN_C'], ['-O1', '-fsanitize=undefined', '-fno-sanitize-recover=all'])


def signed(w, n):
    return n - (1 << w) if n >> w - 1 else n


def towards_zero(a, b):
    q = abs(a) // abs(b)
    return -q if (a < 0) != (b < 0) else q


def sfits(w, z):
    return -(1 << w - 1) <= z < 1 << w - 1


NATURAL = {
    'Add': (lambda w, a, b: a + b < 1 << w, lambda w, a, b: a + b),
    'Sub': (lambda w, a, b: b <= a, lambda w, a, b: a - b),
    'Mul': (lambda w, a, b: a * b < 1 << w, lambda w, a, b: a * b),
    'Div': (lambda w, a, b: b > 0, lambda w, a, b: a // b),
    'Rem': (lambda w, a, b: b > 0, lambda w, a, b: a % b),
    'Shr': (lambda w, a, b: b < w, lambda w, a, b: a >> b),
    'Lt': (lambda w, a, b: True, lambda w, a, b: int(a < b)),
    'Le': (lambda w, a, b: True, lambda w, a, b: int(a <= b)),
}
SIGNED = {
    'Add': (lambda w, x, y: sfits(w, x + y), lambda w, x, y: x + y),
    'Sub': (lambda w, x, y: sfits(w, x - y), lambda w, x, y: x - y),
    'Mul': (lambda w, x, y: sfits(w, x * y), lambda w, x, y: x * y),
    'Div': (lambda w, x, y: y != 0 and sfits(w, towards_zero(x, y)), lambda w, x, y: towards_zero(x, y)),
    'Rem': (lambda w, x, y: y != 0 and sfits(w, towards_zero(x, y)), lambda w, x, y: x - y * towards_zero(x, y)),
    'Shr': (lambda w, x, y: 0 <= y < w, lambda w, x, y: x >> y),
    'Lt': (lambda w, x, y: True, lambda w, x, y: int(x < y)),
    'Le': (lambda w, x, y: True, lambda w, x, y: int(x <= y)),
}
SIGNLESS = {
    'And': (lambda w, a, b: True, lambda w, a, b: a & b),
    'Or': (lambda w, a, b: True, lambda w, a, b: a | b),
    'Xor': (lambda w, a, b: True, lambda w, a, b: a ^ b),
    'Shl': (lambda w, a, b: b < w, lambda w, a, b: a << b),
    'Eq': (lambda w, a, b: True, lambda w, a, b: int(a == b)),
    'Ne': (lambda w, a, b: True, lambda w, a, b: int(a != b)),
}
COMPARED = ('Eq', 'Ne', 'Lt', 'Le')


def by_sign(w, pair):
    """A condition and a result of signed numbers, on their bits."""
    chk, val = pair
    return lambda a, b: chk(w, signed(w, a), signed(w, b)), lambda a, b: val(w, signed(w, a), signed(w, b)) % (1 << w)


def on_bits(w, pair):
    chk, val = pair
    return lambda a, b: chk(w, a, b), lambda a, b: val(w, a, b) % (1 << w)


def binary_cases():
    """Name, operation, operand width, result width (1 for a boolean), condition, result."""
    for w in WIDTHS:
        for table, form, behave in ((NATURAL, lambda op: {op: 'Unsigned'}, on_bits), (SIGNED, lambda op: {op: 'Signed'}, by_sign),
                                    (SIGNLESS, lambda op: op, on_bits)):
            for op, pair in table.items():
                sign = 's' if table is SIGNED else 'u'
                yield f'{sign}_{op.lower()}_{w}', {'Op2': [form(op), *operands(2)]}, w, 1 if op in COMPARED else w, *behave(w, pair)


def cast_case(w, to, s, t):
    """A cast is defined where the number that it reads is one that the new type holds."""
    def read(a):
        return signed(w, a) if s == 'Signed' else a

    def fits(a, _):
        return sfits(to, read(a)) if t == 'Signed' else 0 <= read(a) < 1 << to
    return f'cast_{s[0]}{w}_{t[0]}{to}'.lower(), {'Op1': [{'Cast': [s, t, to]}, *operands(1)]}, w, to, fits, lambda a, _: read(a) % (1 << to)


def unary_cases():
    for w in WIDTHS:
        yield f'not_{w}', {'Op1': ['Not', *operands(1)]}, w, w, lambda a, b: True, lambda a, b, w=w: (1 << w) - 1 - a
        for to in WIDTHS:
            for s in ('Unsigned', 'Signed'):
                for t in ('Unsigned', 'Signed'):
                    yield cast_case(w, to, s, t)
    for op, result in (('CountOnes', lambda a, b: bin(a).count('1')), ('LeadingZeros', lambda a, b: 64 - a.bit_length()),
                       ('TrailingZeros', lambda a, b: (a & -a).bit_length() - 1 if a else 64)):
        yield op.lower(), {'Op1': [op, *operands(1)]}, 64, 32, lambda a, b: True, result


def operands(n):
    return [{'Copy': {'local': i + 1, 'steps': []}} for i in range(n)]


def function(value, w, result):
    """A function of two numbers that computes one value."""
    local = [{'ty': 'Bool' if result == 1 else {'Int': result}, 'home': 'ValueLocal'}] + [{'ty': {'Int': w}, 'home': 'ValueLocal'}] * 2
    body = ['Seq', {'Assign': [{'local': 0, 'steps': []}, value]}, 'Return']
    return {'lifetimes': 0, 'outlives': [], 'params': 2, 'types': [], 'locals': local, 'body': body}


def numbers(w, rng):
    edges = [0, 1, 2, 3, 7, w - 1, w, (1 << w - 1) - 1, 1 << w - 1, (1 << w - 1) + 1, (1 << w) - 2, (1 << w) - 1]
    return sorted({n % (1 << w) for n in edges} | {rng.getrandbits(w) >> rng.randrange(w) for _ in range(4)})


def write_crate(folder, cases):
    """A crate with one exported function for each case, as the prover would leave it; its source has what the generator reads there."""
    rlib, src = os.path.join(folder, 'crates', 'forms', 'out', 'rlib', 'forms.rlib', 'toolchain'), os.path.join(folder, 'crates', 'forms', 'src')
    os.makedirs(rlib)
    os.makedirs(src)
    with open(os.path.join(rlib, 'mir.json'), 'w', encoding='utf-8') as handle:
        json.dump([[f'forms::{name}', function(value, w, result)] for name, value, w, result, _, _ in cases], handle)
    with open(os.path.join(src, 'lib.rt'), 'w', encoding='utf-8') as source, open(os.path.join(folder, 'forms.h'), 'w', encoding='utf-8') as header:
        header.write('#include <stdbool.h>\n#include <stdint.h>\n')
        for name, _, w, result, _, _ in cases:
            source.write(f'#[unsafe(no_mangle)]\npub extern "C" fn {name}(a: u{w}, b: u{w}) -> {"bool" if result == 1 else f"u{result}"}\n{{\n}}\n')
            header.write(f'{"bool" if result == 1 else f"uint{result}_t"} {name}(uint{w}_t a, uint{w}_t b);\n')


def write_main(folder, cases):
    """A program that makes every call; returns what it must print."""
    rng, lines, want = random.Random(1), [], []
    for name, _, w, _, allowed, value in cases:
        for a in numbers(w, rng):
            for b in numbers(w, rng):
                if allowed(a, b):
                    lines.append(f'    {{ uint64_t r = {name}((uint{w}_t){a}u, (uint{w}_t){b}u); printf("%llx\\n", (unsigned long long)r); }}')
                    want.append(f'{value(a, b):x}')
    parts = [lines[i:i + 500] for i in range(0, len(lines), 500)]
    with open(os.path.join(folder, 'main.c'), 'w', encoding='utf-8') as handle:
        handle.write('#include <stdio.h>\n#include "forms.h"\n')
        for k, part in enumerate(parts):
            handle.write(f'static void part{k}(void)\n{{\n' + '\n'.join(part).replace('u,', 'ull,').replace('u)', 'ull)') + '\n}\n')
        handle.write('int main(void)\n{\n' + ''.join(f'    part{k}();\n' for k in range(len(parts))) + '    return 0;\n}\n')
    return want


def main():
    cases = list(binary_cases()) + list(unary_cases())
    with tempfile.TemporaryDirectory() as folder:
        write_crate(folder, cases)
        want = write_main(folder, cases)
        subprocess.run(['cc', '-c', '-I' + folder, f'{folder}/main.c', '-o', f'{folder}/main.o'], check=True)
        for passes in ([], ['--no-passes']):
            out = os.path.join(folder, 'forms.c')
            subprocess.run([sys.executable, 'port/generate.py', '--rlib', f'{folder}/crates', '--source', f'{folder}/crates', '--export', 'forms',
                            '--header', 'forms.h', '--out', out] + passes, check=True)
            for words in COMPILERS:
                command = ['cc', '-std=c99', '-Wall', '-Wextra', '-Wno-unused-function', '-Werror', '-I' + folder] + words
                subprocess.run(command + [out, f'{folder}/main.o', '-o', f'{folder}/run'], check=True)
                got = subprocess.run([f'{folder}/run'], capture_output=True, text=True, check=True).stdout.split()
                if got != want:
                    raise SystemExit(f'forms.py: FAILED: {words} {passes}: another number than the definition gives')
    print(f'forms: {len(cases)} operations at their widths, {len(want)} results as the definitions give, in {2 * len(COMPILERS)} builds')


if __name__ == '__main__':
    main()
