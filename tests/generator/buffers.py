#!/usr/bin/env python3
"""Builds of dist/ with KAGUTIN_CHECK_BUFFERS: every call of every header is lent every pair of its buffers overlapped, and each pointer as
null, and must answer 63 with zeros and touch nothing; buffers side by side it must take. Run from the root; needs a C compiler and no prover.
"""
# Clauses: [S-78]
import ctypes
import glob
import os
import random
import re
import subprocess
import sys
import tempfile

BAD_BUFFERS = 63
DIST = sorted(set(glob.glob('dist/*.c')) - {'dist/kagutin_all.c'})  # that one joins the others
SIZE = 40                   # of each buffer; no call of the store is done with it
NUMBERS = {'uint64_t': ctypes.c_uint64, 'uint32_t': ctypes.c_uint32, 'uint16_t': ctypes.c_uint16, 'uint8_t': ctypes.c_uint8,
           'int64_t': ctypes.c_int64, 'size_t': ctypes.c_size_t}
CALL = re.compile(r'^struct (\w+) (\w+)\(([^)]*)\);', re.M)
STRUCT = re.compile(r'^struct (\w+) \{(.*?)^\};', re.M | re.S)


def fail(message):
    raise SystemExit(f'buffers.py: FAILED: {message}')


def without_comments(text):
    return re.sub(r'/\*.*?\*/', '', text, flags=re.S)


def read_headers(defined):
    """The structs of the headers, and the calls that dist/ defines: name -> (struct of the result, types of the parameters)."""
    structs, calls = {}, {}
    for path in sorted(glob.glob('include/*.h')):
        with open(path, encoding='utf-8') as handle:
            text = without_comments(handle.read())
        for name, body in STRUCT.findall(text):
            members = re.findall(r'(\w+) (\w+);', body)
            if all(t in NUMBERS for t, _ in members):
                structs[name] = type(name, (ctypes.Structure,), {'_fields_': [(n, NUMBERS[t]) for t, n in members]})
        for result, name, params in CALL.findall(text):
            if name in defined:
                calls[name] = result, [re.sub(r'\s*\w+$', '', p.strip()) for p in params.split(',')]
    return structs, calls


def build(folder, words):
    """The shared object of all files of dist/, and the names that it defines."""
    out = os.path.join(folder, 'lent.so')
    subprocess.run([os.environ.get('CC', 'cc'), '-std=c99', '-O1', '-fPIC', '-shared', '-Iinclude', *words, *DIST, '-o', out],
                   check=True)
    said = subprocess.run(['nm', '-D', '--defined-only', out], capture_output=True, text=True, check=True).stdout
    return ctypes.CDLL(out), {line.split()[-1] for line in said.splitlines() if ' T ' in line}


class Call:
    """One call, and the memory that its buffers are lent from."""

    def __init__(self, library, structs, name, result, params):
        self.name, self.params, self.function = name, params, getattr(library, name)
        self.function.restype = self.result = structs[result]
        self.answer = self.result._fields_[0][0]           # code, or kind of an action
        self.buffers = sum('*' in p for p in params)
        self.memory = (ctypes.c_uint8 * (SIZE * (self.buffers + 2)))()
        self.start = ctypes.addressof(self.memory)

    def apart(self):
        """Buffers side by side, with no byte between them."""
        return [(self.start + SIZE * (k + 1), SIZE) for k in range(self.buffers)]

    def run(self, lent):
        """The result's fields by name, and whether the memory is as it was."""
        self.memory[:] = list(random.randbytes(len(self.memory)))
        before, args, lent = bytes(self.memory), [], iter(lent)
        for t in self.params:
            if '*' in t:
                pointer, size = next(lent)
                args.append(ctypes.c_void_p(pointer))
            else:
                args.append(ctypes.c_size_t(size) if t == 'size_t' else NUMBERS[t](1))
        done = self.function(*args)
        return {n: getattr(done, n) for n, _ in self.result._fields_}, bytes(self.memory) == before

    def refuses(self, lent, how):
        fields, untouched = self.run(lent)
        if fields.pop(self.answer) != BAD_BUFFERS or any(fields.values()) or not untouched:
            fail(f'{self.name}, {how}: {fields}, memory {"as it was" if untouched else "touched"}')

    def takes(self, lent, how):
        if self.run(lent)[0][self.answer] == BAD_BUFFERS:
            fail(f'{self.name}, {how}: refused')


def bad_lendings(call):
    """(buffers, what is wrong with them) for every buffer and every pair."""
    for i in range(call.buffers):
        for pointer, size, how in ((None, SIZE, 'null'), (None, 0, 'null of length 0'), (2 ** (8 * ctypes.sizeof(ctypes.c_void_p)) - 8, SIZE, 'beyond all memory')):
            lent = call.apart()
            lent[i] = (pointer, size)
            yield lent, f'buffer {i} {how}'
        for j in range(call.buffers):
            if i == j:
                continue
            at = call.apart()[j][0]
            for pointer, size, how in ((at + SIZE - 1, SIZE, 'begins at the last byte of'), (at - SIZE + 1, SIZE, 'ends at the first byte of'),
                                       (at, SIZE, 'is'), (at + 3, 5, 'lies inside'), (at - 1, SIZE + 2, 'lies around')):
                lent = [(call.start, 0)] * call.buffers                     # the others share no byte with these two
                lent[j], lent[i] = (at, SIZE), (pointer, size)
                yield lent, f'buffer {i} {how} buffer {j}'


def good_lendings(call):
    yield call.apart(), 'side by side'
    yield call.apart()[::-1], 'side by side, the last first'
    for i in range(call.buffers):
        lent = call.apart()
        lent[i] = (call.apart()[i - 1][0] + 5, 0)
        yield lent, f'buffer {i} of length 0 inside another'


def check(library, structs, calls):
    count = 0
    for name, (result, params) in sorted(calls.items()):
        call = Call(library, structs, name, result, params)
        for lent, how in bad_lendings(call):
            call.refuses(lent, how)
            count += 1
        for lent, how in good_lendings(call):
            call.takes(lent, how)
            count += 1
    return count


def not_asked_otherwise():
    """Without the option the text that the compiler sees has nothing of it."""
    for path in DIST:
        text = subprocess.run([os.environ.get('CC', 'cc'), '-std=c99', '-E', '-P', '-Iinclude', path], capture_output=True, text=True, check=True).stdout
        if re.search(r'are_apart|ASK_BUFFERS', text):
            fail(f'{path} asks without the option')


def main():
    random.seed(1)
    with tempfile.TemporaryDirectory() as folder:
        library, defined = build(folder, ['-DKAGUTIN_CHECK_BUFFERS'])
        structs, calls = read_headers(defined)
        unseen = {name for name in defined if name.startswith('kagutin')} - set(calls)
        if unseen or not calls:
            fail(f'no declaration of {sorted(unseen) or "any call"} found')
        count = check(library, structs, {name: call for name, call in calls.items() if any('*' in p for p in call[1])})
    not_asked_otherwise()
    print(f'buffers: {len(calls)} calls, {count} lendings; overlapping and null ones answered 63, memory untouched')


if __name__ == '__main__':
    sys.exit(main())
