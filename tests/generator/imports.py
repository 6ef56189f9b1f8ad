#!/usr/bin/env python3
"""Tests of port/generate.py --import: a program in two C files, one calling the other, does what the same program in one file does.
Run from the root, after the proofs. Functions of proved crates are marked as exported in a copy of the sources; the proved program stays.
"""
import ctypes
import os
import random
import re
import shutil
import subprocess
import sys
import tempfile

WARN = ['-std=c99', '-O1', '-fPIC', '-Wall', '-Wextra', '-Werror', '-Wno-unused-function']


def run(*command):
    done = subprocess.run(command, capture_output=True, text=True)
    if done.returncode:
        sys.exit(f'imports.py: {" ".join(command)}:\n{done.stdout}{done.stderr}')
    return done.stdout


def mark(folder, crate, module, names):
    """Marks functions of a module as exported."""
    path = os.path.join(folder, crate, 'src', module + '.rt')
    with open(path, encoding='utf-8') as handle:
        text = handle.read()
    for name in names:
        text, count = re.subn(rf'^pub fn {name}\(', f'#[unsafe(no_mangle)]\npub extern "C" fn {name}(', text, flags=re.M)
        if count != 1:
            sys.exit(f'imports.py: no function {name} in {path}')
    with open(path, 'w', encoding='utf-8') as handle:
        handle.write(text)


def generate(folder, out, export, header, words):
    run(sys.executable, 'port/generate.py', '--rlib', 'crates', '--source', folder, '--export', export, '--header', header,
        '--out', out, *words)


def build(folder, name, sources):
    out = os.path.join(folder, name + '.so')
    run('gcc', *WARN, '-shared', '-I', folder, *(os.path.join(folder, source) for source in sources), '-o', out)
    return ctypes.CDLL(out)


def undefined(folder, source):
    out = os.path.join(folder, source + '.o')
    run('gcc', *WARN, '-I', folder, '-c', os.path.join(folder, source), '-o', out)
    return {line.split()[-1] for line in run('nm', out).splitlines() if ' U ' in line}


HEADER = '''#include <stddef.h>
#include <stdint.h>
struct reply { uint64_t code, figure, size; };
struct alarm { uint64_t identity, class, second; };
uint64_t number(const uint8_t *s, size_t s_size, size_t at, size_t k);
void put_number(uint8_t *s, size_t s_size, size_t at, size_t k, uint64_t v);
struct reply refused(uint64_t code);
struct reply done(uint64_t figure, uint64_t size);
uint64_t state_answer(const uint8_t *log, size_t log_size, const uint8_t *area, size_t area_size, const uint8_t *state, size_t state_size);
uint64_t arrive(const uint8_t *list, size_t list_size, uint8_t *output, size_t output_size, uint16_t identity, uint64_t class, uint32_t second);
uint64_t clear(const uint8_t *list, size_t list_size, uint8_t *output, size_t output_size, uint16_t identity);
struct alarm gravest(const uint8_t *block, size_t block_size);
struct reply begin(const uint8_t *log, size_t log_size, const uint8_t *area, size_t area_size, uint8_t *state, size_t state_size, uint64_t writer);
'''


class Alarm(ctypes.Structure):
    _fields_ = [(name, ctypes.c_uint64) for name in ('identity', 'alarm_class', 'second')]


class Reply(ctypes.Structure):
    _fields_ = [(name, ctypes.c_uint64) for name in ('code', 'figure', 'size')]


def figures(struct):
    return tuple(getattr(struct, name) for name, _ in struct._fields_)


def alarm_calls(library, seed):
    """What events over random lists give and leave."""
    rng, out = random.Random(seed), []
    library.arrive.restype = library.clear.restype = ctypes.c_uint64
    library.gravest.restype = Alarm
    for _ in range(2000):
        data = bytearray(rng.randbytes(384))
        data[0] = rng.choice([0, 1, 3, 47, 48, 49, 255])
        identity = rng.choice([int.from_bytes(data[8:10], 'little'), rng.randrange(1 << 16)])
        held, output = (ctypes.c_uint8 * 384).from_buffer(data), (ctypes.c_uint8 * 384)()
        size = ctypes.c_size_t(384)
        out.append(library.arrive(held, size, output, size, ctypes.c_uint16(identity), ctypes.c_uint64(rng.randrange(12)), ctypes.c_uint32(rng.randrange(1 << 32))))
        out.append(bytes(output))
        out.append(library.clear(held, size, output, size, ctypes.c_uint16(identity)))
        out.append((bytes(output), figures(library.gravest(output, ctypes.c_size_t(64)))))
    return out


def begin_calls(library, seed):
    """Begin on strips that are nearly in order, and on any bytes."""
    rng, out = random.Random(seed), []
    library.begin.restype = Reply
    log, area = (ctypes.c_uint8 * (64 + 512 * 4))(), (ctypes.c_uint8 * (64 * 5))()
    for _ in range(2000):
        state = bytearray(1024)
        state[0], state[8] = 4, 5
        for _ in range(rng.randrange(3)):
            state[rng.randrange(1024)] = rng.randrange(256)
        held = (ctypes.c_uint8 * 1024).from_buffer(state)
        size = ctypes.c_size_t(rng.choice([1024, 1024, 1024, 1023]))
        writer = ctypes.c_uint64(rng.choice([0, 3, 7, 8, 1 << 63]))
        out.append(figures(library.begin(log, ctypes.c_size_t(len(log)), area, ctypes.c_size_t(len(area)), held, size, writer)))
        out.append(bytes(state))
    return out


def main():
    with tempfile.TemporaryDirectory() as folder:
        for crate in os.listdir('crates'):
            shutil.copytree(os.path.join('crates', crate, 'src'), os.path.join(folder, crate, 'src'))
        mark(folder, 'base_codec', 'numbers', ['number', 'put_number'])
        mark(folder, 'call_ask', 'lib', ['refused', 'done', 'state_answer'])
        mark(folder, 'unit_alarms_list', 'lib', ['arrive', 'clear', 'gravest'])
        mark(folder, 'call_writer', 'lib', ['begin'])
        with open(os.path.join(folder, 'test.h'), 'w', encoding='utf-8') as handle:
            handle.write(HEADER)
        results = ['--result', 'call_ask::Reply=reply', '--result', 'unit_alarms_list::Alarm=alarm']
        count = 0
        for above, below, names, calls in (('unit_alarms_list', 'base_codec', {'number', 'put_number'}, alarm_calls),
                                           ('call_writer', 'call_ask', {'refused', 'state_answer'}, begin_calls)):
            for passes in ([], ['--no-passes']):
                path = lambda name: os.path.join(folder, name)
                generate(folder, path('whole.c'), above, 'test.h', results + passes)
                generate(folder, path('below.c'), below, 'test.h', results + passes)
                generate(folder, path('above.c'), above, 'test.h', results + passes + ['--import', below])
                tag = f'{above}{len(passes)}'
                apart, whole = build(folder, tag + '-apart', ['above.c', 'below.c']), build(folder, tag + '-whole', ['whole.c'])
                missing = undefined(folder, 'above.c')
                if not names <= missing or missing & undefined(folder, 'whole.c') & names:
                    sys.exit(f'imports.py: {above} should call {names} of {below}; it calls {missing}')
                if calls(apart, 5) != calls(whole, 5):
                    sys.exit(f'imports.py: {above} apart from {below} differs from both in one file')
                count += 1
        print(f'imports: {count} programs in two C files do what they do in one')


if __name__ == '__main__':
    main()
