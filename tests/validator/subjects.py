"""What the tests of the validator do with a C file: make it, build it, run it, have it validated."""
import ctypes
import os
import random
import subprocess
import sys

HERE = os.path.dirname(os.path.abspath(__file__))
ROOT = os.path.dirname(os.path.dirname(HERE))
sys.path[:0] = [os.path.join(ROOT, 'validate'), HERE]

from files import File, Words, read_c  # noqa: E402
from helpers import HELPERS  # noqa: E402
from preprocess import check_machines  # noqa: E402
from programs import EXPORTED, LEAST  # noqa: E402
from solver import Solver  # noqa: E402
from targets import targets  # noqa: E402
from terms import Refused  # noqa: E402

TARGETS = list(targets())
SOME = [TARGETS[0], TARGETS[2], TARGETS[3], TARGETS[-1]]        # both forms, both byte orders, the widest and the narrowest
INPUTS = 300            # tried where a wrong edit is accepted


class Failed(Exception):
    """A test that fails."""


def write(path, text):
    with open(path, 'w', encoding='utf-8') as handle:
        handle.write(text)


def text_of(path):
    with open(path, encoding='utf-8') as handle:
        return handle.read()


def generate(port, words, out, *passes):
    """None, or what the generator says when it stops."""
    run = subprocess.run([sys.executable, os.path.join(port, 'generate.py'), *words, *passes, '--out', out], capture_output=True, text=True, cwd=ROOT)
    return run.stderr.strip()[-200:] if run.returncode else None


# ---- validated

def said_against(step):
    """What the validator says against a step, or None. As validate.py has it, what nothing was made for is refused."""
    try:
        step()
    except Refused as refused:
        return str(refused)
    except Exception as error:
        return f'{type(error).__name__}: {error}'
    return None


def refusals(program, words, path, include, target, names=None, helpers=()):
    """By name what the validator says against the file ('') or a function, if anything. `names`: only these functions."""
    found, solver = {}, Solver('z3')
    found[''] = said_against(lambda: found.update(file=File(program, Words(path, words), include, target)) or found['file'].check_border())
    file = found.pop('file', None)
    if not found['']:
        found |= {name: said_against(lambda name=name: file.check_helper(solver, name)) for name in helpers}
        found |= {name: said_against(lambda name=name: file.validate(solver, name)) for name in (file.functions() if names is None else names)}
    return {name: said for name, said in found.items() if said}


def refusal(*args, **words):
    """The first thing that the validator says against a file, or None."""
    return next(iter(refusals(*args, **words).values()), None)


def differing(right, wrong, include, target):
    """The functions and helpers of the wrong file that are others than in the right one: all, if structs are."""
    files = [read_c(path, include, target) for path in (right, wrong)]
    same = files[0].members == files[1].members
    changed = [name for name in files[1].own if not same or name not in files[0].own or files[0].text(name) != files[1].text(name)]
    helpers = [name for name in changed if name in HELPERS]
    return [name for name in changed if name not in helpers], helpers


def refused_somewhere(right, wrong, include, program, words):
    """What the validator says against what differs, on one of some targets; '' if it accepts it, None if nothing differs."""
    try:
        check_machines(wrong, include, TARGETS)
    except Refused as refused:
        return str(refused)
    seen = False
    for target in SOME:
        try:
            names, helpers = differing(right, wrong, include, target)
        except Refused as refused:
            return str(refused)
        seen |= bool(names or helpers)
        said = refusal(program, words, wrong, include, target, names, helpers) if names or helpers else None
        if said:
            return said
    return '' if seen else None


# ---- built and run

def build(folder, path, name):
    out = os.path.join(folder, name + '.so')
    run = subprocess.run(['cc', '-std=c99', '-O1', '-w', '-fPIC', '-shared', '-I' + folder, path, '-o', out], capture_output=True, text=True)
    return None if run.returncode else ctypes.CDLL(out)


def behaviour(library, seed):
    """What the exported functions of a random program give and leave on random inputs."""
    rng, out = random.Random(seed), []
    for _ in range(INPUTS):
        data = rng.randbytes(rng.choice([LEAST - 1, LEAST, LEAST + 9]))
        a, b = (rng.choice([rng.randrange(20), rng.getrandbits(64), rng.getrandbits(64) >> rng.randrange(64)]) for _ in range(2))
        for k in range(EXPORTED):
            held = (ctypes.c_uint8 * (len(data) + 64)).from_buffer_copy(data + bytes(64))
            call = getattr(library, f'call_{k}')
            call.restype = ctypes.c_uint64
            out.append((call(ctypes.c_uint64(a), ctypes.c_uint64(b), held, ctypes.c_size_t(len(data))), bytes(held)))
    return out


def same_behaviour(folder, one, other, tag):
    """Whether two C files do the same; a crash, or a build that fails, is another behaviour. In a child process: wrong C may end it."""
    child = os.fork()
    if child == 0:
        libraries = [build(folder, path, f'{tag}{k}') for k, path in enumerate((one, other))]
        os._exit(0 if all(libraries) and behaviour(libraries[0], 7) == behaviour(libraries[1], 7) else 1)
    return os.waitpid(child, 0)[1] == 0


def machine_code(path, include, out):
    """What the compiler makes of a file, None if it takes it not."""
    run = subprocess.run(['cc', '-std=gnu99', '-O2', '-w', '-c', '-I' + include, path, '-o', out], capture_output=True, cwd=ROOT)
    if run.returncode:
        return None
    with open(out, 'rb') as handle:
        return handle.read()
