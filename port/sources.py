"""What the sources of a crate say beside the code: which functions are exported, names of parameters and fields, comments.

Names and comments are for the reader of the C file and change no code; a name that cannot be used in C is left out.
"""
import os
import re
import textwrap
from dataclasses import dataclass

from forms import Stop

KEYWORDS = set('auto break case char const continue default do double else enum extern float for goto if inline int long register '
               'restrict return short signed sizeof static struct switch typedef union unsigned void volatile while bool true '
               'false asm typeof'.split())
FUNCTION = re.compile(r'((?:^//.*\n)*)((?:^#\[.*\n)*)^(pub )?(extern "C" )?fn (\w+)(?:<[^>]*>)?\(([^)]*)\)(?: -> (\S+))?', re.M)
IMPL = re.compile(r'^impl(?:<[^>]*>)? (\w+)(?:<[^>]*>)? \{\n(.*?)^\}', re.M | re.S)
STRUCT = re.compile(r'^(?:pub )?struct (\w+)(?:<[^>]*>)? \{(.*?)^\}', re.M | re.S)


@dataclass(frozen=True)
class Export:
    path: str               # of the function in the program
    name: str               # in C
    types: tuple            # of the parameters, as the source writes them
    result: str


def modules(folder, crate):
    """(path of the module, text) of each source file of a crate."""
    src = os.path.join(folder, crate, 'src')
    if not os.path.isdir(src):
        raise Stop(f'crate {crate}: no sources {src}')
    for file in sorted(os.listdir(src)):
        if file.endswith('.rt'):
            with open(os.path.join(src, file), encoding='utf-8') as handle:
                yield crate if file == 'lib.rt' else f'{crate}::{file[:-3]}', handle.read()


def usable(names):
    return not set(names) & KEYWORDS and len(set(names)) == len(names) and not any(re.fullmatch(r't\d+', n) for n in names)


def signed_fields(folder, crate):
    """(path of the struct, name) of each field that is a signed number."""
    for module, text in modules(folder, crate):
        for name, fields in STRUCT.findall(text):
            for field in re.findall(r'^\s*(?:pub )?(\w+)\s*:\s*i(?:8|16|32|64)\b', fields, re.M):
                yield f'{module}::{name}', field


def described(folder, crate):
    """Path of each function of a crate -> the names of its parameters in the source, none where one cannot be used, and its comment."""
    out = {}
    texts = list(modules(folder, crate))
    texts += [(f'{module}::{name}', textwrap.dedent(methods)) for module, text in texts for name, methods in IMPL.findall(text)]
    for module, text in texts:
        for comment, _, _, _, name, params, _ in FUNCTION.findall(text):
            names = re.findall(r'(?:\bself\b)(?!\s*:)|\w+(?=\s*:)', params)
            words = ' '.join(line[2:].strip() for line in comment.splitlines())
            out[f'{module}::{name}'] = names if usable(names) else (), words.replace('*/', '* /').replace('/*', '/ *')
    return out


def fields(folder, crate):
    """Path of each struct of a crate -> the names of its fields."""
    return {f'{module}::{name}': names for module, text in modules(folder, crate) for name, found in STRUCT.findall(text)
            if usable(names := re.findall(r'^\s*(?:pub )?(\w+)\s*:', found, re.M))}


def exports(folder, crate):
    """The functions of a crate that are marked `#[unsafe(no_mangle)] pub extern "C"`."""
    for module, text in modules(folder, crate):
        for _, marks, public, extern, name, params, result in FUNCTION.findall(text):
            if '#[unsafe(no_mangle)]' in marks and public and extern:
                yield Export(f'{module}::{name}', name, tuple(re.findall(r'\w+\s*:\s*([^,]+)', params)), result)
