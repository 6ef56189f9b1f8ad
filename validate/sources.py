"""What the sources say of the exported functions and of the structs of their results: names, types, order. The proved program has the
types without names and without signs, so these come from crates/; nothing of port/ is used."""
import os
import re
from dataclasses import dataclass

from terms import Refused

NUMBERS = {**{f'{sign}{bits}': ('' if sign == 'i' else 'u') + f'int{bits}_t' for sign in 'iu' for bits in (8, 16, 32, 64)},
           'usize': 'size_t', 'bool': '_Bool'}
SLICES = {'&[u8]': 'const uint8_t *', '&mut [u8]': 'uint8_t *'}
EXPORT = re.compile(r'#\[unsafe\(no_mangle\)\]\s*pub extern "C" fn (\w+)\s*\(([^)]*)\)\s*(?:->\s*([\w:]+))?')
STRUCT = r'(?:pub )?struct {name}\s*\{{(.*?)\n\}}'


@dataclass(frozen=True)
class Exported:
    path: str           # of the program's function
    name: str
    params: tuple       # of (name, type as the source writes it)
    result: str         # the same; '' for none


def source_files(folder, crate):
    """(path of the module, text without comments) of each source file."""
    src = os.path.join(folder, crate, 'src')
    for file in sorted(os.listdir(src)):
        if file.endswith('.rt'):
            with open(os.path.join(src, file), encoding='utf-8') as handle:
                yield crate if file == 'lib.rt' else f'{crate}::{file[:-3]}', re.sub(r'//.*', '', handle.read())


def exported(folder, crate):
    """The functions of a crate that C may call, by name."""
    out = {}
    for module, text in source_files(folder, crate):
        if len(EXPORT.findall(text)) != text.count('extern "C" fn'):
            raise Refused(f'{module}: an exported function that is written in another way')
        for name, params, result in EXPORT.findall(text):
            pairs = [tuple(word.strip() for word in part.split(':', 1)) for part in params.split(',') if part.strip()]
            out[name] = Exported(f'{module}::{name}', name, tuple(pairs), result)
    return out


def parameter_names(folder, path):
    """The names of a function's parameters, or None: a hint for copies that lack some."""
    *module, name = path.split('::')
    if not os.path.isdir(os.path.join(folder, module[0], 'src')):
        return None
    for found, text in source_files(folder, module[0]):
        match = re.search(rf'\bfn {name}\s*(?:<[^>]*>)?\s*\(([^)]*)\)', text) if found in ('::'.join(module), '::'.join(module[:-1])) else None
        if match:
            return re.findall(r'(?:\bself\b)(?!\s*:)|\w+(?=\s*:)', match[1])
    return None


def fields(folder, path):
    """(name, type) of each field of a struct, in order."""
    *module, name = path.split('::')
    for found, text in source_files(folder, module[0]):
        match = re.search(STRUCT.format(name=name), text, re.S) if found == '::'.join(module) else None
        if match:
            return re.findall(r'(?:pub )?(\w+)\s*:\s*([\w&\[\] ]+?)\s*,', match[1])
    raise Refused(f'no struct {path} in the sources')


def c_parameters(export):
    """(name, type in C) of each parameter of the exported function, as the header must have it."""
    out = []
    for name, t in export.params:
        if t in SLICES:
            out += [(name, SLICES[t]), (f'{name}_size', 'size_t')]
        elif t in NUMBERS:
            out.append((name, NUMBERS[t]))
        else:
            raise Refused(f'{export.name}: a parameter of {t}')
    return out
