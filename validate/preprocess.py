"""What the preprocessor makes of a C file: its text for a target, and that no compiler sees a text that is not validated.

The directives may ask for the macros below and for no others. All ways to define them are tried: each must give, but for hints to the
compiler, one of the texts of the targets with the same width of size_t and the same byte order.
"""
import itertools
import os
import re
import subprocess

from terms import Refused

HERE = os.path.dirname(os.path.abspath(__file__))
ORDERS = {'little': 1234, 'big': 4321}
MACHINES = ('__x86_64__', '__i386__', '__ARM_FEATURE_UNALIGNED')        # at most one of them
SWITCHES = ('__clang__', '__OPTIMIZE_SIZE__', 'KAGUTIN_PLAIN_C')        # asked by `defined` only
ORDER_NAMES = ('__BYTE_ORDER__', '__ORDER_LITTLE_ENDIAN__')
SIZES = 'SIZE_MAX < UINT64_MAX'                                         # the only question about widths
NEVER = ('__cplusplus', 'KAGUTIN_CHECK_BUFFERS')                        # not validated with these
ASKED = {'__GNUC__', *MACHINES, *SWITCHES, *ORDER_NAMES, *NEVER}
RESERVED = {'_Pragma', '__VA_ARGS__', '__attribute__', '__builtin_ctzll', *ASKED}
CONDITIONS = ('if', 'ifdef', 'ifndef', 'elif', 'else', 'endif')
STANDARD = ('stdbool.h', 'stddef.h', 'stdint.h', 'string.h')
HINTS = (r'^\s*#\s*pragma GCC (?:unroll \d+|diagnostic ignored "-W[a-z-]+")$', r'__attribute__\s*\(\(\s*noinline\s*\)\)')


def run(path, include, words):
    """The text that a compiler with these macros sees, with markers of lines."""
    command = ['gcc', '-std=c99', '-E', '-nostdinc', '-undef', '-I' + os.path.join(HERE, 'c_headers'), '-I' + include, *words]
    text = None if os.path.isfile(path) else path                       # a text that is no file comes by the standard input
    done = subprocess.run([*command, '-xc', '-' if text else path], input=text, capture_output=True, text=True)
    if done.returncode:
        raise Refused(f'gcc -E: {done.stderr[:300]}')
    return done.stdout


def order_macros(order):
    return {} if order is None else {'__ORDER_LITTLE_ENDIAN__': 1234, '__ORDER_BIG_ENDIAN__': 4321, '__BYTE_ORDER__': ORDERS[order]}


def without_hints(text):
    """The text without the hints to the compiler that are known to mean nothing; any other is refused."""
    for hint in HINTS:
        text = re.sub(hint, '', text, flags=re.M)
    if re.search(r'__attribute__|^\s*#\s*pragma|\b_Pragma\b', text, re.M):
        raise Refused('a pragma or an attribute that is not known')
    return text


def preprocessed(path, include, target):
    macros = {**order_macros(target.order), 'VALIDATE_SIZE': target.size_bits}
    return without_hints(run(path, include, [f'-D{name}={value}' for name, value in macros.items()] + [f'-D{word}' for word in target.defines]))


# ---- the file as it is written

def raw(path):
    with open(path, 'rb') as handle:
        return handle.read().decode('latin-1')


def source(text):
    """The text without comments, lines put together. What compilers may read in two ways is refused."""
    if re.search(r'\?\?|%:|<:|:>|<%|%>|\\[^\S\n]|//', text):
        raise Refused('trigraphs, digraphs, a backslash before a blank, or a comment that C90 has not')
    text = re.sub(r'/\*.*?\*/|("(?:\\.|[^"\\\n])*")', lambda m: m[1] or ' ', text.replace('\\\n', ''), flags=re.S)
    if re.search(r'[^\n -~]', text):
        raise Refused('letters that are not ASCII')
    names = set(re.findall(r'\b_[_A-Z]\w*', text)) - RESERVED
    if names or re.search(r'\b(?:linux|unix|asm|typeof)\b', text):
        raise Refused(f'names that a compiler may define: {sorted(names)}')
    return text


def directives(path):
    """(word, rest) of each directive. What a compiler defines may stand in conditions only."""
    text = source(raw(path))
    found = re.findall(r'^ *# *(\w*)(.*)$', text, re.M)
    if ASKED & set(re.findall(r'\w+', re.sub(r'^ *# *(?:el)?if.*$', '', text, flags=re.M))):
        raise Refused('what a compiler defines, outside a condition')
    if {word for word, _ in found} - {*CONDITIONS, 'include', 'define', 'pragma', 'error'}:
        raise Refused('another directive')
    return found


def included(path, include):
    """The file and the headers of its folder that it includes, each once; other headers than these and the standard ones are refused."""
    found, todo = [], [path]
    while todo:
        path = todo.pop()
        if path not in found:
            found.append(path)
            for _, rest in [pair for pair in directives(path) if pair[0] == 'include']:
                name = re.fullmatch(r'\s*(?:"(\w+\.h)"|<(\w+\.h)>)\s*', rest)
                if not name or not name[1] and name[2] not in STANDARD:
                    raise Refused(f'#include{rest}')
                todo += [os.path.join(include, name[1])] if name[1] else []
    return found


def includes(path):
    """The file's include directives alone: what it sees of its headers is what others see."""
    return ''.join(f'#include{rest}\n' for word, rest in directives(path) if word == 'include')


def asked(path):
    """The macros that a file's conditions ask for, and the numbers in them. Of most it may ask only whether they are defined."""
    own, names, numbers = set(), set(), set()
    for word, rest in directives(path):
        if word == 'define':
            own.add(re.match(r'\s*(\w+)', rest)[1])
        elif word in ('if', 'elif', 'ifdef', 'ifndef'):
            names |= set(re.findall(r'\b[A-Za-z_]\w*', rest)) - {'defined'}
            numbers |= {int(n) for n in re.findall(r'\b\d+', rest)}
            values = set(re.findall(r'\b[A-Za-z_]\w*', re.sub(r'defined\s*\(?\s*\w+|' + SIZES, '', rest))) if word in ('if', 'elif') else set()
            if values - own - {'__GNUC__', *ORDER_NAMES}:
                raise Refused(f'a condition on the value of {sorted(values - own)}')
    guard = os.path.basename(path).replace('.', '_').upper() if path.endswith('.h') else None
    unknown = names - own - ASKED - {'SIZE_MAX', 'UINT64_MAX', guard}
    if unknown:
        raise Refused(f'conditions on {sorted(unknown)}')
    return names, numbers, own


# ---- all that a compiler may define

def machines(names, numbers):
    """(macros and their values, byte order or None) of each way to define what is asked for."""
    versions = [None, *sorted({n + d for n in numbers for d in (-1, 0, 1) if n + d > 0} or {12})] if '__GNUC__' in names else [None]
    kinds = [None, *(m for m in MACHINES if m in names)]
    orders = [None, *ORDERS] if set(ORDER_NAMES) & names else [None]
    switches = [name for name in SWITCHES if name in names]
    for version, kind, order, on in itertools.product(versions, kinds, orders, itertools.product((None, 1), repeat=len(switches))):
        macros = {'__GNUC__': version, **({kind: 1} if kind else {}), **dict(zip(switches, on)), **order_macros(order)}
        yield {name: value for name, value in macros.items() if value is not None}, order


def live(path, ways, own):
    """For each way the directives that count with it, by their places; all ways in one run of the preprocessor."""
    text, found = [], directives(path)
    for n, (macros, size) in enumerate(ways):
        given = {**macros, 'UINT64_MAX': f'{(1 << 64) - 1}u', 'SIZE_MAX': f'{(1 << size) - 1}u'}
        text += [f'#undef {name}' for name in sorted(own | ASKED)] + [f'#undef {name}\n#define {name} {value}' for name, value in given.items()]
        text += [f'WAY {n}']
        for k, (word, rest) in enumerate(found):
            text += ([f'#{word}{rest}'] if word in CONDITIONS or word == 'define' else []) + [f'LIVE {k}']
    out = run('\n'.join(text) + '\n', '.', ['-P'])
    return [tuple(re.findall(r'LIVE (\d+)', part)) for part in re.split(r'WAY \d+', out)[1:]]


def plain(text):
    """The text without markers of lines and layout."""
    return ' '.join(re.sub(r'^#.*$', '', text, flags=re.M).split())


def check_machines(path, include, targets):
    """Refused unless every text that a compiler may see is one of the targets'. Gives how many ways to define macros were tried."""
    seen = {}
    for target in targets:
        seen.setdefault((target.size_bits, target.order), set()).add(plain(preprocessed(path, include, target)))
    if any(asked(header)[0] & (ASKED - set(NEVER)) for header in included(path, include)[1:]):
        raise Refused('a header that depends on the compiler')
    names, numbers, own = asked(path)
    ways = [(macros, order, size) for macros, order in machines(names, numbers) for size in sorted({size for size, _ in seen})]
    forms = dict(zip(zip(live(path, [(macros, size) for macros, _, size in ways], own), [way[1:] for way in ways]), ways))
    for macros, order, size in forms.values():
        words = [f'-D{name}={value}' for name, value in {**macros, 'VALIDATE_SIZE': size}.items()]
        text = plain(without_hints(run(path, include, words)))
        if not all(text in seen[size, o] for o in ([order] if order else ORDERS)):
            raise Refused(f'a text that is not validated, with {" ".join(words)}')
    return len(ways)
