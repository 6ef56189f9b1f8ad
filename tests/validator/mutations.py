"""Small wrong edits of C text: one operator, number, variable, statement or helper of one function."""
import re

OPERATORS = {'+': '-', '-': '+', '<': '<=', '<=': '<', '==': '!=', '!=': '==', '&': '|', '|': '&', '^': '|', '<<': '>>', '>>': '<<', '*': '+',
             '/': '%', '%': '/', '>': '>='}
WORDS = {'load_2': 'load_4', 'load_4': 'load_2', 'load_8': 'load_4', 'store_2': 'store_4', 'store_4': 'store_2', 'store_8': 'store_4',
         'break': 'continue', 'continue': 'break', 'true': 'false', 'false': 'true', 'uint8_t': 'uint16_t', 'uint16_t': 'uint8_t',
         'uint32_t': 'uint64_t', 'count_ones': 'trailing_zeros', 'divide_signed': 'remainder_signed'}
TOKEN = re.compile(r'(?<= )(?:[-+<&|^*/%]|<=|==|!=|<<|>>|>)(?= )|\b\d+u\b|\bt\d+\b|\b(?:' + '|'.join(WORDS) + r')\b')


def functions(text):
    """(name, first line, line after the last) of each function that is defined in the text, helpers left out."""
    lines, out, start = text.split('\n'), [], None
    for n, line in enumerate(lines):
        if line and line[0] not in ' /#{}' and re.search(r'\w+\(', line) and not line.endswith(';'):
            start = n
        if line == '}' and start is not None:
            name = re.search(r'(\w+)\(', ' '.join(lines[start:start + 3]))[1]
            if '__' in name or not lines[start].startswith('static'):
                out.append((name, start, n + 1))
            start = None
    return out


def statement_dropped(rng, lines, begin, end):
    """The body without one of its statements; None if that one is no whole line."""
    n = rng.randrange(begin, end)
    whole = re.fullmatch(r' +(?!return|uint|struct|bool|const|break|continue|\(void\)).*;', lines[n])
    return lines[:n] + [''] + lines[n + 1:] if whole and lines[n - 1].rstrip()[-1:] in '{};' else None


def statements_swapped(rng, lines, begin, end):
    if end - begin < 2:
        return None
    n = rng.randrange(begin, end - 1)
    alike = all(re.fullmatch(r' +(?!return|uint|struct|bool|const|break|continue).*;', line) for line in lines[n:n + 2])
    same = alike and len(lines[n]) - len(lines[n].lstrip()) == len(lines[n + 1]) - len(lines[n + 1].lstrip())
    return lines[:n] + [lines[n + 1], lines[n]] + lines[n + 2:] if same and lines[n] != lines[n + 1] else None


def token_changed(rng, lines, begin, end):
    n = rng.randrange(begin, end)
    tokens = list(TOKEN.finditer(lines[n]))
    if not tokens or re.match(r' +(?:uint\d+_t|struct \w+|bool) (?:\*|\w+[,;])', lines[n]):
        return None
    token = rng.choice(tokens)
    word = token[0]
    if word[0].isdigit():
        new = f'{rng.choice([int(word[:-1]) + 1, int(word[:-1]) ^ 1, int(word[:-1]) * 2])}u'
    elif re.fullmatch(r't\d+', word):
        new = rng.choice(sorted(set(re.findall(r'\bt\d+\b', ' '.join(lines[begin:end])))))
    else:
        new = {**OPERATORS, **WORDS}[word]
    return lines[:n] + [lines[n][:token.start()] + new + lines[n][token.end():]] + lines[n + 1:] if new != word else None


def mutant(rng, text, found):
    """(name, wrong text, what was changed) of a function among those found."""
    lines = text.split('\n')
    while True:
        name, start, stop = rng.choice(found)
        begin = start + 1 + lines[start:stop].index('{')
        if begin >= stop - 1:
            continue
        change = rng.choice([token_changed] * 6 + [statement_dropped, statements_swapped])
        new = change(rng, lines, begin, stop - 1)
        if new is not None and new != lines:
            at = next(n for n in range(len(lines)) if lines[n] != new[n])
            return name, '\n'.join(new), f'{lines[at].strip()}  ->  {new[at].strip() or "nothing"}'


def wrong_edits(rng, text, count):
    """function -> (its changed lines by number, what was changed), of so many functions."""
    lines, found, out = text.split('\n'), functions(text), {}
    while len(out) < min(count, len(found) // 2):
        name, wrong, what = mutant(rng, text, [f for f in found if f[0] not in out])
        out[name] = {n: line for n, line in enumerate(wrong.split('\n')) if line != lines[n]}, what
    return out
