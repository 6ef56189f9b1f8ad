"""Counts, crate by crate, the places in src/ that docs/DESIGN-PASS.md is about: python3 tools/count_places.py [--list POINT] [FOLDER].

A place is a function, a type or a loop that is written the older way. The crates for C (`NAME_c`) and the tests are left out. A comment line that
begins with `Stays` right above or in a place says why it stays; such places are counted as kept.
"""
import collections
import os
import re
import sys

REFUSALS = set(range(1, 26)) | set(range(64, 69))
NONE = re.compile(r'0 for none|or 0 for no|0 where the|zeros? if|if (there is )?none|length if|0 if (that|there)|8 and 0|`DEPTHS` if|`n` if|'
                  r'for any other byte|where there is no number|of any other word|says nothing\b.*0|, 0 where', re.I)


def functions(text):
    """Each function as (name, comment above it, signature with its clauses, body)."""
    lines = text.split('\n')
    for n, line in enumerate(lines):
        found = re.match(r'( *)(?:pub )?(?:extern "C" )?fn (\w+)', line)
        if not found or line.endswith(';'):
            continue
        first = n
        while first and re.match(r' *(//|#\[)', lines[first - 1]):
            first -= 1
        opening = next((k for k in range(n, len(lines)) if lines[k] == found[1] + '{' or k == n and line.endswith(' {')
                        or lines[k].startswith(found[1] + ')') and lines[k].endswith(' {')), None)
        if opening is None:
            continue
        closing = next(k for k in range(opening + 1, len(lines)) if lines[k] == found[1] + '}')
        comment = '\n'.join(lines[first:n])
        yield found[2], comment, '\n'.join(lines[n:opening + 1]), '\n'.join(lines[opening + 1:closing])


def tokens(body):
    """A body without names and numbers: twins have the same."""
    body = re.sub(r'//[^\n]*', '', body)
    body = re.sub(r'\b(?!if|else|let|mut|while|for|in|return|match|true|false|as|u8|u16|u32|u64|usize)[A-Za-z_]\w*\b', 'i', body)
    return re.sub(r'\b\d\w*', '0', re.sub(r'\s+', ' ', body))


def flags(text, f):
    name, comment, signature, body = f
    if 'extern "C"' in signature:
        return None
    if re.search(r'-> u64\b', signature):
        numbers = {int(n) for n in re.findall(r'(?:return |^\s*)(\d+);?$', body, re.M)} & REFUSALS
        if name.endswith('answer') or numbers and re.search(r'refus|question|answer|0 for (done|a store|an operation)|1[1-6] for|past 32 bits', comment, re.I):
            return 'the number of a refusal'
    if re.search(r'-> (u\d+|usize|\w+)\b', signature) and NONE.search(comment) and '-> Option' not in signature and '-> Result' not in signature:
        return 'a number for none'
    if re.search(r'\brefused\(\d+\)', body):
        return 'a refusal by its number'
    return None


def point_1(files):
    for path, text in files:
        for f in functions(text):
            kind = flags(text, f)
            if kind:
                yield path, f'{f[0]}: {kind}', f[1] + f[3]
        for found in re.finditer(r'^((?: *//[^\n]*\n)*)((?:#\[[^\n]*\]\n)*)(?:pub )?struct (\w+) \{\n(.*?)^\}', text, re.M | re.S):
            named = re.findall(r'^ *(?:pub )?(code|failed|kind|mode|condition|stage|tried|source|rest|writer): (?:u64|bool)', found[4], re.M)
            if named:
                yield path, f'struct {found[3]}: {", ".join(named)}', found[1] + found[2] + found[4]


def point_2(files):
    same = collections.defaultdict(list)
    for path, text in files:
        for name, comment, signature, body in functions(text):
            if 'extern "C"' not in signature:
                kinds = re.sub(r'\w+:', ':', re.sub(r'\b(ensures|requires)\b.*', '', signature, flags=re.S).split('(', 1)[-1])
                same[tokens(body), re.sub(r'\s+', '', kinds)].append((path, name, comment + body))
    for (body, _), group in sorted(same.items(), key=lambda item: item[1][0][:2]):
        if len(group) > 1 and len(body) > 12:
            for path, name, text in group:
                yield path, f'{name}: like {", ".join(sorted({n for _, n, _ in group if n != name})) or "the one in " + next((p for p, _, _ in group if p != path), path)}', text


def loops(text):
    for found in re.finditer(r'^((?: *//[^\n]*\n)*)( *)while ([^\n]*) \{\n(.*?)^\2\}', text, re.M | re.S):
        yield found[3], found[1], found[4]


def point_3(files):
    for path, text in files:
        for test, comment, body in loops(text):
            if re.search(r'^\s*\w+ [-+]= ', body, re.M):
                yield path, f'while {test}', comment + body


BY_HAND = re.compile(r'if (\w[\w.]*) (?:<|<=|>|>=) (\w[\w.]*) \{\s*(?:return )?(?:\1|\2|0|\1 - \2);?\s*\}(?: else \{\s*)?\s*(?:\1|\2|0|\1 - \2|\2 - \1)\b|'
                     r'if \w+ \{ 1 \} else \{ 0 \}|if [\w.]+ == [\w.]+ \{ [01] \} else \{ [01] \}|'
                     r'if (\w+) == 0 \{\s*return 0;\s*\}\s*\3 - 1|if (\w+) == u64::MAX|\+ \((?:u64::MAX|0xffff_ffff_ffff_ffff) - ')


def point_4(files):
    for path, text in files:
        for name, comment, signature, body in functions(text):
            for _ in BY_HAND.findall(body):
                yield path, f'{name}: a choice of two numbers by hand', comment + body
            if re.search(r'if a\.(\w+) != b\.\1', body):
                yield path, f'{name}: an order by hand', comment + body


def facts(signature):
    for clause in re.findall(r'requires(?: \w+)? \{(.*?)\}(?=\s*(?:requires|ensures|\{?$))', signature, re.S):
        for fact in re.split(r'×', clause):
            fact = re.sub(r'\.(now|old|entry\.now)\b', '', re.sub(r'\s+', ' ', fact)).strip()
            while fact.startswith('(') and fact.endswith(')') and fact.count('(') == fact.count(')'):
                fact = fact[1:-1]
            if fact:
                yield fact


def point_5(files):
    of = collections.defaultdict(list)
    for path, text in files:
        for name, comment, signature, body in functions(text):
            if 'extern "C"' in signature:
                continue
            for fact in set(facts(signature)):
                of['fact ' + fact].append((path, name, comment + body))
            params = re.findall(r'(\w+): ([^,\n)]+)', signature.split('ensures')[0].split('requires')[0])
            names = [n for n, _ in params]
            if len(set(names) & {'log', 'groups', 'homes', 'start'}) == 4:
                of['parameters log, groups, homes, start'].append((path, name, comment + body))
            if len(set(names) & {'last', 'heads', 'links'}) == 3 or len(set(names) & {'cells', 'heads', 'links'}) == 3:
                of['parameters of the chains'].append((path, name, comment + body))
    for fact, where in sorted(of.items()):
        if len(where) > 2:
            yield where[0][0], f'{fact}: {len(where)} functions', ''.join(text for _, _, text in where)


def point_6(files):
    for path, text in files:
        for name, comment, signature, body in functions(text):
            if re.search(r'\b(heads|closers)\b.*\b(links|table)\b', signature.replace('\n', ' ').split('requires')[0]):
                yield path, f'{name}: parallel arrays', comment + body
            if re.search(r'^(The (place|byte|index)|.*first (row|alarm|`stop`))', comment.strip('/ \n'), re.M) and 'while' in body:
                yield path, f'{name}: a list searched by hand', comment + body


def point_7(files):
    for path, text in files:
        for name, comment, signature, body in functions(text):
            if len(re.findall(r'if (?:\w+\.)?(?:k|stage|kind|sign) == \d+', body)) > 2:
                yield path, f'{name}: a switch on which step', comment + body
        for table in re.findall(r'^const (\w+): \[u64; \d+\]', text, re.M):
            yield path, f'{table}: a table of steps', text[:text.index('const ' + table)].rsplit('\n\n', 1)[-1]


POINTS = {'1': point_1, '2': point_2, '3': point_3, '4': point_4, '5': point_5, '6': point_6, '7': point_7}


def main(args):
    listed = args[args.index('--list') + 1] if '--list' in args else None
    rest = [a for a in args if a not in ('--list', listed)]
    folder = rest[0] if rest else 'crates'
    files = []
    for crate in sorted(os.listdir(folder)):
        for where, _, names in sorted(os.walk(os.path.join(folder, crate, 'src'))):
            if not crate.endswith('_c'):
                files += [(os.path.join(where, n), open(os.path.join(where, n), encoding='utf-8').read()) for n in sorted(names) if n.endswith('.rt')]
    for point, count in POINTS.items():
        places = list(count(files))
        kept = [p for p in places if '// Stays' in p[2]]
        print(f'point {point}: {len(places)} places, {len(kept)} of them kept with a reason')
        if listed == point:
            for path, what, text in places:
                print(f'  {os.path.relpath(path, folder)}: {what}{"  (stays)" if "// Stays" in text else ""}')


if __name__ == '__main__':
    main(sys.argv[1:])
