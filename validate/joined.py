"""The one file that has all others in it (dist/kagutin_all.c): its parts are the validated files, word for word but for a prefix before names.

A name that is given a prefix everywhere, and a new name that nothing else has, mean what the old one did. So a part means what its file
does, if no macro that is alive where the part begins has a name that stands in it.
"""
import os
import re

from preprocess import included, raw, source
from terms import Refused

MARK = r'/\* ==== ([\w./]+) ==== \*/'
TOKEN = re.compile(r'"(?:\\.|[^"\\\n])*"|\w+|->|\n *#|[^\s]')


def tokens(text):
    """A text's words and signs, comments left out; a directive begins with a line's end."""
    return [token.replace(' ', '') for token in TOKEN.findall('\n' + source(text))]


def macros(text):
    """The macros that may be defined at a text's end, whatever its conditions."""
    last = {name: word for word, name in re.findall(r'^ *# *(define|undef) +(\w+)', text, re.M)}
    return {name for name, word in last.items() if word == 'define'}


def parts_of(path):
    """(name of the source, text before it, its text) of each part."""
    text = raw(path)
    found = list(re.finditer(MARK, text))
    for mark, following in zip(found, found[1:]):
        yield mark[1], text[:mark.start()], text[mark.end():following.start()]


def without_own_includes(text):
    return re.sub(r'^#include "\w+\.h"\n', '', text, flags=re.M)


def check_names(ours, theirs):
    """Refused unless the tokens differ by a prefix before some names only, the same for each name at each place but behind a dot."""
    if len(ours) != len(theirs):
        raise Refused('another number of words')
    new, last = {}, ''
    for a, b in zip(ours, theirs):
        if last in ('.', '->'):
            if a != b:
                raise Refused(f'a member {b} for {a}')
        elif new.setdefault(a, b) != b or a != b and not re.fullmatch(r'[a-z_]+_' + re.escape(a), b):
            raise Refused(f'{b} for {a}')
        last = a
    changed = {b for a, b in new.items() if a != b}
    if changed & set(ours) or len(changed) != sum(a != b for a, b in new.items()):
        raise Refused('a new name that was there before')


def check_joined(path, header, files, include):
    """Refused unless each of the files that the joined one has is in it as it is. Gives how many there are."""
    count, texts = 0, {name: (before, text) for name, before, text in parts_of(path)}
    for file in files:
        if file not in texts:
            continue
        before, text = texts[file]
        if re.search(r'^ *# *pragma (?!GCC diagnostic ignored "-W)', before, re.M):
            raise Refused(f'{file}: a pragma in front of it')
        text = re.sub(r'(?:^#undef \w+\n)+\s*\Z', '', text, flags=re.M)
        check_names(tokens(without_own_includes(raw(file))), tokens(text))
        headers = included(file, include)[1:]
        alive = (macros(raw(header)) | macros(before)) - set().union(*(macros(raw(name)) for name in headers))
        if alive & set(tokens(text)):
            raise Refused(f'{file}: macros of other parts: {sorted(alive & set(tokens(text)))}')
        if any(without_own_includes(raw(name)) not in raw(header) for name in headers):
            raise Refused(f'{file}: another text of its headers in {os.path.basename(header)}')
        count += 1
    if not count:
        raise Refused('none of the files is in it')
    return count
