#!/usr/bin/env python3
"""Follows every link and every path that the documents and the headers name. Run from the root; status 1 if one leads nowhere.

A path is a word in backticks, or in a header's comment, that begins with a folder of the repository; a file name alone, as `Book.antt`, must be that
of some file. What a build makes (target/, *.img and so on) is left out, and so are notes on past landings, which keep the names of their time.
"""
import fnmatch
import os
import re
import subprocess
import sys

ENDINGS = ('antt', 'c', 'edit', 'h', 'html', 'in', 'md', 'mk', 'py', 'rs', 'rt', 'sh', 'svg', 'toml', 'txt', 'yml')
LINK = re.compile(r'\[[^\]]*\]\(([^)\s]+)\)')
TICKED = re.compile(r'`([^`\n]+)`')
PATH = re.compile(r'[\w.*-]+(?:/[\w.*{},-]+)*/?')
MADE = ('target/', 'rust/target/', 'build/', 'crates/*/out/')


def tracked():
    """What is checked in; where there is no git, as in an unpacked archive, all files but those that a build makes."""
    try:
        out = subprocess.run(['git', 'ls-files'], capture_output=True, text=True, check=True).stdout
        return out.split('\n')[:-1]
    except (OSError, subprocess.CalledProcessError):
        found = [os.path.relpath(os.path.join(folder, name)) for folder, _, names in os.walk('.') for name in names]
        return [file for file in found if not file.startswith(MADE)]


def folders(files):
    found = set()
    for file in files:
        while '/' in file:
            file = file.rsplit('/', 1)[0]
            found.add(file)
    return found


def expand(path):
    """a/{b,c}.d is two paths."""
    match = re.match(r'(.*)\{([^}]*)\}(.*)', path)
    if not match:
        return [path]
    return [match.group(1) + word + match.group(3) for word in match.group(2).split(',')]


class Tree:
    def __init__(self):
        self.files = tracked()
        self.folders = folders(self.files)
        self.names = {file.rsplit('/', 1)[-1] for file in self.files}
        self.tops = {folder for folder in self.folders if '/' not in folder}

    def has(self, path, base):
        path = path.rstrip('/')
        for start in ('', base):
            full = os.path.normpath(os.path.join(start, path))
            if full in self.files or full in self.folders or ('*' in full and fnmatch.filter(self.files, full)):
                return True
        return False

    def missing(self, word, base):
        """Whether a word of a document is a path that leads nowhere."""
        if not PATH.fullmatch(word) or word.startswith(MADE) or example(word):
            return False
        parts = expand(word)
        name, _, ending = word.rpartition('.')
        if '/' in word.rstrip('/'):
            if word.split('/')[0] in self.tops:
                return not all(self.has(part, base) for part in parts)
            return ending in ENDINGS and not self.has(word, base) and not any(file.endswith('/' + word) for file in self.files)
        return bool(name) and ending in ENDINGS and '*' not in word and word not in self.names and not word[0].isdigit()


def example(word):
    """Files of a user's, which the texts make up, names with a part left open, and files of the kit."""
    return word.startswith(('Mir/', 'Prog/')) or 'NAME' in word or 'UNIT' in word or word in ('program.c', 'table.txt', 'mode.txt', 'TABLE.txt', 'mir.json', 'page.html', 'crates.txt', 'port.py')


def words(file, text):
    if file.endswith('.md'):
        for match in TICKED.finditer(text):
            yield match.start(), match.group(1)
    else:
        for comment in re.finditer(r'/\*.*?\*/', text, re.S):
            for match in re.finditer(r'[\w.*-]+(?:/[\w.*-]+)+', comment.group()):
                yield comment.start() + match.start(), match.group().rstrip('.')


def check(tree, file):
    base = os.path.dirname(file)
    with open(file, encoding='utf-8') as handle:
        text = handle.read()
    for match in LINK.finditer(text) if file.endswith('.md') else ():
        target = match.group(1).split('#')[0]
        if target and '://' not in target and not tree.has(target, base):
            yield match.start(), target, text
    for at, word in words(file, text):
        for part in word.split():
            if tree.missing(part.rstrip('.,;:'), base):
                yield at, part, text


def main():
    tree = Tree()
    files = [file for file in tree.files if file.endswith('.md') and not file.startswith('docs/landings/')]
    files += [file for file in tree.files if file.startswith('include/')]
    wrong = 0
    for file in files:
        for at, word, text in check(tree, file):
            print(f'{file}:{text.count(chr(10), 0, at) + 1}: leads nowhere: {word}')
            wrong += 1
    print(f'links: {len(files)} documents and headers, {wrong} paths that lead nowhere')
    return wrong != 0


if __name__ == '__main__':
    sys.exit(main())
