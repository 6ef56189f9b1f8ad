"""Runs the command lines of documents and manual pages and holds what they print against what stands there.

documents.py FOLDER-OF-THE-PROGRAM FILE..

A session is a block of a document fenced as console, or a literal one of a manual page, in which lines begin with "$ ". What
follows a command up to the next is what it prints, messages included. The sessions of a file share a folder, new for each file.
"cat NAME" of a file that is not there yet makes it.
"""
import os
import re
import subprocess
import sys
import tempfile


def blocks_of(path):
    """The lines of each session, as a reader sees them."""
    begin, end = ('```console', '```') if path.endswith('.md') else ('.Bd -literal', '.Ed')
    block = None
    for line in open(path, encoding='utf-8').read().split('\n'):
        if block is None:
            block = [] if line.startswith(begin) else None
        elif line == end:
            yield block
            block = None
        else:
            block.append(line if path.endswith('.md') else line.replace('\\e', '\\'))


def sessions_of(path):
    """Pairs of a command and the lines that it prints."""
    for block in blocks_of(path):
        command, printed = None, []
        for line in block:
            if line.startswith('$ '):
                if command:
                    yield command, printed
                command, printed = line[2:], []
            elif command:
                printed.append(line)
        if command:
            yield command, printed


def run(path, programs, folder):
    environment = dict(os.environ, PATH=programs + os.pathsep + os.environ['PATH'], LC_ALL='C.UTF-8')
    count, wrong = 0, 0
    for command, printed in sessions_of(path):
        count += 1
        shown = re.fullmatch(r'cat ([\w.-]+)', command)
        if shown and not os.path.exists(os.path.join(folder, shown[1])):
            open(os.path.join(folder, shown[1]), 'w', encoding='utf-8').write('\n'.join(printed) + '\n')
        done = subprocess.run(command, shell=True, cwd=folder, env=environment, stdout=subprocess.PIPE, stderr=subprocess.STDOUT, timeout=60)
        got = done.stdout.decode('utf-8', 'replace').rstrip('\n').split('\n') if done.stdout else []
        if got != printed:
            wrong += 1
            print(f'{path}: $ {command}', file=sys.stderr)
            for line in printed:
                print(f'  - {line}', file=sys.stderr)
            for line in got:
                print(f'  + {line}', file=sys.stderr)
    return count, wrong


def main():
    programs, paths = os.path.abspath(sys.argv[1]), sys.argv[2:]
    total = wrong = 0
    for path in paths:
        with tempfile.TemporaryDirectory() as folder:
            count, bad = run(path, programs, folder)
        if count == 0:
            print(f'{path}: no command line', file=sys.stderr)
            wrong += 1
        total, wrong = total + count, wrong + bad
    print(f'documents: {total} command lines, {wrong} wrong')
    return wrong != 0


sys.exit(main())
