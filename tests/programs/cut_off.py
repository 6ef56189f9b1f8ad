"""What inspect tells of a file that is cut off is true of the whole one, or told as not read.

cut_off.py PROGRAM FOLDER
"""
import json
import os
import subprocess
import sys

PROGRAM, FOLDER = os.path.abspath(sys.argv[1]), sys.argv[2]
HEADER, GROUP, BLOCK = 64, 512, 64


def inspect(path, *words):
    done = subprocess.run([PROGRAM, 'inspect', *words, path], capture_output=True, text=True)
    assert done.returncode in (0, 1) and 'Sanitizer' not in done.stderr and 'runtime error' not in done.stderr, (words, done)
    return done.stdout


def entries(told):
    return {entry['position']: entry for slot in told['slots'] for entry in slot.get('entries', [])}


def not_read(told):
    runs = told['not_read']['homes'] if told['not_read'] else []
    return {home for run in runs for home in range(run['first'], run['last'] + 1)}


def check_log(whole, told, slots):
    short = slots < len(whole['slots'])
    assert whole['commits'][:len(told['commits'])] == told['commits'] and (short or told['commits'] == whole['commits'])
    for position, entry in entries(told).items():
        wants = entries(whole)[position]
        assert entry.get('comes_back') in (wants.get('comes_back'), None) and entry.get('block') == wants.get('block'), entry
        assert short or entry == wants, entry
    assert told['places']['not_read'] == 7 * (len(whole['slots']) - slots) and sum(told['places'].values()) == 7 * len(whole['slots'])


def check_homes(whole, told, homes):
    hidden = not_read(told)
    known = {home['home']: home for home in told['homes']}
    assert not hidden & set(known) and hidden | set(known) == set(range(len(whole['homes'])))
    assert set(range(homes)) <= set(known) and all(whole['homes'][home] == value for home, value in known.items())
    for name, span in (('bands', range(12, 15)), ('alarms', range(24, 30)), ('rights', range(8, 12))):
        assert ('not_read' in told[name]) == bool(hidden & set(span)) and ('not_read' in told[name] or told[name] == whole[name]), name
    for pump, value in enumerate(told['pumps']):
        assert value == ({'not_read': 'beyond the end of the file'} if 16 + pump in hidden else whole['pumps'][pump]), pump


def check_text(path, told):
    lines = inspect(path).split('\n')
    assert any(line.startswith('short   NOT READ, ') for line in lines)
    for name in ('bands', 'alarms', 'rights'):
        assert (name + ': not read, beyond the end of the file' in lines) == ('not_read' in told[name]), name
    shown = sum(line.startswith('  pump ') and line.endswith('not read, beyond the end of the file') for line in lines)
    assert shown == sum('not_read' in pump for pump in told['pumps'])


def main():
    image, short = os.path.join(FOLDER, 'whole.img'), os.path.join(FOLDER, 'cut-off.img')
    subprocess.run([PROGRAM, 'station', '--cuts', '20', '--keep-cut', '--groups', '9', '--homes', '40', '--file', image], check=True, capture_output=True)
    content = open(image, 'rb').read()
    whole, log = json.loads(inspect(image, '--json')), HEADER + GROUP * 9
    lengths = sorted({64, 65, 128, log - 1, log, log + 1, len(content) - 1, *range(64, len(content), 331)})
    for length in lengths:
        open(short, 'wb').write(content[:length])
        told = json.loads(inspect(short, '--json'))
        check_log(whole, told, min(9, (length - HEADER) // GROUP))
        check_homes(whole, told, max(0, (length - log) // BLOCK))
        check_text(short, told)
    print(f'cut_off: {len(lengths)} lengths')


main()
