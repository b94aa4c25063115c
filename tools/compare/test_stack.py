"""Spoils what the header says of the stack in one place at a time, to see that tools/stack finds each: test_stack.py LIBRARY."""
import re
import subprocess
import sys
import tempfile
from pathlib import Path

ROOT = Path(__file__).resolve().parent.parent.parent
HEADER = (ROOT / 'include/vrt49.h').read_text(encoding='utf-8')


def spoilt():
    """What stands in the header, and what is put in its place: other bytes for the calls that take most, another call, and other words for the rest."""
    most, number, call = re.search(r'((\d+) bytes for (vrt49_\w+))', HEADER).groups()
    rest = re.search(r'and less than \d+ for every', HEADER).group()
    yield most, f'{int(number) - 8} bytes for {call}'
    yield most, f'{int(number) + 8} bytes for {call}'
    yield most, f'{number} bytes for vrt49_find'
    for next_most, number, call in re.findall(r'((\d+) for (vrt49_\w+))', HEADER):
        yield next_most, f'{int(number) + 8} for {call}'
    yield rest, 'and less than 100 for every'
    yield rest, 'and little for every'


def status_of(header):
    """The status of tools/stack for a header's text."""
    with tempfile.NamedTemporaryFile('w', encoding='utf-8') as bent:
        bent.write(header)
        bent.flush()
        return subprocess.run([ROOT / 'tools/stack', '--check', sys.argv[1], bent.name], capture_output=True).returncode


wrong = [] if status_of(HEADER) == 0 else ['the header as it is is not taken']
for old, new in spoilt():
    if HEADER.count(old) != 1 or status_of(HEADER.replace(old, new)) != 1:
        wrong.append(f'not found: {old!r} as {new!r}')
print('\n'.join(wrong) or f'{len(list(spoilt()))} headers that say other bytes of stack, each found')
sys.exit(1 if wrong else 0)
