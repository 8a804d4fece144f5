#!/usr/bin/env python3
"""Runs the program longform at its limits, and reads back what it prints.

    tests/program.py      # after `rt run` in crates/longform
"""
import os
import subprocess
import sys

PROGRAM = os.path.join(os.path.dirname(os.path.dirname(os.path.abspath(__file__))), 'crates', 'longform', 'out', 'longform')
FORBIDDEN = [chr(c) for c in range(33)] + list('<>"{}|^`\\')


def run(document):
    return subprocess.run([PROGRAM], input=document, capture_output=True, check=True).stdout


def filled(size):
    statement = b'<x:s> <x:p> <x:o> .\n'
    return statement + b'#' * (size - len(statement))


def read_back(document):
    """The long form, if it is its own long form."""
    long_form = run(document)
    return long_form if run(long_form) == long_form else b'read back otherwise: ' + long_form


ESCAPED = ''.join('\\u%04X' % ord(c) for c in FORBIDDEN)
CASES = [
    ('empty input', run(b''), b''),
    ('65,536 bytes', run(filled(65536)), b'<x:s> <x:p> <x:o> .\n'),
    ('65,537 bytes', run(filled(65537)), b'refused 1 at 0\n'),
    ('65,537 bytes that are not UTF-8', run(b'\xff' * 65537), b'refused 1 at 0\n'),
    ('a NUL in a string', read_back(b'<x:s> <x:p> "a\0b" .'), b'<x:s> <x:p> "a\0b" .\n'),
    ('every character that IRIREF forbids', read_back(('<x:s> <x:p> <x:%s> .' % ESCAPED).encode()), ('<x:s> <x:p> <x:%s> .\n' % ESCAPED).encode()),
    ('what a string escapes', read_back(b'<x:s> <x:p> """\\"\\\\\n\\r\t\'""" .'), b'<x:s> <x:p> "\\"\\\\\\n\\r\t\'" .\n'),
    ('more rows than there is room for', run(b'<x:s> <x:p> ' + b', '.join(b'1' for _ in range(3277)) + b' .'), b'refused 14 at %d\n' % (12 + 3 * 3276)),
]

WRONG = [name for name, given, expected in CASES if given != expected]
for name in WRONG:
    print('wrong: ' + name)
print('%d of %d as they should be' % (len(CASES) - len(WRONG), len(CASES)))
sys.exit(1 if WRONG else 0)
