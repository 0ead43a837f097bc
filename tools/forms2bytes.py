#!/usr/bin/env python3
"""Makes listed sets of forms from text, as docs/FORMS.md says.

Usage: forms2bytes.py TEXT > SET

A line of the text is a form: its names, each in double quotes, with spaces
between them. In the quotes a backslash and two lower-case hexadecimal digits
are a byte; every other character but a quote is itself, in UTF-8. A line of
`-` is the form without names. Empty lines, and lines that begin with `//`,
are passed over.
"""

import re
import struct
import sys

FORM, NAME = 32, 33
HEAD = 6
NAMES = re.compile(r'"(?:[^"\\]|\\[0-9a-f]{2})*"(?: +"(?:[^"\\]|\\[0-9a-f]{2})*")*')
ONE_NAME = re.compile(r'"([^"]*)"')
BYTE = re.compile(rb'\\([0-9a-f]{2})')


def record(kind, body):
    return struct.pack('<IH', HEAD + len(body), kind) + body


def set_of(forms):
    """The bytes of a list of forms, each a list of names. No limit is looked at."""
    return b''.join(record(FORM, b''.join(record(NAME, name) for name in form)) for form in forms)


def forms_in(text):
    forms = []
    for number, line in enumerate(text.splitlines(), 1):
        line = line.strip()
        if not line or line.startswith('//'):
            continue
        if line == '-':
            forms.append([])
        elif NAMES.fullmatch(line):
            names = (name.encode() for name in ONE_NAME.findall(line))
            forms.append([BYTE.sub(lambda byte: bytes.fromhex(byte[1].decode()), name) for name in names])
        else:
            raise ValueError(f'{number}: no names in quotes')
    return forms


def set_of_text(text):
    return set_of(forms_in(text.decode('utf-8')))


def main(arguments):
    if len(arguments) != 1:
        print('usage: forms2bytes.py TEXT > SET', file=sys.stderr)
        return 2
    try:
        with open(arguments[0], 'rb') as file:
            made = set_of_text(file.read())
    except ValueError as error:
        print(f'{arguments[0]}:{error}', file=sys.stderr)
        return 1
    sys.stdout.buffer.write(made)
    return 0


if __name__ == '__main__':
    sys.exit(main(sys.argv[1:]))
