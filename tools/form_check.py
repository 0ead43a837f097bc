#!/usr/bin/env python3
"""Checks listed sets of forms, as docs/FORMS.md says.

Reads lines of hex from standard input, one set a line; an empty line is the
set of no bytes. Prints one line for each: `ok FORMS NAMES` or
`refused PLACE CAUSE`.

With --vectors FILE it checks the lines `name: HEX -> expected` of that file
instead, and fails if an answer differs. Lines that are empty or start with
`#` are passed over there.
"""

import sys

sys.dont_write_bytecode = True

import lines

LARGEST_SET = 1048576
MOST_FORMS = 64
MOST_NAMES = 256
LONGEST_NAME = 255
HEAD = 6
FORM, NAME = 32, 33


class Refused(Exception):
    def __init__(self, place, cause):
        super().__init__(place, cause)
        self.place = place
        self.cause = cause


def bodies(data, start, end, wanted, most):
    """The start and the end of the body of each record of a row."""
    at = start
    before = 0
    while at != end:
        left = end - at
        if before == most:
            raise Refused(at, 'size')
        if left < HEAD:
            raise Refused(at, 'length')
        length = int.from_bytes(data[at:at + 4], 'little')
        kind = int.from_bytes(data[at + 4:at + HEAD], 'little')
        if wanted == NAME and kind == NAME and length > HEAD + LONGEST_NAME:
            raise Refused(at, 'size')
        if length < HEAD or length > left:
            raise Refused(at, 'length')
        if kind != wanted:
            raise Refused(at, 'kind')
        yield at + HEAD, at + length
        at += length
        before += 1


def read(data):
    """The forms, each a list of names; the first fault is raised."""
    if len(data) > LARGEST_SET:
        raise Refused(0, 'size')
    forms = []
    for start, end in bodies(data, 0, len(data), FORM, MOST_FORMS):
        forms.append([data[first:last] for first, last in bodies(data, start, end, NAME, MOST_NAMES)])
    return forms


def made(data):
    """The forms of the set that is made: none where the bytes are unsound."""
    try:
        return read(data)
    except Refused:
        return []


def answer(data):
    try:
        forms = read(data)
    except Refused as refused:
        return f'refused {refused.place} {refused.cause}'
    return f'ok {len(forms)} {sum(map(len, forms))}'


if __name__ == '__main__':
    sys.exit(lines.check('form_check.py', answer, sys.argv[1:]))
