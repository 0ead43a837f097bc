#!/usr/bin/env python3
"""Checks images, as docs/IMAGE.md says.

Reads lines of hex from standard input, one image a line; an empty line is
the empty image. Prints one line for each: `ok NODES ENTRIES` or
`refused PLACE CAUSE`.

With --vectors FILE it checks the lines `name: HEX -> expected` of that file
instead, and fails if an answer differs. Lines that are empty or start with
`#` are passed over there.
"""

import sys

sys.dont_write_bytecode = True

import lines

LARGEST_IMAGE = 1048576
DEEPEST_NODE = 32
HEAD = 6
SPAN = 8

DOCUMENT, NODE, NAME, TYPE, ARGUMENT, PROPERTY = 1, 2, 3, 4, 5, 6
STRING, INTEGER, FLOAT, BOOL, NULL = 7, 8, 9, 10, 11

MUST, MAY, NONE = 'must', 'may', 'none'

ENTRIES_THEN_BLOCK = {
    ARGUMENT: 'behind an entry',
    PROPERTY: 'behind an entry',
    DOCUMENT: 'at the end',
}
VALUES = {kind: 'at the end' for kind in (STRING, INTEGER, FLOAT, BOOL, NULL)}

# Each position: whether a record must, may or may not stand there, and the
# allowed kinds with the position that follows in the same holder.
POSITIONS = {
    'the input': (MUST, {DOCUMENT: 'at the end'}),
    'among nodes': (MAY, {NODE: 'among nodes'}),
    'the name of a node': (MUST, {NAME: 'behind the name of a node'}),
    'behind the name of a node': (MAY, {TYPE: 'behind an entry', **ENTRIES_THEN_BLOCK}),
    'behind an entry': (MAY, ENTRIES_THEN_BLOCK),
    'the name of a property': (MUST, {NAME: 'a type or a value'}),
    'a type or a value': (MUST, {TYPE: 'a value', **VALUES}),
    'a value': (MUST, VALUES),
    'at the end': (NONE, {}),
}

# The records that hold parts: the bytes before the parts, and the position
# of the first part.
HOLDERS = {
    DOCUMENT: (0, 'among nodes'),
    NODE: (SPAN, 'the name of a node'),
    ARGUMENT: (SPAN, 'a type or a value'),
    PROPERTY: (SPAN, 'the name of a property'),
}


def body_is_wrong(kind, body):
    if kind in (NODE, NAME, TYPE, ARGUMENT, PROPERTY):
        return len(body) < SPAN
    if kind == INTEGER:
        return len(body) != 16
    if kind == FLOAT:
        return len(body) != 8
    if kind == BOOL:
        return len(body) != 1 or body[0] > 1
    if kind == NULL:
        return len(body) != 0
    return False


def check(image):
    """('ok', nodes, entries) or ('refused', place, cause)."""
    if len(image) > LARGEST_IMAGE:
        return ('refused', 0, 'size')
    nodes = 0
    entries = 0
    # The open holders, outermost first: end, kind, position.
    holders = [(len(image), None, 'the input')]
    nesting = 0
    at = 0
    while holders:
        end, holder, position = holders.pop()
        standing, kinds = POSITIONS[position]
        if at == end:
            if standing == MUST:
                return ('refused', at, 'missing')
            if holder == NODE:
                nesting -= 1
            continue
        if standing == NONE:
            return ('refused', at, 'after')
        if end - at < HEAD:
            return ('refused', at, 'length')
        length = int.from_bytes(image[at:at + 4], 'little')
        kind = int.from_bytes(image[at + 4:at + 6], 'little')
        if length < HEAD or length > end - at:
            return ('refused', at, 'length')
        if kind not in kinds:
            return ('refused', at, 'kind')
        if kind == NODE and nesting == DEEPEST_NODE:
            return ('refused', at, 'nesting')
        if body_is_wrong(kind, image[at + HEAD:at + length]):
            return ('refused', at, 'body')
        holders.append((end, holder, kinds[kind]))
        if kind == NODE:
            nodes += 1
            nesting += 1
        if kind in (ARGUMENT, PROPERTY):
            entries += 1
        if kind in HOLDERS:
            before, first = HOLDERS[kind]
            holders.append((at + length, kind, first))
            at += HEAD + before
        else:
            at += length
    return ('ok', nodes, entries)


def answer(image):
    return ' '.join(str(word) for word in check(image))


if __name__ == '__main__':
    sys.exit(lines.check('image_check.py', answer, sys.argv[1:]))
