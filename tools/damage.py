#!/usr/bin/env python3
"""Makes test cases for the check of images: sound images and damaged ones.

Usage: damage.py --seed SEED --count COUNT [--against PROGRAM] [FILE...]

Each FILE is a sound image; docs/IMAGE.md gives the format. Prints COUNT lines
of hex, one image a line, no two alike; the empty image is an empty line. The
same seed, count and files give the same lines.

With --against the lines are given to PROGRAM on its standard input, many at a
time, and besides them large and deep images. The lines that it prints are
compared with the answers of image_check.py; the last line tells how many
cases there were and in how many of them the two differ. A difference fails.
Without a FILE the images are then those of the texts crates/*/data/*.kdl.

First come the files as they are, then single damages of each file at every
offset and every record; where these are more than two thirds of COUNT, that
many are drawn from them. The rest is drawn at random: generated small
documents, sound or damaged, images put together from pieces of others,
several damages in one image, and nodes nested about as deep as is allowed.
"""

import argparse
import hashlib
import itertools
import pathlib
import struct
import subprocess
import sys

sys.dont_write_bytecode = True

import image_check
import kdl2image

CRATES = pathlib.Path(__file__).resolve().parent.parent / 'crates'
# How many lines, and about how many bytes of images, a run of the program is given.
BATCH_LINES = 20000
BATCH_BYTES = 1 << 24
# How many differences are shown.
SHOWN = 20

HEAD = 6
# The bytes before the parts, of the kinds that hold parts.
LEADS = {1: 0, 2: 8, 5: 8, 6: 8}

BYTES = [0, 1, 2, 3, 4, 5, 6, 7, 8, 9, 10, 11, 12, 14, 16, 127, 128, 254, 255]
STEPS = [1, -1, 2, -2, 6, -6, 8, -8, 14, -14]
INSERTED = [0, 1, 2, 5, 6, 255]
LENGTHS = [0, 1, 5, 6, 7, 13, 14, 22, 255, 256, 1048576, 1048577, 2 ** 31, 2 ** 32 - 6, 2 ** 32 - 1]
LENGTH_STEPS = [1, 2, 3, 4, 5, 6, 7, 8, 14, 20, 22, 256, 65536, 16777216]
KINDS = list(range(14)) + [32, 33, 255, 256, 257, 258, 261, 263, 512, 65535]


class Random:
    """SplitMix64, so that the cases depend on no version of Python."""

    def __init__(self, seed):
        self.state = seed % 2 ** 64

    def next(self):
        self.state = (self.state + 0x9e3779b97f4a7c15) % 2 ** 64
        mixed = self.state
        mixed = (mixed ^ (mixed >> 30)) * 0xbf58476d1ce4e5b9 % 2 ** 64
        mixed = (mixed ^ (mixed >> 27)) * 0x94d049bb133111eb % 2 ** 64
        return mixed ^ (mixed >> 31)

    def below(self, bound):
        return self.next() % bound

    def pick(self, choices):
        return choices[self.below(len(choices))]

    def once_in(self, times):
        return self.below(times) == 0

    def bytes(self, count):
        return bytes(self.below(256) for _ in range(count))


# A record is (kind, bytes before the parts, parts). Kind None is bare bytes
# without a head.

def leaf(kind, body):
    return (kind, body, ())


def written(record):
    kind, lead, parts = record
    body = lead + b''.join(written(part) for part in parts)
    if kind is None:
        return body
    return struct.pack('<IH', HEAD + len(body), kind) + body


def body_of(record):
    return written(record)[HEAD:]


def records_in(image, start, end):
    found = []
    while start < end:
        if end - start < HEAD:
            raise ValueError('no head')
        length, kind = struct.unpack_from('<IH', image, start)
        behind = start + length
        if length < HEAD or behind > end:
            raise ValueError('no length')
        if kind in LEADS:
            lead = start + HEAD + LEADS[kind]
            if lead > behind:
                raise ValueError('no span')
            found.append((kind, image[start + HEAD:lead], tuple(records_in(image, lead, behind))))
        else:
            found.append(leaf(kind, image[start + HEAD:behind]))
        start = behind
    return found


def tree_of(image):
    found = records_in(image, 0, len(image))
    if len(found) != 1:
        raise ValueError('no single record')
    return found[0]


def count_of(record):
    return 1 + sum(count_of(part) for part in record[2])


def add_heads(record, start, offsets):
    """Adds the offsets of the heads, in the order of the bytes; gives the offset behind the record."""
    kind, lead, parts = record
    offsets.append(start)
    start += len(lead) if kind is None else HEAD + len(lead)
    for part in parts:
        start = add_heads(part, start, offsets)
    return start


def record_at(record, number):
    """The record of that number, counted from 0 in the order of the bytes."""
    if number == 0:
        return record
    number -= 1
    for part in record[2]:
        size = count_of(part)
        if number < size:
            return record_at(part, number)
        number -= size
    raise IndexError(number)


def replaced(record, number, change):
    """The list of records that stands for record, with change(r) in place of the record r of that number."""
    if number == 0:
        return change(record)
    number -= 1
    kind, lead, parts = record
    result = []
    for part in parts:
        size = count_of(part)
        if 0 <= number < size:
            result += replaced(part, number, change)
        else:
            result.append(part)
        number -= size
    return [(kind, lead, tuple(result))]


# Small sound records, one for each kind and shape.

ZERO = bytes(8)
NAME = leaf(3, ZERO)
TYPE = leaf(4, ZERO)
VALUES = [
    leaf(7, b''),
    leaf(7, b'\xff\x00x'),
    leaf(8, bytes(16)),
    leaf(9, bytes(8)),
    leaf(10, b'\x01'),
    leaf(11, b''),
]
SMALL = [
    (1, b'', ()),
    (2, ZERO, (NAME,)),
    NAME,
    TYPE,
    (5, ZERO, (leaf(11, b''),)),
    (6, ZERO, (NAME, leaf(11, b''))),
] + VALUES + [leaf(0, b''), leaf(12, b''), leaf(2, b''), leaf(3, b''), leaf(5, bytes(7)), leaf(10, b'\x02')]
STRAY = [(None, b'\x00', ()), (None, b'\x06\x00\x00\x00\x01', ()), (None, b'\xff' * 6, ())]


# Changes of one record; the lengths of its holders are corrected. First
# those of whole parts.
PART_EDITS = [
    lambda r: [],
    lambda r: [r, r],
    lambda r: [leaf(r[0], b'')],
    lambda r: [(1, b'', (r,))],
    lambda r: [(2, ZERO, (NAME, r))],
    lambda r: [(2, ZERO, (NAME, (1, b'', (r,))))],
    lambda r: [(5, ZERO, (r,))],
    lambda r: [(6, ZERO, (NAME, r))],
    lambda r: list(r[2]),
    lambda r: [(r[0], r[1], ())],
    lambda r: [(r[0], r[1], r[2][1:])],
    lambda r: [(r[0], r[1], r[2][:-1])],
    lambda r: [(r[0], r[1], r[2][::-1])],
]


def edits():
    made = list(PART_EDITS)
    for kind in KINDS:
        made.append(lambda r, kind=kind: [leaf(kind, body_of(r))])
    for count in range(1, 9):
        made.append(lambda r, count=count: [leaf(r[0], body_of(r)[:-count])])
        made.append(lambda r, count=count: [leaf(r[0], body_of(r)[count:])])
        made.append(lambda r, count=count: [leaf(r[0], body_of(r) + bytes(count))])
    made.append(lambda r: [leaf(r[0], body_of(r) + b'\xff')])
    for extra in SMALL + STRAY:
        made.append(lambda r, extra=extra: [extra, r])
        made.append(lambda r, extra=extra: [r, extra])
        made.append(lambda r, extra=extra: [extra])
        made.append(lambda r, extra=extra: [(r[0], r[1], r[2] + (extra,))])
    return made


EDITS = edits()


def edited(tree, number, change):
    return b''.join(written(record) for record in replaced(tree, number, change))


def with_byte(image, offset, byte):
    return image[:offset] + bytes([byte % 256]) + image[offset + 1:]


def with_number(image, offset, size, number):
    return image[:offset] + (number % 256 ** size).to_bytes(size, 'little') + image[offset + size:]


class Single:
    """The single damages of one image, each under a number below `count`."""

    def __init__(self, image, tree=None):
        self.image = image
        self.families = [
            (len(image), len(BYTES), self.set_byte),
            (len(image), len(STEPS), self.step_byte),
            (len(image), 8, self.flip_bit),
            (len(image), 1, self.truncate),
            (len(image) + 1, len(INSERTED), self.insert),
            (len(image), 1, self.repeat),
            (len(image), 1, self.delete),
        ]
        if tree is not None:
            self.tree = tree
            self.heads = []
            add_heads(tree, 0, self.heads)
            self.families += [
                (len(self.heads), len(LENGTHS), self.set_length),
                (len(self.heads), 2 * len(LENGTH_STEPS), self.step_length),
                (len(self.heads), len(KINDS), self.set_kind),
                (len(self.heads), len(EDITS), self.edit),
            ]
        self.count = sum(places * ways for places, ways, _ in self.families)

    def case(self, number):
        for places, ways, make in self.families:
            if number < places * ways:
                return make(number // ways, number % ways)
            number -= places * ways
        raise IndexError(number)

    def set_byte(self, offset, way):
        return with_byte(self.image, offset, BYTES[way])

    def step_byte(self, offset, way):
        return with_byte(self.image, offset, self.image[offset] + STEPS[way])

    def flip_bit(self, offset, way):
        return with_byte(self.image, offset, self.image[offset] ^ 1 << way)

    def truncate(self, offset, way):
        return self.image[:offset]

    def insert(self, offset, way):
        return self.image[:offset] + bytes([INSERTED[way]]) + self.image[offset:]

    def repeat(self, offset, way):
        return self.image[:offset + 1] + self.image[offset:]

    def delete(self, offset, way):
        return self.image[:offset] + self.image[offset + 1:]

    def set_length(self, head, way):
        return with_number(self.image, self.heads[head], 4, LENGTHS[way])

    def step_length(self, head, way):
        step = LENGTH_STEPS[way // 2] * (-1 if way % 2 else 1)
        at = self.heads[head]
        old = int.from_bytes(self.image[at:at + 4], 'little')
        return with_number(self.image, at, 4, old + step)

    def set_kind(self, head, way):
        return with_number(self.image, self.heads[head] + 4, 2, KINDS[way])

    def edit(self, head, way):
        return edited(self.tree, head, EDITS[way])


def at_each_byte(image):
    """The damages of single bytes and the truncations, each once."""
    single = Single(image)
    made = {}
    for offset in range(len(image)):
        for way in range(len(BYTES)):
            made[single.set_byte(offset, way)] = True
        for way in range(len(STEPS)):
            made[single.step_byte(offset, way)] = True
        for way in range(8):
            made[single.flip_bit(offset, way)] = True
    for length in range(len(image)):
        made[image[:length]] = True
    made.pop(image, None)
    return list(made)


# Generated documents.

def random_span(random):
    if random.once_in(3):
        return random.bytes(8)
    return struct.pack('<II', random.below(300), random.below(40))


def random_text(random):
    length = random.pick([0, 1, 1, 2, 3, 4, 5, 8, 12])
    if random.once_in(3):
        return random.bytes(length)
    return bytes(random.pick(b'abcdoorsize#01@') for _ in range(length))


def random_identifier(random, kind):
    return leaf(kind, random_span(random) + random_text(random))


def random_value(random):
    kind = 7 + random.below(5)
    if kind == 7:
        return leaf(7, random_text(random))
    if kind == 8:
        number = random.pick([0, 1, 17, 2 ** 63 - 1, 2 ** 63, 2 ** 64 - 1, 2 ** 64, 2 ** 127 - 1])
        if random.once_in(2):
            number = -number - random.below(2)
        return leaf(8, number.to_bytes(16, 'little', signed=True))
    if kind == 9:
        return leaf(9, random.bytes(8))
    if kind == 10:
        return leaf(10, bytes([random.below(2)]))
    return leaf(11, b'')


def random_entry(random):
    kind = 5 + random.below(2)
    parts = []
    if kind == 6:
        parts.append(random_identifier(random, 3))
    if random.once_in(3):
        parts.append(random_identifier(random, 4))
    parts.append(random_value(random))
    return (kind, random_span(random), tuple(parts))


def random_node(random, depth):
    parts = [random_identifier(random, 3)]
    if random.once_in(3):
        parts.append(random_identifier(random, 4))
    for _ in range(random.pick([0, 0, 1, 1, 2, 3])):
        parts.append(random_entry(random))
    if random.once_in(2):
        parts.append(random_document(random, depth - 1))
    return (2, random_span(random), tuple(parts))


def random_document(random, depth):
    count = random.pick([0, 1, 1, 2, 3]) if depth > 0 else 0
    return (1, b'', tuple(random_node(random, depth) for _ in range(count)))


def random_chain(random):
    """A document with nodes nested 30 to 34 deep; at most 32 is sound."""
    last = random.below(6)
    inner = [
        lambda: (),
        lambda: ((1, b'', ()),),
        lambda: ((1, b'', (random.pick(SMALL),)),),
        lambda: ((1, b'', (random.pick(STRAY),)),),
        lambda: (random_entry(random),),
        lambda: ((1, b'', ((2, ZERO, (NAME,)), (2, ZERO, (NAME,)))),),
    ][last]()
    node = (2, random_span(random), (NAME,) + inner)
    for _ in range(29 + random.below(5)):
        row = [node]
        if random.once_in(12):
            row.insert(random.below(2), random_node(random, 1))
        parts = [NAME]
        if random.once_in(12):
            parts.append(random_entry(random))
        parts.append((1, b'', tuple(row)))
        node = (2, ZERO, tuple(parts))
    return (1, b'', (node,))


# Random damages.

def spliced_bytes(random, image, other):
    start = random.below(len(other) + 1)
    piece = other[start:start + random.pick([1, 2, 4, 6, 8, 14, 20, 36, 64])]
    at = random.below(len(image) + 1)
    taken = random.pick([0, len(piece), random.below(20)])
    result = image[:at] + piece + image[at + taken:]
    if random.once_in(2) and len(result) >= HEAD:
        result = with_number(result, 0, 4, len(result))
    return result


def spliced_records(random, tree, other):
    piece = record_at(other, random.below(count_of(other)))
    number = random.below(count_of(tree))
    way = random.below(4)
    if way == 0:
        return edited(tree, number, lambda r: [piece])
    if way == 1:
        return edited(tree, number, lambda r: [piece, r])
    if way == 2:
        return edited(tree, number, lambda r: [r, piece])
    return edited(tree, number, lambda r: [(r[0], r[1], r[2] + (piece,))])


def random_tree(random, trees):
    way = random.below(8)
    if trees and way < 2:
        return random.pick(trees)
    if way == 7 and random.once_in(2):
        return random_chain(random)
    return random_document(random, 1 + random.below(4))


def random_case(random, trees):
    tree = random_tree(random, trees)
    image = written(tree)
    way = random.below(10)
    if way == 0:
        return image
    if way < 4:
        places, ways, make = random.pick(Single(image, tree).families)
        return make(random.below(places), random.below(ways))
    if way < 6:
        return edited(tree, random.below(count_of(tree)), random.pick(random.pick([PART_EDITS, EDITS])))
    if way == 6:
        return spliced_bytes(random, image, written(random_tree(random, trees)))
    if way == 7:
        return spliced_records(random, tree, random_tree(random, trees))
    for _ in range(1 + random.below(2)):
        records = replaced(tree, random.below(count_of(tree)), random.pick(EDITS))
        if len(records) != 1 or records[0][0] is None:
            return b''.join(written(record) for record in records)
        tree = records[0]
    image = written(tree)
    for _ in range(random.below(3)):
        single = Single(image)
        image = single.case(random.below(single.count))
    return image


def cases(seed, count, images):
    random = Random(seed)
    trees = [tree_of(image) for image in images]
    yield from images
    singles = [Single(image, tree) for image, tree in zip(images, trees)]
    total = sum(single.count for single in singles)
    share = count * 2 // 3
    if total <= share:
        for single in singles:
            for number in range(single.count):
                yield single.case(number)
    else:
        for _ in range(share):
            number = random.below(total)
            for single in singles:
                if number < single.count:
                    yield single.case(number)
                    break
                number -= single.count
    while True:
        yield random_case(random, trees)


def distinct(made, count):
    """The first `count` of the images, no two alike."""
    seen = set()
    if count <= 0:
        return
    for case in made:
        mark = hashlib.blake2b(case, digest_size=12).digest()
        if mark in seen:
            continue
        seen.add(mark)
        yield case
        if len(seen) == count:
            break


# Large and deep images.

def head(length, kind):
    return struct.pack('<IH', length, kind)


def sized_by_text(size):
    """The image of a node with one string, of so many bytes."""
    empty = (1, b'', ((2, ZERO, (NAME, (5, ZERO, (leaf(7, b''),)))),))
    text = bytes(size - len(written(empty)))
    return written((1, b'', ((2, ZERO, (NAME, (5, ZERO, (leaf(7, text),)))),)))


def sized_by_nodes(size):
    """The image of as many nodes as fit, of so many bytes; the first has the longer name."""
    node = written((2, ZERO, (NAME,)))
    count, rest = divmod(size - HEAD, len(node))
    first = written((2, ZERO, (leaf(3, ZERO + bytes(rest)),)))
    return head(size, 1) + first + node * (count - 1)


def sized_by_entries(size):
    """The image of a node with as many entries as fit, of so many bytes."""
    entry = written((5, ZERO, (leaf(11, b''),)))
    rest = size - HEAD - HEAD - len(ZERO) - len(written(NAME))
    count, rest = divmod(rest, len(entry))
    name = written(leaf(3, ZERO + bytes(rest)))
    return head(size, 1) + head(size - HEAD, 2) + ZERO + name + entry * count


def nested(count, inner):
    """A document of nodes in one another, the innermost with the records `inner` behind its name."""
    node = (2, ZERO, (NAME,) + inner)
    for _ in range(count - 1):
        node = (2, ZERO, (NAME, (1, b'', (node,))))
    return written((1, b'', (node,)))


def holding_the_rest(size, rows):
    """A document of at most so many bytes that are heads, each of which says that it holds the rest.

    `rows` are the kinds in turn, each with what stands between its head and the next.
    """
    step = sum(HEAD + len(between) for _, between in rows)
    count = (size - HEAD) // step
    left = HEAD + count * step
    made = [head(left, 1)]
    left -= HEAD
    for _ in range(count):
        for kind, between in rows:
            made.append(head(left, kind) + between)
            left -= HEAD + len(between)
    return b''.join(made)


def large_cases():
    largest = image_check.LARGEST_IMAGE
    for make in (sized_by_text, sized_by_nodes, sized_by_entries, bytes):
        yield make(largest)
        yield make(largest + 1)
    for count in (31, 32, 33, 34, 100):
        for inner in ((), ((1, b'', ()),), ((5, ZERO, (leaf(11, b''),)), (1, b'', ()))):
            yield nested(count, inner)
    name = written(NAME)
    for rows in (
        [(1, b'')],
        [(2, ZERO)],
        [(2, ZERO + name)],
        [(2, ZERO + name), (1, b'')],
        [(2, ZERO + name), (5, ZERO)],
        [(2, ZERO + name), (6, ZERO + name)],
        [(5, ZERO)],
        [(6, ZERO + name)],
        [(7, b'')],
    ):
        yield holding_the_rest(largest, rows)


# The comparison with a program.

def batches(made):
    lines = []
    size = 0
    for case in made:
        lines.append(case)
        size += len(case)
        if len(lines) == BATCH_LINES or size >= BATCH_BYTES:
            yield lines
            lines = []
            size = 0
    if lines:
        yield lines


def against(program, made):
    """Compares the program's lines with the answers; true where all are the same."""
    compared = 0
    differences = 0
    smallest = None
    for batch in batches(made):
        text = b''.join(case.hex().encode() + b'\n' for case in batch)
        run = subprocess.run([program], input=text, stdout=subprocess.PIPE)
        given = run.stdout.decode('utf-8', 'replace').splitlines()
        if run.returncode != 0 or len(given) != len(batch):
            print(f'{program} ended with {run.returncode} and printed {len(given)} lines for {len(batch)}')
            given += ['nothing'] * (len(batch) - len(given))
        for case, line in zip(batch, given):
            compared += 1
            expected = image_check.answer(case)
            if line != expected:
                differences += 1
                if smallest is None or len(case) < len(smallest[0]):
                    smallest = (case, line, expected)
                if differences <= SHOWN:
                    print(f'{shown(case)}: {line}, expected {expected}')
    if smallest is not None:
        case, line, expected = smallest
        print(f'smallest: {shown(case)}: {line}, expected {expected}')
    print(f'{compared} cases, {differences} disagreements')
    return differences == 0


def shown(case):
    return case.hex() if len(case) <= 200 else f'{case[:200].hex()}.. of {len(case)} bytes'


def main():
    parser = argparse.ArgumentParser(description='Makes sound and damaged images as lines of hex.')
    parser.add_argument('--seed', type=int, required=True)
    parser.add_argument('--count', type=int, required=True)
    parser.add_argument('--against', metavar='PROGRAM')
    parser.add_argument('files', nargs='*', metavar='FILE')
    options = parser.parse_args()
    images = []
    for path in options.files:
        with open(path, 'rb') as file:
            image = file.read()
        try:
            tree_of(image)
        except ValueError as error:
            print(f'{path}: not a sound image ({error})', file=sys.stderr)
            return 1
        images.append(image)
    if options.against is not None and not images:
        images = [kdl2image.image_of(text.read_bytes()) for text in sorted(CRATES.glob('*/data/*.kdl'))]
    made = distinct(cases(options.seed, options.count, images), options.count)
    if options.against is not None:
        return 0 if against(options.against, itertools.chain(large_cases(), made)) else 1
    for case in made:
        print(case.hex())
    return 0


if __name__ == '__main__':
    sys.exit(main())
