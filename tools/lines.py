"""Lines of hex with their answers, and files that are made of them: what the
tools for images and for forms share."""

import pathlib
import sys

ROOT = pathlib.Path(__file__).resolve().parent.parent
# Lines that are no bytes: an odd count of digits, and what is no lower-case digit.
NO_BYTES = [
    '0', '060', '06000000010', '0g', '06000000010A', '06 0000000100', ' ', '060000000100 ', '0x060000000100', '+6', '/:',
    '`0', '\t', '\x7f\x80',
]


def vectors(path):
    """The name, the hex and the expected answer of each line of a file of vectors, with the line's number."""
    with open(path, encoding='utf-8') as lines:
        for number, line in enumerate(lines, 1):
            line = line.strip()
            if line and not line.startswith('#'):
                name, rest = line.split(':', 1)
                spelled, expected = rest.rsplit('->', 1)
                yield number, name, spelled.strip(), expected.strip()


def check_lines(lines, answer):
    for number, line in enumerate(lines, 1):
        try:
            given = bytes.fromhex(line.strip())
        except ValueError:
            print(f'line {number}: not hex', file=sys.stderr)
            return 2
        print(answer(given))
    return 0


def check_vectors(path, answer):
    checked = 0
    wrong = 0
    try:
        for number, name, spelled, expected in vectors(path):
            checked += 1
            given = answer(bytes.fromhex(spelled))
            if given != expected:
                wrong += 1
                print(f'{path}:{number}: {name}: {given}, expected {expected}')
    except ValueError:
        print(f'{path}: a line is not of the form `name: HEX -> expected`', file=sys.stderr)
        return 2
    print(f'{checked} vectors, {wrong} wrong')
    return 1 if wrong else 0


def check(program, answer, arguments):
    """The command line of a check."""
    if not arguments:
        return check_lines(sys.stdin, answer)
    if len(arguments) == 2 and arguments[0] == '--vectors':
        return check_vectors(arguments[1], answer)
    print(f'usage: {program} < LINES_OF_HEX\n       {program} --vectors FILE', file=sys.stderr)
    return 2


def write_or_compare(program, files, arguments):
    """Writes files, given as their content by path; with --check compares them instead, and a difference fails."""
    if arguments not in ([], ['--check']):
        print(f'usage: {program} [--check]', file=sys.stderr)
        return 2
    wrong = 0
    for path, made in files.items():
        shown = path.relative_to(ROOT)
        if arguments:
            same = path.exists() and path.read_bytes() == made
            print(f'{shown}: {"same" if same else "differs"}')
            wrong += not same
        else:
            path.write_bytes(made)
            print(f'{shown}: written')
    return 1 if wrong else 0
