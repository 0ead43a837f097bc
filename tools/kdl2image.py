#!/usr/bin/env python3
"""Turns a KDL 2.0 text into an image, whose format docs/IMAGE.md gives.

Usage: kdl2image.py IN.kdl OUT.image

The spans are true: offsets and lengths in bytes of the file.
  node      from its type's parenthesis or its name to the end of its last
            part, the block included
  entry     from its name, its type's parenthesis or its value to the end of
            its value
  name      the identifier as written, with its quotes
  type      the identifier inside the parentheses
A part that was taken out by a slashdash is in no span of its own. It lies in
a node's span only where a later part of that node follows.

Taken are names and strings in every spelling of KDL 2.0 (bare, quoted, raw,
multi-line), integers in all bases, floats, the keywords, types, properties,
blocks, line comments, nested block comments, slashdash before a node, an
entry or a block, line continuations and `;`. A later property of the same
name does not replace an earlier one: both are written.

Refused, with line and column, is all other text, and besides:
  an integer below -2^127 or above 2^127 - 1
  a finite number too large for a 64-bit float
  a node of nesting 33, and slashdashed blocks nested over 200 deep
  the version marker `/- kdl-version 1`
An image over 1,048,576 bytes is refused too. #nan is written with the bits
7ff8000000000000. A column counts characters, from 1.
"""

import bisect
import re
import struct
import sys

LARGEST_IMAGE = 1048576
DEEPEST_NODE = 32
DEEPEST_SKIPPED = 200

LOWEST_INTEGER = -2 ** 127
HIGHEST_INTEGER = 2 ** 127 - 1
MOST_DIGITS = 128

BYTE_ORDER_MARK = '\ufeff'
NEWLINES = '\r\n\x85\x0b\x0c\u2028\u2029'
SPACES = '\t \xa0\u1680\u2000\u2001\u2002\u2003\u2004\u2005\u2006\u2007\u2008\u2009\u200a\u202f\u205f\u3000'
NOT_IN_IDENTIFIERS = set(NEWLINES + SPACES + '\\/(){};[]"#=')
FORBIDDEN = re.compile('[\x00-\x08\x0e-\x1f\x7f\u200e\u200f\u202a-\u202e\u2066-\u2069\ufeff]')
KEYWORDS_WITHOUT_HASH = {'true', 'false', 'null', 'inf', '-inf', 'nan'}

DECIMAL = re.compile(r'[+-]?[0-9][0-9_]*')
DECIMAL_FLOAT = re.compile(r'[+-]?[0-9][0-9_]*(\.[0-9][0-9_]*)?([eE][+-]?[0-9][0-9_]*)?')
BASES = [
    (16, re.compile(r'([+-]?)0x([0-9a-fA-F][0-9a-fA-F_]*)')),
    (8, re.compile(r'([+-]?)0o([0-7][0-7_]*)')),
    (2, re.compile(r'([+-]?)0b([01][01_]*)')),
]
STARTS_LIKE_NUMBER = re.compile(r'[+-]?[0-9]')
STARTS_WITH_POINT = re.compile(r'[+-]?\.[0-9]')

ESCAPES = {'n': '\n', 'r': '\r', 't': '\t', '\\': '\\', '"': '"', 'b': '\b', 'f': '\f', 's': ' '}


class Refusal(Exception):
    def __init__(self, index, message):
        super().__init__(message)
        self.index = index
        self.message = message


# Records. The image of a part is made as soon as the part was read.

def record(kind, body):
    return struct.pack('<IH', 6 + len(body), kind) + body


def string_value(text):
    return record(7, text.encode('utf-8'))


def integer_value(number):
    return record(8, number.to_bytes(16, 'little', signed=True))


def float_value(bits):
    return record(9, struct.pack('<Q', bits))


def bool_value(truth):
    return record(10, b'\x01' if truth else b'\x00')


def null_value():
    return record(11, b'')


KEYWORDS = {
    '#true': bool_value(True),
    '#false': bool_value(False),
    '#null': null_value(),
    '#inf': float_value(0x7ff0000000000000),
    '#-inf': float_value(0xfff0000000000000),
    '#nan': float_value(0x7ff8000000000000),
}


class Reader:
    """Reads one text; stands at the index `at`, counted in characters."""

    def __init__(self, text):
        self.text = text
        self.at = 0
        self.skipping = 0
        # The byte offset of each character, and of the end.
        self.offsets = [0]
        for character in text:
            self.offsets.append(self.offsets[-1] + len(character.encode('utf-8')))

    # Looking at the text

    def peek(self, ahead=0):
        index = self.at + ahead
        return self.text[index] if index < len(self.text) else ''

    def sees(self, words):
        return self.text.startswith(words, self.at)

    def sees_newline(self):
        return self.peek() != '' and self.peek() in NEWLINES

    def sees_space(self):
        return self.peek() != '' and self.peek() in SPACES

    def refuse(self, message, index=None):
        raise Refusal(self.at if index is None else index, message)

    def what_stands_here(self):
        return repr(self.peek()) if self.peek() else 'the end of the text'

    def span(self, start, end):
        first = self.offsets[start]
        return struct.pack('<II', first, self.offsets[end] - first)

    # Space and comments

    def newline(self):
        self.at += 2 if self.sees('\r\n') else 1

    def line_comment(self):
        while self.peek() and not self.sees_newline():
            self.at += 1
        if self.peek():
            self.newline()

    def block_comment(self):
        start = self.at
        depth = 0
        while True:
            if self.sees('/*'):
                depth += 1
                self.at += 2
            elif self.sees('*/'):
                depth -= 1
                self.at += 2
                if depth == 0:
                    return
            elif not self.peek():
                self.refuse('the comment is not closed', start)
            else:
                self.at += 1

    def plain_space(self):
        start = self.at
        while True:
            if self.sees_space():
                self.at += 1
            elif self.sees('/*'):
                self.block_comment()
            else:
                return self.at > start

    def continuation(self):
        start = self.at
        self.at += 1
        self.plain_space()
        if self.sees('//'):
            self.line_comment()
        elif self.sees_newline():
            self.newline()
        elif self.peek():
            self.refuse("only space and a comment may stand between '\\' and the line's end", start)

    def node_space(self):
        """Passes over the space within a node; says whether there was some."""
        start = self.at
        while True:
            if self.peek() == '\\':
                self.continuation()
            elif not self.plain_space():
                return self.at > start

    def line_space(self):
        while True:
            if self.sees_newline():
                self.newline()
            elif self.sees('//'):
                self.line_comment()
            elif not self.node_space():
                return

    def slashdash(self):
        """Passes over a slashdash and the space behind it, if one stands here."""
        if not self.sees('/-'):
            return False
        self.at += 2
        self.line_space()
        return True

    # Strings

    def bare(self):
        start = self.at
        while self.peek() and self.peek() not in NOT_IN_IDENTIFIERS:
            self.at += 1
        return self.text[start:self.at]

    def hashes(self):
        count = 0
        while self.peek(count) == '#':
            count += 1
        return count

    def sees_string(self):
        if self.peek() == '"':
            return True
        if self.peek() == '#':
            return self.peek(self.hashes()) == '"'
        if not self.peek() or self.peek() in NOT_IN_IDENTIFIERS:
            return False
        return not STARTS_LIKE_NUMBER.match(self.text, self.at)

    def string(self, wanted):
        if not self.sees_string():
            self.refuse(f'{wanted} is wanted here, not {self.what_stands_here()}')
        if self.peek() == '"':
            return self.quoted()
        if self.peek() == '#':
            return self.raw()
        start = self.at
        word = self.bare()
        if STARTS_WITH_POINT.match(word):
            self.refuse('a number needs a digit before its point', start)
        if word in KEYWORDS_WITHOUT_HASH:
            self.refuse(f'write #{word} for the keyword, or "{word}" for the string', start)
        return word

    def passes_space_escape(self, characters, index):
        """The index behind a backslash and the space that it takes away, if there is some."""
        behind = index + 1
        while behind < len(characters) and characters[behind][0] in NEWLINES + SPACES:
            behind += 1
        return behind if behind > index + 1 else None

    def escaped(self, characters):
        """The text of pairs (character, index), the escapes resolved."""
        result = []
        index = 0
        while index < len(characters):
            character, place = characters[index]
            if character != '\\':
                result.append(character)
                index += 1
                continue
            behind = self.passes_space_escape(characters, index)
            if behind is not None:
                index = behind
                continue
            name = characters[index + 1][0] if index + 1 < len(characters) else ''
            if name in ESCAPES and name:
                result.append(ESCAPES[name])
                index += 2
            elif name == 'u':
                spelled = ''.join(c for c, _ in characters[index + 2:index + 10])
                found = re.match(r'\{([0-9a-fA-F]{1,6})\}', spelled)
                if not found:
                    self.refuse('\\u needs 1 to 6 hex digits in braces', place)
                number = int(found.group(1), 16)
                if number > 0x10ffff or 0xd800 <= number <= 0xdfff:
                    self.refuse('\\u names no Unicode scalar value', place)
                result.append(chr(number))
                index += 2 + found.end()
            else:
                self.refuse(f'there is no escape \\{name}', place)
        return ''.join(result)

    def pairs(self, start, end):
        return [(self.text[index], index) for index in range(start, end)]

    def quoted(self):
        start = self.at
        if self.sees('"""'):
            return self.quoted_lines()
        self.at += 1
        body = self.at
        while self.peek() != '"':
            if not self.peek():
                self.refuse('the string is not closed', start)
            if self.sees_newline():
                self.refuse('a string of one line holds a line break', start)
            if self.peek() == '\\':
                self.at += 1
                if self.sees_newline() or self.sees_space():
                    while self.sees_newline() or self.sees_space():
                        self.at += 1
                    continue
            self.at += 1
        text = self.escaped(self.pairs(body, self.at))
        self.at += 1
        return text

    def quoted_lines(self):
        start = self.at
        self.at += 3
        if not self.sees_newline():
            self.refuse('a line break is wanted behind """')
        self.newline()
        body = self.at
        while not self.sees('"""'):
            if not self.peek():
                self.refuse('the string is not closed', start)
            self.at += 2 if self.peek() == '\\' else 1
        characters = self.pairs(body, self.at)
        self.at += 3
        # Escapes of space come before the lines are told apart, all others after.
        kept = []
        index = 0
        while index < len(characters):
            if characters[index][0] == '\\':
                behind = self.passes_space_escape(characters, index)
                if behind is not None:
                    index = behind
                    continue
                kept.extend(characters[index:index + 2])
                index += 2
                continue
            kept.append(characters[index])
            index += 1
        return '\n'.join(self.escaped(line) for line in self.unindented(kept, start))

    def raw(self):
        start = self.at
        count = self.hashes()
        self.at += count
        if self.sees('"""'):
            self.at += 3
            if not self.sees_newline():
                self.refuse('a line break is wanted behind """')
            self.newline()
            body = self.at
            closing = '"""' + '#' * count
            end = self.text.find(closing, body)
            if end < 0:
                self.refuse('the string is not closed', start)
            self.at = end + len(closing)
            lines = self.unindented(self.pairs(body, end), start)
            return '\n'.join(''.join(c for c, _ in line) for line in lines)
        body = self.at + 1
        closing = '"' + '#' * count
        end = self.text.find(closing, body)
        if end < 0:
            self.refuse('the string is not closed', start)
        text = self.text[body:end]
        if any(character in NEWLINES for character in text):
            self.refuse('a string of one line holds a line break', start)
        self.at = end + len(closing)
        return text

    def unindented(self, characters, start):
        """The lines of pairs without the last one, whose space is taken off each."""
        lines = [[]]
        index = 0
        while index < len(characters):
            character = characters[index][0]
            index += 1
            if character in NEWLINES:
                if character == '\r' and index < len(characters) and characters[index][0] == '\n':
                    index += 1
                lines.append([])
            else:
                lines[-1].append(characters[index - 1])
        indent = [c for c, _ in lines.pop()]
        if any(c not in SPACES for c in indent):
            self.refuse('only space may stand before the closing """', start)
        result = []
        for line in lines:
            if all(c in SPACES for c, _ in line):
                result.append([])
            elif [c for c, _ in line[:len(indent)]] == indent:
                result.append(line[len(indent):])
            else:
                self.refuse('the line does not start with the space of the closing line', line[0][1])
        return result

    # Values

    def number(self):
        start = self.at
        word = self.bare()
        for base, pattern in BASES:
            found = pattern.fullmatch(word)
            if found:
                return integer_value(self.integer(found.group(1), found.group(2), base, start))
        if DECIMAL.fullmatch(word):
            sign = word[0] if word[0] in '+-' else ''
            return integer_value(self.integer(sign, word[len(sign):], 10, start))
        if DECIMAL_FLOAT.fullmatch(word):
            number = float(word.replace('_', ''))
            if number in (float('inf'), float('-inf')):
                self.refuse('the number is too large for a float', start)
            return float_value(struct.unpack('<Q', struct.pack('<d', number))[0])
        self.refuse(f'{word!r} is no number', start)

    def integer(self, sign, digits, base, start):
        digits = digits.replace('_', '').lstrip('0') or '0'
        if len(digits) <= MOST_DIGITS:
            number = int(digits, base)
            if sign == '-':
                number = -number
            if LOWEST_INTEGER <= number <= HIGHEST_INTEGER:
                return number
        self.refuse('the integer does not fit in 128 bits', start)

    def value(self):
        if self.sees_string():
            return string_value(self.string('a value'))
        if self.peek() == '#':
            start = self.at
            self.at += 1
            word = '#' + self.bare()
            if word not in KEYWORDS:
                self.refuse(f'there is no keyword {word}', start)
            return KEYWORDS[word]
        if STARTS_LIKE_NUMBER.match(self.text, self.at):
            return self.number()
        self.refuse(f'a value is wanted here, not {self.what_stands_here()}')

    def identifier(self, kind, wanted):
        start = self.at
        text = self.string(wanted)
        return record(kind, self.span(start, self.at) + text.encode('utf-8'))

    def type(self):
        """A type, and the space behind it, if one stands here."""
        if self.peek() != '(':
            return b''
        self.at += 1
        self.node_space()
        written = self.identifier(4, 'a type')
        self.node_space()
        if self.peek() != ')':
            self.refuse(f"')' is wanted here, not {self.what_stands_here()}")
        self.at += 1
        self.node_space()
        return written

    # Entries, nodes, documents

    def entry(self):
        start = self.at
        name = b''
        if self.sees_string():
            found = self.identifier(3, 'a name')
            end = self.at
            self.node_space()
            if self.peek() == '=':
                self.at += 1
                self.node_space()
                name = found
            else:
                self.at = start
                written = self.value()
                assert self.at == end
                return record(5, self.span(start, end) + written)
        written = self.type()
        written += self.value()
        return record(6 if name else 5, self.span(start, self.at) + name + written)

    def block(self, nesting):
        start = self.at
        self.at += 1
        written = self.nodes(nesting)
        if self.peek() != '}':
            self.refuse('the block is not closed', start)
        self.at += 1
        return record(1, written)

    def ends_node(self):
        return not self.peek() or self.peek() in ';}' or self.sees('//') or self.sees_newline()

    def node(self, nesting):
        start = self.at
        deepest = DEEPEST_SKIPPED if self.skipping else DEEPEST_NODE
        if nesting > deepest:
            self.refuse(f'a node of nesting {nesting}')
        type_part = self.type()
        name_part = self.identifier(3, 'a node')
        end = self.at
        entries = []
        block = b''
        block_seen = False
        while True:
            spaced = self.node_space()
            if self.ends_node():
                break
            place = self.at
            skipped = self.slashdash()
            self.skipping += skipped
            if self.peek() == '{':
                if block and not skipped:
                    self.refuse('a second block')
                written = self.block(nesting + 1)
                block_seen = True
                if not skipped:
                    block = written
            else:
                if block_seen:
                    self.refuse('an entry behind a block', place)
                if not spaced and not skipped:
                    self.refuse(f'space is wanted before {self.what_stands_here()}')
                written = self.entry()
                if not skipped:
                    entries.append(written)
            self.skipping -= skipped
            if not skipped:
                end = self.at
        if self.peek() == ';':
            self.at += 1
        return record(2, self.span(start, end) + name_part + type_part + b''.join(entries) + block)

    def nodes(self, nesting):
        written = []
        while True:
            self.line_space()
            if not self.peek() or self.peek() == '}':
                return b''.join(written)
            skipped = self.slashdash()
            self.skipping += skipped
            found = self.node(nesting)
            self.skipping -= skipped
            if not skipped:
                written.append(found)

    def document(self):
        if self.peek() == BYTE_ORDER_MARK:
            self.at += 1
        found = FORBIDDEN.search(self.text, self.at)
        if found:
            self.refuse(f'the character U+{ord(found.group()):04X} may not stand in a text', found.start())
        version = re.compile(rf'/-[{SPACES}]*kdl-version[{SPACES}]+1[{SPACES}]*[{NEWLINES}]')
        if version.match(self.text, self.at):
            self.refuse('the text is marked as KDL 1')
        written = self.nodes(1)
        if self.peek():
            self.refuse("'}' without a block")
        return record(1, written)


def line_and_column(text, index):
    starts = [0]
    for found in re.finditer(f'\r\n|[{NEWLINES}]', text):
        starts.append(found.end())
    line = bisect.bisect_right(starts, index)
    return line, index - starts[line - 1] + 1


def image_of(content):
    """The image of a text given as bytes; raises ValueError with line, column and reason."""
    try:
        text = content.decode('utf-8')
    except UnicodeDecodeError as error:
        before = content[:error.start].decode('utf-8')
        line, column = line_and_column(before, len(before))
        raise ValueError(f'{line}:{column}: not UTF-8') from None
    try:
        image = Reader(text).document()
    except Refusal as refusal:
        line, column = line_and_column(text, refusal.index)
        raise ValueError(f'{line}:{column}: {refusal.message}') from None
    if len(image) > LARGEST_IMAGE:
        raise ValueError(f'1:1: the image has {len(image)} bytes, more than {LARGEST_IMAGE}')
    return image


def main(arguments):
    if len(arguments) != 2:
        print('usage: kdl2image.py IN.kdl OUT.image', file=sys.stderr)
        return 2
    source, target = arguments
    with open(source, 'rb') as file:
        content = file.read()
    try:
        image = image_of(content)
    except ValueError as error:
        print(f'{source}:{error}', file=sys.stderr)
        return 1
    with open(target, 'wb') as file:
        file.write(image)
    return 0


if __name__ == '__main__':
    sys.exit(main(sys.argv[1:]))
