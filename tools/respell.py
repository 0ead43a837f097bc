#!/usr/bin/env python3
"""Brings the repository's own names in specs/ and proofs/ to snake case.

    tools/respell.py [FOLDER]

A definition, lemma, field, constructor, local name or alias of an import that a
file of crates/ declares is respelled in every .antt and .rt file: a dash becomes an underscore, and a
name that begins with a capital letter is joined in camel case; a prime becomes
an apostrophe. Names that the check makes (goals, invariants, measures and the
steps of a proof) keep their spelling, and so do strings and comments of code.
An import under the library's name All gets its whole name.
It prints each name that falls together with another, and then changes nothing.
"""
import pathlib
import re
import sys

ROOT = pathlib.Path(sys.argv[1] if len(sys.argv) > 1 else '.').resolve()
CRATES = ROOT / 'crates'
PART = r'[^\s(){};,.\[\]"⌜⌝◌:]+'
DECLARED = re.compile(
    r'^\s*(?:(?:abbrev|unfoldable|pub|data|record|infixl?r?)\s+)*(' + PART + r')\s[^:=]*?:\s*(.*)$')
SEVERAL = re.compile(r'^\s+(?:pub\s+)?((?:' + PART + r'\s+)+' + PART + r')\s+:\s')
ALIAS = re.compile(r' as (' + PART + r')')
BOUND = re.compile(r'\blet\s+(' + PART + r')\s*[:=]')


def new_name(name):
    name = name.replace('′', "'")
    if not re.search(r'[A-Za-z]-|-[A-Za-z]', name):
        return name
    if name[0].isupper():
        return ''.join(p[:1].upper() + p[1:] for p in name.split('-'))
    return name.replace('-', '_')


def texts():
    for kind in ('specs', 'proofs'):
        yield from sorted(CRATES.glob(f'*/{kind}/**/*.antt'))


def declared(path):
    for line in path.read_text(encoding='utf8').splitlines():
        if line.lstrip().startswith('--') or line.startswith('use ') or line.startswith('pub use '):
            continue
        m = DECLARED.match(line)
        if m and not re.match(r'(goal|given|need)\.', m.group(2)):
            yield m.group(1)
        m = SEVERAL.match(line)
        if m:
            yield from m.group(1).split()
        yield from BOUND.findall(line)


def aliases(path):
    for line in path.read_text(encoding='utf8').splitlines():
        if re.match(r'(ghost |pub )?use ', line):
            yield from ALIAS.findall(line)


def main():
    names = {}
    goals = set()
    for path in texts():
        for line in path.read_text(encoding='utf8').splitlines():
            m = DECLARED.match(line)
            if m and re.match(r'(goal|given|need)\.', m.group(2)):
                goals.add(m.group(1))
    for path in texts():
        for name in declared(path):
            if new_name(name) != name:
                names[name] = new_name(name)
    for path in list(texts()) + sorted(CRATES.glob('*/src/**/*.rt')):
        for name in aliases(path):
            if new_name(name) != name:
                names[name] = new_name(name)
    clash = False
    for name in sorted(set(names) & goals):
        print(f'a goal has the name too: {name}')
        del names[name]
    # names that fall together
    for path in texts():
        here = {}
        for name in set(declared(path)):
            here.setdefault(names.get(name, name), set()).add(name)
        for line in path.read_text(encoding='utf8').splitlines():
            m = re.match(r'(?:pub )?use .*\{(.*)\}', line)
            if m:
                for item in m.group(1).split(','):
                    item = item.strip().split(' as ')[-1].strip()
                    here.setdefault(names.get(item, item), set()).add(item)
        for new, old in here.items():
            if len(old) > 1:
                print(f'{path.relative_to(ROOT)}: {sorted(old)} fall together')
                clash = True
    if clash:
        sys.exit(1)
    token = re.compile(PART)

    def respell(text, at=None):
        def put(m):
            word = m.group(0)
            if word not in names:
                return word
            before = text[max(0, m.start() - 12):m.start()]
            if re.search(r'(?:^|[^\w\'])(?:c|w|goal|given|Goals)\.$', before):
                return word
            return names[word]
        return token.sub(put, text)

    changed = 0
    for path in sorted(CRATES.glob('**/*.antt')) + sorted(CRATES.glob('*/src/**/*.rt')):
        if 'out' in path.parts:
            continue
        old = path.read_text(encoding='utf8')
        lines = []
        for line in old.splitlines(keepends=True):
            if path.suffix == '.rt':
                # code outside strings and comments
                parts = re.split(r'("(?:[^"\\]|\\.)*"|//.*)', line)
                parts[::2] = [respell(p) for p in parts[::2]]
                lines.append(''.join(parts))
            elif line.lstrip().startswith('--') or re.match(r'use .*\.proofs\..*\.(Goals|Given)\.\{', line):
                lines.append(line)
            else:
                lines.append(respell(line))
        new = ''.join(lines)
        if new != old:
            path.write_text(new, encoding='utf8')
            changed += 1
    print(f'{len(names)} names, {changed} files')
    # the library's All is another definition than this one, so it has its whole name
    for path in sorted(CRATES.glob('**/*.antt')) + sorted(CRATES.glob('*/src/**/*.rt')):
        old = path.read_text(encoding='utf8')
        if 'out' not in path.parts and 'AllByRecursion as All' in old:
            new = old.replace('AllByRecursion as All', 'AllByRecursion')
            new = re.sub(r'(?<![^\s(){};,.])All(?![^\s(){};,.])', 'AllByRecursion', new)
            path.write_text(new, encoding='utf8')


main()
