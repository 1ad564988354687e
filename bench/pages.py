#!/usr/bin/env python3
"""The pages of definitions that public contracts reach: what a reader has to believe.

    bench/pages.py           prints them, crate by crate, as README.md lists them
    bench/pages.py --check   says where README.md lists others, or where such a page stands among the internal ones;
                             the status is then 1

It goes by the text: the names in the contracts of public functions, of methods of public types and of public traits are
followed through the `use` lines and through the definitions of specs/. Crates of tests and cases are left out.
"""
import os
import re
import sys

TOP = os.path.dirname(os.path.dirname(os.path.abspath(__file__)))
BEGIN, END = '<!-- pages -->', '<!-- end of pages -->'
USE = re.compile(r'use Rattle\.([\w.]+?)(?:\.\{([^}]*)\})?(?: as (\w+))?;?\s*$', re.M)
DEFINED = re.compile(r'^(?:infix\w* .*|(?:abbrev|unfoldable|record|data)\b.*|pub (?:record|data)\b.*)', re.M)
HEAD = re.compile(r'^ *(?:abbrev pub|unfoldable pub|pub record|pub data) (\S+)')
NAME = re.compile(r'[A-Za-z_][\w\-]*')
FUNCTION = re.compile(r'^(\s*)(pub )?(?:unsafe )?fn (\w+)')


def read(path):
    with open(path, encoding='utf8') as file:
        return file.read()


def crates():
    for line in read(f'{TOP}/crates.txt').split('\n'):
        name = line.split(':')[0].strip()
        if name and not name.startswith('#') and not name.endswith('_tests') and name != 'fcg_cases':
            yield name


def files(folder, ending):
    for place, names, found in os.walk(folder):
        names.sort()
        for name in sorted(found):
            if name.endswith(ending):
                yield os.path.join(place, name)


def uses_of(text):
    """name -> page, and alias -> page with a `*`"""
    uses = {}
    for page, names, alias in USE.findall(text):
        if names:
            for name in names.split(','):
                uses[name.strip()] = page
        elif alias:
            uses[alias] = page + '.*'
    return uses


class Definitions:
    """Each definition of specs/ with what it names."""

    def __init__(self):
        self.texts = {}   # (page, name) -> its text
        self.uses = {}    # page -> its uses
        self.names = {}   # page -> its names
        for crate in crates():
            folder = f'{TOP}/crates/{crate}/specs'
            for path in files(folder, '.antt'):
                page = f'{crate}.specs.' + os.path.relpath(path, folder)[:-len('.antt')].replace(os.sep, '.')
                self.add(page, read(path))

    def add(self, page, text):
        self.uses[page] = uses_of(text)
        self.names[page] = set()
        name = None
        for line in text.split('\n'):
            found = HEAD.match(line)
            if found:
                name = found.group(1)
                self.names[page].add(name)
                self.texts[page, name] = ''
            if name and not line.lstrip().startswith('--'):
                self.texts[page, name] += line + '\n'

    def named_in(self, text, uses, own=None):
        for alias, name in re.findall(r'\b(\w+)\.([A-Za-z_][\w\-]*)', text):
            page = uses.get(alias, '')
            if page.endswith('.*'):
                yield page[:-2], name
        for name in NAME.findall(text):
            if own and name in self.names[own]:
                yield own, name
            elif name in uses and not uses[name].endswith('.*'):
                yield uses[name], name
        if '←' in text or '>>=' in text:
            yield 'fcg_grammar.specs.Reading', '◌>>=◌'

    def reached(self, named):
        seen, waiting = set(), list(named)
        while waiting:
            key = waiting.pop()
            if key in self.texts and key not in seen:
                seen.add(key)
                waiting += self.named_in(self.texts[key], self.uses[key[0]], key[0])
        return seen


def public_items(crate):
    """The names that the crate exports, with those of its public modules."""
    items = set()
    root = read(f'{TOP}/crates/{crate}/src/lib.rt')
    for names, name in re.findall(r'pub use [\w:]+::(?:\{([^}]*)\}|(\w+));', root):
        items |= {item.strip() for item in (names or name).split(',') if item.strip()}
    for module in re.findall(r'^pub mod (\w+);', root, re.M):
        items |= set(re.findall(r'^pub (?:fn|struct|enum|trait) (\w+)', read(f'{TOP}/crates/{crate}/src/{module}.rt'), re.M))
    return items


def contracts(text, items):
    """The clauses of the functions and methods of a file that are public."""
    owner = None   # the type or the trait of the block, and whether all of its methods are public
    lines = text.split('\n')
    at = 0
    while at < len(lines):
        line = lines[at]
        block = re.match(r'^(?:pub )?(impl|trait)\b(.*)\{$', line)
        if block:
            words = re.sub(r'<[^<>]*(?:<[^<>]*>)?[^<>]*>', '', block.group(2)).split(' where ')[0]
            of_trait = ' for ' in words or block.group(1) == 'trait'
            owner = (words.split(' for ')[-1].split(':')[0].strip(), of_trait)
        elif line.startswith('}'):
            owner = None
        found = FUNCTION.match(line)
        at += 1
        if not found:
            continue
        head = [line]
        while at < len(lines) and not re.search(r'(^\s*\{|\{$|\{\}$|;$)', head[-1]):
            head.append(lines[at])
            at += 1
        indent, public, name = found.groups()
        if (name in items and public and not indent) or (owner and owner[0] in items and (public or owner[1])):
            yield '\n'.join(head)


def pages_reached(definitions):
    pages = set()
    for crate in crates():
        if not os.path.exists(f'{TOP}/crates/{crate}/src/lib.rt'):
            continue
        items = public_items(crate)
        for path in files(f'{TOP}/crates/{crate}/src', '.rt'):
            text = read(path)
            uses = uses_of(text)
            for clauses in contracts(text, items):
                pages |= {page for page, name in definitions.reached(definitions.named_in(clauses, uses))}
    return pages


def listed(pages):
    rows = {}
    for page in sorted(pages):
        crate, name = page.split('.specs.')
        rows.setdefault(crate, []).append(name.replace('.', '/'))
    order = list(crates())
    return [f'- `{crate}`: {", ".join(rows[crate])}' for crate in order if crate in rows]


def main():
    pages = pages_reached(Definitions())
    rows = listed(pages)
    if sys.argv[1:] != ['--check']:
        print('\n'.join(rows))
        return
    wrong = [f'{page} is internal, and a public contract needs it' for page in sorted(pages) if '.Internal.' in page]
    text = read(f'{TOP}/README.md')
    has = text[text.index(BEGIN) + len(BEGIN):text.index(END)].strip().split('\n')
    wrong += [f'README.md should not have: {row}' for row in has if row not in rows]
    wrong += [f'README.md should have: {row}' for row in rows if row not in has]
    for line in wrong:
        print(line)
    sys.exit(1 if wrong else 0)


main()
