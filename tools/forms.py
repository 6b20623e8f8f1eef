#!/usr/bin/env python3
"""Counts, in crates/*/src, the older forms that docs/DESIGN-PASS.md speaks of, point by point.

    python3 tools/forms.py [--list] [POINT..]

With --list each place is printed. It goes by text: a place is where to look, and the page says what was found there.
"""
import collections
import glob
import itertools
import re
import sys

FAILS = r'Refused|NoFault|Faulty|Fault|Missing|Unreadable|TooMany|Wrong|NoCase'
NONE = r'none (does|is\b)|if none|for none|or 0 for|0 if |0 where|255 where|is no such|asks for no'
PAIRED = [('terms', 'contexts'), ('terms', 'contexts', 'lines'), ('p', 'q', 'r', 's'), ('heads', 'links'),
          ('below', 'kept'), ('t', 'n'), ('first', 'last'), ('text', 'count')]


def sources():
    for path in sorted(glob.glob('crates/*/src/*.rt')):
        with open(path, encoding='utf-8') as file:
            yield path, file.read()


def at(text, start):
    return text.count('\n', 0, start) + 1


def matches(pattern, comments=False):
    """Places of a pattern, outside comments or in comments alone."""
    for path, text in sources():
        for number, line in enumerate(text.splitlines(), 1):
            code, mark, comment = line.partition('//')
            part = comment if comments else code
            if re.search(pattern, part):
                yield path, number, line.strip()


def enums():
    """Enums of the shape of Option or Result: one of the variants is a failure or nothing."""
    for path, text in sources():
        for found in re.finditer(r'\benum (\w+)[^{]*\{(.*?)\n\}', text, re.S):
            name, body = found.groups()
            if re.search(r'\b(%s)\b' % FAILS, body) and not re.search(r'(Error|Fault)$', name):
                yield path, at(text, found.start()), name


def functions():
    """Each function: path, line, name, parameters, clauses, body."""
    pattern = r'^( *)(?:pub )?(?:extern "C" )?fn (\w+)(?:<[^(]*>)?\((.*?)\)(.*?)^\1\{\n(.*?)^\1\}'
    for path, text in sources():
        for found in re.finditer(pattern, text, re.S | re.M):
            yield (path, at(text, found.start())) + found.groups()[1:]


def index_loops():
    """Loops `while` whose body adds 1 to, or takes 1 from, a variable of the test."""
    for path, number, name, _, _, body in functions():
        for found in re.finditer(r'while (.*?) \{\n(.*)', body, re.S):
            test, rest = found.groups()
            if any(re.search(r'\b%s [+-]= 1;' % v, rest) for v in re.findall(r'[a-z_]\w*', test)):
                yield path, number, name


def twins():
    """Pairs of functions whose bodies share six lines or more, one behind the other, once names are replaced."""
    runs = collections.defaultdict(set)
    for path, number, name, _, _, body in functions():
        lines = [re.sub(r'[A-Za-z_]\w*', 'x', line.split('//')[0].strip()) for line in body.splitlines()]
        lines = [line for line in lines if line]
        for start in range(len(lines) - 5):
            runs[tuple(lines[start:start + 6])].add((path, number, name))
    pairs = {pair for places in runs.values() for pair in itertools.combinations(sorted(places), 2)}
    for one, other in sorted(pairs):
        yield one[0], one[1], f'{one[2]} and {other[2]} of {other[0]}:{other[1]}'


def conversions():
    """Functions of one value that only cast it, move its fields into another type, or write an operator of std out."""
    for path, number, name, params, clauses, body in functions():
        one = params.count(':') == 1 or re.fullmatch(r'(\w+): (\w+), (\w+): \2,?', params.strip())
        cast = re.fullmatch(r'\s*\w+(\[\w+\])? as \w+\s*', body)
        plus = re.fullmatch(r'\s*\w+ as usize [+-] \w+\s*', body)
        moved = re.fullmatch(r'\s*[A-Z]\w+ \{.*\}\s*', body, re.S) and ':' in body and one
        larger = re.fullmatch(r'\s*if (\w+)(\.\w+)? < (\w+)(\.\w+)? \{\s*return \3;\s*\}\s*\1\s*', body)
        fields = len(re.findall(r'(\w+)\.(\w+) == (?:wide\()?\w+\.\2', body)) > 2
        if one and (cast or moved or larger) or plus or fields:
            yield path, number, name


def facts():
    """Facts of a value that stand in the `requires` of three functions or more."""
    held = collections.defaultdict(list)
    for path, number, name, _, clauses, _ in functions():
        asked = ' '.join(re.findall(r'requires(?: \w+)? \{(.*)\}', clauses))
        for word in sorted(set(re.findall(r'\b[A-Z]\w+\b|≡ rule_table', asked))):
            held[word].append((path, number, name))
    for word, places in sorted(held.items()):
        if len(places) > 2:
            yield places[0][0], places[0][1], f'{word}: {len(places)} contracts'


def together():
    """Parameters that travel together through three functions or more."""
    for group in PAIRED:
        places = []
        for path, number, name, params, _, _ in functions():
            names = re.findall(r'(?:mut )?(\w+):', params)
            if all(n in names for n in group):
                places.append((path, number, name))
        if len(places) > 2:
            yield places[0][0], places[0][1], f'{", ".join(group)}: {len(places)} functions'


def steps():
    """Tables of functions, and switches that are handed down to say which step to run."""
    yield from matches(r'\[fn\(|: fn\(|\bdyn\b|match (step|kind|task|mode)\b')


POINTS = {
    '1a own enums like Option or Result': enums,
    '1b numerals for refusals': lambda: matches(r'(number: |Fault\(|not_opened\()[0-9]+'),
    '1c numbers for kinds': lambda: matches(r'\b(tag|form\d?|rule): usize'),
    '1d a value that stands for none, by its comment': lambda: matches(NONE, comments=True),
    '1e a flag beside a value': lambda: matches(r'^\s*(pub )?\w+: bool,$'),
    '2 functions that share six lines or more, names replaced': twins,
    '3a while': lambda: matches(r'^\s*while '),
    '3b of these, an index counted by hand': index_loops,
    '4 conversions, comparisons and maxima by hand': conversions,
    '5a facts in three contracts or more': facts,
    '5b parameters that travel together': together,
    '6 fixed arrays of a length, in signatures and fields': lambda: matches(r': (&mut )?\[\w+; \w+\]'),
    '7 switches and tables of steps': steps,
}


def main():
    wanted = [a for a in sys.argv[1:] if a != '--list']
    for title, find in POINTS.items():
        if wanted and title.split()[0] not in wanted:
            continue
        places = sorted(set(find()))
        print(f'{title}: {len(places)}')
        if '--list' in sys.argv:
            for path, number, what in places:
                print(f'  {path}:{number}: {what}')


main()
