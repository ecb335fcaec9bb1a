#!/usr/bin/env python3
"""Counts the places that docs/DESIGN-PASS.md speaks of, in the sources of a tree.

    tools/places.py [-l] [TREE]

-l lists each place by file and line. What a count cannot judge (whether two functions are twins, whether an enum stands
in for an Option) the page says itself. """
import glob
import os
import re
import sys

LIST = '-l' in sys.argv
TREE = next((a for a in sys.argv[1:] if a != '-l'), '.')


def sources(kind):
    return sorted(glob.glob(os.path.join(TREE, 'crates', '*', 'src', '**', '*' + kind), recursive=True))


def code(path):
    """The lines of a source, comments and clauses left out."""
    for n, line in enumerate(open(path), 1):
        text = line.split('//')[0].rstrip()
        if text and not re.match(r'\s*(ghost|requires|ensures|×|≡)', text):
            yield n, text


def places(pattern):
    found = []
    for path in sources('.rt'):
        for n, text in code(path):
            if re.search(pattern, text):
                found.append((path, n, text.strip()))
    return found


def functions():
    """Each function: file, line, name, parameters, body with names of types and numbers left out."""
    for path in sources('.rt'):
        text = re.sub(r'//[^\n]*', '', open(path).read())
        for m in re.finditer(r'\n\s*(?:pub )?fn (\w+)(<[^>(]*>)?\(', text):
            depth, i = 1, m.end()
            while depth:
                depth += {'(': 1, ')': -1}.get(text[i], 0)
                i += 1
            params = [p for p in re.split(r',(?![^<\[(]*[>\])])', text[m.end():i - 1]) if p.strip()]
            indent = re.match(r'\n*( *)', m.group(0)).group(1)
            body = re.search(r'[^\n;]*\{\n(.*?)\n' + indent + r'\}', text[i:], re.S)
            shape = re.sub(r'\b(u8|u64|usize|i64|f64|\d[\w.]*)\b', '_', body.group(1)) if body else ''
            yield path, text[:m.start()].count('\n') + 2, m.group(1), params, re.sub(r'\s+', ' ', shape).strip()


def wide(limit):
    return [(f, n, '%s: %d parameters' % (name, len(ps))) for f, n, name, ps, _ in functions() if len(ps) > limit]


def same_shape():
    """Functions of at least three lines whose bodies are equal but for types, numbers and the names of what they
    call."""
    seen = {}
    for f, n, name, ps, shape in functions():
        if len(shape) > 60:
            key = re.sub(r'\b\w+\(', 'F(', re.sub(r'\b(words|numbers|bytes|tracks|filters|win|nums)\b', 'X', shape))
            seen.setdefault(key, []).append((f, n, name))
    return [g[0] + () for g in seen.values() if len(g) > 1 for _ in g[1:]]


COUNTS = [
    ('1', 'enums of the repository', places(r'^\s*(pub )?enum ')),
    ('1', 'numbers for refusals', places(r'Refused\(|-> u8\b|refused\(\w+, (\d+|n|code)\)|return \d+;')),
    ('1', 'flags beside a value in a struct', places(r'^\s*pub \w+: bool,')),
    ('1', 'numbers for kinds in a match', places(r'^\s*\d+ => ')),
    ('2', 'bodies equal but for types and numbers', same_shape()),
    ('3', 'loops by while', places(r'^\s*while ')),
    ('4', 'ids compared by their number', places(r'\.0 (==|!=|<|<=|>) ')),
    ('4', 'conversions by a function of their own', places(r'fn (to_|from_|number\b|default\b|\w+_of\(b: u8)')),
    ('5', 'functions of more than seven parameters', wide(7)),
    ('6', 'places of a flat array by a stride', places(r'\b(ROW|PART|OWNER|COLUMN|FILTER|DOT|LOG|STATE|TRACK|LINK|BODY)\b \* ')),
    ('7', 'matches that choose a step by a value kept for it', places(r'match (sink|form|call|place|cell\.place)\b|if let Sink::')),
]

for point, what, found in COUNTS:
    print('%s  %4d  %s' % (point, len(found), what))
    if LIST:
        for path, n, text in found:
            print('        %s:%d: %s' % (os.path.relpath(path, TREE), n, text))

goals = [p for p in glob.glob(os.path.join(TREE, 'crates', '*', 'proofs', '**', 'Answers.antt'), recursive=True)]
print('8  %4d  answers in %d files' % (sum(len(re.findall(r'^pub \S+ : goal\.', open(p).read(), re.M)) for p in goals), len(goals)))
