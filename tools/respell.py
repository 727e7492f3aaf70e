#!/usr/bin/env python3
"""Spells the repository's own names of specs/ and proofs/ as today's Rattle does.

Words (definitions, fields, lemmas, locals) become snake_case and types CamelCase, wherever the name stands: in specs/, in
proofs/, and in the clauses and ghost lines of src/. Functions of src/, strings, comments (but for names in backticks), inputs
and outputs stay as they are. Names that a file takes from the standard library stay too. Run it at the top of the repository,
once, after the kit's own port.py. With --dry it only prints what would fall together.
"""
import glob
import re
import sys

PART = r"[A-Za-z0-9_'Α-ωℕ]+"
NAME = re.compile(PART + r"(?:-" + PART + r")+")
WORD = re.compile(PART + r"(?:-" + PART + r")*")
# A type of src/ has the plain new name already.
APART = {'Calls-read': 'CallsAsRead', 'Schedule-read': 'ScheduleAsRead'}
# Names that the kit makes from the code, in answers and invariants; they are spelled by the kit.
MADE = ('Answers.antt', 'Invariants.antt', 'Proof.antt')


def files(*ends):
    return sorted(p for e in ends for p in glob.glob('crates/*/**/*' + e, recursive=True) if '/out/' not in p)


def read(path):
    with open(path, encoding='utf-8') as f:
        return f.read()


def code_lines(text, mark):
    return [line for line in text.split('\n') if not line.lstrip().startswith(mark)]


def from_library(text):
    names = set()
    for m in re.finditer(r'use Rattle\.std\S*?\.\{([^}]*)\}', text):
        for part in m.group(1).split(','):
            names.update(part.strip().split(' as ')[:1])
    return names


def declared(text):
    """The names that a file of specs/ or proofs/ declares: definitions, fields, constructors, and what they bind."""
    body = '\n'.join(line for line in code_lines(text, '--') if not re.match(r'\s*(pub )?use ', line))
    names = set()
    for m in re.finditer(r'^\s*(?:abbrev |unfoldable |pub |data |record )*(' + WORD.pattern + r')\s*(?=[:({])', body, re.M):
        names.add(m.group(1))
    for m in re.finditer(r'[({λ]([^(){}:λ.;=]*?)[:.]', body):
        names.update(t for t in m.group(1).split() if WORD.fullmatch(t))
    for m in re.finditer(r'\blet ((?:' + WORD.pattern + r' )+)[=:]', body):
        names.update(m.group(1).split())
    # what a clause binds on the left of its `=`
    for m in re.finditer(r'^\s*' + WORD.pattern + r'((?: [^=:\n]+?)?) =(?: |$)', body, re.M):
        names.update(t for t in re.split(r'[\s(){},;]+', m.group(1)) if WORD.fullmatch(t))
    return names


def spelled(name):
    if name in APART:
        return APART[name]
    parts = [p for p in re.split(r'[-_]', name) if p]
    if name[0].isupper():
        return ''.join(p[0].upper() + p[1:] for p in parts)
    return name.replace('-', '_')


def main():
    dry = '--dry' in sys.argv
    own = set()
    for path in files('.antt'):
        if not path.endswith(MADE):
            own |= declared(read(path)) - from_library(read(path))
    turned = {n: spelled(n) for n in own if NAME.fullmatch(n) or (n[0].isupper() and '_' in n and not n.isupper())}

    def turn(text, keep, met):
        def one(m):
            name = m.group(0)
            new = name if name in keep else turned.get(name, name)
            met.setdefault(new, set()).add(name)
            return new
        return WORD.sub(one, text)

    def turn_line(line, mark, keep, met):
        at = line.find(mark)
        if at < 0:
            return turn(line, keep, met)
        said = re.sub(r'`[^`]*`', lambda m: turn(m.group(0), keep, {}), line[at:])
        return turn(line[:at], keep, met) + said

    for path in files('.antt', '.rt'):
        text = read(path)
        mark = '--' if path.endswith('.antt') else '//'
        met = {}
        keep = from_library(text)
        if path.endswith('.antt'):
            new = '\n'.join(turn_line(line, mark, keep, met) for line in text.split('\n'))
        else:
            pieces = re.split(r'("(?:\\.|[^"\\])*")', text)
            new = ''.join(p if i % 2 else '\n'.join(turn_line(line, mark, keep, met) for line in p.split('\n')) for i, p in enumerate(pieces))
        for name, olds in met.items():
            if len(olds) > 1:
                print('together:', path, name, sorted(olds))
        if not dry and new != text:
            with open(path, 'w', encoding='utf-8') as f:
                f.write(new)
    print('turned %d names' % len(turned))


main()
