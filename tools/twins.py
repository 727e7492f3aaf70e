#!/usr/bin/env python3
"""Lists functions of crates/*/src whose text is the same but for names and numbers."""
import collections
import glob
import re

KEYWORDS = set('fn pub let mut if else match while for in loop return self Self Some None Ok Err true false as impl struct enum ref move break continue crate const'.split())


def skeleton(text):
    text = re.sub(r'//.*', '', text)
    text = re.sub(r'^\s*(requires|ensures)\b.*$', '', text, flags=re.M)
    text = re.sub(r'"[^"]*"', '"s"', text)
    words = re.findall(r"[A-Za-z_]\w*|\d\w*|[^\sA-Za-z_0-9]", text)
    return ' '.join(w if w in KEYWORDS or not re.match(r'[A-Za-z_0-9]', w) else ('0' if w[0].isdigit() else 'x') for w in words)


found = collections.defaultdict(list)
for path in sorted(glob.glob('crates/*/src/**/*.rt', recursive=True)):
    text = open(path).read()
    for start in re.finditer(r'^( *)(pub(\(crate\))? )?fn (\w+)', text, flags=re.M):
        indent = start.group(1)
        end = re.compile('^' + indent + r'\}', flags=re.M).search(text, start.end())
        line = text[start.start():].split('\n')[0]
        if end is None or line.endswith(';') or line.endswith('{}'):
            continue
        body = text[start.start():end.end()]
        found[skeleton(body)].append(f'{path}:{text.count(chr(10), 0, start.start()) + 1} {start.group(4)}')
for names in found.values():
    if len(names) > 1:
        print(' | '.join(names))
