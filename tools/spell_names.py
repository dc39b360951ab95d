#!/usr/bin/env python3
"""Turns the repository's own names in camel case to snake case: definitions, lemmas and fields of specs/ and proofs/,
with each place that cites them, in .antt, .rt, .edit and .md files. Types and modules keep theirs.

usage: spell_names.py [--check] ROOT
"""
import glob, os, re, sys
check = '--check' in sys.argv
root = [a for a in sys.argv[1:] if not a.startswith('-')][0]
WORD = re.compile(r"[A-Za-z_][\w'′]*(?:-[\w'′]+)*")
DECL = re.compile(r"^\s*(?:(?:abbrev|pub|unfoldable|opaque|irreducible|private)\s+)*([A-Za-z_][\w'′-]*(?:\s+[A-Za-z_][\w'′-]*)*)\s*:(?![:=])", re.M)

def files(*kinds):
    for folder, dirs, names in os.walk(root):
        dirs[:] = [d for d in dirs if d not in ('.git', 'out', 'target')]
        for n in sorted(names):
            if n.endswith(kinds):
                yield os.path.join(folder, n)

def snake(part):
    if part == 'getD':
        return 'get_or'
    if re.match(r"[a-z_]", part) and re.search(r"[a-z0-9][A-Z]", part):
        return re.sub(r"([a-z0-9])([A-Z])", lambda m: m[1] + '_' + m[2].lower(), part)
    return part

def turned(name):
    return '-'.join(snake(p) for p in name.split('-')).replace('′', "'")

declared = set()
for f in files('.antt'):
    text = open(f, encoding='utf-8').read()
    text = re.sub(r'--[^\n]*', '', text)
    for m in DECL.finditer(text):
        declared |= set(m[1].split())
table = {n: turned(n) for n in declared if turned(n) != n}
# A lemma beside it has the turned name.
if 'allLines' in table:
    table['allLines'] = 'lines_of_all'
if check:
    seen = {}
    for f in files('.antt', '.rt'):
        for w in set(WORD.findall(open(f, encoding='utf-8').read())):
            seen.setdefault(w, []).append(os.path.relpath(f, root))
    for n, t in sorted(table.items()):
        if t in seen:
            print(n, '->', t, 'stands in', len(seen[t]), seen[t][:6])
    print(len(table))
    sys.exit()
for f in files('.antt', '.rt', '.edit', '.md'):
    text = open(f, encoding='utf-8').read()
    new = WORD.sub(lambda m: table.get(m[0], m[0]), text)
    if new != text:
        open(f, 'w', encoding='utf-8').write(new)
