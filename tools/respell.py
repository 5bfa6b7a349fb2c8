#!/usr/bin/env python3
"""Brings the repository's own names in specs/, proofs/, clauses, must-fail edits and pages to snake case, once, behind port.py:
`digitsWithin` becomes `digits_within`, `has-lineAt` becomes `has-line_at`. Types, facts and modules keep their capital; names of
functions of src/, of fields, of exported C functions and of the library stay. Prints names that would fall together, and then writes nothing.

    python3 tools/respell.py [FOLDER]"""
import collections, glob, os, re, sys

top = sys.argv[1] if len(sys.argv) > 1 else '.'
KIT = '/opt/rattle'
name = re.compile(r"[A-Za-zΑ-Ωα-ω_ℕℤ₀-₉0-9'′◌∷≡≤<>+*/%^⊎¬-]+")
part = re.compile(r'^[a-z][a-z0-9]*[A-Z]')

def snake(word):
    def one(p):
        if not part.match(p):
            return p
        p = re.sub(r'([a-z0-9])([A-Z])', r'\1_\2', p)
        p = re.sub(r'([A-Z])([A-Z][a-z])', r'\1_\2', p)
        return p.lower() if p.isascii() else ''.join(c.lower() if c.isascii() else c for c in p)
    return '-'.join(one(p) for p in word.split('-'))

antt = sorted(glob.glob(top + '/crates/*/specs/**/*.antt', recursive=True) + glob.glob(top + '/crates/*/proofs/**/*.antt', recursive=True))
rt = sorted(glob.glob(top + '/crates/*/src/**/*.rt', recursive=True))
edits = sorted(glob.glob(top + '/crates/*/must-fail/*.edit'))

# what is declared here: heads of definitions, fields, constructors, parameters
words = collections.Counter()
for f in antt:
    for line in open(f, encoding='utf-8'):
        code = line.split('--')[0] if line.startswith('--') else re.split(r'(?:^|\s)--(?:\s|$)', line)[0]
        for w in name.findall(code):
            words[w] += 1
kit = set()
for root in ('rattle/core', 'rattle/std', 'rattle/std_alloc', 'rattle/std_collections', 'rattle/std_heap', 'rattle/std_io', 'rattle/logic', 'rattle/antt', 'rattle/io', 'rattle/libc', 'rattle/os'):
    for f in glob.glob(f'{KIT}/{root}/**/*.antt', recursive=True):
        for w in name.findall(open(f, encoding='utf-8', errors='replace').read()):
            if any(part.match(p) for p in w.split('-')):
                kit.add(w)
declared = set()
for f in antt:
    for line in open(f, encoding='utf-8'):
        m = re.match(r"^(?:(?:abbrev|unfoldable|pub|record|data|mutual|ruleset)\s+)*([^\s:(){}=]+)\s*(?::|\{|\(|=|where|$)", line)
        if m and not re.match(r'(use|mod|--|unfolding|infix)', line):
            declared.add(m.group(1))
        m = re.match(r"^\s+(?:pub\s+)?([^\s:(){}=]+)\s*:", line)
        if m:
            declared.add(m.group(1))
source = set()
for f in rt:
    text = open(f, encoding='utf-8').read()
    source |= set(re.findall(r'\bfn\s+(\w+)', text)) | set(re.findall(r'\b(\w+)\s*:', text))

# lemmas and names beside a definition that takes their name now
aside = {'any_below': 'any_below_lem', 'all_true': 'all_true_lem', 'in_order': 'in_order_lem', 'is_digit': 'is_digit_lem', 'no_loop': 'no_loop_lem',
         'no_tie': 'no_tie_lem', 'record_of': 'record_of_lem', 'value_line': 'value_line_lem', 'linesRead': 'lines_read_of', 'noneSince': 'none_since_of'}
keep = {'eE', 'eN', 'ePS', 'eWE'}
turn = dict((w, n) for w, n in aside.items() if w in words)
for w in words:
    if w in aside or w in keep:
        continue
    new = re.sub(r'^getD(?=$|-)', 'get_or', w)
    new = snake(new)
    if new == w or w in source:
        continue
    if w in kit and w not in declared:
        print('of the library, kept:', w)
        continue
    turn[w] = new
clash = [(w, n) for w, n in turn.items() if (n in words and n not in aside) or n in source]
seen = collections.defaultdict(list)
for w, n in turn.items():
    seen[n].append(w)
bad = [(n, ws) for n, ws in seen.items() if len(ws) > 1]
for w, n in sorted(clash):
    print('falls together with a name that stands:', w, n)
for n, ws in sorted(bad):
    print('fall together:', n, ws)

if '--list' in sys.argv:
    for w in sorted(turn):
        print(w, turn[w])
    sys.exit()
if '--write' in sys.argv:
    def respelled(text):
        return name.sub(lambda m: turn.get(m.group(0), m.group(0)), text)
    for f in antt + rt + edits:
        old = open(f, encoding='utf-8').read()
        new = respelled(old)
        if new != old:
            open(f, 'w', encoding='utf-8').write(new)
    pages = glob.glob(top + '/docs/*.md') + [top + '/README.md', top + '/CONTRIBUTING.md']
    for f in pages:
        old = open(f, encoding='utf-8').read()
        new = re.sub(r'`[^`\n]+`', lambda m: respelled(m.group(0)), old)
        if new != old:
            open(f, 'w', encoding='utf-8').write(new)
