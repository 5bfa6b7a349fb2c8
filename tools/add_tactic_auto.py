#!/usr/bin/env python3
"""Writes `#![tactic(auto)]` into each crate's root file that lacks it, below its head comment."""
import glob
for f in glob.glob('crates/*/src/lib.rt') + glob.glob('crates/*/src/main.rt'):
    s = open(f, encoding='utf-8').read()
    if '#![tactic(auto)]' in s:
        continue
    lines = s.split('\n')
    i = 0
    while i < len(lines) and lines[i].startswith('//'):
        i += 1
    lines[i:i] = ['#![tactic(auto)]', ''] if i < len(lines) and lines[i] != '' else ['#![tactic(auto)]']
    open(f, 'w', encoding='utf-8').write('\n'.join(lines))
