#!/usr/bin/env python3
"""Holds two clones against each other after rename36.py: each declaration names what it named before, under the new names.
compare36.py BEFORE AFTER"""
import importlib.util, os, re, sys
sys.dont_write_bytecode = True
spec = importlib.util.spec_from_file_location('antt', sys.argv[1] + '/tools/antt.py'); antt = importlib.util.module_from_spec(spec); spec.loader.exec_module(antt)
text = open('/work/tools/rename36.py').read()
ren = {(c, 'specs', f, o): n for c, f, o, n in (x.split() for x in re.search(r"RENAMES = .*?'''\n(.*?)\n'''", text, re.S)[1].split('\n'))}
a, b = antt.Tree(sys.argv[1]), antt.Tree(sys.argv[2])
def new(key): return key[:3] + (ren.get(key, key[3]),)
lost = {new(k) for k in a.decls} ^ set(b.decls)
print('declarations', len(a.decls), len(b.decls), 'differ', sorted(lost)[:5])
bad = 0
for k in a.decls:
    if new(k) not in b.decls: continue
    x, y = {new(z) for z in a.needs(k)}, b.needs(new(k))
    if x != y:
        bad += 1
        if bad < 25: print(k, 'lost', sorted(x - y)[:4], 'got', sorted(y - x)[:4])
print('declarations that name other things:', bad)
