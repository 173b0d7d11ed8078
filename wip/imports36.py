#!/usr/bin/env python3
"""Whether each name that a file imports from our specs and proofs is declared there (all files, those of functions' proofs too), and whether an
old name is left in a file whose import was renamed. imports36.py AFTER"""
import glob, os, re, sys
os.chdir(sys.argv[1])
USE = re.compile(r'(?m)^((?:unfoldable |pub |ghost )*use )([^{\s;]+?)\.\{([^}]*)\};?$')
def path_of(mod):
    m = re.match(r'Rattle·(\w+?)(?:·(?:specs|proofs))?\.(specs|proofs)\.([\w.]+)$', mod)
    return f'crates/{m[1]}/{m[2]}/{m[3].replace(".", "/")}.antt' if m else None
text = {p: open(p).read() for p in glob.glob('crates/**/*.antt', recursive=True) + glob.glob('crates/*/src/**/*.rt', recursive=True)}
ren = [x.split() for x in re.search(r"RENAMES = .*?'''\n(.*?)\n'''", open('/work/tools/rename36.py').read(), re.S)[1].split('\n')]
bad = left = n = 0
for p, t in text.items():
    for m in USE.finditer(t):
        there = path_of(m[2])
        if not there or there not in text: continue
        for item in filter(None, map(str.strip, m[3].split(','))):
            name, _, alias = item.partition(' as ')
            n += 1
            if not re.search(rf"(?<![\w\-′'·.]){re.escape(name)}(?![\w\-′'·])", re.sub(r'--.*', '', text[there])):
                bad += 1; print('NOT THERE', p, m[2], name)
            for c, f, old, new in ren:
                if there == f'crates/{c}/specs/{f}.antt' and name == new and not alias:
                    body = re.sub(r'(?m)--.*$|^.*\buse .*$', '', t)
                    if re.search(rf"(?<![\w\-′'·.]){re.escape(old)}(?![\w\-′'·])", body):
                        other = [k[2] for k in USE.finditer(t) if re.search(rf'(?:^|, ){re.escape(old)}(?:,|$)', k[3])]
                        left += 1; print('LEFT', p, old, 'also from', other, [l.strip()[:110] for l in body.split('\n') if re.search(rf"(?<![\w\-′'·.]){re.escape(old)}(?![\w\-′'·])", l)][:2])
print(n, 'imports,', bad, 'not there,', left, 'files with the old name left')
