#!/usr/bin/env python3
"""places.py [ROOT] [-v]: counts the places in crates/*/src that docs/DESIGN-PASS.md speaks of, point by point; -v names each.

1 answers: enums with a failure beside what is answered, structs with a flag beside a value, numbers that stand for a reason or for none
2 twins: pairs of functions whose bodies are the same but for names and numbers, and functions that choose between two numbers
3 loops: every `while` and `loop`; of these the ones that count an index by hand
4 by hand: functions that only convert a number, or give the number or the text of a value
5 together: groups of three parameters or more, in eight functions or more; parts of clauses that stand in three contracts or more
6 buffers: functions that take a slice and, beside it, from where or up to where it is used
7 switches: enums whose only use is to say which step runs, and arrays of such
8 proofs: proofs that walk a function's code by hand (Proof.antt), answers (Answers.antt), and laws of proofs/ that nothing cites, nor
  README or docs/ name"""
import collections, glob, itertools, re, sys

args = [a for a in sys.argv[1:] if a != '-v']
root, verbose = (args or ['.'])[0], '-v' in sys.argv
files = {f[len(root) + 1:]: open(f).read() for f in sorted(glob.glob(f'{root}/crates/*/src/*.rt'))}
FAILURES = set('Refused Refused4 Full Spent Nothing Unknown Bad Unreadable Failed Short Missed Err None More'.split())
WORDS = {'if', 'let', 'while', 'for', 'in', 'return', 'match', 'mut', 'else', 'as'}


def line(text, at):
    return text.count('\n', 0, at) + 1


def functions():
    for path, text in files.items():
        for m in re.finditer(r'(?m)^( *)(?:pub )?(?:extern "C" )?fn (\w+)(?:<[^(]*>)?\((.*?)\)(.*?)\n\1\{\n(.*?)^\1\}', text, re.S):
            yield path, line(text, m.start()), m[2], m[3], m[4], m[5]


def enums():
    for path, text in files.items():
        for m in re.finditer(r'(?m)^(?:pub )?enum (\w+) \{\n(.*?)^\}', text, re.S):
            yield path, line(text, m.start()), m[1], re.findall(r'(?m)^    (\w+)', re.sub(r'//.*', '', m[2]))


found = collections.OrderedDict((k, []) for k in [
    '1 enums with a failure', '1 structs with a flag', '1 a number for none or for a reason', '2 pairs of one shape', '2 lesser or greater of two',
    '3 loops', '3 of these, counted by hand', '4 conversions and numbers by hand', '5 groups of parameters', '5 parts of clauses',
    '6 slices with a range beside', '7 switches', '8 Proof.antt', '8 Answers.antt', '8 laws that nothing cites'])
for path, at, name, variants in enums():
    if name != 'Refusal' and FAILURES & set(variants):
        found['1 enums with a failure'].append(f'{path}:{at} {name} {" ".join(variants)}')
for path, text in files.items():
    for m in re.finditer(r'(?m)^(?:pub )?struct (\w+) \{\n(.*?)^\}', text, re.S):
        if ': bool,' in m[2]: found['1 structs with a flag'].append(f'{path}:{line(text, m.start())} {m[1]}')
    for m in re.finditer(r'Code::FULL|\bor (?:0|`rows`|`to`|2\^n|nothing|none) (?:where|if)|, (?:0|`rows`|2\^n) where (?:there is )?none|0 where none', text):
        found['1 a number for none or for a reason'].append(f'{path}:{line(text, m.start())} {m[0]}')
    for m in re.finditer(r'(?m)^ *(while .*|loop )\{', text):
        found['3 loops'].append(f'{path}:{line(text, m.start())} {m[1]}')
        test = re.match(r'while (.*)', m[1])
        end = re.search(r'(?m)^' + re.match(r' *', m[0])[0] + r'\}', text[m.end():])
        body = text[m.end():m.end() + end.start()]
        names = re.findall(r'\b[a-z_]\w*\b', test[1]) if test else []
        if any(re.search(rf'\b{n} (?:\+|-)= 1;|\b{n} = {n} (?:\+|-) 1;', body) for n in names):
            found['3 of these, counted by hand'].append(f'{path}:{line(text, m.start())} {m[1]}')
shapes = []
groups, clauses = collections.Counter(), collections.Counter()
for path, at, name, parameters, middle, body in functions():
    where = f'{path}:{at} {name}'
    norm = re.sub(r'\s+', ' ', re.sub(r'//.*', '', body))
    shape = re.sub(r'\b[A-Za-z_]\w*\b', lambda m: m[0] if m[0] in WORDS else 'x', re.sub(r'\d+', '0', norm))
    if len(shape) >= 60: shapes.append((where, shape))
    if re.fullmatch(r' if (\w+) < (\w+) \{ return (\1|\2); \} (\1|\2) ', norm) or 'lesser' == name: found['2 lesser or greater of two'].append(where)
    if re.fullmatch(r' \w+ as \w+ ', norm) or re.search(r'(_number|number_of|kind_of|made_of)$', name): found['4 conversions and numbers by hand'].append(where)
    names = [re.sub(r'\s+', ' ', p.strip()) for p in parameters.split(',') if ':' in p]
    for k in range(3, 7):
        for group in itertools.combinations(names, k): groups[group] += 1
    plain = [p.split(':')[0].strip() for p in names]
    if re.search(r': &(mut )?\[', parameters) and {'from', 'to', 'start', 'end', 'at', 'count', 'size', 'held'} & set(plain):
        found['6 slices with a range beside'].append(f'{where}({", ".join(plain)})')
    for m in re.finditer(r'(requires|ensures)\s*\w*\s*\{(.*?)\}\s*\n', middle + '\n', re.S):
        for part in re.split(r' × ', re.sub(r'\s+', ' ', m[2]).strip()): clauses[m[1] + ' ' + part.strip()] += 1
for (a, x), (b, y) in itertools.combinations(shapes, 2):
    if x == y: found['2 pairs of one shape'].append(f'{a} / {b}')
most = {}
for group, k in groups.items():
    if k >= 8 and not any(set(group) < set(g) and n >= k for g, n in groups.items() if n >= 8): most[group] = k
found['5 groups of parameters'] = [f'{k} ({", ".join(g)})' for g, k in sorted(most.items(), key=lambda x: -x[1])]
found['5 parts of clauses'] = [f'{k} {c}' for c, k in clauses.most_common() if k >= 3]
for path, at, name, variants in enums():
    if {'Both'} & set(variants) and len(variants) == 3 or name == 'Step': found['7 switches'].append(f'{path}:{at} {name} {" ".join(variants)}')
for path, text in files.items():
    for m in re.finditer(r'let \w+ = \[\w+::\w+, \w+::\w+\];', text): found['7 switches'].append(f'{path}:{line(text, m.start())} {m[0]}')
found['8 Proof.antt'] = sorted(glob.glob(f'{root}/crates/*/proofs/**/Proof.antt', recursive=True))
found['8 Answers.antt'] = sorted(glob.glob(f'{root}/crates/*/proofs/**/Answers.antt', recursive=True))
antt = {f[len(root) + 1:]: open(f).read() for part in ['specs', 'proofs'] for f in sorted(glob.glob(f'{root}/crates/*/{part}/**/*.antt', recursive=True))}
pages = [f for f in glob.glob(f'{root}/docs/**/*.md', recursive=True) if 'PORT' not in f and 'DESIGN' not in f] + [f'{root}/README.md']
words = lambda text: re.findall(r"[\w'₁₂₃\-]+", text)
named = {w for f in pages for w in words(open(f).read())}
cited = collections.Counter(w for text in antt.values() for w in words(re.sub(r'(?m)^\s*--.*', '', text)))
for path, text in antt.items():
    if not re.fullmatch(r'crates/\w+/proofs/\w+\.antt', path): continue
    for m in re.finditer(r"(?m)^\s*(?:abbrev |unfoldable )?pub (?:record |data )?([^\s:(]+)\s*[:({]", text):
        own = len(re.findall(rf'(?m)^\s*{re.escape(m[1])}(?=[ =])', text))
        if 'pub mod' not in m[0] and cited[m[1]] <= 1 + own and m[1] not in named: found['8 laws that nothing cites'].append(f'{path}:{line(text, m.start(1))} {m[1]}')
for name, places in found.items():
    print(f'{name}: {len(places)}')
    if verbose:
        for place in places: print('   ', place)
