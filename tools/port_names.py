#!/usr/bin/env python3
"""Spells this repository's own antt names as today's Rattle does: words in snake case, types in upper camel case, a dash only where it joins
two names. Run once at the top, after the kit's port.py: tools/port_names.py [--dry]. It changes .antt and .rt files of crates/, the edits,
what stands in backquotes in the pages, and tools/statement. Rust items, C names, inputs and outputs keep their names.

A camelCase word becomes snake_case, a SCREAMING-KEBAB constant SCREAMING_SNAKE, as in Rust. A declared name with dashes keeps a dash only
between two parts that are both names of definitions (of the repository or of the kit); its other dashes become underscores. A lemma that would
fall together with another name of a file ends in _lem, and a line 'look:' says so."""
import glob, os, re, sys

os.chdir(os.path.join(os.path.dirname(os.path.abspath(__file__)), '..'))
DRY = '--dry' in sys.argv
TOKEN = re.compile(r"[^\s(){}\[\].,;:@\"«»λ`|⟦⟧⌜⌝/*…]+")
SIGNATURE = re.compile(r"^(\s*)((?:(?:pattern|unfoldable|abbrev|pub|data|record)\s+)*)([^\s:(){}\[\]λ.]+)((?:\s+[({].*?)?)\s*:(?=\s|$)")
FIELDS = re.compile(r"^\s*pub ((?:[^\s:(){}]+ )+): ")
CAMEL = re.compile(r"^[#+]?[a-z].*[a-z0-9][A-Z]")
SCREAMING = re.compile(r"^[A-Z][A-Z0-9]*(-[A-Z0-9]+)+$")
GENERATED = re.compile(r"^(loop|if|else|then|in|in_ok|in_err|returns|bounds|overflow)-|-requires(-\d+)?$")
# Words of the kit that a lemma's name may join.
KIT = set('''length append map filter mem take drop reverse sum zero suc cons nil set get_or add mul sub div mod pow le lt eq max min not and or
true false all any some none range zip concat flat_map subset perm disjoint union inter id member nodup all count odd even succ pred
elem empty head tail last insert fst snd fold foldr cond replicate'''.split())
TYPES = {'takesFormula': 'TakesFormula', 'isFull': 'IsFull'}
BY_HAND = {'getD-mem': 'get_or-mem', 'getD-table': 'get_or-table'}
# Lemmas that port.py gave the name that a definition has now.
LEMMAS = {'none_open': 'evaluator', 'same_answer': 'book', 'low_mask': 'soundness'}


def snake(part):
    part = re.sub(r"(?<=[a-z0-9])[A-Z]", lambda m: "_" + m[0].lower(), part)
    return part


def files(*patterns):
    found = []
    for pattern in patterns:
        found += [p for p in glob.glob(pattern, recursive=True) if os.path.isfile(p) and '/out/' not in p]
    return sorted(set(found))


ANTT = files('crates/*/specs/**/*.antt', 'crates/*/proofs/**/*.antt')
RUST = files('crates/*/src/**/*.rt')
EDITS = files('crates/*/must-fail/*.edit', 'tests/edits/*/*.edit', 'tests/statement/edits/*.edit', 'tests/calls/wrong/**/*')
PAGES = files('README.md', 'docs/**/*.md', 'wip/README.md', 'examples/README.md')
TOOLS = files('tools/statement', 'tools/antt.py', 'tests/statement/run', 'tests/documents/run', 'tests/reference/as-antt/**/*')


def code(text):
    """The text without comments."""
    return '\n'.join(line for line in text.split('\n') if not line.lstrip().startswith('--'))


def declared():
    own, words = set(), set()
    for path in ANTT:
        for line in code(open(path).read()).split('\n'):
            m = SIGNATURE.match(line)
            names = [m[3]] if m else []
            m = FIELDS.match(line)
            if m:
                names += m[1].split()
            own.update(n for n in names if n not in ('let', 'use', 'where'))
            if '/specs/' in path:
                words.update(names)
    for path in RUST:
        words.update(re.findall(r'\bfn (\w+)', open(path).read()))
    return own, words


def named(parts, words):
    """The fewest segments of the parts that are all names, or None."""
    best = {0: []}
    for end in range(1, len(parts) + 1):
        for start in range(end):
            name = '_'.join(parts[start:end])
            if start in best and name in words:
                found = best[start] + [name]
                if end not in best or len(found) < len(best[end]):
                    best[end] = found
    found = best.get(len(parts))
    return found if found and len(found) > 1 else None


def table():
    own, words = declared()
    words = {snake(w) for w in words if '-' not in w} | KIT
    words -= {'spec', 'reads', 'a', 'b', 'l', 'r', 'x', 's', 'e', 'f', 'g', 'h', 'm', 'n', 'k', 'p', 'q', 'i', 'j', 't', 'u', 'v', 'w'}
    names = {}
    for path in ANTT:
        for token in TOKEN.findall(code(open(path).read())):
            if token in names or GENERATED.search(token):
                continue
            if token in TYPES or token in BY_HAND:
                names[token] = {**TYPES, **BY_HAND}[token]
            elif SCREAMING.match(token):
                names[token] = token.replace('-', '_')
            elif token.startswith('#') or '·' in token:
                continue
            elif '-' in token.strip('-') and token in own and re.match(r"[+a-zA-Z]", token):
                parts = [snake(p) for p in token.split('-')]
                found = named(parts, words)
                names[token] = '-'.join(found) if found else '_'.join(parts)
            elif '-' not in token and CAMEL.match(token):
                names[token] = snake(token)
    return {k: v for k, v in names.items() if k != v}


def clashes(names):
    """Names that would meet another in some file."""
    bad = {}
    for path in ANTT:
        text = code(open(path).read())
        tokens = set(TOKEN.findall(text))
        new = {}
        for token in tokens:
            new.setdefault(names.get(token, token), set()).add(token)
        for name, olds in new.items():
            if len(olds) > 1:
                bad.setdefault(name, {}).setdefault(frozenset(olds), []).append(path)
    return bad


def turned(text, names, where=None):
    return TOKEN.sub(lambda m: names.get(m[0], m[0]), text)


def main():
    names = table()
    for _ in range(3):
        met = clashes(names)
        if not met:
            break
        for name, groups in sorted(met.items()):
            for olds, paths in groups.items():
                for old in olds:
                    if old in names and '-' in old and '_' in names[old]:
                        kept = '_'.join(snake(p) for p in old.split('-')) + '_lem'
                        print(f'look: {old} and {", ".join(sorted(olds - {old}))} would be one: it becomes {kept} ({paths[0]})')
                        names[old] = kept
    for name, groups in sorted(clashes(names).items()):
        for olds, paths in groups.items():
            print(f'clash: {name} for {", ".join(sorted(olds))} in {len(paths)}: {paths[0]}')
    names = {k: v for k, v in names.items() if k != v}
    print(f'{len(names)} names')
    if DRY:
        with open('/tmp/port-names.txt', 'w') as f:
            f.writelines(f'{k} {v}\n' for k, v in sorted(names.items()))
        return
    for path in ANTT + RUST:
        text = open(path).read()
        new = text
        for lemma, crate in LEMMAS.items():
            if path.startswith(f'crates/{crate}/proofs/'):
                new = re.sub(rf"(?<![.\w'-]){lemma}(?![\w'-])", lemma + '_lem', new)
        new = turned(new, names)
        if new != text:
            open(path, 'w').write(new)
    for path in EDITS + TOOLS:
        text = open(path).read()
        new = turned(text, names)
        if new != text:
            open(path, 'w').write(new)
    for path in PAGES:
        text = open(path).read()
        new = re.sub(r'`[^`\n]+`', lambda m: turned(m[0], names), text)
        if new != text:
            open(path, 'w').write(new)


main()
