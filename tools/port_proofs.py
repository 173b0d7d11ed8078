#!/usr/bin/env python3
"""Turns the paths into generated records in Proof.antt files to today's names: tools/port_proofs.py NAMES_DIR [CRATE..].

NAMES_DIR/CRATE/names.json is what `rattle check --generated DIR --old-names` writes. A path as c.before.before.if1.true becomes
c.if-a-b.true: today's records open the ones before them. A line 'look:' names a path that could not be told."""
import glob, json, os, re, sys

os.chdir(os.path.join(os.path.dirname(os.path.abspath(__file__)), '..'))
WORD = r"[^\s(){}\[\].,;:@\"«»|⟦⟧⌜⌝]+"
PATH = re.compile(rf"(?<![\w.'\-])({WORD})((?:\.before)*)((?:\.{WORD})+)")
FLAT = os.environ.get('FLAT') == '1'
START = {'args', 'requires', 'ranges', 'lifetimes', 'well_formed', 'type_inv', 'utf8'}


def norm(name):
    return re.sub(r'_lem$', '', name).replace('-', '_').lower()


class Function:
    def __init__(self, said):
        self.places = {p[0]: p for p in said['places']}
        self.asked = [a[0] for a in said['asked_at']]
        self.loops = said['loops']
        self.params = said['params']
        names = [p[0] for p in said['places']]
        self.by_name = dict(zip(names, said['places_by_name']))
        self.arms = {n: a for n, a in zip(names, said['arms']) if a}
        # an arm's record takes in the last steps before it; a step within is no arm of its own
        for name, p in self.places.items():
            up = p[1]
            if name in self.arms and up in self.arms and self.arms[up][0] == self.arms[name][0] and self.arms[up][1] + 1 == self.arms[name][1]:
                self.arms[up] = None
        self.arms = {n: a for n, a in self.arms.items() if a}
        self.within = set()
        for name, arm in self.arms.items():
            self.within.update(self.line(name)[1:arm[1]])
        self.table = {}
        for name, p in self.places.items():
            if p[2][0]:
                self.table.setdefault(norm(p[2][0]), set()).add((self.own(name), json.dumps(p[4])))

    def line(self, place):
        out = []
        while place:
            out.append(place)
            place = self.places[place][1]
        return out

    def own(self, place):
        """The field that a place alone has."""
        name = self.by_name[place]
        if place in self.within and re.match(r'(Then|Else)-', name):
            return 'if-' + name[5:]
        if place in self.within and re.match(r'In[-_]', name):
            return 'in' + name[2:]
        return self.places[place][2][1]

    def find(self, place, up, path):
        """What stands for the path from the place, or None."""
        line, name = self.line(place), path[0]
        hits = [i for i, p in enumerate(line) if self.places[p][2][0] and norm(self.places[p][2][0]) == norm(name)]
        if not hits:
            return None
        hit = up if up in hits else hits[0]
        i = 0
        while i <= hit:
            arm = self.arms.get(line[i])
            if arm and hit < i + arm[1]:
                best = None
                for field_, step, sub in arm[2]:
                    fits = norm(step) == norm(name) and [norm(x) for x in path[1:1 + len(sub)]] == [norm(x) for x in sub]
                    if fits and (best is None or len(sub) > len(best[1])):
                        best = field_, sub
                if not best:
                    return None
                return [arm[0], best[0]] + path[1 + len(best[1]):]
            i += arm[1] if arm else 1
        pairs = self.places[line[hit]][4]
        return [self.own(line[hit])] + [field(x, pairs) for x in path[1:2]] + self.kept(line[hit], path[1:])[1:]

    def kept(self, place, path):
        """What a call keeps of each argument was a tuple over all of them, and goes by the argument's name now."""
        params = self.params.get(self.places[place][3])
        if not params or path[:1] != ['auto']:
            return path
        i = 1
        while i < len(path) and path[i] == '1':
            i += 1
        return ['auto', params[i - 1]] + path[i + 1:] if i < len(path) and path[i] == '0' and i <= len(params) else path


def field(name, pairs):
    for old, new in pairs:
        if norm(old) == norm(name):
            return new
    return name


def turn(text, function, binder, place, said):
    """Turns the paths of one answer, whose binder stands at the place."""
    at = {binder: place} if binder else {}
    for m in re.finditer(rf"let ({WORD}) = ({WORD})((?:\.before)+) in", text):
        if m[2] in at and at[m[2]]:
            line = function.line(at[m[2]])
            up = m[3].count('.before')
            if up < len(line):
                at[m[1]] = line[up]

    def one(m):
        head, ups, path = m[1], m[2].count('.before'), m[3][1:].split('.')
        if path[0] == 'before':
            return m[0]
        if head in at:
            if path[0] in START:
                return '.'.join([binder if FLAT else head] + path)
            found = function.find(at[head], ups, path)
            if FLAT and head != binder:
                found = function.find(place, sum(1 for _ in iter(())), path) if not found else found
            if found:
                return '.'.join([binder if FLAT else head] + found)
        if (ups or head == binder or head in at) and norm(path[0]) in function.table:
            found = function.table[norm(path[0])]
            if len(found) == 1:
                new, pairs = next(iter(found))
                return '.'.join([head + m[2], new] + [field(x, json.loads(pairs)) for x in path[1:2]] + path[2:])
            said.append(f'{m[0]}: {sorted(x[0] for x in found)}')
        return m[0]

    text = PATH.sub(one, text)
    while FLAT:
        # names that nothing uses any more
        new = re.sub(rf"let ({WORD}) = {WORD}(?:\.before)+ in\s*(?![\s\S]*(?<![\w.-])\1\.)", '', text)
        if new == text:
            break
        text = new
    return text


def args(text, i):
    """The spans of the arguments from i on."""
    spans = []
    while True:
        while i < len(text) and text[i] in ' \n':
            if text[i] == '\n' and i + 1 < len(text) and text[i + 1] not in ' \n':
                return spans
            i += 1
        if i >= len(text) or text[i] in '),;=]}' or text.startswith('where', i):
            return spans
        start = i
        if text[i] in '([{':
            depth = 0
            while True:
                depth += (text[i] in '([{') - (text[i] in ')]}')
                i += 1
                if depth == 0:
                    break
        else:
            while i < len(text) and text[i] not in ' \n()[]{},;':
                i += 1
            if text[start:i] in ('in', 'λ', '↦', '|'):
                return spans
        spans.append((start, i))


def turn_file(path, key, names, said):
    text = open(path).read()
    text = re.sub(r"\b(tie|[\w-]*lts)\.(invariant|decreases)_loop(\d*)", r"\1.\2-loop\3", text)
    aliases = {}
    for m in re.finditer(r"use (\S+?)\.(Tie|Lts(?:-\S+?)?)(?: as (\S+))?(?:\s|$)", text):
        module = re.sub(r'^Rattle\.(\w+)\.proofs', r'Rattle-\1-proofs', m[1])
        name = f'{module}.{"Lts" if m[2] == "Tie" else m[2]}'
        if name in names:
            aliases[m[3] or m[2]] = Function(names[name])
    for m in re.finditer(r"use (\S+?)\.(Tie|Lts(?:-\S+?)?)\.\{([^}]*)\}", text):
        module = re.sub(r'^Rattle\.(\w+)\.proofs', r'Rattle-\1-proofs', m[1])
        name = f'{module}.{"Lts" if m[2] == "Tie" else m[2]}'
        if name in names and re.search(r'\bspec\b', m[3]):
            aliases[''] = Function(names[name])
    done = []
    for alias, function in aliases.items():
        call = rf"(?<![\w.'-]){re.escape(alias)}\.spec(?![\w'-])" if alias else r"(?<![\w.'-])spec(?![\w'-])"
        for m in re.finditer(call, text):
            spans = args(text, m.end())
            n = len(function.asked)
            if len(spans) < n:
                said.append(f'{path}: {len(spans)} answers for {n} goals of {alias}')
                # answers by name
            for place, (a, b) in zip(function.asked, spans[-n:] if len(spans) >= n else []):
                head = re.match(r"\(\s*λ ([^\s.]+)", text[a:b])
                done.append((a, b, turn(text[a:b], function, head[1] if head else None, place, said)))
    # what stands outside the answers: by the names alone
    tables = {}
    for function in aliases.values():
        for k, v in function.table.items():
            tables.setdefault(k, set()).update(v)
    table = {k: next(iter(v)) for k, v in tables.items() if len(v) == 1}

    def loose(m):
        if norm(m[2]) in table and m[2] != table[norm(m[2])][0]:
            new, pairs = table[norm(m[2])]
            return f'{m[1]}.{new}' + (f'.{field(m[3], json.loads(pairs))}' if m[3] else '')
        return m[0]

    out, at = [], 0
    for a, b, new in sorted(done) + [(len(text), len(text), '')]:
        out += [re.sub(rf"((?:\.before)+|\bc)\.(?!before)({WORD})(?:\.({WORD}))?", loose, text[at:a]), new]
        at = b
    text = ''.join(out)
    # the names of loops
    for alias, function in aliases.items():
        for (old, new), _ in function.loops:
            text = re.sub(rf"(?<![\w.-]){re.escape(alias)}\.(invariant|decreases)-{old}(?![\w-])", rf"{alias}.\1-{new}", text)
    return text


def main():
    top, crates = sys.argv[1], sys.argv[2:]
    for crate in crates or sorted(os.listdir('crates')):
        where = f'{top}/{crate}/names.json'
        if not os.path.exists(where):
            print(f'look: no names for {crate}')
            continue
        names = {k: v for k, v in json.load(open(where)).items() if isinstance(v, dict) and 'places' in v}
        for path in sorted(glob.glob(f'crates/{crate}/proofs/**/Proof.antt', recursive=True)):
            said = []
            new = turn_file(path, None, names, said)
            if new != open(path).read():
                open(path, 'w').write(new)
            for line in said[:3]:
                print(f'look: {path}: {line}')


main()
