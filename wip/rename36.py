#!/usr/bin/env python3
"""Renames of issue 36, item 1: no name stands for two things in what must be believed. Run in the top folder of a clone; --dry changes
nothing and tells what it would do. A definition or constructor is renamed in its own file and wherever a file imports it by name (`use`,
`ghost use`, `pub use`) or through a module's alias; a clause that binds the old name as a variable is left alone; must-fail edits follow the
file that they change; backquoted names in comments of these files and in docs/ follow too (DOCS). Then run rt fmt, tools/statement and
tests/documents/run. No definition changes its meaning: the proofs need another run only because texts changed."""
import glob, os, re, sys, textwrap

# crate, file below specs/, old, new
RENAMES = [line.split() for line in '''
accounts Listed none noAccount
accounts Account counted withRounds
accounts Terms lent isLent
mucalculus Runs before beforeFirst
mucalculus Until onward untilValue
mucalculus Order start startSet
mucalculus Binder Least LeastFixpoint
mucalculus Binder Greatest GreatestFixpoint
mucalculus Written written untilAsMu
rows Index live liveLink
rows Index stop hit
tokens Tokens Line ByteLine
tokens Tokens line byteLine
tokens Tokens table byteTable
tokens Tokens firstOf versionOne
tokens Tokens secondOf versionTwo
formula Parse one overOne
formula Parse two overTwo
formula Checks firstOf firstFailed
formula Checks filled namedFilled
book States one bitNumber
book Book checks checkNumber
book Book asked ofRegister
book Table noted numberAfter
book Table Refusal RefusedWith
book Program written programText
book Program Command ProgramCommand
book Program states countStates
contract Kept target isTarget
contract Shared Step SharedStep
contract Shared Rest SharedRest
batch Visits distinct distinctVisits
batch Visits after afterAnswer
batch_calls Posts Below AllBelow
batch_calls Posts Stands StandsOnce
paths Runs isRun isRunInto
paths Runs Outcome RunOutcome
paths Runs none noRun
paths Runs full stepFull
paths Call ends pathEnds
paths Call refuse refuseRun
records Cuts step bookStep
player Play next link
room_io Served Whole WholeText
room_io Served start startProgress
room_io Served none noTurn
'''.strip().split('\n')]

CONSTRUCTORS = {('rows', 'stop'), ('book', 'states'), ('paths', 'none'), ('paths', 'full'), ('player', 'next'), ('room_io', 'none')}

# The kit's names that stand beside ours, given another name on import, in specs/ alone: module, name, new name
KIT = [('lib.ListN', 'set', 'setAt')]
KIT_OLD_ALIASES = {'place'}  # what single files called it before

# Backquoted names in documents: file, a piece of the line (or of the one before it), old, new. `*`: every line.
DOCS = '''
docs/PROOFS.md | formula/specs/Parse.antt, Checks.antt | filled | namedFilled
docs/PROOFS.md | `emptied`, `listFits` | counted | withRounds
docs/PROOFS.md | batch/specs/Visits.antt | distinct | distinctVisits
docs/PROOFS.md | (tokens, Tokens); `bytesOf` | table | byteTable
docs/PROOFS.md | (mucalculus, Order) | start | startSet
docs/PROOFS.md | "Checks run in this order | checks | checkNumber
docs/PROOFS.md | (book, Table); `Serves.numbers` | noted | numberAfter
docs/PROOFS.md | `relFilled`, `checks` (book) | checks | checkNumber
docs/PROOFS.md | `example-bytes` (book, Program) | written | programText
docs/PROOFS.md | `grammarOf`, `hasRuns` | table | byteTable
docs/PROOFS.md | before the first such place | before | beforeFirst
docs/PROOFS.md | X a variable of its own | written | untilAsMu
docs/PROOFS.md | a shortest run from a into b to a lent list | isRun | isRunInto
docs/PROOFS.md | "The call returns their number" | ends | pathEnds
docs/PROOFS.md | `refuse`, `ends`, `written` | ends | pathEnds
docs/PROOFS.md | `pathEnds`, `written`; `keepsAll` | refuse | refuseRun
docs/PROOFS.md | "nu starts from V, and next states | start | startSet
docs/PROOFS.md | a round limit and a tally"** | lent | isLent
docs/PROOFS.md | `tallied`, `charged`; `SetAllPost.list` | counted | withRounds
docs/PROOFS.md | asked of each set by | Step | SharedStep
docs/PROOFS.md | (in fresh, after 1) | lent | isLent
docs/PROOFS.md | (batch, Visits); `Answered.reply` | distinct | distinctVisits
docs/PROOFS.md | `Rearranged`, `Stands` | Stands | StandsOnce
docs/PROOFS.md | `logEnds`, `written` | refuse | refuseRun
docs/maps/logs.md | `Outcome`, `decided` | Outcome | RunOutcome
docs/maps/logs.md | `written`, `Ended` | refuse | refuseRun
docs/maps/records.md | `specs/Cuts.antt` | step | bookStep
docs/maps/rooms.md | (`step`, records, Cuts) | step | bookStep
docs/maps/rows.md | a head that names an unused row | live | liveLink
docs/maps/mucalculus.md | nu from the empty set | start | startSet
docs/maps/batch.md | `visitsAll`, `distinct` | distinct | distinctVisits
docs/maps/batch.md | has the number and the reads in one reply | Refusal | RefusedWith
docs/maps/paths.md | `routes/short_before_none` | ends | pathEnds
docs/maps/formula.md | `addedWords` (Slip 1) | table | byteTable
docs/maps/formula.md | `grammarOf : Kind | firstOf | versionOne
docs/maps/formula.md | `grammarOf : Kind | secondOf | versionTwo
docs/maps/formula.md | (the ordered list) | firstOf | firstFailed
docs/maps/formula.md | where tokens are added | table | byteTable
docs/maps/accounts.md | `emptied`, `lifted` | counted | withRounds
docs/maps/accounts.md | `specs/Terms.antt` | lent | isLent
docs/DECISIONS.md | by 0, up to the ceiling | counted | withRounds
docs/DECISIONS.md | accounts stay as they are | Rest | SharedRest
docs/DECISIONS.md | `noted`, `keptRoots` | noted | numberAfter
docs/DECISIONS.md | `spentAt`, `target` | target | isTarget
docs/DECISIONS.md | `isTarget`, `Step` | Step | SharedStep
docs/changes/07-accounts.md | `tallied`, `counted` | counted | withRounds
docs/changes/07-accounts.md | `termsOf`, `lent` | lent | isLent
docs/changes/06-valid-states.md | (nu from V) | start | startSet
docs/changes/04-modal-byte.md | `table`, `tokenOf` | table | byteTable
docs/changes/00-guard.md | `Rest` (contract | Rest | SharedRest
docs/changes/00-guard.md | `noted`, `keptRoots` | noted | numberAfter
docs/changes/00-guard.md | `spentAt`, `target` | target | isTarget
docs/changes/00-guard.md | `isTarget`, `Step` | Step | SharedStep
docs/changes/01-until.md | `stuck`, `counts`, `before` | before | beforeFirst
docs/changes/01-until.md | `further`, `onward` | onward | untilValue
docs/changes/01-until.md | `goes`, `written` | written | untilAsMu
docs/changes/01-until.md | `secondOf`, `hasRuns` | firstOf | versionOne
docs/changes/01-until.md | `secondOf`, `hasRuns` | secondOf | versionTwo
docs/changes/01-until.md | `filled`, `bytesOf` | filled | namedFilled
docs/changes/03-shortest-run.md | `isRun`, `Least`, `Shortest` | isRun | isRunInto
docs/changes/03-shortest-run.md | `shortest`, `ends` | ends | pathEnds
docs/changes/10-batch.md | `visitsAll`, `distinct` | distinct | distinctVisits
docs/changes/10-batch.md | `answersOf`, `Stands` | Stands | StandsOnce
'''

DRY = '--dry' in sys.argv
END = r"(?![\w\-′'·])"
SIGNATURE = re.compile(r'((?:(?:unfoldable|abbrev|pub|axiom) )*)([^\s(){}\[\];,.]+)(?: \{[^}]*\})? :(?: |$)')
NAME = r'[^\s(){}\[\];,.]+'
USE = re.compile(r'(?m)^((?:unfoldable |pub |ghost )*use )([^{\s;]+?)(?:\.\{([^}]*)\}|(?: as ([^\s;]+))?)(;?)$')


def token(name):
    return re.compile(r"(?<![\w\-′'·.`])" + re.escape(name) + END)


def module(path):
    """(crate, folder, file) of a path of ours."""
    m = re.match(r'Rattle·(\w+?)(?:·(?:specs|proofs))?\.(specs|proofs)\.([\w.]+)$', path)
    return m.groups() if m else None


def bound(text):
    """The names that a clause binds (as tools/antt.py reads it): a renaming leaves such a clause alone."""
    names = set()
    for m in re.finditer(rf'[({{]((?:{NAME} )+): ', text): names.update(m.group(1).split())
    for m in re.finditer(r'λ ((?:[^λ.]|\.(?=\S))*?)\.(?=\s)', text):
        names.update(re.findall(NAME, re.sub(r' : [^()]*(\([^()]*\)[^()]*)*\)', ' )', m.group(1))))
    for m in re.finditer(r'\blet ([^=:\n]*)', text): names.update(re.findall(NAME, m.group(1)))
    first = text.split('\n')[0].strip()
    if m := re.match(r'([^=]*?) =(?: |$)', first): names.update(re.findall(rf'(?<!\.){NAME}', m.group(1))[1:])
    return names


def clauses(lines):
    """The lines of a file in parts that bind names each for itself: a signature, a clause, a field or constructor, a comment."""
    part, deep = [], 0
    for line in lines:
        text, at = line.strip(), len(line) - len(line.lstrip(' '))
        starts = not text or text.startswith('--') or at <= deep and text[:1] not in ')}]'
        if starts and part:
            yield part
            part = []
        if not part: deep = at
        part.append(line)
    if part: yield part


class Text:
    def __init__(self, path):
        self.path, self.text = path, open(path).read()
        self.first, self.changes, self.skipped = self.text, {}, []

    def count(self, key, n):
        if n: self.changes[key] = self.changes.get(key, 0) + n

    def rename(self, old, new, own, constructor):
        """Renames free occurrences in the body: not in `use` lines, not fields (after a dot, before ` =` in a record, or declared in one)."""
        out, record = [], False
        for part in clauses(self.text.split('\n')):
            text = '\n'.join(part)
            head = part[0].strip()
            if re.match(r'(?:(?:unfoldable|abbrev|pub) )*(record|data) ', head): record = 'record ' in head.split(':')[0]
            elif head and len(part[0]) - len(part[0].lstrip(' ')) == 0: record = False
            if head.startswith('--'):
                text, n = re.subn(rf'`{re.escape(old)}`', f'`{new}`', text)
                self.count((old, new), n)
            elif USE.match(head): pass
            elif not constructor and old in bound(text): self.skipped.append((old, head[:100]))
            elif record and re.search(rf'(?m)^\s+(?:pub )?(?:\S+ )*{re.escape(old)}(?: \S+)* : ', text): self.skipped.append((old, 'field, ' + head[:80]))
            else:
                lines = []
                for line in part:
                    code, mark, note = line.partition(' --')
                    label = re.compile(r"((?:^|[{;])\s*)" + re.escape(old) + r"(?= =(?:\s|$))")
                    is_field = record and re.match(rf'\s+(?:pub )?(?:\S+ )*{re.escape(old)}{END}(?: \S+)* : ', code)
                    kept = []
                    if is_field: code = re.sub(rf'(?<=\s){re.escape(old)}(?=[ :])', '\0', code, count=1)
                    elif own and re.match(rf'\s*{re.escape(old)} =', code): pass
                    else: code = label.sub(lambda m: m.group(1) + '\0', code)
                    code, n = token(old).subn(new, code)
                    self.count((old, new), n)
                    lines.append(code.replace('\0', old) + mark + note)
                text = '\n'.join(lines)
            out.append(text)
        self.text = '\n'.join(out)

    def rename_in_clauses(self, old, new):
        """The same in the contracts of a Rattle file."""
        def inside(m):
            text = m.group(0)
            if old in bound(text): self.skipped.append((old, text[:80])); return text
            text, n = token(old).subn(new, text)
            self.count((old, new), n)
            return text
        self.text = re.sub(r'(?ms)^\s*(?:requires|ensures|ghost|decreases|invariant|proof)\s*\{.*?\}\s*$', inside, self.text)


def imports(text):
    for m in USE.finditer(text):
        items = [x.strip().partition(' as ') for x in (m[3] or '').split(',') if x.strip()]
        yield m, module(m[2]), [(a, c or a) for a, _, c in items], m[4]


def homes(texts):
    """{(crate, folder, file): {name: (crate, folder, file) where it is declared}} for what files hand on by `pub use`."""
    handed = {}
    for path, t in texts.items():
        if not path.endswith('.antt'): continue
        key = (path.split('/')[1], path.split('/')[2], '.'.join(path.split('/')[3:])[:-5])
        for m, there, items, _ in imports(t.first):
            if 'pub' in m[1]:
                for a, b in items: handed.setdefault(key, {})[b] = (there, a)
    return handed


def edit_file(path):
    return f'crates/{path.split("/")[-3 if "must-fail" in path else -2]}/' + re.search(r'(?m)^file: ?(.*)$', open(path).read())[1]


paths = glob.glob('crates/**/*.antt', recursive=True) + glob.glob('crates/*/src/**/*.rt', recursive=True)
texts = {path: Text(path) for path in paths}
handed = homes(texts)
touched = {}
for crate, file, old, new in RENAMES:
    own = (crate, 'specs', file)
    source = f'crates/{crate}/specs/{file}.antt'
    constructor = (crate, old) in CONSTRUCTORS
    for path, t in texts.items():
        body, alias = {'is': path == source}, set()
        def item(m, there, a, b):
            at = there
            if at and handed.get(at, {}).get(a): at, a0 = handed[at][a]
            else: a0 = a
            if at == own and a0 == old:
                if a == b: body['is'] = True
                return new if b in (old, new) else f'{new} as {b}'
            return a if a == b else f'{a} as {b}'
        def line(m):
            there = module(m[2])
            if m[4] or m[3] is None:
                if there == own: alias.add(m[4] or m[2].split('.')[-1])
                return m[0]
            items = [x.strip().partition(' as ') for x in m[3].split(',') if x.strip()]
            changed = [item(m, there, a, c or a) for a, _, c in items]
            before = [f'{a} as {c}' if c else a for a, _, c in items]
            if changed == before: return m[0]
            t.count((old, new), 1)
            return f'{m[1]}{m[2]}.{{{", ".join(changed)}}}{m[5]}'
        t.text = USE.sub(line, t.text)
        for name in alias:
            t.text, n = re.subn(rf"(?<![\w\-′'·.]){re.escape(name)}\.{re.escape(old)}{END}", f'{name}.{new}', t.text)
            t.count((old, new), n)
        if body['is']:
            touched.setdefault(path, []).append((old, new))
            others = [b for m, there, items, _ in imports(t.first) for a, b in items if b == new]
            if others or token(new).search(re.sub(r'(?m)--.*$', '', t.first)) and f'as {new}' not in t.first: print('TAKEN', path, new)
            if path.endswith('.antt'): t.rename(old, new, path == source, constructor)
            else: t.rename_in_clauses(old, new)
for mod, old, new in KIT:
    for path, t in texts.items():
        if '/specs/' not in path: continue
        for m, there, items, _ in imports(t.first):
            if m[2] != mod: continue
            for a, b in items:
                if a == old and b in {old} | KIT_OLD_ALIASES:
                    t.text = t.text.replace(m[0], m[0].replace(f'{a} as {b}' if a != b else a, f'{a} as {new}') if a != b else re.sub(rf'(?<=[{{ ]){a}(?=[,}}])', f'{a} as {new}', m[0]))
                    t.rename(b, new, False, False)
for path in glob.glob('crates/*/must-fail/*.edit') + glob.glob('tests/edits/*/*.edit') + glob.glob('tests/statement/edits/*.edit'):
    target = edit_file(path) if 'statement' not in path else re.search(r'(?m)^file: ?(.*)$', open(path).read())[1]
    t = Text(path)
    for old, new in touched.get(target, ()):
        for line in re.findall(r'(?m)^(?:old|new): .*$', t.text):
            if old in bound(line.split(': ', 1)[1]): continue
            t.text = t.text.replace(line, token(old).sub(new, line))
    texts[path] = t
docs = {}
for rule in DOCS.strip().split('\n'):
    path, piece, old, new = [x.strip() for x in rule.split(' | ')]
    t = docs.setdefault(path, Text(path))
    lines = t.text.split('\n')
    hit = [i for i, x in enumerate(lines) if piece in x and f'`{old}`' in x] or [i + 1 for i, x in enumerate(lines[:-1]) if piece in x and f'`{old}`' in lines[i + 1]] \
        or [i - 1 for i, x in enumerate(lines) if i and piece in x and f'`{old}`' in lines[i - 1]]
    if len(hit) != 1: print('DOC', len(hit), rule); continue
    lines[hit[0]] = lines[hit[0]].replace(f'`{old}`', f'`{new}`')
    t.text = '\n'.join(lines)


def wrapped(text):
    """List items with a line that has become longer than 120 characters, laid anew."""
    lines, out, i = text.split('\n'), [], 0
    while i < len(lines):
        m, j = re.match(r'(\s*)- ', lines[i]), i + 1
        if m:
            deep = ' ' * (len(m[1]) + 2)
            while j < len(lines) and lines[j].startswith(deep) and not re.match(r'\s*- ', lines[j]): j += 1
        item = lines[i:j]
        if m and any(len(x) > 120 for x in item):
            item = textwrap.wrap(' '.join(x.strip() for x in item), 120, initial_indent=m[1], subsequent_indent=deep, break_long_words=False, break_on_hyphens=False)
        out += item
        i = j
    return '\n'.join(out)


for t in docs.values():
    if t.text != t.first: t.text = wrapped(t.text)
changed = 0
for path, t in sorted({**texts, **docs}.items()):
    if t.text != t.first:
        changed += 1
        if not DRY: open(path, 'w').write(t.text)
    if '--tell' in sys.argv:
        for (old, new), n in sorted(t.changes.items()): print(f'{path}: {old} -> {new}: {n}')
    for old, head in t.skipped: print(f'LEFT {path}: {old} is bound in: {head}')
print(f'{len(RENAMES)} names, {changed} files')
