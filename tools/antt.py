"""Reads files of specs/ and proofs/ as declarations, and says what each of them names. For tools/statement.

It knows the layout that `rt fmt` gives: a declaration begins at its section's indentation, with its marks; all that is indented deeper, its
clauses and its `unfolding` line belong to it; comment lines directly above it are its comment. A name that is bound inside a declaration
(an argument, a pattern, a `let`, a `where`) hides the declared one throughout that declaration. What it would read otherwise than the prover
does, it refuses with a ValueError: block comments, quoted names, globs, modules inside a file, a name that is declared twice or that covers
the head of an import's path, lines that are neither a clause nor an `unfolding` line of the declaration that they follow; and a file with an
`open` line, once somebody asks what one of its declarations names."""
import functools, glob, os, re

NAME = r'[^\s(){}\[\];,.]+'
MARKS = r'((?:(?:unfoldable|abbrev|pub|axiom) )*)'
SIGNATURE = re.compile(rf'{MARKS}({NAME})(?: \{{[^}}]*\}})? :(?: |$)')
PARTS = re.compile(rf'(?:pub )?((?:{NAME} )+):(?: |$)')
TYPE = re.compile(rf'{MARKS}(data|record) ({NAME})')
REFUSED = re.compile(r'(?m)\{-|«|^.*\buse .*\.\*')
USE = re.compile(r'((?:unfoldable |pub )*)(?:ghost )?use ([^{\s;]+?)(?:\.\{(.*)\}|(?: as (\S+?))?);?$')


def indent(line):
    return len(line) - len(line.lstrip(' '))


class Use:
    """A `use` line: what a module gives under which name ({name here: name there}), or the whole module under one name."""
    def __init__(self, line):
        marks, self.module, items, alias = USE.match(line).groups()
        self.line, self.marks, self.items, self.alias = line, marks, {}, None
        if items is None:
            self.alias = alias or self.module.split('.')[-1]
        else:
            for item in filter(None, map(str.strip, items.split(','))):
                there, _, here = item.partition(' as ')
                self.items[here or there] = there


class Decl:
    """A declaration. `lines` are its own, with the comment's before; `first` is the number of the first of them."""
    def __init__(self, name, kind, marks, comment, lines, first, sections):
        self.name, self.kind, self.marks, self.comment = name, kind, marks.split(), comment
        self.lines, self.first, self.sections = lines, first, sections
        self.last = first + len(comment) + len(lines) - 1

    @functools.cached_property
    def constructors(self):
        deep = min((indent(x) for x in self.lines[1:] if x.strip()), default=0)
        found = [m.group(1).split() for x in self.lines[1:] if self.kind == 'data' and indent(x) == deep and (m := PARTS.match(x.strip()))]
        return [name for names in found for name in names]

    @property
    def body(self):
        return '\n'.join(self.lines)

    def text(self, statement=False):
        """The declaration to be read alone, or its signature: with the parameters of its sections, which belong to it."""
        lines = next(chunks(self))[0].split('\n') if statement and not self.kind else self.lines
        return '\n'.join([x for section in self.sections for x in section.header] + lines)


class Section:
    def __init__(self, header, comment, first):
        self.header, self.comment, self.first, self.items = header, comment, first, []


class File:
    """items: declarations, sections and free comments (lists of lines), in order."""
    def __init__(self, path):
        self.path = path
        text = open(path).read()
        if m := REFUSED.search(bare(text)): raise ValueError(f'{path}: `{m.group().strip()}` is not read')
        lines = text.split('\n')
        head = [i for i, x in enumerate(lines) if re.match(r'(unfoldable |pub )*(use|mod) ', x)]
        at = head[-1] + 1 if head else lines.index('') if '' in lines and lines[0].startswith('--') else 0
        self.header, self.uses, self.mods = [x for x in lines[:at] if x.startswith('--')], [], []
        for x in lines[:at]:
            if re.match(r'(unfoldable |pub )*use ', x): self.uses.append(Use(x))
            if re.match(r'(pub )?mod ', x): self.mods.append(x.split()[-1])
        self.opens = False
        self.items, _ = self.read(lines, at, 0, ())
        self.decls = list(self.walk(self.items))
        self.refuse()

    def refuse(self):
        """Names that would stand for something else than is read, and lines that belong to no declaration."""
        if self.mods: raise ValueError(f'{self.path}: a module inside a file is not read')
        names, heads = [d.name for d in self.decls], {x.module.split('.')[0] for x in self.uses}
        here = names + [x for use in self.uses for x in ([use.alias] if use.alias else use.items)]
        for name in here:
            if names.count(name) > 1 or name in heads: raise ValueError(f'{self.path}: {name} stands for two things')
        for d in self.decls:
            own, deep = [p for p in d.name.split('◌') if p], indent(d.lines[0])
            for x in d.lines[1:]:
                text = x.strip()
                if not text or d.kind or indent(x) > deep or text.startswith(('--', 'unfolding ')) or text[0] in ')}]': continue
                if text.split()[0] != d.name and ('◌' not in d.name or not all(p in text for p in own)):
                    raise ValueError(f'{self.path}: this belongs to no declaration: {text}')

    def walk(self, items):
        for x in items:
            if isinstance(x, Decl): yield x
            elif isinstance(x, Section): yield from self.walk(x.items)

    def read(self, lines, at, depth, sections):
        """The items at one indentation, from a line on."""
        items, comment = [], []
        while at < len(lines):
            line = lines[at]
            if not line.strip():
                if comment: items.append(comment); comment = []
                at += 1
                continue
            if indent(line) < depth: break
            text = line.strip()
            if text.startswith('--'):
                comment.append(line); at += 1
                continue
            first = at - len(comment)
            if text.startswith('module _'):
                end = at
                while not lines[end].endswith('where'): end += 1
                section = Section(lines[at:end + 1], comment, first + 1)
                section.items, at = self.read(lines, end + 1, depth + 2, sections + (section,))
                items.append(section)
            else:
                if text.startswith('open '):
                    self.opens, at = True, at + 1
                    continue
                found = TYPE.match(text) or SIGNATURE.match(text)
                if not found: raise ValueError(f'{self.path}:{at + 1}: {text}')
                kind, name = (found.group(2), found.group(3)) if TYPE.match(text) else ('', found.group(2))
                end = self.end(lines, at + 1, depth)
                items.append(Decl(name, kind, found.group(1), comment, lines[at:end], first + 1, sections))
                at = end
            comment = []
        if comment: items.append(comment)
        return items, at

    def end(self, lines, at, depth):
        """The line after a declaration whose second line is `at`."""
        last = at
        while at < len(lines):
            line = lines[at]
            text = line.strip()
            if text and not text.startswith('--') and indent(line) <= depth:
                if indent(line) < depth or text.startswith('module _') or TYPE.match(text) or SIGNATURE.match(text): break
            if text.startswith('--') and indent(line) <= depth:
                at += 1
                continue
            if text: last = at + 1
            at += 1
        return last


def bare(text):
    """A text without its comments."""
    return re.sub(r'(?m)(^|(?<=\s))--.*$', '', text)


def words(text):
    """The names that a text mentions: plain ones, and the parts of what has dots, a path or a value with its fields. Fields of what stands in
    parentheses are left out."""
    text = bare(text)
    for m in re.finditer(rf'{NAME}(?:\.{NAME})*', text):
        if m.start() and text[m.start() - 1] == '.' : continue
        path = m.group().split('.')
        yield path[0] if len(path) == 1 else tuple(path)


def head(word):
    """A plain name, or the first part of what has dots."""
    return word if isinstance(word, str) else word[0]


def bound(text, constructors=()):
    """The names that a text binds. A constructor in a pattern is not bound."""
    names = set()
    for m in re.finditer(rf'[({{]((?:{NAME} )+): ', text): names.update(m.group(1).split())
    for m in re.finditer(r'λ ((?:[^λ.]|\.(?=\S))*?)\.(?=\s)', text):
        names.update(re.findall(NAME, re.sub(r' : [^()]*(\([^()]*\)[^()]*)*\)', ' )', m.group(1))))
    for m in re.finditer(r'\blet ([^=:\n]*)', text): names.update(re.findall(NAME, m.group(1)))
    for number, line in enumerate(text.split('\n')):
        line = line.strip()
        if number and (m := SIGNATURE.match(line)): names.add(m.group(2))
        elif m := re.match(r'([^=]*?) =(?: |$)', line): names.update(set(re.findall(rf'(?<!\.){NAME}', m.group(1))[1:]) - set(constructors))
    return names


def uses(text, hidden=(), constructors=()):
    """The names that a text mentions and does not bind. What stands before ` =` is a field or an argument's name."""
    hidden = bound(text, constructors) | set(hidden)
    plain = re.sub(rf'(?<![^\s{{;(]){NAME}(?= =(?:\s|$))', '', text, flags=re.M)
    return {w for w in words(plain) if head(w) not in hidden}


def chunks(decl):
    """The parts of a declaration that bind names each for itself, with the names hidden in each: signature and clauses, or fields."""
    lines = bare('\n'.join(decl.lines)).split('\n')
    deep = min((indent(x) for x in lines[1:] if x.strip()), default=0) if decl.kind else indent(lines[0])
    parts = []
    for x in lines:
        if not parts or x.strip() and indent(x) <= deep and x.strip()[0] not in ')}]': parts.append([])
        parts[-1].append(x)
    parts = ['\n'.join(x) for x in parts]
    hidden = bound(parts[0]) if decl.kind else set()
    yield parts[0], hidden
    for part in parts[1:]:
        m = PARTS.match(part.strip()) if decl.kind else None
        yield part.strip()[m.end() if m else 0:], hidden
        if m and decl.kind == 'record': hidden = hidden | set(m.group(1).split())


class Tree:
    """The files of specs/ and proofs/ of all crates, by (crate, folder, module), and their declarations, by (crate, folder, module, name).
    Files of the proof of one function are left out."""
    def __init__(self, root='.'):
        self.root, self.files, self.decls, self.where, self.known = root, {}, {}, {}, {}
        for path in sorted(x for part in ('specs', 'proofs') for x in glob.glob(os.path.join(root, f'crates/*/{part}/**/*.antt'), recursive=True)):
            crate, folder, *rest = os.path.relpath(path, os.path.join(root, 'crates')).split('/')
            if rest == ['Lib.antt'] or 'Proof' in rest or rest[1:] and rest[-1] in ('Proof.antt', 'Invariants.antt', 'Answers.antt'): continue
            key = (crate, folder, '.'.join(rest)[:-5])
            self.files[key] = File(path)
            for d in self.files[key].decls: self.decls[key + (d.name,)] = d
        for key, file in self.files.items(): self.where[key] = self.scope(file.uses, key)

    def module(self, path):
        """(crate, folder, module) of a path that names a file of ours, or None."""
        m = re.match(r'Rattle\.(\w+)\.(specs|proofs)\.(.*)$', path)
        return m.groups() if m and m.groups() in self.files else None

    def scope(self, uses, key=None):
        """What names mean behind some `use` lines and in a file: (crate, folder, module, name) each; a module's name, its file."""
        scope = {}
        for use in uses:
            there = self.module(use.module)
            if use.alias: scope[use.alias] = there
            else:
                for here, name in use.items.items(): scope[here] = self.home(there, name)
        for d in (self.files[key].decls if key else ()):
            for name in [d.name] + d.constructors: scope[name] = key + (d.name,)
        return scope

    def home(self, key, name):
        """Where a name that a file offers is declared, or None for what is not ours."""
        if key is None: return None
        for d in self.files[key].decls:
            if name == d.name or name in d.constructors: return key + (d.name,)
        for use in self.files[key].uses:
            if 'pub' in use.marks and name in use.items: return self.home(self.module(use.module), use.items[name])
        return None

    def rests(self, text, scope, hidden=()):
        """The declarations of ours that a text names. An operator is named where all its parts are."""
        told = uses(text, hidden, [x for x, at in scope.items() if at and len(at) == 4 and at[3] != x])
        found = {at for x, at in scope.items() if at and len(at) == 4 and '◌' in x and all(p in told for p in x.split('◌') if p)}
        for w in told:
            at = scope.get(head(w))
            if isinstance(w, tuple) and (at is None or len(at) == 3):
                places = [(at, w[1])] + [(self.module('.'.join(w[:k])), w[k]) for k in range(1, len(w))]
                at = next((home for there, name in places if there and (home := self.home(there, name))), None)
            if at and len(at) == 4: found.add(at)
        return found

    def needs(self, key, statement=False):
        """The declarations that one names (or only its signature), in its sections' parameters too."""
        if (key, statement) not in self.known: self.known[key, statement] = self.named(key, statement)
        return self.known[key, statement]

    def named(self, key, statement):
        if self.files[key[:3]].opens: raise ValueError(f'{self.files[key[:3]].path}: an `open` line is not read')
        d, scope, found = self.decls[key], self.where[key[:3]], set()
        params = set().union(*(bound(bare('\n'.join(x.header))) for x in d.sections))
        for section in d.sections: found |= self.rests(bare('\n'.join(section.header)), scope)
        for part, hidden in chunks(d):
            found |= self.rests(part, scope, hidden | params)
            if statement and not d.kind: break
        return found - {key}

    def closure(self, roots):
        seen, todo = set(), list(roots)
        while todo:
            key = todo.pop()
            if key not in seen:
                seen.add(key)
                todo += self.needs(key)
        return seen


def clauses(text):
    """The contracts of a Rattle file: (function, last line, what stands in the braces) of each clause; and its `ghost use` lines."""
    if '/*' in text: raise ValueError('block comments are not read')
    found, text = [], re.sub(r'//.*', '', text)
    for m in re.finditer(r'(?m)^\s*(?:(?:requires|ensures)(?: \w+)?|ghost(?: \w+:)?)\s*\{', text):
        depth, at = 1, m.end()
        while depth:
            depth += {'{': 1, '}': -1}.get(text[at], 0)
            at += 1
        found.append((re.findall(r'\bfn (\w+)', text[:m.start()])[-1], text.count('\n', 0, at) + 1, text[m.end():at - 1]))
    return found, [Use(x) for x in text.split('\n') if x.startswith('ghost use')]
