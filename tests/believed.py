"""Which definitions have to be believed, and whether they stand apart from the shapes of the code.

Believed is what the statements reach: the contracts of the exported functions (`#[unsafe(no_mangle)]` in crates/dfsc/src), the contracts of the functions that the
program `walk` calls, and the theorems of the table at the top of docs/SPEC.md. From there it goes through crates/*/specs: a definition reaches every one
whose name stands in its type or in its body. (A variable of the same name would count too, so that nothing is missed.) Structs and enums that the sources
declare count as themselves.

believed.py           the test: every spec file but those named Code* is on SPEC.md's list with its lines, after the files that it uses; all of its
                      definitions are reached; none of a Code* file is
believed.py --list    each spec file with what is reached and what is not
believed.py --table   the list of files as docs/SPEC.md should have it
believed.py --lines   writes the lines of each listed file into docs/SPEC.md
"""
import glob, os, re, sys

KINDS = 'exported', 'walk', 'theorem'
HEAD = re.compile(r'( *)(?:(?:unfoldable|abbrev) )?(?:pub )?(?:(record|data) )?([^\s(){}]+)((?: [({][^(){}]*[)}])*) :(?= |$)')


def tokens(text):
    """the names of a text, but for fields: `(f x).field`, `record { field = .. }`, and their declaration; `a.b` is one word, since `a` may be a value or stand for a file"""
    text = re.sub(r'(^|\s)--.*', r'\1', text)
    text = re.sub(r'([{;]\s*)[^\s(){};]+ =(?=\s)', r'\1', re.sub(r'^ +(pub )?[^\s(){}]+ : ', ' ', text, flags=re.M))
    return [t.rstrip('.') for t in re.findall(r'[^\s(){};,⌜⌝]+', text) if not t.startswith('.')]


def uses(text):
    """`use PATH.{a, b as c}` and `use PATH as d`: name -> (path, name), alias -> path"""
    names, aliases = {}, {}
    for m in re.finditer(r'^(?:ghost )?use (\S+?)(?:\.\{([^}]*)\}| as (\S+?));?$', text, re.M):
        if m[3]:
            aliases[m[3]] = m[1]
        for n in filter(None, map(str.strip, (m[2] or '').split(','))):
            a, _, b = n.partition(' as ')
            names[b or a] = (m[1], a)
    return names, aliases


class Def:
    """a definition: record, data or neither; its lines: first (of its comment), head, last; the head of its section (`module _ .. where`)"""

    def __init__(self, name, kind, first, head, section):
        self.name, self.kind, self.first, self.head, self.last, self.section = name, kind, first, head, None, section


class File:
    """a spec file: what its `use` lines bring, its definitions, and of each constructor the type it belongs to"""

    def __init__(self, root, path):
        self.path, text = path, open(os.path.join(root, path)).read()
        self.lines, self.names, self.aliases = text.split('\n'), *uses(text)
        self.crate, self.module = path.split('/')[1], '.'.join(path[:-len('.antt')].split('/')[3:])
        self.is_code = os.path.basename(path).startswith('Code')
        self.defs, self.owner = {}, {}
        section = now = None
        for i, line in enumerate(self.lines + ['']):
            if line and not line.startswith(' '):
                section = None
            opens, head = line.startswith('module _'), HEAD.match(line)
            head = head if head and len(head[1]) <= (2 if section is not None else 0) else None
            if opens or head or i == len(self.lines):
                first = i
                while first and self.lines[first - 1].strip().startswith('--'):
                    first -= 1
                if now:
                    now.last = first
                if opens:
                    section, now = i, None
            if head:
                now = self.defs[head[3]] = Def(head[3], head[2], first, i, section)
                self.owner[head[3]] = head[3]
            elif now and now.kind == 'data' and re.match(r' +\S+ : ', line):
                self.owner[line.split()[0]] = now.name


class Tree:
    def __init__(self, root):
        self.root, self.files = root, {}
        for path in sorted(glob.glob(root + '/crates/*/specs/**/*.antt', recursive=True)):
            file = File(root, os.path.relpath(path, root))
            if file.defs:
                self.files[file.crate, file.module] = file

    def read(self, path):
        path = os.path.join(self.root, path)
        return open(path).read() if os.path.exists(path) else ''

    def at(self, path):
        """the spec file of a path in a `use` line"""
        m = re.fullmatch(r'Rattle\.(\w+)\.specs\.(\S+)', path)
        return m and self.files.get((m[1], m[2]))

    def target(self, path, name):
        """the definition that a name of a `use` line stands for, if it is of a spec file"""
        file = self.at(path)
        return (file, file.owner[name]) if file and name in file.owner else None

    def resolve(self, scope, token):
        file, names, aliases = scope
        first, *rest = token.split('.')
        if file and first in file.owner:
            return file, file.owner[first]
        return self.target(*names[first]) if first in names else self.target(aliases[first], rest[0]) if first in aliases and rest else None

    def named(self, scope, text):
        return {x for x in (self.resolve(scope, t) for t in tokens(text)) if x}

    def reaches(self, file, name):
        d, scope = file.defs[name], (file, file.names, file.aliases)
        section = [file.lines[d.section]] if d.section is not None else []
        return self.named(scope, '\n'.join(section + file.lines[d.head:d.last]))


def functions(text):
    """the functions of a source: name -> [contract, exported]"""
    out, name, exported = {}, None, False
    for line in text.split('\n'):
        m = re.match(r'(?:pub )?(?:extern "C" )?fn (\w+)', line)
        if m:
            name, out[m[1]] = m[1], ['', exported]
        elif name and (out[name][0] or re.match(r'\s+(ensures|requires)\b', line)):
            out[name][0] += re.sub(r'^\s+(?:ensures|requires)\*?(?: \w+)? \{', ' {', line) + '\n'
        if line.startswith('{'):
            name = None
        exported = line.startswith('#[unsafe(no_mangle)]')
    return out


def called(tree, path, seen):
    """what a source calls in the tree; where what it calls reads or writes, which no contract can say, also what is called there"""
    for m in re.finditer(r'\b((?:\w+::)+)(\w+)\(', tree.read(path)):
        way = m[1].replace('crate::', path.split('/')[1] + '::').split('::')[:-1]
        f = f'crates/{way[0]}/src/{"/".join(way[1:]) or "lib"}.rt'
        if (f, m[2]) not in seen and m[2] in functions(tree.read(f)):
            seen.append((f, m[2]))
            if re.search(r'\bstd::io\b|\bHostRuntime\b', tree.read(f)):
                called(tree, f, seen)
    return seen


def roots(tree, theorems, faults):
    """what the statements name: (kind of statement, its name, definition)"""
    out = []
    src = lambda crate: [f'crates/{crate}/src/{f}' for f in sorted(os.listdir(f'{tree.root}/crates/{crate}/src'))]
    exported = [('exported', p, n) for p in src('dfsc') for n, f in functions(tree.read(p)).items() if f[1]]
    for kind, path, name in exported + [('walk', *c) for p in src('walk') for c in called(tree, p, [])]:
        text = tree.read(path)
        out += [(kind, name, x) for x in tree.named((None, *uses(text)), functions(text)[name][0])]
    for name, path in theorems:
        text = tree.read(path)
        m = re.search(rf'^( *)pub {re.escape(name)} :(.*\n(?:\1 +.*\n)*)', text, re.M)
        if not m:
            faults.append(f'{path}: no theorem {name}')
            continue
        names, aliases = uses(text)
        statement = (text[:m.start()].rpartition('\nmodule _')[2].split('\n')[0] if m[1] else '') + '\n' + m[2]
        out += [('theorem', name, x) for x in tree.named((None, names, aliases), statement)]
        own = {h[3] for h in map(HEAD.match, text.split('\n')) if h and len(h[1]) <= 2}
        faults += [f'{path}: the statement of {name} uses {t}, which stands in a proof' for t in sorted(set(tokens(statement)))
                   if t in own or '.proofs.' in names.get(t, ('',))[0]]
    return out


def reached(tree, statements):
    """the definitions that are reached, each with the kind of statement and what names it; kinds in their order"""
    why = {}
    for first in KINDS:
        waiting = [(by, x) for kind, by, x in statements if kind == first]
        while waiting:
            by, x = waiting.pop()
            if x not in why:
                why[x] = first, by
                waiting += [(f'{x[0].path} {x[1]}', y) for y in tree.reaches(*x)]
    return why


def before(tree, file):
    """the files that a file uses"""
    return [f for f in map(tree.at, [p for p, _ in file.names.values()] + list(file.aliases.values())) if f and f is not file]


def told(tree):
    """the tables at the top of SPEC.md: theorems with their files, spec files with their lines"""
    top = '\n'.join(tree.read('docs/SPEC.md').split('\n## ')[:2])
    rows = [[c.strip(' `') for c in l.strip('|').split('|')] for l in top.split('\n') if l.startswith('|')]
    return [(r[0], r[1]) for r in rows if '/proofs/' in r[1]], [(r[0], int(r[1])) for r in rows if '/specs/' in r[0]]


def test(tree):
    faults, (theorems, files) = [], told(tree)
    why, order = reached(tree, roots(tree, theorems, faults)), [p for p, _ in files]
    for file in tree.files.values():
        wrong = [n for n in file.defs if ((file, n) in why) == file.is_code]
        faults += [f'{file.path}: {n} is ' + (f'reached, from {why[file, n][1]}' if file.is_code else 'not reached') for n in wrong]
        if not file.is_code:
            if (file.path, len(file.lines) - 1) not in files:
                faults.append(f'{file.path}: {len(file.lines) - 1} lines, not listed so')
            later = order[order.index(file.path):] if file.path in order else []
            faults += [f'{file.path}: listed before {f.path}, which it uses' for f in before(tree, file) if f.path in later]
    there = [f.path for f in tree.files.values() if not f.is_code]
    return faults + [f'{p}: listed, and there are no definitions to believe' for p in order if p not in there]


def table(tree):
    """the believed files, each after those that it uses, with its lines, what it is for, and the first sentence of its comment"""
    why = reached(tree, roots(tree, told(tree)[0], []))
    crates, out = re.findall(r'^(\w+)[^#\n]*:', tree.read('crates.txt'), re.M), []
    serves = lambda f: min((KINDS.index(why[f, n][0]) for n in f.defs if (f, n) in why), default=0)
    says = lambda f: re.split(r'\.(?: |$)', ' '.join(l[3:] for l in f.lines[:3] if l.startswith('-- ')))[0]

    def put(file):
        if file not in out and not file.is_code:
            for f in before(tree, file):
                put(f)
            out.append(file)
    for file in sorted(tree.files.values(), key=lambda f: (serves(f), crates.index(f.crate))):
        put(file)
    return [f'| {f.path} | {len(f.lines) - 1} | {KINDS[serves(f)]} | {says(f)} |' for f in out]


def main(root, mode):
    tree = Tree(root)
    if mode == '--table':
        print('\n'.join(table(tree)))
    elif mode == '--lines':
        lines = {f.path: len(f.lines) - 1 for f in tree.files.values()}
        text = re.sub(r'^\| (crates/\S+/specs/\S+) \| \d+ \|', lambda m: f'| {m[1]} | {lines.get(m[1], 0)} |', tree.read('docs/SPEC.md'), flags=re.M)
        open(os.path.join(root, 'docs/SPEC.md'), 'w').write(text)
    elif mode == '--list':
        why = reached(tree, roots(tree, told(tree)[0], []))
        for file in tree.files.values():
            for word, here in (('reached', True), ('not reached', False)):
                print(f'{file.path} {word}:', ' '.join(n for n in file.defs if ((file, n) in why) == here) or '-')
    else:
        faults, rows = test(tree), [r.split(' | ') for r in table(tree)]
        lines = [f'{kind} {sum(int(r[1]) for r in rows if r[2] == kind)}' for kind in KINDS]
        code = sum(len(f.lines) - 1 for f in tree.files.values() if f.is_code)
        print('\n'.join(faults + [f'believed: {", ".join(lines)} lines; shapes of the code: {code} lines; {len(faults)} faults']))
        sys.exit(bool(faults))


if __name__ == '__main__':
    main(os.path.dirname(os.path.dirname(os.path.abspath(__file__))), sys.argv[1] if len(sys.argv) > 1 else '')
