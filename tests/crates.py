"""Whether crates.txt lists for each crate what it uses, and no more.

crates.py [ROOT]: computes from src/, specs/ and proofs/ which crates each crate uses: those that it names, and those whose types pass through it, since a
function that it calls takes or gives a value of them, or a value that passes through holds one. Says which words of crates.txt are too many or missing, and
fails if there are any.
"""
import os, re, sys


def listed(root):
    """The crates of crates.txt, each with the crates and libraries of the kit listed for it."""
    found = {}
    for line in open(root + '/crates.txt', encoding='utf-8'):
        name, colon, needs = line.split('#')[0].partition(':')
        if colon:
            found[name.split()[0]] = needs.split()
    return found


def texts(root, crate, end):
    """The files of a crate with this ending, by their paths in it, without comments."""
    found = {}
    for at, folders, names in os.walk(f'{root}/crates/{crate}'):
        folders[:] = [f for f in folders if f != 'out']
        for name in names:
            if name.endswith(end):
                path = os.path.join(at, name)
                text = open(path, encoding='utf-8').read()
                found[os.path.relpath(path, f'{root}/crates/{crate}')] = re.sub(r'//.*' if end == '.rt' else r'(?m)^\s*--.*', '', text)
    return found


def imported(code, name):
    """The full names that the `use` lines of a crate's code bring in."""
    found = []
    for way, names in re.findall(r'(?m)^use ([\w:]+?)(?:::\{([^}]*)\})?;', code):
        found += [f'{way}::{n.strip()}' for n in names.split(',') if n.strip()] or [way]
    return [re.sub(r'^crate::', name + '::', p) for p in found]


class Crate:
    """The code of a crate: what its functions take and give, and what its types hold, each as a set of full names of types."""

    def __init__(self, root, name, others):
        self.files = texts(root, name, '.rt')
        self.code = '\n'.join(self.files.values())
        self.text = self.code + '\n'.join(texts(root, name, '.antt').values())
        self.signs, self.holds = {}, {}
        self.names = (set(re.findall(r'\bRattle\.(\w+)', self.text)) | set(re.findall(r'(?<![\w:])(\w+)::', self.code))) & others - {name}
        for path, code in self.files.items():
            module = path[len('src/'):-len('.rt')].replace('/', '::')
            here = name if module in ('lib', 'main') else f'{name}::{module}'
            known = {t: f'{here}::{t}' for t in re.findall(r'(?:struct|enum) (\w+)', code)}
            known |= {p.split('::')[-1]: p for p in imported(code, name)}

            def types(text):
                paths = re.findall(r'((?:\w+::)*)\b([A-Z]\w*)', text)
                return {p.replace('crate::', name + '::', 1) + t if p else known[t] for p, t in paths if p or t in known}
            for f, text in re.findall(r'(?s)\bfn (\w+)(\(.*?)(?:\n    requires|\n    ensures|\n?\{)', code):
                self.signs[f'{here}::{f}'] = types(text)
            for t, body in re.findall(r'(?s)\b(?:struct|enum) (\w+) \{(.*?)\n\}', code):
                self.holds[f'{here}::{t}'] = types(body)


def needs(root):
    """What each crate of crates.txt uses."""
    lists = listed(root)
    others = set(lists).union(*lists.values())
    crates = {c: Crate(root, c, others) for c in lists}
    signs = {k: v for c in crates.values() for k, v in c.signs.items()}
    holds = {k: v for c in crates.values() for k, v in c.holds.items()}
    found = {}
    for name, crate in crates.items():
        reached, waiting = set(), {t for p in re.findall(r'(?<![\w:])(\w+(?:::\w+)+)', crate.code) for t in signs.get(p, ())}
        waiting |= set(imported(crate.code, name))
        while waiting - reached:
            reached |= waiting
            waiting = {t for r in reached for t in holds.get(r, ())}
        found[name] = crate.names | {t.split('::')[0] for t in reached if t in holds} - {name}
    return found


def main():
    root = sys.argv[1] if sys.argv[1:] else os.path.dirname(os.path.dirname(os.path.abspath(__file__)))
    bad, need = 0, needs(root)
    for crate, has in listed(root).items():
        for what, rest in ('lists without use', set(has) - need[crate]), ('uses without listing', need[crate] - set(has)):
            if rest:
                bad += len(rest)
                print(f'crates: {crate} {what}: {" ".join(sorted(rest))}')
    if bad:
        sys.exit(1)
    print(f'crates: {len(need)} crates list what they use and no more, {sum(map(len, need.values()))} words')


if __name__ == '__main__':
    main()
