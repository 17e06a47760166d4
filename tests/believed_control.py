"""The test of what has to be believed can fail: a small tree that passes, and what is wrong with it after each of some changes."""
import os, sys, tempfile
import believed

GOOD = {
    'crates.txt': 'low:\ndfsc staticlib: low\nwalk: low\n',
    'crates/low/specs/Lib.antt': 'pub mod Rules\npub mod Code\n',
    'crates/low/specs/Rules.antt': '-- Rules.\nuse Rattle.std.specs.Prelude.{ℕ}\n\npub data Kind : Type 0 where\n  link : Kind\n\nunfoldable pub rule : Kind → ℕ\nrule link = 1\n\n'
                                   'unfoldable pub said : ℕ → Kind\nsaid n = link\n\n-- what the theorem says\nunfoldable pub claim : ℕ → Type 0\nclaim n = ℕ\n',
    'crates/low/specs/Code.antt': '-- Shapes.\nuse Rattle.std.specs.Prelude.{ℕ}\nuse Rattle.low.specs.Rules.{Kind, rule}\n\nunfoldable pub shape : Kind → ℕ\nshape k = rule k\n',
    'crates/low/src/lib.rt': 'ghost use Rattle.low.specs.Code.{shape};\nghost use Rattle.low.specs.Rules.{said};\n\npub fn inner(k: u32) -> u32\n    ensures { result ≡ shape k }\n{\n'
                             '    k\n}\n\npub fn tell(k: u32) -> u32\n    ensures { result ≡ said k }\n{\n    k\n}\n',
    'crates/low/proofs/Laws.antt': 'use Rattle.low.specs.Rules.{claim}\n\nhint : ℕ\nhint = 1\n\npub holds : (n : ℕ)\n    → claim n\nholds n = n\n',
    'crates/dfsc/src/lib.rt': 'ghost use Rattle.low.specs.Rules.{rule};\nghost use Rattle.low.specs.Code.{shape};\n\n#[unsafe(no_mangle)]\npub extern "C" fn dfsc(k: u32) -> u32\n    ensures { result ≡ rule k }\n{\n'
                              '    low::inner(k)\n}\n',
    'crates/walk/src/main.rt': 'fn main() {\n    low::tell(1);\n}\n',
    'docs/SPEC.md': '# All\n\n| theorem | file |\n|---|---|\n| `holds` | crates/low/proofs/Laws.antt |\n\n| file | lines |\n|---|---|\n| crates/low/specs/Rules.antt | 15 |\n\n## Rest\n',
}
# a file, a text in it and what it becomes; a word of the fault
CHANGES = [
    ('crates/dfsc/src/lib.rt', 'result ≡ rule k', 'result ≡ shape k', 'Code.antt: shape is reached, from dfsc'),
    ('crates/low/specs/Rules.antt', 'said n = link', 'said n = link\nmore : ℕ', 'Rules.antt: more is not reached'),
    ('crates/walk/src/main.rt', 'low::tell(1);', '', 'Rules.antt: said is not reached'),
    ('docs/SPEC.md', '| `holds` |', '| `held` |', 'no theorem held'),
    ('docs/SPEC.md', '| `holds` | crates/low/proofs/Laws.antt |\n', '', 'Rules.antt: claim is not reached'),
    ('crates/low/proofs/Laws.antt', '→ claim n', '→ claim hint', 'uses hint, which stands in a proof'),
    ('docs/SPEC.md', '| 15 |', '| 14 |', 'Rules.antt: 15 lines, not listed so'),
    ('docs/SPEC.md', '| crates/low/specs/Rules.antt | 15 |', '', 'Rules.antt: 15 lines, not listed so'),
    ('docs/SPEC.md', '| 15 |', '| 15 |\n| crates/low/specs/Code.antt | 6 |', 'Code.antt: listed, and there are no definitions to believe'),
]


def faults(files):
    with tempfile.TemporaryDirectory() as root:
        for path, text in files.items():
            os.makedirs(os.path.dirname(os.path.join(root, path)), exist_ok=True)
            open(os.path.join(root, path), 'w').write(text)
        return believed.test(believed.Tree(root))


wrong = [f'the good tree: {f}' for f in faults(GOOD)]
for path, old, new, word in CHANGES:
    assert GOOD[path].count(old) == 1, (path, old)
    found = faults({**GOOD, path: GOOD[path].replace(old, new)})
    if not any(word in f for f in found):
        wrong.append(f'{path} with "{new}": not found: {word}; found: {found}')
print('\n'.join(wrong + [f'control: {len(CHANGES)} changes, {len(wrong)} not as expected']))
sys.exit(bool(wrong))
