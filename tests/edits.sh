#!/usr/bin/env bash
# The edits that must fail (crates/*/must-fail): at most 180, since each costs a check of its whole crate, and each can be applied: it says what it
# stands for, names a file of its crate, and the text that it replaces stands there exactly once. Those that docs/FAULTS.md cites are there.
set -eu
cd "$(dirname "$0")/.."
python3 - 180 <<'P'
import glob, os, re, sys

def apply(path):
    """What is wrong with an edit, or None. Its pairs are applied one after the other, as `rt must-fail` does."""
    crate = os.path.dirname(os.path.dirname(path))
    lines = open(path, encoding="utf-8").read().split("\n")
    if not lines[0].startswith("# "):
        return "its first line does not say what it stands for"
    texts, name, old, pairs = {}, None, None, 0
    for line in lines:
        if line.startswith("file: "):
            name = line[len("file: "):]
            if not name.startswith(("src/", "specs/", "proofs/")) or not os.path.isfile(f"{crate}/{name}"):
                return f"{name} is no file of its crate"
            if name not in texts:
                texts[name] = open(f"{crate}/{name}", encoding="utf-8").read()
        elif line.startswith("old: "):
            old = line[len("old: "):]
        elif line.startswith("new:"):
            new = line[len("new:"):].removeprefix(" ")
            if name is None or old is None:
                return "a 'new:' line without its 'file:' and 'old:' lines"
            if texts[name].count(old) != 1:
                return f"{texts[name].count(old)} times in {name}: {old.strip()}"
            if new == old:
                return f"it changes nothing: {old.strip()}"
            texts[name], old, pairs = texts[name].replace(old, new), None, pairs + 1
    return None if pairs else "it has no 'old:' and 'new:' pair"

most, bad = int(sys.argv[1]), 0
edits = sorted(glob.glob("crates/*/must-fail/*.edit"))
for path in edits:
    wrong = apply(path)
    if wrong:
        bad += 1
        print(f"{path}: {wrong}")
for cited in re.findall(r"\bedits? ([a-z_]+/[a-z0-9_]+(?:, [a-z_]+/[a-z0-9_]+)*)", open("docs/FAULTS.md", encoding="utf-8").read()):
    for crate, label in (c.split("/") for c in cited.split(", ")):
        if f"crates/{crate}/must-fail/{label}.edit" not in edits:
            bad += 1
            print(f"docs/FAULTS.md: there is no edit {crate}/{label}")
if len(edits) > most:
    bad += 1
    print(f"edits: {len(edits)}, and {most} are the most: keep the sharpest")
if bad:
    sys.exit(1)
print(f"edits: {len(edits)} of at most {most}, each can be applied")
P
