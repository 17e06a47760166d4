#!/usr/bin/env bash
# A name of the definitions (crates/*/specs) has one meaning: no two files define it. A tree with a name defined twice is the control.
set -eu
cd "$(dirname "$0")/.."
names() {
    python3 - "$1" <<'P'
import collections, glob, re, sys

DEFINED = re.compile(r"^(?:abbrev |unfoldable )?pub (?:record |data )?([^\s:({]+)(?=[\s:({])", re.M)
files = collections.defaultdict(set)
for path in glob.glob(sys.argv[1] + "/crates/*/specs/**/*.antt", recursive=True):
    for name in DEFINED.findall(open(path, encoding="utf-8").read()):
        if name != "mod":
            files[name].add(path)
twice = {name: sorted(at) for name, at in files.items() if len(at) > 1}
for name, at in sorted(twice.items()):
    print(f"{name}: {' '.join(at)}")
print(f"names: {len(files)} defined, {len(twice)} of them twice")
sys.exit(bool(twice) or not files)
P
}
names .
control=$(mktemp -d)
trap 'rm -rf "$control"' EXIT
mkdir -p "$control/crates/a/specs" "$control/crates/b/specs"
printf 'unfoldable pub twice : ℕ → ℕ\ntwice n = n + n\n' | tee "$control/crates/a/specs/A.antt" >"$control/crates/b/specs/B.antt"
if names "$control" >/dev/null; then
    echo "names: a name that is defined twice is not found"
    exit 1
fi
