#!/usr/bin/env bash
# The scenarios of vectors/scenarios.txt computed on the definitions of the steps, in a copy of the crates that hold these, with a crate that tests/steps.py writes.
set -eu
cd "$(dirname "$0")/.."
copy=$(mktemp -d)
trap 'rm -rf "$copy"' EXIT
(cd crates/walk_steps && rt lib) >"$copy/log" 2>&1 || { cat "$copy/log"; exit 1; }
cp -r vectors "$copy"
# each crate with its library, without what else its checks kept
for c in $(python3 tests/steps.py --crates); do
    grep "^$c:" crates.txt >>"$copy/crates.txt"
    mkdir -p "$copy/crates/$c/out"
    for part in src specs out/rlib proofs; do [ ! -e "crates/$c/$part" ] || cp -r "crates/$c/$part" "$copy/crates/$c/$part"; done
done
n=$(python3 tests/steps.py "$copy")
[ "$n" -ge 250 ]
if (cd "$copy/crates/scenarios" && rt check) >"$copy/log" 2>&1; then
    echo "steps: $n passed, 0 failed"
else
    grep -m5 error "$copy/log" | cut -c1-300
    echo "steps: $n scenarios, not all hold"
    exit 1
fi
