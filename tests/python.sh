#!/usr/bin/env bash
# The library as a shared object, by the command that host/python/dfsc.py tells, and the module's tests.
set -eu
cd "$(dirname "$0")/.."
folder=$(mktemp -d)
trap 'rm -rf "$folder"' EXIT
tests/library dfsc
build=$(sed -n 's/^    \(cc -shared .*\)$/\1/p' host/python/dfsc.py)
[ -n "$build" ] || { echo "python: host/python/dfsc.py does not tell how the shared object is built"; exit 1; }
# -z text: no relocation in the code, so the archive is position independent; -z defs: nothing is missing
$build -Wl,-z,text -Wl,-z,defs
nm -D --defined-only target/libdfsc.so | sed -n 's/.* T //p' | sort >"$folder/exported"
grep -oE '^uint(32|64)_t dfsc_[a-z_]+' include/dfsc.h | sed 's/.* //' | sort | diff - "$folder/exported"
cd host/python
env -u DFSC_SO python3 -B -W error -m unittest -q test_dfsc >"$folder/log" 2>&1 || { cat "$folder/log"; exit 1; }
grep -E '^Ran [1-9][0-9]* tests' "$folder/log"
