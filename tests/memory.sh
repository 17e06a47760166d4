#!/usr/bin/env bash
# The memory that the library is lent: random walks and listings (host/model) with every slice at an unreadable page, and under valgrind with every slice a
# heap block of its length. In the controls elements of one slice are missing, which must be caught each time.
set -eu
cd "$(dirname "$0")/.."
command -v valgrind >/dev/null || { echo "memory: there is no valgrind on this machine"; exit 1; }
log=$(mktemp)
trap 'rm -f "$log"' EXIT
tests/library dfsc
cargo build --quiet --release --offline --manifest-path host/model/Cargo.toml
model=${CARGO_TARGET_DIR:-host/model/target}/release/model

for side in end start; do
    "$model" --guard "$side" --calls 100000 --seed 2 >"$log" || { cat "$log"; exit 1; }
    grep -E '^(controls|seed)' "$log"
done

check() { valgrind --error-exitcode=9 --partial-loads-ok=no "$model" "$@" >"$log" 2>&1; }
check --calls 3000 --seed 3 || { cat "$log"; exit 1; }
grep -E '^seed|ERROR SUMMARY' "$log"
check --control none || { cat "$log"; exit 1; }
caught=0
for slot in $("$model" --slots); do
    status=0
    check --control "$slot" || status=$?
    if [ "$status" -ne 9 ] || ! grep -qE 'Invalid (read|write)' "$log"; then
        cat "$log"
        echo "memory: valgrind says nothing of $slot, status $status"
        exit 1
    fi
    caught=$((caught + 1))
done
[ "$caught" -gt 0 ] || { echo "memory: no slot was tried"; exit 1; }
echo "valgrind: $caught controls caught"
