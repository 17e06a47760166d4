#!/usr/bin/env bash
# The proved code, compiled: replies against vectors/captures (host/layouts), order test, look-up, start and replies against plain Rust, and timed
# (host/bench), the listing and reading it against plain Rust (host/listing), the calls of a host against vectors/scenarios.txt, with the stack that they
# take (host/walks).
set -eu
cd "$(dirname "$0")/.."
tests/library testing dfsc
run() { cargo run --quiet --release --offline --manifest-path "host/$1/Cargo.toml" -- "${@:2}"; }
run layouts
# the look-ups in four builds, whose code lies at other places
times=$(mktemp)
trap 'rm -f "$times"' EXIT
for shift in 16 32 48; do
    BENCH_SHIFT=$shift run bench look-ups >>"$times"
done
BENCH_SHIFT=0 run bench --with "$times"
run listing
run walks
