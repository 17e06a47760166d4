#!/usr/bin/env bash
# The library for hosts as its users see it: C programs over include/dfsc.h and dfsc_host.h, the wrapper for Rust with its tests and the first of those
# programs (host/dfsc), and random walks and listings given to the library and to the model (host/model), which leaves out no function of the header.
set -eu
cd "$(dirname "$0")/.."
folder=$(mktemp -d)
trap 'rm -rf "$folder"' EXIT
tests/library dfsc
for e in resolve moved_link; do
    cc -O2 -Wall -Werror -Iinclude "host/examples/$e.c" target/staticlib/libdfsc.a -o "$folder/$e"
    "$folder/$e" >"$folder/$e.out"
    diff "host/examples/$e.out" "$folder/$e.out"
done
# dfsc_host.h as C and, where there is a compiler, as C++; what it is there to refuse is not compiled
cc -std=c11 -pedantic -O2 -Wall -Wextra -Werror -Iinclude host/c/types.c target/staticlib/libdfsc.a -o "$folder/types"
"$folder/types"
if command -v c++ >/dev/null; then
    c++ -x c++ -std=c++11 -pedantic -O2 -Wall -Wextra -Werror -Iinclude -c host/c/types.c -o "$folder/types.o"
    c++ "$folder/types.o" target/staticlib/libdfsc.a -o "$folder/types"
    "$folder/types"
fi
for wrong in EXCHANGED MIXED; do
    if cc -std=c11 -Werror=incompatible-pointer-types -fsyntax-only -D"$wrong" -Iinclude host/c/types.c 2>/dev/null; then
        echo "clients: host/c/types.c compiles with $wrong"
        exit 1
    fi
done
# the wrapper's layout and lints, where cargo has these tools
if cargo fmt --version >/dev/null 2>&1; then
    cargo fmt --check --manifest-path host/dfsc/Cargo.toml
else
    echo "clients: there is no cargo fmt on this machine: not tried"
fi
if cargo clippy --version >/dev/null 2>&1; then
    cargo clippy --quiet --offline --all-targets --manifest-path host/dfsc/Cargo.toml -- -D warnings
else
    echo "clients: there is no cargo clippy on this machine: not tried"
fi
# where there is no library the build says how to make it
if DFSC_LIB="$folder" CARGO_TARGET_DIR="$folder/cargo" cargo build --quiet --offline --manifest-path host/dfsc/Cargo.toml 2>"$folder/log" ||
    ! grep -q 'tests/library dfsc' "$folder/log"; then
    cat "$folder/log"
    echo "clients: a build without libdfsc.a"
    exit 1
fi
cargo test --quiet --offline --manifest-path host/dfsc/Cargo.toml >"$folder/log" 2>&1 || { cat "$folder/log"; exit 1; }
grep -E '^test result: ok\. [1-9]' "$folder/log"
cargo run --quiet --offline --manifest-path host/dfsc/Cargo.toml --example resolve >"$folder/resolve.out"
diff host/examples/resolve.out "$folder/resolve.out"
for f in $(grep -oE '^uint(32|64)_t dfsc_[a-z_]+' include/dfsc.h | sed 's/.* dfsc_//'); do
    grep -q "calls::$f\b" host/model/src/calls.rs || { echo "clients: host/model does not call dfsc_$f"; exit 1; }
done
cargo run --quiet --release --offline --manifest-path host/model/Cargo.toml
