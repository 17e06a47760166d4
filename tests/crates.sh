#!/usr/bin/env bash
# What crates.txt lists for each crate is what it uses, and no more (tests/crates.py).
set -eu
cd "$(dirname "$0")/.."
python3 tests/crates.py
