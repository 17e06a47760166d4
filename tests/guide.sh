#!/usr/bin/env bash
# docs/HOST.md: what its table says of each status, tried with the program `walk`; that its statuses for the next target are those of the steps; what it
# says of `walk` in a pipe.
set -eu
cd "$(dirname "$0")/.."
tests/program walk
python3 -B tests/guide.py target/bin/walk
