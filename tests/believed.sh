#!/usr/bin/env bash
# What has to be believed stands apart from the shapes of the code, as the list at the top of docs/SPEC.md says; and that this test can fail.
set -eu
cd "$(dirname "$0")"
python3 -B believed_control.py
python3 -B believed.py
