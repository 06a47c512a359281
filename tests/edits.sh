#!/usr/bin/env bash
# Holds every edit that must be refused against the sources that it changes: it can be applied, it changes something, and no other of
# its crate does the same. Nothing is proved.
set -u
cd "$(dirname "$0")/.." || exit 2
python3 tests/edits.py --selftest && python3 tests/edits.py .
