#!/usr/bin/env bash
# Holds every file, crate, definition, theorem and edit that the documents name against the repository. Nothing is proved.
set -u
cd "$(dirname "$0")/.." || exit 2
python3 tests/documents.py --selftest && python3 tests/documents.py .
