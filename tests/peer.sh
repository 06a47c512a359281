#!/usr/bin/env bash
# Holds the program replay against an independent implementation in C, on figures worked out by hand and on fresh scripts, and the numbers of
# crates/worked against the formulas in fractions.
# Build the program first: programs/build replay.
set -u
cd "$(dirname "$0")/.." || exit 2
program=programs/replay
if [ ! -x crates/replay/out/replay ]; then
    echo "tests/peer.sh: no program crates/replay/out/replay: run 'programs/build replay' first" >&2
    exit 2
fi
peer/figures --replay "$program" && peer/marathon && peer/examples && peer/scripts && peer/worked && peer/check --calls 200000 && peer/check_saved
