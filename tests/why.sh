#!/usr/bin/env bash
# Runs why on each script of scripts that has a NAME.why and holds what it writes against that, byte for byte; then on fresh
# scripts against an independent implementation in Python. Build the program first: programs/build why.
set -u
cd "$(dirname "$0")/.." || exit 2
program=programs/why
if [ ! -x crates/why/out/why ]; then
    echo "tests/why.sh: no program crates/why/out/why: run 'programs/build why' first" >&2
    exit 2
fi
written=$(mktemp) || exit 2
trap 'rm -f "$written"' EXIT

for stored in scripts/*.why; do
    timeout 60 "$program" <"${stored%.why}.script" >"$written" && cmp "$written" "$stored" || exit 1
done
peer/check_sentences --count 10000
