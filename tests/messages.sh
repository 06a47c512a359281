#!/usr/bin/env bash
# Runs oem on each NAME.request of scripts and holds what it writes against NAME.oem, byte for byte; then on fresh requests
# against an independent implementation in Python. Build the program first: programs/build oem.
set -u
cd "$(dirname "$0")/.." || exit 2
program=programs/oem
if [ ! -x crates/oem/out/oem ]; then
    echo "tests/messages.sh: no program crates/oem/out/oem: run 'programs/build oem' first" >&2
    exit 2
fi
written=$(mktemp) || exit 2
trap 'rm -f "$written"' EXIT

for request in scripts/*.request; do
    timeout 60 "$program" write <"$request" >"$written" && cmp "$written" "${request%.request}.oem" || exit 1
done
peer/check_messages --count 5000
