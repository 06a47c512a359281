#!/usr/bin/env bash
# Runs replay on each NAME.script of scripts and holds what it writes against NAME.out, byte for byte.
# Build the program first: programs/build replay.
set -u
cd "$(dirname "$0")/.." || exit 2
program=programs/replay
if [ ! -x crates/replay/out/replay ]; then
    echo "tests/replay.sh: no program crates/replay/out/replay: run 'programs/build replay' first" >&2
    exit 2
fi
written=$(mktemp) || exit 2
trap 'rm -f "$written"' EXIT
passed=0
failed=0

for script in scripts/*.script; do
    timeout 60 "$program" <"$script" >"$written"
    status=$?
    if [ "$status" -eq 0 ] && cmp "$written" "${script%.script}.out"; then
        passed=$((passed + 1))
    else
        failed=$((failed + 1))
        echo "$script: exit status $status"
    fi
done

echo "$passed passed, $failed failed"
[ "$failed" -eq 0 ] && [ "$passed" -gt 0 ]
