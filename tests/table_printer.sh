#!/usr/bin/env bash
# Runs the table printer on each NAME.in of tests/table_printer and holds what it writes against NAME.out.
# A NAME.out without a NAME.in is for an input that cannot be read. Build the program first: programs/build table_printer.
set -u
cd "$(dirname "$0")/.." || exit 2
program=programs/table_printer
cases=tests/table_printer
if [ ! -x crates/table_printer/out/table_printer ]; then
    echo "tests/table_printer.sh: no program crates/table_printer/out/table_printer: run 'programs/build table_printer' first" >&2
    exit 2
fi
written=$(mktemp) || exit 2
trap 'rm -f "$written"' EXIT
passed=0
failed=0

# holds NAME: the program ended well and wrote NAME.out
holds() {
    if [ "$status" -eq 0 ] && cmp -s "$written" "$cases/$1.out"; then
        passed=$((passed + 1))
    else
        failed=$((failed + 1))
        echo "$1: exit status $status, and it wrote:"
        cat "$written"
    fi
}

for input in "$cases"/*.in; do
    timeout 10 "$program" <"$input" >"$written"
    status=$?
    holds "$(basename "$input" .in)"
done

timeout 10 "$program" <&- >"$written"
status=$?
holds closed_input

timeout 10 "$program" <"$cases" >"$written"
status=$?
holds directory_input

echo "$passed passed, $failed failed"
[ "$failed" -eq 0 ] && [ "$passed" -gt 2 ]
