#!/usr/bin/env bash
# Has oem read and mend each NAME.oem of tests/received and holds what it writes against NAME.read, NAME.mended and NAME.changes, byte for
# byte; then fresh messages against an independent implementation in Python. Build the program first: programs/build oem.
# tests/received.sh PROGRAM tries another one, given from the top of the repository: peer/oem passes.
set -u
cd "$(dirname "$0")/.." || exit 2
program=${1:-programs/oem}
if [ $# -eq 0 ] && [ ! -x crates/oem/out/oem ]; then
    echo "tests/received.sh: no program crates/oem/out/oem: run 'programs/build oem' first" >&2
    exit 2
fi
if [ ! -f "$program" ] || [ ! -x "$program" ]; then
    echo "tests/received.sh: $program is no program" >&2
    exit 2
fi
out=$(mktemp) && err=$(mktemp) || exit 2
trap 'rm -f "$out" "$err"' EXIT

# tried COMMAND MESSAGE OUTPUT ERRORS: runs it and compares both
tried() {
    timeout 60 "$program" "$1" <"$2" >"$out" 2>"$err" && cmp "$out" "$3" && cmp "$err" "$4" || { echo "oem $1 <$2 failed"; exit 1; }
}

for message in tests/received/*.oem; do
    name=${message%.oem}
    tried read "$message" "$name.read" /dev/null
    tried mend "$message" "$name.mended" "$name.changes"
done
peer/check_received --messages 2000 --program "$program"
