#!/usr/bin/env bash
# Draws ten of the further edits and tries them: the prover must refuse each. --seed S draws as the run did that printed S, --count N
# draws another number. Prove the crates first: rt all check.
set -u
cd "$(dirname "$0")/.." || exit 2
room=$(mktemp -d) || exit 2
trap 'rm -rf "$room"' EXIT

# selftest: with a prover that refuses nothing the one edit of a small repository is reported
mkdir -p "$room/bin" "$room/crates/a" "$room/edits/a"
touch "$room/crates.txt" "$room/edits/a/wrong.edit"
cp edits/run "$room/edits"
printf '#!/bin/sh\nexit 0\n' >"$room/bin/rt"
chmod +x "$room/bin/rt"
if [ "$(PATH=$room/bin:$PATH "$room/edits/run" --draw --count 1 | tail -n 1)" != "0 passed, 1 failed" ]; then
    echo "selftest: an edit that is not refused is not reported"
    exit 1
fi

edits/run --draw "$@"
