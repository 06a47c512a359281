#!/usr/bin/env bash
# Weakens the contract of every entry point in a copy, once so that it says nothing of the record that is left and once so that it says
# nothing of the answer. `stepper` is still proved, since what is promised is still true; `promised` must then be refused at each of the
# seven contracts. The calls by value are left out of the copy: they cannot be proved from less. Prove the crates first: rt all check.
set -u
cd "$(dirname "$0")/.." || exit 2
room=$(mktemp -d) || exit 2
trap 'rm -rf "$room"' EXIT
calls="open predict correct withdraw start refine run"
failed=0

# weakened NAME PART OLD NEW: a copy in which the line OLD of the seven contracts, an extended expression, reads NEW, and the proofs of stepper
# say so of that PART of what a step gives
weakened() {
    copy=$room/$1
    mkdir -p "$copy/crates"
    cp crates.txt "$copy"
    for crate in crates/*/; do
        mkdir -p "$copy/$crate/out"
        for part in src specs proofs out/rlib; do [ ! -d "$crate$part" ] || cp -r "$crate$part" "$copy/$crate$part"; done
    done
    rm -rf "$copy/crates/stepper/src/owned.rt" "$copy/crates/stepper/proofs/owned"
    sed -i '/^pub mod owned;$/d' "$copy/crates/stepper/src/lib.rt"
    rm "$copy"/crates/promised/{specs,proofs}/ByValue.antt
    sed -i '/ByValue/d' "$copy"/crates/promised/{specs,proofs}/Lib.antt
    sed -i -E "s/$3/$4/" "$copy/crates/stepper/src/lib.rt"
    sed -i -E "s/ap \(λ \(r : [A-Za-z]+\)\. r\.$2\) e,/refl,/; 0,/^use /s//use Rattle.std.proofs.Common.{refl}\nuse /" "$copy"/crates/stepper/proofs/*/Answers.antt
    changed=$(diff <(sed '/^pub mod owned;$/d' crates/stepper/src/lib.rt) "$copy/crates/stepper/src/lib.rt" | grep -c '^>')
    [ "$changed" -eq 7 ] || { echo "$1: $changed contracts were changed, and not seven"; failed=1; return; }
    if ! (cd "$copy/crates/stepper" && rt check >"$room/$1.below" 2>&1); then
        echo "$1: stepper is not proved with the weaker contracts, so nothing is shown"
        failed=1
        return
    fi
    (cd "$copy/crates/promised" && rt check >"$room/$1.above" 2>&1)
    for call in $calls; do
        if grep -q "error: .$call-says.: .*the two types differ" "$room/$1.above"; then
            echo "$1: promised is refused at the contract of $call"
        else
            echo "$1: promised takes the weaker contract of $call"
            failed=1
        fi
    done
}

weakened any_record session '\(s\.new ≡ .*\.session\)$' '(s.new ≡ s.new)'
weakened any_answer answer '× \(result ≡ .*\.answer\)$' '× (result ≡ result)'
exit "$failed"
