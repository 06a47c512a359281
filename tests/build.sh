#!/usr/bin/env bash
# Tries ./build in a small repository with a prover that makes an archive of four empty calls: what it makes and says; that it leaves
# nothing where the prover fails or the archive has another name; and that wrong arguments are told in one line. Nothing is proved.
set -u
cd "$(dirname "$0")/.." || exit 2
room=$(mktemp -d) || exit 2
trap 'rm -rf "$room"' EXIT
mkdir -p "$room/bin" "$room/top/crates/host_c"
cp build "$room/top"
calls="open predict correct withdraw"
gcc=gcc
[ "$(uname -m)" = x86_64 ] || gcc=x86_64-linux-gnu-gcc

# prover NAME ..: a prover that makes an archive of functions of these names; without names it fails
prover() {
    rm -rf "$room/top/target" "$room/top/crates/host_c/out" "$room/archive.a"
    if [ $# -eq 0 ]; then
        printf '#!/bin/sh\nexit 1\n' >"$room/bin/rt"
    else
        printf 'int %s(void) { return 0; }\n' "$@" | "$gcc" -x c -c -fPIC -o "$room/archive.o" - && ar rcs "$room/archive.a" "$room/archive.o"
        printf '#!/bin/sh\n[ "$*" = lib ] && [ "${PWD##*/}" = host_c ] && mkdir -p out && cp %s out/libhost_c.a\n' "$room/archive.a" >"$room/bin/rt"
    fi
    chmod +x "$room/bin/rt"
}

built() { (cd / && PATH=$room/bin:$PATH "$room/top/build" "$@" >"$room/said" 2>"$room/told"); }

fail() {
    echo "$1; ./build said:"
    cat "$room/said" "$room/told"
    exit 1
}

# leaves_nothing WHAT: the run failed and target/lib has no file
leaves_nothing() {
    built && fail "$1 is not reported"
    [ -z "$(ls -A "$room/top/target/lib" 2>/dev/null)" ] || fail "$1 leaves a file"
}

prover
leaves_nothing "a prover that fails"
prover $(printf 'durungkilat_%s ' $calls) durungkilat_start
leaves_nothing "a fifth call"
prover durungkilat_open durungkilat_predict durungkilat_correct
leaves_nothing "a missing call"
prover $(printf 'durungkilat_%s ' $calls)
for word in now --lib "a b"; do
    built "$word"
    [ $? -eq 2 ] && [ ! -s "$room/said" ] && [ "$(wc -l <"$room/told")" -eq 1 ] || fail "the argument $word is not refused in one line"
done
[ ! -e "$room/top/target" ] || fail "a refused argument makes something"
built || fail "no library is made"
[ "$(echo $(ls -A "$room/top/target/lib"))" = "libdurungkilat.a libdurungkilat.so" ] || fail "other files are made"
for made in libdurungkilat.a libdurungkilat.so; do
    grep -q "target/lib/$made" "$room/said" || fail "the place of $made is not said"
done
echo "./build: two files where all is well, none elsewhere"
