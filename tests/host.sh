#!/usr/bin/env bash
# Builds the library for C and tries it: the header in C and in C++, the archive and the shared object, the lines at the head of
# docs/HOST.md, the example, and the calls against those of the peer, byte for byte, also under valgrind; then that this finds faults.
#   tests/host.sh                  makes the archive by ./build
#   tests/host.sh --archive PATH   takes that one, and tries no shared object
set -u
archive=target/lib/libdurungkilat.a
shared=target/lib/libdurungkilat.so
if [ $# -eq 2 ] && [ "$1" = --archive ]; then
    archive=$(realpath -- "$2")
    shared=
elif [ $# -ne 0 ]; then
    echo "tests/host.sh: no other argument than --archive PATH: $*" >&2
    exit 2
fi
cd "$(dirname "$0")/.." || exit 2
# the archive is for x86-64; on another processor a cross compiler makes the programs, the kit's emulator runs them, and valgrind cannot
gcc=x86_64-linux-gnu-gcc
memory_checker=
[ "$(uname -m)" != x86_64 ] || gcc=gcc memory_checker=valgrind
for tool in "$gcc" gcc g++ $memory_checker python3; do
    command -v "$tool" >/dev/null || { echo "tests/host.sh: there is no $tool on the PATH" >&2; exit 2; }
done
room=$(mktemp -d) || exit 2
trap 'rm -rf "$room"' EXIT
strict="-Wall -Wextra -Wpedantic -Werror -Iinclude"

fail() {
    echo "tests/host.sh: $1"
    exit 1
}

[ -z "$shared" ] || ./build || exit 1

# the header alone, in C and in C++, and that C++ takes the names of C
echo '#include "durungkilat.h"' >"$room/header.c"
for standard in c99 c11 c17; do
    gcc -std=$standard $strict -c -o "$room/header.o" "$room/header.c" || fail "the header is no $standard"
done
cat >"$room/program.cpp" <<END
#include "durungkilat.h"
int main() { return durungkilat_withdraw(nullptr, 0, nullptr, 0) == DURUNGKILAT_NO_IMAGE ? 0 : 1; }
END
for standard in c++11 c++17; do
    g++ -std=$standard $strict -c -o "$room/program.o" "$room/program.cpp" || fail "the header is no $standard"
    nm -u "$room/program.o" | grep -q ' durungkilat_withdraw$' || fail "a call of $standard has another name"
done

# the lines of docs/HOST.md, as they stand there
{
    echo '#include "durungkilat.h"'
    echo 'static void force(const uint8_t *answer, double a[3])'
    echo '{'
    echo '    a[0] = -1e-3 * durungkilat_report(answer, DURUNGKILAT_X);'
    echo '    a[1] = -1e-3 * durungkilat_report(answer, DURUNGKILAT_Y);'
    echo '    a[2] = -1e-3 * durungkilat_report(answer, DURUNGKILAT_Z);'
    echo '}'
    echo 'int main(void)'
    echo '{'
    sed -n '/^```c$/,/^```$/p' docs/HOST.md | sed '/^```$/q' | sed '1d;$d'
    echo '    return number == 0 && durungkilat_word(image, DURUNGKILAT_ACCEPTED_POINTS) == 100 ? 0 : 1;'
    echo '}'
} >"$room/lines.c"
for library in "$archive" $shared; do
    "$gcc" -std=c99 $strict -o "$room/lines" "$room/lines.c" "$library" -Wl,-rpath,"$PWD/target/lib" && programs/run "$room/lines" ||
        fail "the lines of docs/HOST.md step no orbit with $library"
done

examples/run --archive "$archive" && peer/check_host --archive "$archive" || exit 1
[ -z "$memory_checker" ] || peer/check_host --valgrind --archive "$archive" || exit 1
peer/selftest_host
