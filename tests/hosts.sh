#!/bin/sh
# tests/hosts.sh: compiles the hosts in C against include/curlewstand.h, and the header as C++, links them with
# target/staticlib/libcurlewstand.a and runs them. A library of another interface must not link.
set -eu
cd "$(dirname "$0")/.."
archive=target/staticlib/libcurlewstand.a
made=$(mktemp -d)
trap 'rm -rf "$made"' EXIT

fail() {
    echo "hosts.sh: $*" >&2
    exit 1
}

compile() { # SOURCE ARCHIVE PROGRAM
    gcc -std=c11 -Wall -Wextra -Werror -Iinclude "$1" "$2" -lm -o "$made/$3"
}

# the calls by themselves, for which a host needs no other library
gcc -std=c11 -Wall -Wextra -Werror -Iinclude tests/session.c "$archive" -o "$made/session" \
    || fail "tests/session.c does not compile against the header"
"$made/session" || fail "tests/session.c found a fault"

for source in tests/session_struct.c tests/two_effects.c tests/fit.c examples/host.c; do
    compile "$source" "$archive" "$(basename "$source" .c)" || fail "$source does not compile against the header"
done
"$made/session_struct" || fail "tests/session_struct.c found a fault"
"$made/two_effects" || fail "tests/two_effects.c found a fault"
"$made/fit" examples/cohort.bin examples/cohort.out || fail "tests/fit.c found a fault"
"$made/host" >"$made/host.out" || fail "examples/host.c did not end well"
cmp "$made/host.out" examples/host.out || fail "examples/host.c does not print what examples/host.out has"

if command -v g++ >/dev/null; then
    echo '#include <curlewstand.h>
    int main() { return curlewstand_interface_2() == CURLEWSTAND_INTERFACE ? 0 : 1; }' >"$made/header.cpp"
    g++ -Wall -Wextra -Werror -Iinclude "$made/header.cpp" "$archive" -o "$made/header" || fail "the header is no C++"
    "$made/header" || fail "the library is not of the header's interface"
else
    echo "hosts.sh: there is no g++: the header as C++ is left out"
fi

# the same functions under another interface's name: the linker names the one that is missing, also where it
# drops what nothing uses
objcopy --redefine-sym curlewstand_interface_2=curlewstand_interface_1 "$archive" "$made/other.a"
for source in examples/host.c '-ffunction-sections -fdata-sections -O2 -Wl,--gc-sections examples/host.c'; do
    # shellcheck disable=SC2086
    if gcc -Iinclude $source "$made/other.a" -o "$made/other" 2>"$made/said"; then
        fail "a library of another interface was linked ($source)"
    fi
    grep -q curlewstand_interface_2 "$made/said" || fail "the linker does not name the interface: $(cat "$made/said")"
done
