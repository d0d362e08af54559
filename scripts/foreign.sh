#!/usr/bin/env bash
# Tries libflurry.a from C and from Rust, over what `./flurry-c` leaves. Each fault is told, and the status is then 1. Without `cargo`
# nothing is tried in Rust. Without `cc`, by which cargo links too, nothing is tried at all, and the status is 3. Both are said.
#
#   foreign.sh [--built]   --built proves nothing: without a library of these sources nothing is tried, which is said, and the status is 3
#
# In C: the names in the header; the example of README, also as C++; and, under the address sanitizer, calls of which each request for
# memory is refused in turn, random calls of maps and of sets beside arrays, many pairs and long strings, and room for more than there is
# memory. The sanitizer sees the blocks of the archive and what the archive passes to the C library; its own reads and writes are not
# instrumented. In Rust: the tests of rust/flurry-shards and the examples in its comments.
# (the sourced script has a `room` of its own, in a subshell)
# shellcheck disable=SC2030,SC2031
set -euo pipefail

here=$(CDPATH='' cd -- "$(dirname -- "$(readlink -f -- "${BASH_SOURCE[0]}")")/.." && pwd -P)
cd -- "$here"
room=$(mktemp -d -t flurry-foreign.XXXXXX)
trap 'rm -rf -- "$room"' EXIT
status=0

# fault TEXT
fault() {
    echo "foreign: $1" >&2
    status=1
}

# Whether a library of these sources is there.
is_built() (
    # shellcheck source=scripts/program.sh
    source scripts/program.sh
    is_archive_fresh "$here" foreign flurry_c
)

# The header declares what the archive has, by name.
try_names() {
    if ! diff -u --label flurry.h --label libflurry.a <(grep -oE '\bflurry_[a-z_]+\(' lib/flurry.h | tr -d '(' | sort -u) \
        <(nm -g --defined-only lib/libflurry.a | awk '$2 == "T" && $3 ~ /^flurry_/ { print $3 }' | sort -u) >&2; then
        fault "lib/flurry.h does not declare the functions of lib/libflurry.a"
    fi
}

readme_example() {
    awk '/^```c$/ { inside = 1; next } /^```$/ && inside { exit } inside' README.md
}

# The example of README is the file that is compiled here.
try_example() {
    if ! diff -u --label README.md --label c/first.c <(readme_example) c/first.c >&2; then
        fault "the C example of README is not c/first.c"
    fi
    if ! cc -std=c99 -Wall -Wextra -Wpedantic -Werror -Ilib c/first.c lib/libflurry.a -o "$room/first"; then
        fault "c/first.c does not compile"
    elif [[ $("$room/first") != $'was 41\nis 42, of 1' ]]; then
        fault "c/first.c writes something else"
    fi
    if command -v c++ >/dev/null 2>&1 && ! c++ -std=c++11 -Wall -Wextra -Werror -x c++ -fsyntax-only -Ilib c/first.c; then
        fault "c/first.c does not compile as C++"
    fi
}

# try_test NAME: c/NAME.c under the address sanitizer, with its requests for memory counted.
try_test() {
    local -a words=(-std=c11 -g -O1 -Wall -Wextra -Werror -Ilib '-Wl,--wrap=malloc' '-Wl,--wrap=realloc' '-Wl,--wrap=free')
    if ! cc "${words[@]}" -fsanitize=address,undefined -fno-sanitize-recover "c/$1.c" lib/libflurry.a -o "$room/$1"; then
        fault "c/$1.c does not compile"
    elif ! "$room/$1"; then
        fault "c/$1.c found a fault"
    fi
}

try_rust() {
    if ! command -v cargo >/dev/null 2>&1; then
        echo "foreign: there is no 'cargo', so nothing was tried in Rust" >&2
    elif ! FLURRY_LIB=$here/lib cargo test --quiet --release --offline --manifest-path rust/flurry-shards/Cargo.toml; then
        fault "a test of rust/flurry-shards fails"
    fi
}

if ! command -v cc >/dev/null 2>&1; then
    echo "foreign: there is no 'cc', so nothing was tried in C or in Rust" >&2
    exit 3
fi
if [[ ${1-} == --built ]] && ! is_built; then
    echo "foreign: there is no library of these sources, and none is made without its proofs, by ./flurry-c; so nothing was tried in C or in Rust" >&2
    exit 3
fi
./flurry-c
try_names
try_example
try_test refused
try_test maps
try_test sets
try_test large
try_test limit
try_rust
exit "$status"
