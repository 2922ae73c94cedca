#!/bin/bash
# Builds the portal frame in C, Fortran and Rust, runs the three on each build of the library that the machine supports, and compares what they print: values
# and bits. The README's first calls in C and Fortran are built and run too. It needs the library and works offline.
# Its last line is 'languages: the same bits in C, Fortran and Rust', or 'languages: skipped, ..' without the compilers; anything else fails.
set -euo pipefail
cd "$(dirname "$0")/../.."
fail() { echo "languages: $*" >&2; exit 1; }
for compiler in cc gfortran; do
    command -v $compiler > /dev/null || { echo "languages: skipped, $compiler is missing"; exit 0; }
done
export CARGO_TARGET_DIR=$PWD/target/host
(cd host && cargo build --quiet --offline --locked --release -p thamrunlek_blas -p portal_frame --lib --examples) || fail "the host does not build"
release=$CARGO_TARGET_DIR/release sources=host/portal_frame/examples
work=$CARGO_TARGET_DIR/languages
mkdir -p "$work"
in_c() { cc -std=c99 -Wall -Wextra -Werror -Iinclude -o "$2" "$1" target/lib/libthamrunlek.a; }
in_fortran() { gfortran -std=f2008 -Wall -Wextra -Werror -o "$2" "$1" -L"$release" -lthamrunlek_blas -Wl,-rpath,"$release"; }
readme() { awk -v fence='```' -v language="$1" '$0 == fence { on = 0 } on { print } $0 == fence language { on = 1 }' README.md; }

readme c > "$work/first.c" && in_c "$work/first.c" "$work/first-c"
[ "$("$work/first-c")" = '0: 19 43 22 50' ] || fail "the README's call in C gives something else"
readme fortran > "$work/first.f90" && in_fortran "$work/first.f90" "$work/first-fortran"
[ "$("$work/first-fortran")" = '  19.0  43.0  22.0  50.0' ] || fail "the README's call in Fortran gives something else"

in_c $sources/direct.c "$work/in-c"
in_fortran $sources/direct.f90 "$work/in-fortran"
"$release/examples/direct" > "$work/rust.txt"
for cpu in $(host/library/supported.sh); do
    for program in "$release/examples/direct" "$work/in-c" "$work/in-fortran"; do
        THAMRUNLEK_CPU=$cpu "$program" > "$work/other.txt"
        diff "$work/rust.txt" "$work/other.txt" || fail "Rust (<) and $program on the build for $cpu (>) differ"
    done
done
[ "$(wc -l < "$work/rust.txt")" = 36 ] || fail "36 results expected"
echo "languages: the same bits in C, Fortran and Rust"
