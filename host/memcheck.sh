#!/bin/bash
# Runs the host's tests and the portal frame in C and Fortran under valgrind, which watches every access to memory, on each build of the library that valgrind
# can run. Of the random calls it makes a part.
# It needs valgrind (Debian's package of that name). Its last line is 'memcheck: nothing found', and anything else fails.
set -euo pipefail
cd "$(dirname "$0")/.."
fail() { echo "memcheck: $*" >&2; exit 1; }
for tool in cargo cc gfortran valgrind; do
    command -v $tool > /dev/null || fail "$tool is missing: install it"
done
host/library/build.sh
host/portal_frame/languages.sh
export CARGO_TARGET_DIR=$PWD/target/host
watch='valgrind --quiet --error-exitcode=9 --leak-check=full --show-leak-kinds=definite --errors-for-leak-kinds=definite'
for cpu in $(host/library/supported.sh valgrind --quiet); do
    echo "memcheck: on the build for $cpu"
    export THAMRUNLEK_CPU=$cpu
    for language in c fortran; do
        $watch "$CARGO_TARGET_DIR/languages/in-$language" > /dev/null || fail "the portal frame in $language"
    done
    (
        export CARGO_TARGET_X86_64_UNKNOWN_LINUX_GNU_RUNNER=$watch THAMRUNLEK_EVERY=${THAMRUNLEK_EVERY:-41}
        cd host && cargo test --offline --locked --release --workspace --tests --no-fail-fast
    ) || fail "something was found, see above"
done
echo "memcheck: nothing found"
