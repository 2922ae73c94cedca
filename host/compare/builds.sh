#!/bin/bash
# Makes all calls and sheets of the comparison with each build of the library that the machine supports, and compares the digests of the results.
# Its last line is 'builds: the same results ..', and anything else fails.
set -euo pipefail
cd "$(dirname "$0")/../.."
fail() { echo "builds: $*" >&2; exit 1; }
export CARGO_TARGET_DIR=$PWD/target/host
(cd host && cargo build --quiet --offline --locked --release -p compare) || fail "the comparison does not build"
results=()
for cpu in $(host/library/supported.sh); do
    line=$(THAMRUNLEK_CPU=$cpu "$CARGO_TARGET_DIR/release/digest")
    [ "${line%%:*}" = "$cpu" ] || fail "asked for $cpu, the library says $line"
    echo "$line"
    results+=("${line#*: }")
    [ "${line#*: }" = "${results[0]}" ] || fail "the results for $cpu differ"
done
echo "builds: the same results in ${#results[@]}"
