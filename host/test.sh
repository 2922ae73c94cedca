#!/bin/bash
# Tests the host offline, after building the library if it is missing or old: how the library is built and how it chooses; the Rust crates, and the portal
# frame in three languages, on every build that the machine supports; and that all builds give the same results. It writes to target/ and to the folders out/ of the crates only.
# Its last line is 'host: N tests passed', and anything else fails.
set -euo pipefail
cd "$(dirname "$0")/.."
fail() { echo "host: $*" >&2; exit 1; }
command -v cargo > /dev/null || fail "cargo is missing: the host needs a Rust toolchain"
host/library/build.sh
export CARGO_TARGET_DIR=$PWD/target/host RUSTFLAGS="-D warnings"
mkdir -p "$CARGO_TARGET_DIR"
log=$CARGO_TARGET_DIR/test.log
: > "$log"
host/library/test.sh | tee -a "$log" || fail "the library is not built or chosen as it must be"
for cpu in $(host/library/supported.sh); do
    echo "host: on the build for $cpu"
    (cd host && THAMRUNLEK_CPU=$cpu cargo test --offline --locked --release --workspace --no-fail-fast) 2>&1 | tee -a "$log" || fail "tests failed on the build for $cpu"
done
host/compare/builds.sh | tee -a "$log" || fail "the builds differ"
host/portal_frame/languages.sh | tee -a "$log" || fail "the languages differ"
passed=$(awk '/^test result: ok/ { n += $4 } /^library: [0-9]+ tests passed$/ { n += $2 } /^builds: the same/ { n++ } /^languages: the same/ { n++ } END { print n + 0 }' "$log")
echo "host: $passed tests passed"
