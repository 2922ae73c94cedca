#!/bin/bash
# Runs netlib's own test programs of the Level 3 BLAS on the drop-in library, on each build that the machine supports and at several strip widths and block
# sizes: xblat3d for the Fortran interface and xdcblat3 for the C interface, each with the input that comes with it and with sizes to 65. They end with status 0 even when a routine fails, so what counts
# is the number of their PASSED lines. A routine that does nothing is put in the place of each of ours in turn, to see that it fails.
# It unpacks the programs (Debian's libblas-test) into target/testers and installs nothing. Its last line is 'netlib: all passed', and anything else fails.
set -euo pipefail
cd "$(dirname "$0")/../.."
work=$PWD/target/testers
fail() { echo "netlib: $*" >&2; exit 1; }

for tool in apt-get dpkg cargo cc; do
    command -v $tool > /dev/null || fail "$tool is missing"
done
mkdir -p "$work/packages" "$work/lib"
ls "$work"/packages/libblas-test_*.deb > /dev/null 2>&1 || (cd "$work/packages" && apt-get download libblas-test) ||
    fail "cannot download libblas-test: it needs the network and, once, 'apt-get update'"
dpkg -x "$work"/packages/libblas-test_*.deb "$work" || fail "cannot unpack libblas-test"
programs=$(dirname "$(find "$work/usr" -name xblat3d)")

host/library/build.sh
export CARGO_TARGET_DIR=$PWD/target/host
(cd host && cargo build --quiet --offline --locked --release -p thamrunlek_blas) || fail "the drop-in library does not build"
ln -sf "$CARGO_TARGET_DIR/release/libthamrunlek_blas.so" "$work/lib/libblas.so.3"
export LD_LIBRARY_PATH=$work/lib
if ldd "$programs/xblat3d" | grep 'not found' >&2; then
    fail "the test programs need the libraries above; install them (libgfortran5 has the Fortran ones)"
fi

# The input of each program, as it comes and with other sizes, and the lines that it prints if all six routines pass.
declare -A input=([xblat3d]=dblat3.in [xdcblat3]=din3) expected=([xblat3d]=12 [xdcblat3]=18)
for program in xblat3d xdcblat3; do
    sed -e 's/^[0-9]* *NUMBER OF VALUES OF N$/3/' -e 's/^[0-9 ]* VALUES OF N$/0 7 65/' "$programs/${input[$program]}" > "$work/${input[$program]}"
done

# Runs a program and counts its PASSED lines: passed PROGRAM FOLDER-OF-INPUT VARIABLE=VALUE..
passed() {
    rm -f "$work/dblat3.out"
    (cd "$work" && env "${@:3}" "$programs/$1" < "$2/${input[$1]}" > log 2>&1) || fail "$1 broke off: $(tail -n 3 "$work/log")"
    cat "$work"/{log,dblat3.out} 2> /dev/null | grep -c ' PASSED THE ' || true
}

for cpu in $(host/library/supported.sh); do
    for blocks in '0 0' '3 2' '1 1'; do
        read -r w r <<< "$blocks"
        for program in xblat3d xdcblat3; do
            for folder in "$programs" "$work"; do
                count=$(passed $program "$folder" THAMRUNLEK_CPU=$cpu THAMRUNLEK_W=$w THAMRUNLEK_R=$r)
                echo "$cpu: $program, w = $w, r = $r, sizes to $([ "$folder" = "$work" ] && echo 65 || echo 9): $count of ${expected[$program]} passed"
                [ "$count" = ${expected[$program]} ] || fail "$(cat "$work"/{log,dblat3.out} 2> /dev/null)"
            done
        done
    done
done

for routine in gemm symm syrk syr2k trmm trsm; do
    for place in "xblat3d d${routine}_" "xdcblat3 cblas_d$routine"; do
        read -r program name <<< "$place"
        echo "void $name(void) {}" | cc -shared -fPIC -x c -o "$work/broken.so" -
        count=$(passed $program "$programs" LD_PRELOAD="$work/broken.so")
        [ "$count" = $((expected[$program] * 5 / 6)) ] || fail "$program with a $name that does nothing: $count of ${expected[$program]} passed"
    done
done
echo "each routine in turn replaced by one that does nothing: its tests fail, and no other's"
echo "netlib: all passed"
