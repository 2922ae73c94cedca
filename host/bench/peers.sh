#!/bin/bash
# Unpacks the peers that the bench times, netlib's BLAS and OpenBLAS, into target/peers. It installs nothing.
set -euo pipefail
cd "$(dirname "$0")/../.."
peers=target/peers
fail() { echo "peers: $*" >&2; exit 1; }
for tool in apt-get dpkg; do
    command -v $tool > /dev/null || fail "$tool is missing: the peers are Debian packages"
done
mkdir -p $peers/packages
for package in libblas3 libopenblas0-serial; do
    ls $peers/packages/${package}_*.deb > /dev/null 2>&1 || (cd $peers/packages && apt-get download $package) ||
        fail "cannot download $package: it needs the network and, once, 'apt-get update'"
    dpkg -x $peers/packages/${package}_*.deb $peers || fail "cannot unpack $package"
done
find $PWD/$peers/usr -name 'libblas.so.3' -path '*/blas/*' -exec ln -sf {} $peers/netlib.so \;
find $PWD/$peers/usr -name 'libopenblas.so.0' -exec ln -sf {} $peers/openblas.so \;
for library in netlib openblas; do
    [ -e $peers/$library.so ] || fail "the package has no library for $library"
    if ldd $peers/$library.so | grep 'not found' >&2; then
        fail "$library needs the libraries above; install them (libgfortran5 has the Fortran ones)"
    fi
done
echo "peers: netlib and OpenBLAS are in $peers"
