#!/bin/bash
# Prints the builds of the library that this machine supports, the narrowest first. supported.sh COMMAND.. asks under a command, as under valgrind.
set -euo pipefail
cd "$(dirname "$0")/../.."
cc -Iinclude -o target/library/cpu host/library/cpu.c target/lib/libthamrunlek.a
for cpu in x86-64 x86-64-v3 x86-64-v4; do
    [ "$(THAMRUNLEK_CPU=$cpu "$@" target/library/cpu 2> /dev/null)" != $cpu ] || echo $cpu
done
