#!/bin/bash
# Tests how the library is built and how it chooses: link.sh refuses builds that are not what they must be, makes do with the archive where there is no module,
# and the choice is the widest that the machine supports, or the one that the environment names. It needs the library and what build.sh keeps.
# Its last line is 'library: N tests passed', and anything else fails.
set -euo pipefail
cd "$(dirname "$0")/../.."
work=$PWD/target/library spoiled=$PWD/target/library/spoiled passed=0
fail() { echo "library: $*" >&2; exit 1; }

# A copy of what build.sh keeps, to spoil, and what link.sh says of it.
copy() { rm -rf "$spoiled" && mkdir -p "$spoiled/out" && cp -P "$work"/{libexports.a,module.bc,words,clang} "$spoiled"; }
linked() { host/library/link.sh "$spoiled" "$spoiled/out" 2>&1; }
refused() {
    ! said=$(linked) || fail "not refused: it should be found that $1"
    grep -q "$1" <<< "$said" || fail "refused for another reason than that $1: $said"
    passed=$((passed + 1))
}
# What a program says that is linked with a library: says LIBRARY VALUE-OF-THAMRUNLEK_CPU TEXT, without a variable if the value is empty.
says() {
    cc -Iinclude -o "$work/cpu" host/library/cpu.c "$1"
    local said
    said=$(if [ -n "$2" ]; then export THAMRUNLEK_CPU=$2; else unset THAMRUNLEK_CPU; fi; "$work/cpu" 2>&1)
    [ "$said" = "$3" ] || fail "with THAMRUNLEK_CPU '$2' a program says: $said"
    passed=$((passed + 1))
}

# A module whose product of packed blocks has a multiplication, and a fused one.
fused='target triple = "x86_64-unknown-linux-gnu"
declare <4 x double> @llvm.fma.v4f64(<4 x double>, <4 x double>, <4 x double>)
define <4 x double> @"blocks::block::block"(<4 x double> %x, <4 x double> %y) {
    %square = fmul <4 x double> %x, %x
    %sum = call <4 x double> @llvm.fma.v4f64(<4 x double> %square, <4 x double> %x, <4 x double> %y)
    ret <4 x double> %sum
}'

mapfile -t builds < <(host/library/supported.sh)
widest=${builds[-1]} library=target/lib/libthamrunlek.a
says $library '' "$widest"
for cpu in "${builds[@]}"; do
    says $library "$cpu" "$cpu"
done
says $library x86-64-v5 "thamrunlek: THAMRUNLEK_CPU is \"x86-64-v5\", which this library has no build for; $widest is taken
$widest"

if [ -f "$work/module.bc" ]; then
    module=$work/builds/module.ll prepared=$work/builds/prepared.ll
    grep -q 'x i8\], align 64$' "$prepared" || fail "no buffer of the library starts at a cache line"
    grep -q '@"arguments::check".* alwaysinline #' "$prepared" || fail "the argument check is not inlined"
    grep -q '@"kernel::panels::buffered::<=4096>".* noinline #' "$prepared" || fail "a function with buffers may be inlined"
    sed -E 's/ (no|always)inline( #[0-9]+ \{)$/\2/; s/(x i8\]), align 64$/\1, align 8/' "$prepared" | cmp -s - "$module" || fail "more of the module is changed than its marks"
    passed=$((passed + 4))
    copy; echo "$fused" > "$spoiled/module.bc"; refused 'has fused operations'
    copy; printf '%s\n' -fno-vectorize -fno-slp-vectorize >> "$spoiled/words"; refused 'does not multiply in xmm registers'
    copy; printf '%s\n' -mllvm -vectorize-loops=false >> "$spoiled/words"; refused 'does not multiply in xmm registers'
    copy; printf '%s\n' -mllvm -force-vector-width=2 >> "$spoiled/words"; refused 'does not multiply in ymm registers'
    copy; (cd "$spoiled"; ar x libexports.a; objcopy -R .comment exports.o; ar rcs libexports.a exports.o); refused "is not the archive's"
    copy; sed -i 's/^-march=x86-64$/-march=native/' "$spoiled/words"
    linked | grep -q 'there is one build, for x86-64' || fail "link.sh does not make do with the archive"
    says "$spoiled/out/libthamrunlek.a" '' x86-64
    says "$spoiled/out/libthamrunlek.a" x86-64-v3 'thamrunlek: THAMRUNLEK_CPU is "x86-64-v3", which this library has no build for; x86-64 is taken
x86-64'
fi
echo "library: $passed tests passed"
