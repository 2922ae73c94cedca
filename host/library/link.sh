#!/bin/bash
# link.sh IN OUT: makes the library, OUT/libthamrunlek.a and OUT/libthamrunlek.so. IN has libexports.a, the archive of the proved module, and, as build.sh keeps
# them, the module itself (module.bc), the compiler (clang) and the words that it was called with (words).
#
# The compiler compiles the module with these words for x86-64, x86-64-v3 and x86-64-v4, with two things changed, neither of which decides what is computed: its
# buffers start at a cache line, and it is said which functions are inlined. Without these changes, what it makes for x86-64 must be the archive's object, byte
# for byte. A build counts if its product of packed blocks multiplies in registers as wide as its processors have and it has no fused multiply-add, which rounds
# once where the definitions round twice. Its functions get names of their own, and a section of it has the module's digest; the digests are compared in the
# finished library. The names that the archive exports are those of the library: choice.c makes a jump of each.
set -euo pipefail
here=$(cd "$(dirname "$0")" && pwd)
in=$(cd "$1" && pwd) out=$(cd "$2" && pwd)
fail() { echo "library: $*" >&2; exit 1; }
rm -rf "$in/builds"
mkdir "$in/builds"
cd "$in/builds"
[ "$(ar t "$in/libexports.a" | wc -l)" = 1 ] || fail "libexports.a has several objects, and link.sh knows of one"
ar p "$in/libexports.a" > archive.o
names=$(nm -g --defined-only --format=posix archive.o | awk '$2 == "T" { print $1 }')
[ -n "$names" ] || fail "libexports.a exports no function"

declare -A level=([x86-64]=1 [x86-64-v3]=3 [x86-64-v4]=4) registers=([x86-64]=xmm [x86-64-v3]=ymm [x86-64-v4]=zmm)
builds='' members=()
# Makes a member of the library of an object: add CPU OBJECT WORDS-FOR-OBJCOPY..
add() {
    local suffix=_${1//-/_} name
    for name in $names; do echo "$name $name$suffix"; done > names
    objcopy --redefine-syms=names "${@:3}" "$2" $1.o
    builds+=" B(\"$1\", ${level[$1]}, $suffix)" members+=($1.o)
}
# Compiles a module: compile CPU MODULE OBJECT WORDS.. Wide builds get words for speed. Gathered loads and stores, and vectors of more than two elements that are
# put together one by one, are slow in tiny products. Loops are short beside a vector: how far they are unrolled was tried out, and their rest goes four by four.
declare -A unrolled=([x86-64-v3]=1 [x86-64-v4]=2)
compile() {
    local word words=(-ffp-contract=off "${@:4}")
    [ $1 = x86-64 ] || words+=(-mno-gather -mno-scatter -mllvm -slp-max-reg-size=128)
    [ $1 = x86-64 ] || words+=(-mllvm -force-vector-interleave=${unrolled[$1]} -mllvm -epilogue-vectorization-force-VF=4)
    while IFS= read -r word; do
        case $word in
        -march=x86-64) word=-march=$1 ;;
        *.bc) word=$2 ;;
        *.o) word=$3 ;;
        esac
        words+=("$word")
    done < "$in/words"
    "$in/clang" "${words[@]}" || fail "the module does not compile for $1"
}
# Inlined are the crates, modules and functions on the way from a call to the loops, so that each call has a check and a way of its own. Not inlined are functions
# that have buffers, so that a tiny call has none of them in its frame. The others are left to the compiler.
inlined='definitions packing::factor::turn_of packing::mirror packing::pack::transposed arguments start forms direct kernel walks triangles lines elements gemm
    rank_update::syrk_strip rank_update::syr2k_strip trmm_diagonal trmm trsm_diagonal trsm strips blas many records'
once() { [ "$(grep -cxe "$1" "$in/words")" = 1 ]; }
if [ -f "$in/words" ] && once -march=x86-64 && once '.*\.bc' && once '.*\.o'; then
    "$in/clang" -x ir -S -emit-llvm -O0 -Xclang -disable-llvm-passes "$in/module.bc" -o module.ll
    awk -v inlined="$(echo $inlined)" '
        function listed(name) { for (i in part) if (index(name "::", part[i] "::") == 1) return 1 }
        BEGIN { split(inlined, part, " ") }
        /^define / { name = $0 }
        # A local array of 500 bytes or more is a buffer.
        { buffer = /alloca \[([5-9][0-9][0-9]|[0-9][0-9][0-9][0-9]+) x i8\], align 8$/ }
        NR == FNR { if (buffer) apart[name]; next }
        buffer { sub(/8$/, "64") }
        /^define internal / {
            split($0, quoted, "\"")
            if ($0 in apart) sub(/ #[0-9]+ \{$/, " noinline&")
            else if (listed(quoted[2])) sub(/ #[0-9]+ \{$/, " alwaysinline&")
        }
        { print }' module.ll module.ll > prepared.ll
    for word in 'align 64' noinline alwaysinline; do
        grep -q " $word" prepared.ll || echo "library: link.sh finds nothing in the module for '$word'; the library is right, and may be slow"
    done
    # Loops start at multiples of 32 bytes and no branch crosses one, which some processors are slow at, so that it matters less where code stands.
    for cpu in x86-64 x86-64-v3 x86-64-v4; do
        compile $cpu "$PWD/prepared.ll" compiled-$cpu.o -falign-loops=32 -mbranches-within-32B-boundaries
        objdump -d --no-show-raw-insn compiled-$cpu.o > $cpu.txt
        sed -n '/<blocks::block::block>:$/,/^$/p' $cpu.txt > loops.txt
        grep -q "mulpd .*%${registers[$cpu]}" loops.txt || fail "the build for $cpu does not multiply in ${registers[$cpu]} registers"
        ! grep -m 3 -E 'vfn?m(add|sub)' $cpu.txt >&2 || fail "the build for $cpu has fused operations, see above"
        sha256sum < "$in/module.bc" | cut -d ' ' -f 1 > digest
        add $cpu compiled-$cpu.o --add-section .thamrunlek.module=digest
    done
    compile x86-64 "$in/module.bc" compiled.o
    cmp archive.o compiled.o || fail "the module that was kept is not the archive's"
else
    echo "library: the toolchain hands over its module in a way that link.sh does not know; there is one build, for x86-64, that of rt lib"
    add x86-64 archive.o
fi

functions=$(for name in $names; do echo -n " F($name, build)"; done)
cc -std=gnu11 -O2 -fPIC -Wall -Wextra -Werror -I"$here/../../include" -D"BUILDS(B)=$builds" -D"FUNCTIONS(F, build)=$functions" -c "$here/choice.c"
ar rcs libthamrunlek.a choice.o "${members[@]}"
cc -shared -o libthamrunlek.so -Wl,-soname,libthamrunlek.so,-z,now,-z,defs -Wl,--whole-archive libthamrunlek.a -Wl,--no-whole-archive
[ "$(nm -D --defined-only --format=just-symbols libthamrunlek.so | sort)" = "$(printf '%s\n' $names tl_cpu | sort)" ] ||
    fail "libthamrunlek.so exports other names than libexports.a and tl_cpu"
if [ ${#members[@]} -gt 1 ]; then
    for member in "${members[@]}"; do
        ar p libthamrunlek.a $member > member.o
        objcopy --dump-section .thamrunlek.module=/dev/stdout member.o /dev/null
    done | sort -u > digests
    [ "$(wc -l < digests)" = 1 ] || fail "the builds are not of one module"
    echo "library: built for ${members[*]%.o} from one module, sha256 $(cat digests)"
fi
cp libthamrunlek.a libthamrunlek.so "$out"
