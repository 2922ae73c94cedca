#!/bin/bash
# Builds the library that C, Rust and the drop-in library link: target/lib/libthamrunlek.a, and the same as libthamrunlek.so. Every crate that it needs is
# proved, with a line for each; `rt lib` makes an archive of the proved module; link.sh makes the library. If nothing is newer than the library, nothing is
# done.
#
# The toolchain hands the proved module to its compiler as LLVM bitcode. To keep a copy, `rt lib` runs from a kit of links to the real one, in which
# `clang` copies the module, and the words that come with it, and goes on to the real compiler. A toolchain that does it in another way is no fault: link.sh says
# so, and the library is the archive's build alone.
# It writes to target/ and to the folders out/ of the crates only; target/library/log has what the tools say.
set -euo pipefail
cd "$(dirname "$0")/../.."
work=$PWD/target/library lib=$PWD/target/lib log=$PWD/target/library/log
fail() { echo "library: $*" >&2; exit 1; }
for tool in rt cc objcopy; do
    command -v $tool > /dev/null || fail "$tool is missing: it needs the Rattle toolchain and a C compiler with its binary utilities"
done
newer() { find crates.txt crates include host/library -name out -prune -o -newer "$lib/libthamrunlek.so" -print -quit; }
[ ! -f "$lib/libthamrunlek.so" ] || [ -n "$(newer)" ] || exit 0
rm -rf "$work" "$lib"
mkdir -p "$work" "$lib"

# The crates that exports uses, lowest first, and then exports itself.
crates=$(sed -n 's/^exports staticlib://p' crates.txt)
count=$(($(wc -w <<< "$crates") + 1)) made=0
# Proves a crate and builds it: proved CRATE RT
proved() {
    local began=$SECONDS
    (cd "crates/$1" && "$2" lib) >> "$log" 2>&1 || return 1
    printf 'library: %2d of %d: %s proved (%d s)\n' $((++made)) $count "$1" $((SECONDS - began))
}
for crate in $crates; do
    proved $crate rt || fail "$crate is not proved; $log says what is missing"
done

real=$(dirname "$(rt doc)") kit=$work/kit
mkdir -p "$kit"/{bin,toolchain/bin}
cp "$real"/bin/{rt,rtlib.py} "$kit/bin"
cat > "$kit/toolchain/bin/clang" << END
#!/bin/sh
for word; do
    case \$word in *.bc) cp "\$word" "$work/module.bc" && printf '%s\n' "\$@" > "$work/words" ;; esac
done
exec "$work/clang" "\$@"
END
chmod +x "$kit/toolchain/bin/clang"
ln -s "$real/toolchain/bin/clang" "$work/clang"
# Links to all else that the kit has.
for folder in . bin toolchain toolchain/bin; do
    for item in "$real/$folder"/*; do
        [ -e "$kit/$folder/$(basename "$item")" ] || ln -s "$item" "$kit/$folder"
    done
done
proved exports "$kit/bin/rt" || proved exports rt || fail "exports is not proved; $log says what is missing"
cp crates/exports/out/libexports.a "$work"
host/library/link.sh "$work" "$lib"
