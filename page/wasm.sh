#!/usr/bin/env bash
# The program of a crate as a WebAssembly module that any browser runs.
#
#     page/wasm.sh CRATE OUT.wasm [--unproved NATIVE]
#
# The crate is checked and built as `rt ci` builds a program, over the libraries that `rt ci` proved and left in their out/. With
# --unproved `rt try` builds it without its proof, for work on the page, and NATIVE becomes the program of the same module for this
# machine. On the way the compiler puts the program together as one LLVM module. This is kept and compiled once more, for WebAssembly
# with 64-bit memory, linked with host.c and with compiler-rt of Debian's package libclang-rt-dev-wasm64, and lowered to 32-bit memory by
# Binaryen.
set -euo pipefail
here=$(cd "$(dirname "$0")" && pwd)
crate=$(realpath "${1:?the folder of a crate}") out=$(realpath -m "${2:?the module to write}") how=${3:-} native=${4:+$(realpath -m "$4")}
name=$(basename "$crate") kit=${RATTLE_KIT:-$(dirname "$(rt doc)")}
clang=$kit/toolchain/bin/clang
folder=$(mktemp -d)
trap 'rm -rf "$folder"' EXIT

fail() { cat "$folder/log" >&2; echo "wasm.sh: $1" >&2; exit 1; }

# Runs a build in the crate's folder, with a folder of its own for what it writes: a hard link keeps the module when the build removes it.
build() {
    mkdir "$folder/tmp"
    (cd "$crate" && TMPDIR=$folder/tmp "$@" < /dev/null > "$folder/log" 2>&1 || true) &
    local building=$! module
    while kill -0 $building 2> /dev/null; do
        for module in "$folder"/tmp/*/module.bc "$folder"/tmp/*/*/module.bc; do
            [ ! -f "$module" ] || ln -f "$module" "$folder/module.bc" 2> /dev/null || true
        done
        sleep 0.1
    done
    [ -s "$folder/module.bc" ] || fail 'no LLVM module was seen'
}

# The words that name the crate and its libraries, those of the kit and those of the repository, by its line in crates.txt.
words_of_crate() {
    local library folder
    words=(--crate-name "$name" src/main.rt --antt-project "$kit/rattle/logic/antt-project.json" -L "dependency=$kit/rlibs")
    for library in std $(sed -n "s/^$name:\([^#]*\).*/\1/p" "$crate/../../crates.txt"); do
        if [ -d "$kit/rlibs/$library.rlib" ]; then folder=$kit/rlibs; else folder=$crate/../$library/out/rlib; fi
        words+=(--extern "$library=$folder/$library.rlib")
    done
    for folder in "$crate"/../*/out/rlib; do words+=(-L "dependency=$folder"); done
}

if [ "$how" = --unproved ]; then
    build rt try -- help
else
    words_of_crate
    (cd "$crate" && "$kit/bin/rattle" check "${words[@]}" --logic-built "$kit/logic_built" --jobs 2 -o "$folder/checked") > "$folder/log" 2>&1 || fail 'not proved'
    build "$kit/bin/rattle" build "${words[@]}" --crate-checked "$folder/checked" --toolchain "$kit/toolchain" --backend llvm -o "$folder/program.native.o"
    [ -s "$folder/program.native.o" ] || fail 'not built'
    # The line of the verdict.
    grep '^logic=proved ' "$folder/log"
fi

target=(--target=wasm64-unknown-unknown -mbulk-memory -O2)
quiet() { "$@" 2> >(grep -v 'not a recognized processor' >&2); }
quiet "$clang" "${target[@]}" -Wno-override-module -c -x ir "$folder/module.bc" -o "$folder/program.o"
"$clang" "${target[@]}" -nostdlib -ffreestanding -c "$here/host.c" -o "$folder/host.o"
builtins=$(find /usr/lib -path '*/wasi/libclang_rt.builtins-wasm64.a' | sort -V | tail -n 1)
[ -n "$builtins" ] || { echo "wasm.sh: Debian's package libclang-rt-dev-wasm64 is needed" >&2; exit 1; }
# The linker is the one for WebAssembly by its name. `__original_main` is what clang calls `main` without parameters.
ln -s "$kit/toolchain/bin/ld.lld" "$folder/wasm-ld"
"$folder/wasm-ld" -mwasm64 --no-entry --export=__original_main --stack-first -z stack-size=8388608 "$folder/program.o" "$folder/host.o" "$builtins" -o "$folder/wide.wasm"
wasm-opt "$folder/wide.wasm" --enable-memory64 --enable-bulk-memory --enable-sign-ext --enable-mutable-globals --memory64-lowering -O3 -o "$out"

[ -n "$native" ] || exit 0
"$clang" -O2 -Wno-override-module -c -x ir "$folder/module.bc" -o "$folder/native.o"
"$clang" -fuse-ld="$kit/toolchain/bin/ld.lld" "$folder/native.o" "$kit/c/libos_c.a" "$kit/c/liblibc_c.a" -o "$native"
