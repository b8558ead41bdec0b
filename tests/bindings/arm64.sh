#!/bin/bash
# Tries the library, and the programs if they are there, on arm64 under qemu: tests/bindings/arm64.sh FOLDER
#
# FOLDER is where they were installed for arm64. Beside the C they are tried from Python and Rust, with what
# tools/arm64-root.sh has unpacked. Says what it leaves out.
set -eu -o pipefail
cd "$(dirname "${BASH_SOURCE[0]}")/../.."
folder=$(cd "${1:?usage: tests/bindings/arm64.sh FOLDER}" && pwd)
root=${XDG_CACHE_HOME:-~/.cache}/gix_refspec/debian-arm64
made=$(mktemp -d)
trap 'rm -rf "$made"' EXIT
say() { echo "arm64: $*"; }
fail() { say "$*" >&2; exit 1; }
for tool in qemu-aarch64 aarch64-linux-gnu-gcc gcc; do
    command -v $tool >/dev/null || { say "left out, as there is no $tool"; exit 0; }
done
libraries=/usr/aarch64-linux-gnu
library=$folder/lib/libgix_refspec.so

# emulated NAME PROGRAM: makes a program NAME of this processor, that runs the one of arm64.
emulated() {
    printf '#!/bin/sh\nexec qemu-aarch64 -L %q -E LD_LIBRARY_PATH=%q -0 "%s" %q "$@"\n' "$libraries" "$folder/lib" "${1##*/}" "$2" >"$1"
    chmod +x "$1"
}

# ---- C

build() {
    aarch64-linux-gnu-gcc -std=gnu11 -O1 -Wall -Wextra -Werror -I"$folder/include" -o "$made/$1.arm64" "${@:2}"
    emulated "$made/$1" "$made/$1.arm64"
}
build calls -Wl,--wrap=malloc,--wrap=realloc tests/bindings/bindings.c "$folder/lib/libgix_refspec.a" -pthread
"$made/calls"
python3 tests/bindings/prototypes.py --replay "$made/calls" | sed 's/^bindings/arm64/'
for sample in linter planner; do
    build $sample-static bindings/c/examples/$sample.c "$folder/lib/libgix_refspec.a" -static
    build $sample-shared bindings/c/examples/$sample.c -L"$folder/lib" -lgix_refspec
    gcc -O1 -I"$folder/include" -o "$made/$sample" bindings/c/examples/$sample.c out/lib/libgix_refspec.a
done
GIX_REFSPEC_LIBRARY=$PWD/out/lib/libgix_refspec.so PYTHONPATH=bindings/python python3 -B tests/bindings/examples.py \
    "$made"/linter{,-static,-shared} -- "$made"/planner{,-static,-shared} | sed 's/^bindings/arm64/'
say "the calls as stated, and the examples in C as on x86-64, by the static and by the shared library"

# ---- Python

if [ ! -x "$root/usr/bin/python3.11" ]; then
    say "left out Python, as tools/arm64-root.sh has unpacked none"
else
    PYTHONHOME=$root/usr PYTHONPATH=bindings/python GIX_REFSPEC_LIBRARY=$library qemu-aarch64 -L "$root" "$root/usr/bin/python3.11" -B \
        -m unittest discover -q -s bindings/python/tests >"$made/out" 2>&1 || fail "the tests in Python: $(cat "$made/out")"
    say "the tests in Python"
fi

# ---- Rust: by rustup, if it has the target, and else by Debian's, with the standard library in $root

target=aarch64-unknown-linux-gnu
if command -v cargo >/dev/null && [ -d "$(rustc --print target-libdir --target $target 2>/dev/null)" ]; then
    rust=(env)
elif [ -x /usr/bin/cargo ] && compgen -G "$root/usr/lib/rustlib/$target/lib/libstd-*.rlib" >/dev/null; then
    rust=(env RUSTC=/usr/bin/rustc RUSTDOC=/bin/false RUSTFLAGS="--sysroot $root/usr" PATH="/usr/bin:$PATH")
else
    rust=()
fi
if [ ${#rust[@]} = 0 ]; then
    say "left out Rust, as it has no standard library for arm64 here"
else
    upper=CARGO_TARGET_AARCH64_UNKNOWN_LINUX_GNU
    "${rust[@]}" GIX_REFSPEC_FOLDER="$folder" ${upper}_LINKER=aarch64-linux-gnu-gcc ${upper}_RUNNER="qemu-aarch64 -L $libraries" \
        cargo test --quiet --offline --tests --target $target --manifest-path bindings/rust/Cargo.toml --target-dir "$made/target" \
        >"$made/out" 2>&1 || fail "the tests in Rust: $(cat "$made/out")"
    say "the tests of the crates in Rust"
fi

# ---- the programs

if [ ! -x "$folder/bin/refspec" ]; then
    say "left out the programs, as only the library is built for arm64"
    exit 0
fi
mkdir "$made/bin"
for program in refspec refspec_map; do
    emulated "$made/bin/$program" "$folder/bin/$program"
done
tests/refspec_map/replay.py "$made/bin/refspec_map" | sed 's/^replay/arm64/'
tests/refspec/replay.py "$made/bin/refspec" | sed 's/^replay-refspec/arm64/'
tests/refspec/git_refspec.py --stored "$made/bin/refspec" | sed 's/^git-refspec/arm64/'
