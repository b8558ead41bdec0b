#!/bin/bash
# Compares packaging/runtime, which stands for the toolchain's C on arm64, with the toolchain's own on x86-64: tests/packages/runtime.sh
set -eu -o pipefail
cd "$(dirname "${BASH_SOURCE[0]}")/../.."
command -v gcc >/dev/null || { echo "runtime: left out, as there is no gcc"; exit 0; }
kit=$(dirname "$(rt doc)")
made=$(mktemp -d)
trap 'rm -rf "$made"' EXIT
(cd "$made" && ar x "$kit/c/liblibc_c.a" heap.pic.o && ar x "$kit/c/libos_c.a" args.pic.o dir.pic.o errno.pic.o)
calls=$(cat packaging/runtime/*.c | sed -n 's/^[a-z].*\brattle_\([a-z_]*\)(.*/\1/p')
ld -r -o "$made/all.o" "$made"/*.pic.o
objcopy $(printf -- '--redefine-sym rattle_%s=kit_%s ' $(for call in $calls; do echo "$call $call"; done)) "$made/all.o" "$made/kit.o"
compile() {
    gcc -std=gnu11 -O2 -Wall -Wextra -Werror -Wl,--wrap=malloc,--wrap=realloc,--wrap=free "$@" -o "$made/compared" \
        tests/packages/runtime.c packaging/runtime/*.c "$made/kit.o"
}
long=$(printf '%04000d' 0)
mkdir -p "$made/at/folder"
: >"$made/at/file"
ln -s folder "$made/at/link"
for words in -O2 -O0 -static; do
    if [ $words = -static ] && ! compile -static 2>/dev/null; then
        echo "runtime: left out a static program, as there is no static C library"
        continue
    fi
    compile $words
    cd "$made/at"
    "$made/compared"
    "$made/compared" '' a $'\xff\n' 'two words' '' "$long"
    cd - >/dev/null
done
echo "runtime: $(wc -w <<<"$calls") calls answer as the toolchain's, also where memory is refused"
