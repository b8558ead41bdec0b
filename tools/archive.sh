#!/bin/bash
# Makes the archive and the shared library of gix_refspec_c from what was built: tools/archive.sh FOLDER SONAME [PROCESSOR]
#
# Into FOLDER go libgix_refspec.a, of one object whose only global names are those of the header, and
# libgix_refspec.so, which programs ask for by SONAME. The calls of malloc, realloc and free are in it under local names: the
# toolchain's, and for aarch64 those of packaging/runtime. The shared library asks for no other: whatever C library has loaded it
# has those six functions. It names the processors that it is for, so that the loader refuses others.
set -eu -o pipefail
here=$(cd "$(dirname "${BASH_SOURCE[0]}")/.." && pwd)
usage="usage: tools/archive.sh FOLDER SONAME [PROCESSOR]"
folder=${1:?$usage} soname=${2:?$usage} processor=${3:-x86_64}
made=$(mktemp -d)
trap 'rm -rf "$made"' EXIT
mkdir -p "$folder" "$made/heap"

if [ "$processor" = x86_64 ]; then
    tools='' built=libgix_refspec_c.a flags=(-Wl,-z,x86-64-v2)
    (cd "$made/heap" && ar x "$(dirname "$(rt doc)")/c/liblibc_c.a")
else
    tools=$processor-linux-gnu- built=libgix_refspec_c.$processor.a flags=()
    "${tools}gcc" -std=gnu11 -O2 -fPIC -c -o "$made/heap/heap.o" "$here/packaging/runtime/heap.c"
fi
(cd "$made" && "${tools}ar" x "$here/crates/gix_refspec_c/out/$built")
"${tools}ld" -r -o "$made/all.o" "$made"/*.o "$made"/heap/*.o
"${tools}objcopy" --localize-symbol=rattle_alloc --localize-symbol=rattle_realloc --localize-symbol=rattle_dealloc \
    "$made/all.o" "$made/gix_refspec.o"
rm -f "$folder/libgix_refspec.a"
"${tools}ar" rcs "$folder/libgix_refspec.a" "$made/gix_refspec.o"
"${tools}gcc" -shared -nostdlib -Wl,-soname,"$soname" "${flags[@]}" -o "$folder/libgix_refspec.so" "$made/gix_refspec.o"
