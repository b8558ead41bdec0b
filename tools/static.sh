#!/bin/bash
# Links the programs so that they need no loader and no library: tools/static.sh FOLDER [PROCESSOR]
#
# Into FOLDER go refspec and refspec_map, and into its folder objects what links them again, by `gcc -static -o PROGRAM PROGRAM.o
# runtime.o`. Beside glibc they need the toolchain's C, and for aarch64 that of packaging/runtime.
set -eu -o pipefail
cd "$(dirname "${BASH_SOURCE[0]}")/.."
folder=${1:?usage: tools/static.sh FOLDER [PROCESSOR]} processor=${2:-x86_64}
made=$(mktemp -d)
trap 'rm -rf "$made"' EXIT
mkdir -p "$folder/objects"
if [ "$processor" = x86_64 ]; then
    tools='' ending=o kit=$(dirname "$(rt doc)")
    (cd "$made" && ar x "$kit/c/libos_c.a" args.pic.o dir.pic.o errno.pic.o && ar x "$kit/c/liblibc_c.a" heap.pic.o)
else
    tools=$processor-linux-gnu- ending=$processor.o
    for one in heap process; do
        "${tools}gcc" -std=gnu11 -O2 -c -o "$made/$one.o" "packaging/runtime/$one.c"
    done
fi
"${tools}ld" -r -o "$folder/objects/runtime.o" "$made"/*.o
for program in refspec refspec_map; do
    # A plan takes a third longer where the functions that sort begin within 32 bytes, as they would here by their own alignment.
    "${tools}objcopy" --set-section-alignment '.text.*=64' "crates/$program/out/$program.$ending" "$folder/objects/$program.o"
    "${tools}gcc" -static -o "$folder/$program" "$folder/objects/$program.o" "$folder/objects/runtime.o"
    "${tools}strip" "$folder/$program"
done
