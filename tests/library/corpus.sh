#!/bin/bash
# Replays the stored inputs of tools/fuzz over the archive of out/lib, with gcc's checks where it has them, and by valgrind, which
# also sees what the library reads, where that is installed: tests/library/corpus.sh
set -eu -o pipefail
cd "$(dirname "${BASH_SOURCE[0]}")/../.."
command -v gcc >/dev/null || { echo "corpus: left out, as there is no gcc"; exit 0; }
made=$(mktemp -d)
trap 'rm -rf "$made"' EXIT
make --no-print-directory lib >/dev/null
compile() {
    gcc -std=gnu11 -O1 -g -Wall -Wextra -Werror "$@" -Icrates/gix_refspec_c/include -Wl,--wrap=malloc,--wrap=realloc -o "$made/replay" \
        tools/fuzz/harness.c tools/fuzz/replay.c out/lib/libgix_refspec.a
}
checks=""
tools/fuzz/corpus.py unpack "$made/corpus"
compile
if command -v valgrind >/dev/null; then
    valgrind -q --error-exitcode=9 "$made/replay" "$made"/corpus/*
    checks=" by valgrind"
fi
if compile -fsanitize=address,undefined -fno-sanitize-recover 2>/dev/null; then
    checks="$checks under the sanitizers"
fi
"$made/replay" "$made"/corpus/*
echo "corpus: $(ls "$made/corpus" | wc -l) stored inputs$checks"
