#!/bin/bash
# Compares the archive of out/lib with the original crate in one process: tests/library/versus.sh
#
# The variable GIX_REFSPEC_SOURCE names the crate's source, as tools/oracle/README.md has it; else cargo's own copy is taken. Says so
# where there is neither, or where it can't be built.
set -eu -o pipefail
cd "$(dirname "${BASH_SOURCE[0]}")/../.."
source=${GIX_REFSPEC_SOURCE:-$(find "${CARGO_HOME:-$HOME/.cargo}/registry/src" -maxdepth 2 -name gix-refspec-0.45.1 2>/dev/null | head -n 1 || true)}
[ -n "$source" ] || { echo "versus: left out, as there is no source of gix-refspec 0.45.1; name its folder in GIX_REFSPEC_SOURCE"; exit 0; }
command -v cargo >/dev/null || { echo "versus: left out, as there is no cargo"; exit 0; }
made=$(mktemp -d)
trap 'rm -rf "$made"' EXIT
make --no-print-directory lib >/dev/null
export GIX_REFSPEC_FOLDER=$PWD/out
tools/oracle/build.sh "$source" "$made" --stand-ins >"$made/log" 2>&1 \
    || { echo "versus: left out, as the original can't be built:"; cat "$made/log"; exit 0; }
"$made/target/release/versus" --texts 200000 --groups 20000 --seed 1 --jobs "$(nproc)"
