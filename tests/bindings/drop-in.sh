#!/bin/bash
# Tries the crate bindings/rust/gix-refspec over the archive of out/lib: tests/bindings/drop-in.sh
#
# Its interface and examples, and, where the variable GIX_REFSPEC_SOURCE names the original's source, those of the original too, and the
# program of tools/oracle over both. Says what it leaves out where cargo, or crates of Debian's packages, are missing.
set -eu -o pipefail
cd "$(dirname "${BASH_SOURCE[0]}")/../.."
command -v cargo >/dev/null || { echo "drop-in: left out, as there is no cargo"; exit 0; }
[ -n "$(find /usr/share/cargo/registry -maxdepth 1 -name 'bstr-*' 2>/dev/null)" ] \
    || { echo "drop-in: left out, as Debian's librust-bstr-dev isn't there"; exit 0; }
made=$(mktemp -d)
trap 'rm -rf "$made"' EXIT
make --no-print-directory lib >/dev/null
export GIX_REFSPEC_FOLDER=${GIX_REFSPEC_FOLDER:-$PWD/out}

# try SOURCE FOLDER: builds a crate with this interface, and runs the tests.
try() {
    tools/oracle/build.sh "$1" "$2" --stand-ins >"$made/log" 2>&1 || { cat "$made/log"; exit 1; }
    (cd "$2" && cargo test --quiet --offline -p gix-refspec --tests) >"$made/log" 2>&1 || { cat "$made/log"; exit 1; }
}
try bindings/rust/gix-refspec "$made/ours"
echo "drop-in: the tests and examples of the crate gix-refspec over the library"
if [ -z "${GIX_REFSPEC_SOURCE:-}" ]; then
    echo "drop-in: left out is the original; name the folder of its source in GIX_REFSPEC_SOURCE"
    exit 0
fi
try "$GIX_REFSPEC_SOURCE" "$made/original"
echo "drop-in: the same tests and examples with the original"
tools/oracle/compare.py "$made/original/target/release/refspec_rust" "$made/ours/target/release/refspec_rust" \
    --specs 4000 --groups 400 --seed 1 >"$made/log" 2>&1 || { cat "$made/log"; exit 1; }
echo "drop-in: the program of tools/oracle answers alike over both, but for known differences"
