#!/bin/bash
# Gives the cases of conformance/ to the programs, to the library for C, to Python, and to other implementations that are here:
# tests/library/conformance.sh REFSPEC_MAP REFSPEC
#
# First it checks the tables: that they are well-formed, that the reference answers as they say, that each case is needed, and that Git
# still answers so, where that is cheap to ask. What is ours has to answer as the tables say. libgit2 and dulwich are of
# Debian's packages libgit2-dev and python3-dulwich; the Rust crate is built if the variable GIX_REFSPEC_SOURCE names its source. Says
# what it leaves out.
set -eu -o pipefail
cd "$(dirname "${BASH_SOURCE[0]}")/../.."
usage="usage: tests/library/conformance.sh REFSPEC_MAP REFSPEC"
program=$(realpath "${1:?$usage}")
refspec=$(realpath "${2:?$usage}")
made=$(mktemp -d)
trap 'rm -rf "$made"' EXIT

# run NAME WORDS..: prints the sum alone, or what differs.
run() {
    local name=$1
    shift
    conformance/run --quiet "$@" >"$made/log" || { echo "conformance: $name:"; cat "$made/log"; exit 1; }
    echo "conformance: $name: $(tail -n 1 "$made/log" | sed 's/^conformance: //')"
}

left_out() { echo "conformance: left out is $1"; }

tools/conformance/check.py
tools/conformance/borders.py >"$made/log" || { cat "$made/log"; exit 1; }

# What accepts every text has to be noticed.
printf '#!/bin/sh\nwhile read -r text; do echo "ok $text"; done\n' >"$made/credulous"
chmod +x "$made/credulous"
if conformance/run --quiet --only validity "$made/credulous" >"$made/log"; then
    echo "conformance: a program that accepts every text passes"
    exit 1
fi

run refspec_map --strict "$program"
run refspec --strict --json conformance/drivers/refspec.py "$refspec"

if command -v gcc >/dev/null; then
    make --no-print-directory lib >/dev/null
    gcc -std=gnu11 -O1 -Wall -Wextra -Werror -Icrates/gix_refspec_c/include -o "$made/c" conformance/drivers/c.c out/lib/libgix_refspec.a
    run "the library for C" --strict "$made/c"
    GIX_REFSPEC_LIBRARY=$(realpath out/lib/libgix_refspec.so) PYTHONPATH=bindings/python \
        run Python --strict --json conformance/drivers/python.py
else
    left_out "the library for C, as there is no gcc"
fi

if gcc -std=gnu11 -O1 -Wall -Wextra -Werror -o "$made/libgit2" conformance/drivers/libgit2.c -lgit2 2>/dev/null; then
    run libgit2 --known conformance/known/libgit2.tsv --only validity --only names --only forward --only backward "$made/libgit2"
else
    left_out "libgit2, as there is no libgit2-dev"
fi
if /usr/bin/python3 -c "import dulwich" 2>/dev/null; then
    run dulwich --known conformance/known/dulwich.tsv --json /usr/bin/python3 conformance/drivers/dulwich.py
else
    left_out "dulwich, as there is no python3-dulwich"
fi
if [ -n "${GIX_REFSPEC_SOURCE:-}" ] && command -v cargo >/dev/null \
    && tools/oracle/build.sh "$GIX_REFSPEC_SOURCE" "$made/original" --stand-ins >/dev/null 2>&1; then
    run "the Rust crate" --known conformance/known/original.tsv "$made/original/target/release/refspec_rust"
else
    left_out "the Rust crate, whose source GIX_REFSPEC_SOURCE names"
fi
