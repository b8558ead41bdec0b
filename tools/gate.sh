#!/bin/bash
# Runs rt ci, makes the library for C of what that has proved, and runs the scripts of tests/ over what is built; beside all that
# the edits and the changed definitions are tried: tools/gate.sh LOGS SONAME PROGRAM TESTS REFSPEC
#
# rt ci goes by its own estimate of memory, and the edits take what it leaves free.
set -eu -o pipefail
cd "$(dirname "${BASH_SOURCE[0]}")/.."
usage='usage: tools/gate.sh LOGS SONAME PROGRAM TESTS REFSPEC'
logs=${1:?$usage}
soname=${2:?$usage}
mkdir -p "$logs"

# Begun once rt ci has the libraries below it.
library() {
    until grep -qE '^rt: gix_refspec_c (proved|is kept)' "$logs/gate.log"; do
        kill -0 "$1" 2>/dev/null || return
        sleep 5
    done
    tools/build.py gix_refspec_c x86_64
    tools/archive.sh "$logs/lib" "$soname"
    ! command -v aarch64-linux-gnu-gcc >/dev/null || make --no-print-directory "$logs/aarch64/lib/libgix_refspec.a"
}

: >"$logs/gate.log"
rt ci 2>&1 </dev/null | tee "$logs/gate.log" &
proofs=$!
library "$proofs" >"$logs/lib.log" 2>&1 </dev/null &
library=$!
nice tools/edits.py --after "$logs/gate.log" >"$logs/edits.log" 2>&1 </dev/null &
edits=$!
nice -n 15 tools/definitions.py --after "$logs/gate.log" >"$logs/definitions.log" 2>&1 </dev/null &
definitions=$!
trap 'kill "$edits" "$definitions" 2>/dev/null || true' EXIT
wait "$proofs"
wait "$library" || { cat "$logs/lib.log" >&2; exit 1; }
make --no-print-directory build
tests/run.sh "${@:3}"
wait "$edits" || { cat "$logs/edits.log" >&2; exit 1; }
cat "$logs/edits.log"
wait "$definitions" || { cat "$logs/definitions.log" >&2; exit 1; }
cat "$logs/definitions.log"
