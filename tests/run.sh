#!/bin/bash
# Runs the scripts below this folder over the built program refspec_map, over the built tests of gix_refspec_tests, over the
# built program refspec, and those of the bindings and packages: tests/run.sh PROGRAM TESTS REFSPEC
# Four lists of them run side by side, each with its output in one piece. A script that fails doesn't end the run: all that
# failed are listed at the end.
set -u
export PYTHONDONTWRITEBYTECODE=1
here=$(dirname "${BASH_SOURCE[0]}")
usage="usage: tests/run.sh PROGRAM TESTS REFSPEC"
program=${1:?$usage}
tests=${2:?$usage}
refspec=${3:?$usage}
room=$(mktemp -d)
trap 'rm -rf "$room"' EXIT

try() {
    local script=$1
    shift
    "$here/$script" "$@" || echo "$script" >>"$room/failed"
}

of_program() {
    for script in words answers replay agree git git_rows stack devices memory; do
        try "refspec_map/$script.py" "$program"
    done
    for script in growths large; do
        try "library/$script.py" "$tests"
    done
}

of_refspec() {
    for script in refspec replay git_refspec git_plans git_advice lint completions faults interrupted disks; do
        try "refspec/$script.py" "$refspec"
    done
    try ../tools/fuzz/calls.py "$refspec"
    try refspec/schema.py
    try library/replay_remotes.py "$refspec"
    try library/git_remotes.py
    try library/git_prefixes.py "$refspec"
    try library/git_fates.py
}

of_library() {
    try bindings/bindings.sh
    try library/corpus.sh
    try ../tools/fuzz/lint.py "$refspec" --groups 1000 --seed 1
    try library/versus.sh
    try bindings/drop-in.sh
    try library/conformance.sh "$program" "$refspec"
    try packages/readme.py "$program" "$refspec"
}

of_packages() {
    try packages/runtime.sh
    try packages/packages.sh
}

for list in of_program of_refspec of_library of_packages; do
    "$list" >"$room/$list" 2>&1 </dev/null &
done
wait
cat "$room"/of_*

if [ -e "$room/failed" ]; then
    echo "tests: failed:" $(sort "$room/failed") >&2
    exit 1
fi
