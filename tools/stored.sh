#!/bin/bash
# Runs the program of a crate's folder on its stored input, shows what it prints and its status, and
# compares both with what is stored: tools/stored.sh FOLDER [COMMAND..]
# With COMMAND, as `rt try --`, that is run in place of the built program, with the stored arguments after it.
set -u
folder=${1:?usage: tools/stored.sh FOLDER [COMMAND..]}
cd "$folder" || exit 1
shift
[ $# -gt 0 ] || set -- out/"$(basename "$PWD")"
mapfile -t words <args
printed=$(mktemp)
trap 'rm -f "$printed"' EXIT

"$@" "${words[@]}" <stdin | tee "$printed"
status=${PIPESTATUS[0]}
echo "status $status"

wanted=0
[ -f status ] && wanted=$(<status)
cmp "$printed" stdout >&2 || { echo "tools/stored.sh: other output than in $folder/stdout" >&2; exit 1; }
[ "$status" = "$wanted" ] || { echo "tools/stored.sh: status $status, and $wanted is stored" >&2; exit 1; }
