#!/bin/bash
# Looks for inputs at which a property of harness.c doesn't hold: tools/fuzz/fuzz.sh FOLDER [WORD..]
# Builds the harness over out/lib/libgix_refspec.a in FOLDER with libFuzzer, begins with the stored corpus and the other samples,
# keeps what reaches new blocks in FOLDER/corpus, and tells how many inputs it tried, and with which seed. Each WORD goes to libFuzzer,
# as -runs=1000000, -max_total_time=600 or -seed=7. With the word `minimise` it puts the fewest inputs that reach all these blocks into
# the sample, and prints the functions that they don't reach.
set -eu -o pipefail
here=$(cd "$(dirname "$0")" && pwd)
folder=${1:?usage: tools/fuzz/fuzz.sh FOLDER [WORD..]}
shift
archive=$here/../../out/lib/libgix_refspec.a
for tool in clang objdump; do
    command -v $tool >/dev/null || { echo "fuzz: the command $tool is missing" >&2; exit 1; }
done
[ -e "$archive" ] || { echo "fuzz: there is no $archive; make lib builds it" >&2; exit 1; }
mkdir -p "$folder/corpus"
clang -g -O1 -no-pie -fsanitize=fuzzer,address,undefined -fno-sanitize-recover=all -Wall -Wextra -Werror \
    -DCOUNTERS='__attribute__((section("__libfuzzer_extra_counters")))' -I"$here/../../crates/gix_refspec_c/include" \
    -Wl,--wrap=malloc,--wrap=realloc -o "$folder/harness" "$here/harness.c" "$here/blocks.c" "$archive"
"$here/blocks.py" "$folder/harness" "$archive" >"$folder/blocks"
export BLOCKS=$folder/blocks
if [ "${1:-}" = minimise ]; then
    rm -rf "$folder/fewest"
    mkdir "$folder/fewest"
    "$folder/harness" -merge=1 "$folder/fewest" "$folder/corpus" 2>"$folder/merge.log"
    "$here/corpus.py" pack "$folder/fewest"
    UNREACHED=$folder/unreached "$folder/harness" -runs=0 "$folder/fewest" 2>>"$folder/merge.log"
    exec "$here/blocks.py" "$folder/harness" "$archive" "$folder/unreached"
fi
"$here/corpus.py" unpack "$folder/corpus"
"$here/corpus.py" seed "$folder/corpus"
status=0
"$folder/harness" -dict="$here/refspec.dict" -max_len=4096 -artifact_prefix="$folder/" -print_final_stats=1 "$@" "$folder/corpus" 2>&1 \
    | tee "$folder/fuzz.log" >&2 || status=$?
tried=$(sed -n 's/^stat::number_of_executed_units: *//p' "$folder/fuzz.log")
seed=$(sed -n 's/^INFO: Seed: //p' "$folder/fuzz.log")
echo "fuzz: ${tried:-no count of} inputs tried, seed ${seed:-unknown}, status $status"
exit "$status"
