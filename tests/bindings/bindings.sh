#!/bin/bash
# Builds the archive of gix_refspec_c and tests it from C, Rust and Python: tests/bindings/bindings.sh
#
# Says what it leaves out where there is no gcc or no cargo.
set -eu -o pipefail
cd "$(dirname "${BASH_SOURCE[0]}")/../.."
for tool in gcc pkg-config; do
    command -v $tool >/dev/null || { echo "bindings: left out, as there is no $tool"; exit 0; }
done
made=$(mktemp -d)
trap 'rm -rf "$made"' EXIT
install_by() { make --no-print-directory "$1" PREFIX="$made/to" >/dev/null; }
installed() { find "$made/to" ! -type d -printf '%P\n' | LC_ALL=C sort; }
install_by install-lib
include=$made/to/include
export PKG_CONFIG_PATH=$made/to/lib/pkgconfig GIX_REFSPEC_FOLDER=$made/to LD_LIBRARY_PATH=$made/to/lib

python3 tests/bindings/prototypes.py "$made/to"

# The calls, as they are and with the checks of gcc where it has them.
compile() {
    gcc -std=gnu11 -O1 -g -Wall -Wextra -Werror "$@" -I"$include" -Wl,--wrap=malloc,--wrap=realloc \
        -o "$made/calls" tests/bindings/bindings.c "$made/to/lib/libgix_refspec.a" -pthread
}
compile
"$made/calls"
python3 tests/bindings/prototypes.py --replay "$made/calls"
if compile -fsanitize=address,undefined -fno-sanitize-recover 2>/dev/null; then
    "$made/calls"
    echo "bindings: the calls as stated, also under the sanitizers"
else
    echo "bindings: the calls as stated; left out are the sanitizers, which gcc lacks"
fi

# wants STATUS LINES COMMAND..: a command ends with the status, and writes the lines.
wants() {
    local status=0 wanted=$1 lines=$2
    shift 2
    "$@" >"$made/out" 2>&1 || status=$?
    if [ $status != "$wanted" ] || [ "$(cat "$made/out")" != "$lines" ]; then
        echo "bindings: ${1##*/} ends with status $status, and writes: $(cat "$made/out")"
        exit 1
    fi
}

# The header in C++: a call that isn't declared as one of C isn't linked.
if command -v g++ >/dev/null; then
    { echo '#include <gix_refspec.h>'
      echo 'typedef void any();'
      echo 'any *calls[] = {'
      grep -o '\bgix_refspec_[a-z_]*(' "$include/gix_refspec.h" | tr -d '(' | sort -u | sed 's/.*/    reinterpret_cast<any *>(&),/'
      echo '};'
      echo 'int main()'
      echo '{'
      echo '    gix_refspec_text version = GIX_REFSPEC_TEXT_INIT;'
      echo '    gix_refspec_instruction parts = GIX_REFSPEC_PARTS_INIT;'
      echo '    gix_refspec_span span = GIX_REFSPEC_SPAN_INIT;'
      echo '    gix_refspec_wish wish = GIX_REFSPEC_WISH_INIT;'
      echo '    gix_refspec_made made = GIX_REFSPEC_MADE_INIT;'
      echo '    return gix_refspec_version(&version) == GIX_REFSPEC_OK && version.len > 0 && parts.kind == 0 && span.side == 0'
      echo '        && wish.tags == 0 && made.mapped == 0 && calls[0] != 0 ? 0 : 1;'
      echo '}'; } >"$made/header.cc"
    for standard in c++98 c++11 c++17 c++20; do
        g++ -std=$standard -pedantic -Wall -Wextra -Werror -I"$include" -o "$made/header" "$made/header.cc" \
            "$made/to/lib/libgix_refspec.a" || { echo "bindings: the header isn't one of $standard"; exit 1; }
        "$made/header" || { echo "bindings: the header fails in $standard"; exit 1; }
    done
    echo "bindings: the header in C++ from 98 to 20"
else
    echo "bindings: left out is the header in C++, as there is no g++"
fi

# The samples, from an empty folder over what was installed alone, in each version of C.
mkdir "$made/sample"
cp bindings/c/examples/linter.c bindings/c/examples/planner.c "$made/sample"
for sample in linter planner; do
    for standard in c99 c11 c17 c2x gnu11; do
        (cd "$made/sample" && gcc -std=$standard -pedantic -Wall -Wextra -Werror -o $sample $sample.c \
            $(pkg-config --cflags --libs gix_refspec)) || { echo "bindings: $sample.c isn't one of $standard"; exit 1; }
    done
    # A planner doesn't free what it has at its end.
    gcc -O1 -g -fsanitize=address,undefined -fno-sanitize-recover -I"$include" -o "$made/sample/checked-$sample" \
        "bindings/c/examples/$sample.c" "$made/to/lib/libgix_refspec.a" 2>/dev/null || cp "$made/sample/$sample" "$made/sample/checked-$sample"
done
export ASAN_OPTIONS=detect_leaks=0
readelf -d "$made/sample/linter" | grep -qF "Shared library: [$(pkg-config --variable=soname gix_refspec)]" \
    || { echo "bindings: the linter asks for no library by its soname"; exit 1; }
readelf -n "$made/to/lib/libgix_refspec.so" | grep -qF "x86 ISA needed: x86-64-v2" \
    || { echo "bindings: the shared library doesn't tell the loader its processors"; exit 1; }
wants 1 $'2: A ref name must not have two dots in a row.\n4: A refspec that begins with `^` needs a source after the `^`.' \
    "$made/sample/linter" < <(printf 'main\na..b\n\n^')
wants 0 "" "$made/sample/linter" < <(printf '+refs/heads/*:refs/remotes/origin/*\n')
echo "bindings: the linter in C as its source says"

# The planners, which are the same program in three languages.
refs() { printf '1111111111111111111111111111111111111111\t%s\n' "$@"; }
lines() { printf '%s\t%s\t%s\n' "$@"; }
check_planner() {
    wants 1 "$(lines conflict refs/heads/a refs/x/a force refs/heads/b refs/x/b conflict refs/tags/a refs/x/a)" \
        "$@" '+refs/heads/*:refs/x/*' 'refs/tags/*:refs/x/*' \
        < <(refs refs/heads/a refs/heads/b refs/tags/a 'refs/tags/a^{}')
    wants 0 "$(lines write HEAD refs/x/HEAD fetch HEAD - 'left out' refs/heads/a other/a 'left out' refs/heads/b.lock \
            refs/y/b.lock)" \
        "$@" HEAD:refs/x/HEAD +@ 'refs/heads/a*:other/a*' 'refs/heads/b*:refs/y/b*' \
        < <(refs HEAD refs/heads/a refs/heads/b.lock)
    # The configured specs are applied to what is given; without any they are fetched, and without both `HEAD` is.
    local configured=(-- '+refs/heads/*:refs/remotes/origin/*' '^refs/heads/b')
    wants 0 "$(lines write refs/heads/a refs/remotes/origin/b fetch refs/heads/b - force refs/heads/a refs/remotes/origin/a \
            overruled refs/heads/b refs/remotes/origin/b)" \
        "$@" a:refs/remotes/origin/b b "${configured[@]}" < <(refs HEAD refs/heads/a refs/heads/b)
    wants 0 "$(lines force refs/heads/a refs/remotes/origin/a)" "$@" "${configured[@]}" < <(refs HEAD refs/heads/a refs/heads/b)
    wants 0 "$(lines fetch HEAD -)" "$@" < <(refs HEAD refs/heads/a)
    wants 1 "$(lines missing HEAD -)" "$@" < <(refs refs/heads/a)
    wants 1 "$(lines fetch refs/heads/a - missing gone -)" "$@" a gone < <(refs refs/heads/a)
    wants 1 "$(lines missing refs/heads/gone:refs/x -)" "$@" -- refs/heads/gone:refs/x < <(refs refs/heads/a)
    # So many that the first lists have no room.
    local many=()
    for ((i = 0; i < 40; i++)); do many+=(write refs/heads/c "refs/x/$i"); done
    wants 0 "$(lines "${many[@]}")" "$@" $(printf 'refs/heads/c:refs/x/%s ' {0..39}) < <(refs refs/heads/c)
    wants 1 "A ref name must not have two dots in a row." "$@" a..b </dev/null
}
check_planner "$made/sample/planner"
check_planner env PYTHONDONTWRITEBYTECODE=1 PYTHONPATH=bindings/python python3 bindings/python/examples/planner.py
echo "bindings: the planners in C and in Python as their sources say"
planners=("$made/sample/planner" "$made/sample/checked-planner" bindings/python/examples/planner.py)

if command -v cargo >/dev/null; then
    cargo test --quiet --offline --manifest-path bindings/rust/Cargo.toml --target-dir "$made/target" >"$made/log" 2>&1 \
        || { cat "$made/log"; exit 1; }
    echo "bindings: the tests and examples of the crates in Rust"
    check_planner "$made/target/debug/examples/planner"
    echo "bindings: the planner in Rust as its source says"
    planners+=("$made/target/debug/examples/planner")
else
    echo "bindings: left out are the crates in Rust, as there is no cargo"
fi
PYTHONPATH=bindings/python python3 -B tests/bindings/examples.py "$made/sample/linter" "$made/sample/checked-linter" -- "${planners[@]}"
tests/bindings/libraries.sh "$made/to"
python3 -B tests/library/replay_remotes.py
PYTHONPATH=bindings/python timeout 100 python3 -B -m unittest discover -s bindings/python/tests \
    || { echo "bindings: the tests of the module in Python end with status $?"; exit 1; }

wanted=$(printf '%s\n' include/gix_refspec.h lib/libgix_refspec.{a,so,"so.$(pkg-config --modversion gix_refspec)"} \
    "lib/$(pkg-config --variable=soname gix_refspec)" lib/pkgconfig/gix_refspec.pc \
    lib/cmake/gix_refspec/gix_refspec-config{,-version}.cmake \
    share/doc/gix_refspec/{C.md,LICENSE-MIT,LICENSE-APACHE,linter.c,planner.c} | LC_ALL=C sort)
[ "$(installed)" = "$wanted" ] || { echo "bindings: make install-lib leaves $(installed)"; exit 1; }
install_by uninstall-lib
[ -z "$(installed)" ] || { echo "bindings: make uninstall-lib leaves $(installed)"; exit 1; }
echo "bindings: make install-lib and uninstall-lib leave what they should"
