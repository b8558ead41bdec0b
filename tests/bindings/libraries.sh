#!/bin/bash
# Tries each way to name the library, from Python, Rust and cmake: tests/bindings/libraries.sh FOLDER
#
# FOLDER is where it was installed. Libraries of other versions have calls that only tell their version.
set -eu -o pipefail
cd "$(dirname "${BASH_SOURCE[0]}")/../.."
folder=${1:?usage: tests/bindings/libraries.sh FOLDER}
made=$(mktemp -d)
trap 'rm -rf "$made"' EXIT
fail() { echo "bindings: $*" >&2; exit 1; }
unset GIX_REFSPEC_LIBRARY GIX_REFSPEC_FOLDER LD_LIBRARY_PATH PKG_CONFIG_PATH PYTHONPATH
version=$(sed -n 's/^Version: //p' "$folder/lib/pkgconfig/gix_refspec.pc")
soname=$(readelf -d "$folder/lib/libgix_refspec.so" | sed -n 's/.*SONAME.*\[\(.*\)\]/\1/p')

# stand_in VERSION FILE: a library of this version.
calls=$(grep -o '\bgix_refspec_[a-z_]*(' "$folder/include/gix_refspec.h" | tr -d '(' | sort -u | grep -v '_version$')
stand_in() {
    mkdir -p "${2%/*}"
    { printf 'typedef struct { const char *bytes; unsigned long len; } text;\n'
      printf 'unsigned gix_refspec_version(text *told) { *told = (text){ "%s", sizeof "%s" - 1 }; return 0; }\n' "$1" "$1"
      printf 'unsigned %s(void) { return 19; }\n' $calls; } >"$made/stand_in.c"
    gcc -shared -fPIC -Wl,-soname,"${2##*/}" -o "$2" "$made/stand_in.c"
}

# ---- Python: the file that GIX_REFSPEC_LIBRARY names, or else that beside the module, or else the installed one

mkdir "$made/python"
cp -R bindings/python/gix_refspec "$made/python"
rm -rf "$made/python/gix_refspec/__pycache__"
in_python() { PYTHONPATH=$made/python env "$@" python3 -B -c 'import gix_refspec; print(gix_refspec.library_version())' 2>&1; }
# loads VERSION WORD..: with these words for env, the library of the version is loaded.
loads() { [ "$(in_python "${@:2}")" = "$1" ] || fail "with ${*:2} Python loads $(in_python "${@:2}"), not $1"; }
# refuses SENTENCE WORD..: the import fails with this sentence.
refuses() {
    local told
    ! told=$(in_python "${@:2}") || fail "with ${*:2} Python loads $told"
    [ "${told##*$'\n'}" = "ImportError: $1" ] || fail "with ${*:2} Python says ${told##*$'\n'}"
}
series=${version%.*}
stand_in "$series.71" "$made/named/any.so"
stand_in "$series.72" "$made/installed/$soname"
stand_in "$series.73" "$made/beside/$soname"
loads "$version" GIX_REFSPEC_LIBRARY="$folder/lib/libgix_refspec.so"
loads "$series.71" GIX_REFSPEC_LIBRARY="$made/named/any.so" LD_LIBRARY_PATH="$made/installed"
loads "$series.72" LD_LIBRARY_PATH="$made/installed"
loads "$series.72" GIX_REFSPEC_LIBRARY= LD_LIBRARY_PATH="$made/installed"
cp "$made/beside/$soname" "$made/python/gix_refspec"
loads "$series.73" LD_LIBRARY_PATH="$made/installed"
loads "$series.73" GIX_REFSPEC_LIBRARY= LD_LIBRARY_PATH="$made/installed"
loads "$series.71" GIX_REFSPEC_LIBRARY="$made/named/any.so" LD_LIBRARY_PATH="$made/installed"
rm "$made/python/gix_refspec/$soname"
for other in 0.2.9 "${series}0.0" 1.0.0; do
    stand_in "$other" "$made/other.so"
    refuses "$made/other.so is version $other of libgix_refspec, and this module is for version $version: install that, or name its file in GIX_REFSPEC_LIBRARY" \
        GIX_REFSPEC_LIBRARY="$made/other.so"
done
refuses "libm.so.6 isn't libgix_refspec, and this module is for version $version: install that, or name its file in GIX_REFSPEC_LIBRARY" \
    GIX_REFSPEC_LIBRARY=libm.so.6
calls=${calls/gix_refspec_stale/gix_refspec_other} stand_in "$series.0" "$made/older.so"
refuses "$made/older.so is version $series.0 of libgix_refspec, and this module is for version $version: install that, or name its file in GIX_REFSPEC_LIBRARY; $made/older.so: undefined symbol: gix_refspec_stale" \
    GIX_REFSPEC_LIBRARY="$made/older.so"
missing=": cannot open shared object file: No such file or directory; install the library, or name the file in GIX_REFSPEC_LIBRARY"
refuses "$made/none.so$missing" GIX_REFSPEC_LIBRARY="$made/none.so"
if ! ldconfig -p 2>/dev/null | grep -qF "$soname"; then
    refuses "$soname$missing" GIX_REFSPEC_LIBRARY=
fi
echo "bindings: Python loads the library that is named, beside the module, or installed, and refuses another"

# ---- Rust: the folder that GIX_REFSPEC_FOLDER names, or else the crate's own copy, if that is asked for, or else that of pkg-config

if ! command -v cargo >/dev/null; then
    echo "bindings: left out is the script that builds the crate in Rust, as there is no cargo"
else
    CARGO_PKG_VERSION_MAJOR=${version%%.*} CARGO_PKG_VERSION_MINOR=$(cut -d. -f2 <<<"$version") \
        rustc --edition 2021 -o "$made/script" bindings/rust/gix-refspec-sys/build.rs
    # From another folder, as by cargo.
    mkdir -p "$made/crate/relative/lib"
    cp "$folder/lib/libgix_refspec.a" "$made/crate/relative/lib"
    script() { (cd "$made/crate" && env "$@" "$made/script" >"$made/out" 2>"$made/err"); }
    # links FOLDER WORD..: the archive of this folder is linked, and a new one is noticed.
    links() {
        script "${@:2}" || fail "with ${*:2} the crate isn't built: $(cat "$made/err")"
        grep -qxF "cargo:rustc-link-search=native=$1" "$made/out" && grep -qxF "cargo:rerun-if-changed=$1/libgix_refspec.a" "$made/out" \
            && grep -qx 'cargo:rustc-link-lib=static=gix_refspec' "$made/out" || fail "with ${*:2} the crate links $(cat "$made/out")"
    }
    # says SENTENCE WORD..: the crate isn't built, and cargo shows only this sentence.
    says() {
        local status=0
        script "${@:2}" || status=$?
        [ $status = 1 ] && [ "$(cat "$made/err")" = "$1" ] || fail "with ${*:2} status $status, and $(cat "$made/err")"
    }
    known="pkg-config knows no libgix_refspec.a of version $series: install it, and name the folder below which it is in the \
environment variable GIX_REFSPEC_FOLDER, or the one with gix_refspec.pc in PKG_CONFIG_PATH; or use the crate's own copy, by the \
feature \`vendored\`."
    mkdir -p "$made/pc" "$made/empty" "$made/two/lib"
    cp "$folder/lib/libgix_refspec.a" "$made/two"
    links "$made/two" GIX_REFSPEC_FOLDER="$made/two"
    cp "$folder/lib/libgix_refspec.a" "$made/two/lib"
    links "$made/two/lib" GIX_REFSPEC_FOLDER="$made/two"
    links "$folder/lib" PKG_CONFIG_LIBDIR="$folder/lib/pkgconfig"
    links "$made/two/lib" GIX_REFSPEC_FOLDER="$made/two" PKG_CONFIG_LIBDIR="$folder/lib/pkgconfig"
    says "GIX_REFSPEC_FOLDER is empty: name the folder below which libgix_refspec.a is, or unset it." \
        GIX_REFSPEC_FOLDER= PKG_CONFIG_LIBDIR="$folder/lib/pkgconfig"
    says "GIX_REFSPEC_FOLDER is \`relative\`, a relative path: name the folder by its full path." \
        GIX_REFSPEC_FOLDER=relative PKG_CONFIG_LIBDIR="$folder/lib/pkgconfig"
    says "GIX_REFSPEC_FOLDER names $made/empty, but neither that folder nor its \`lib\` has libgix_refspec.a." \
        GIX_REFSPEC_FOLDER="$made/empty" PKG_CONFIG_LIBDIR="$folder/lib/pkgconfig"
    says "$known" PKG_CONFIG_LIBDIR="$made/empty"
    says "$known" PATH="$made/empty"
    for other in 0.2.9 "${series}0.0" 1.0.0; do
        sed "s/^Version: .*/Version: $other/" "$folder/lib/pkgconfig/gix_refspec.pc" >"$made/pc/gix_refspec.pc"
        says "$known" PKG_CONFIG_LIBDIR="$made/pc"
    done
    sed "s|^libdir=.*|libdir=$made/empty|" "$folder/lib/pkgconfig/gix_refspec.pc" >"$made/pc/gix_refspec.pc"
    says "$known" PKG_CONFIG_LIBDIR="$made/pc"
    own=(CARGO_FEATURE_VENDORED=1 CARGO_MANIFEST_DIR="$made/crate" CARGO_CFG_TARGET_OS=linux PKG_CONFIG_LIBDIR="$folder/lib/pkgconfig")
    none="The feature \`vendored\` has no libgix_refspec.a for %s: only the packaged crate has copies, for x86_64-linux and \
aarch64-linux. Name the folder below which it is in the environment variable GIX_REFSPEC_FOLDER."
    mkdir -p "$made/crate/vendored/x86_64"
    cp "$folder/lib/libgix_refspec.a" "$made/crate/vendored/x86_64"
    links "$made/crate/vendored/x86_64" "${own[@]}" CARGO_CFG_TARGET_ARCH=x86_64
    links "$made/two/lib" "${own[@]}" CARGO_CFG_TARGET_ARCH=x86_64 GIX_REFSPEC_FOLDER="$made/two"
    says "$(printf "$none" aarch64-linux)" "${own[@]}" CARGO_CFG_TARGET_ARCH=aarch64
    says "$(printf "$none" x86_64-macos)" "${own[@]}" CARGO_CFG_TARGET_ARCH=x86_64 CARGO_CFG_TARGET_OS=macos
    echo "bindings: the crate in Rust links the archive that is named, its own, or that of pkg-config, and else says what to do"
fi

# ---- cmake, also where a folder on the way to the library is a symbolic link

if ! command -v cmake >/dev/null; then
    echo "bindings: left out is cmake, as there is none"
    exit 0
fi
mkdir "$made/cmake"
cp bindings/c/examples/linter.c "$made/cmake"
cat >"$made/cmake/CMakeLists.txt" <<'END'
cmake_minimum_required(VERSION 3.10)
project(linter C)
find_package(gix_refspec 0.3 REQUIRED)
add_executable(shared linter.c)
target_link_libraries(shared gix_refspec::gix_refspec)
add_executable(static linter.c)
target_link_libraries(static gix_refspec::static)
END
# configured WORD..: cmake finds the library by these words, and both linters are built and run.
configured() {
    rm -rf "$made/cmake/out"
    cmake -S "$made/cmake" -B "$made/cmake/out" "$@" >"$made/out" 2>&1 && cmake --build "$made/cmake/out" >>"$made/out" 2>&1 \
        || fail "cmake $*: $(cat "$made/out")"
    for linter in shared static; do
        [ "$(printf 'a..b\n' | "$made/cmake/out/$linter")" = '1: A ref name must not have two dots in a row.' ] \
            || fail "cmake $*: the $linter linter fails"
    done
}
# copied LIBDIR: a copy of the folder with its library there.
copied() {
    rm -rf "$made/to"
    make --no-print-directory install-lib PREFIX="$made/to" LIBDIR="$1" >/dev/null
}
configured -DCMAKE_PREFIX_PATH="$folder"
copied lib/x86_64-linux-gnu
configured -DCMAKE_PREFIX_PATH="$made/to" -DCMAKE_LIBRARY_ARCHITECTURE=x86_64-linux-gnu
mkdir "$made/link"
ln -s "$made/to/lib" "$made/link/lib"
configured -Dgix_refspec_DIR="$made/link/lib/x86_64-linux-gnu/cmake/gix_refspec"
copied lib
mv "$made/to/lib" "$made/to/lib64"
ln -s lib64 "$made/to/lib"
configured -DCMAKE_PREFIX_PATH="$made/to"
configured -Dgix_refspec_DIR="$made/to/lib64/cmake/gix_refspec"
rm "$made/to/lib"
mv "$made/to/lib64" "$made/far"
ln -s "$made/far" "$made/to/lib"
configured -DCMAKE_PREFIX_PATH="$made/to"
rm -rf "$made/cmake/out"
! cmake -S "$made/cmake" -B "$made/cmake/out" -Dgix_refspec_DIR="$made/far/cmake/gix_refspec" >"$made/out" 2>&1 \
    || fail "cmake finds a library without a header"
grep -qF "No folder include with gix_refspec.h is above $made/far:" "$made/out" || fail "cmake says $(cat "$made/out")"
echo "bindings: cmake finds library and header, also through symbolic links"
