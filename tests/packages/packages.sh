#!/bin/bash
# Installs each package where no toolchain is on the PATH, and does its main task there: tests/packages/packages.sh [DIST]
#
# DIST is what `make dist` made. Without it the packages for x86-64 are made here, and of arm64 the library alone is tried, as its
# programs would have to be proved again. Says what it leaves out for want of a tool.
set -eu -o pipefail
cd "$(dirname "${BASH_SOURCE[0]}")/../.."
sources=$PWD
made=$(mktemp -d)
trap 'rm -rf "$made"' EXIT
say() { echo "packages: $*"; }
fail() { say "$*" >&2; exit 1; }
has() { command -v "$1" >/dev/null; }
echo 'int main(void) { }' | gcc -static -x c -o "$made/empty" - 2>/dev/null \
    || { say "left out, as there is no gcc, or no static C library"; exit 0; }
[ $# -gt 0 ] || export PROCESSORS=x86_64
[ $# -gt 0 ] || make --no-print-directory dist DIST="$made/dist" >/dev/null
dist=$(cd "${1:-$made/dist}" && pwd)

# bare COMMAND..: with an empty environment, and nothing on the PATH but the system and the folders of $beside.
beside=
bare() { env -i HOME="$made/home" LC_ALL=C GIT_CONFIG_NOSYSTEM=1 PATH="$beside/usr/bin:/bin" "$@"; }
mkdir "$made/home"
! bare sh -c 'command -v rt' >/dev/null || fail "there is a toolchain on the PATH"

# wants STATUS LINES COMMAND..: a command, run so, ends with the status, and writes the lines.
wants() {
    local status=0 wanted=$1 lines=$2
    shift 2
    bare "$@" >"$made/out" 2>&1 || status=$?
    [ $status = "$wanted" ] && [ "$(cat "$made/out")" = "$lines" ] \
        || fail "$* ends with status $status, and writes: $(cat "$made/out")"
}

# A remote, and a clone of it.
git_in() { bare git -C "$made/$1" -c user.name=a -c user.email=a@b "${@:2}"; }
if has git; then
    bare git init -q -b main "$made/remote"
    git_in remote commit -q --allow-empty -m one
    git_in remote branch wip/x
    git_in remote tag -a -m note v1
    bare git clone -q "$made/remote" "$made/clone"
    git_in remote ls-remote . >"$made/refs"
else
    printf '%040d\trefs/heads/main\n%040d\trefs/heads/wip/x\n' 1 1 >"$made/refs"
fi

# What `git refspec check` and `plan` say in the clone. The programs are on the PATH.
check_programs() {
    wants 0 '+refs/heads/*:refs/x/*' refspec canon '+refs/heads/*:refs/x/*'
    wants 0 "refspec $(sed -n '/^## /{s/^## //p;q}' CHANGELOG.md)" refspec --version
    wants 0 'ok main' sh -c 'echo main | refspec_map canon fetch'
    has git || { say "left out git refspec, as there is no git"; return 0; }
    wants 0 '' git -C "$made/clone" refspec check
    wants 0 $'+refs/heads/*:refs/remotes/origin/* (configured)\nrefs/heads/main refs/remotes/origin/main
refs/heads/wip/x refs/remotes/origin/wip/x' sh -c 'git -C "$0" refspec plan | awk "{ print \$1, \$2 }"' "$made/clone"
    git_in clone config remote.origin.push main:refs/heads/a..b
    ! bare git -C "$made/clone" refspec check >"$made/out" 2>&1 || fail "git refspec check finds nothing wrong"
    grep -qF 'A ref name must not have two dots in a row.' "$made/out" || fail "git refspec check says $(cat "$made/out")"
    git_in clone config --unset remote.origin.push
}

# What a planner says of the remote. Its program is the command.
check_planner() {
    local lines
    lines=$(printf '%s\t%s\t%s\n' force refs/heads/main refs/x/main force refs/heads/wip/x refs/x/wip/x)
    wants 0 "$lines" sh -c 'exec "$@" "+refs/heads/*:refs/x/*" <"$0"' "$made/refs" "$@"
    wants 1 'A ref name must not have two dots in a row.' sh -c 'exec "$@" a..b <"$0"' "$made/refs" "$@"
}

# What was made is listed, and README.md and the page of the release name what is there.
(cd "$dist" && sha256sum --quiet --check SHA256SUMS) || fail "SHA256SUMS has other sums"
[ "$(cd "$dist" && ls)" = "$(cut -c67- "$dist/SHA256SUMS" | cat - <(echo SHA256SUMS) | LC_ALL=C sort)" ] || fail "SHA256SUMS doesn't list all"
is_left_out() {
    case $1 in
        *aarch64* | *arm64*) ! has_arm64 ;;
        *.deb) ! has dpkg-deb ;;
        *.crate) ! has cargo ;;
        *-source.tar.gz) ! git rev-parse --is-inside-work-tree >/dev/null 2>&1 ;;
        *) false ;;
    esac
}
has_arm64() { compgen -G "$dist/*-aarch64-linux.tar.gz" >/dev/null; }
for page in README.md packaging/README; do
    for one in $(sed -e 's/$(uname -m)/x86_64/g' -e 's/$(dpkg --print-architecture)/amd64/g' $page \
        | grep -oE '(lib)?(gix[-_])?refspec[-_*0-9][^ `;]*\.(tar\.gz|deb|whl|crate)'); do
        compgen -G "$dist/$one" >/dev/null || is_left_out "$one" || fail "$page names $one, which isn't in $dist"
    done
done

# Each program and each shared library asks for no other, nor for a loader: then it is for any Linux. A shared library needs six
# functions of the process, without their versions; auditwheel looks at these things too.
asks_for_none() {
    local told
    told=$(LC_ALL=C readelf -lVd "$1")
    ! grep -qE 'NEEDED|RPATH|RUNPATH|INTERP|GLIBC' <<<"$told" || fail "${1##*/} asks for a library or a loader"
}
only_six() {
    local others
    others=$(LC_ALL=C readelf -W --dyn-syms "$1" | awk '$7 == "UND" && $8 != "" { print $8 }' \
        | grep -vxE 'malloc|realloc|free|memcpy|memmove|memset' || true)
    [ -z "$others" ] || fail "${1##*/} needs $others"
}

# ---- the archive for any Linux, moved after it was unpacked

version=$(sed -n '/^## /{s/^## //p;q}' CHANGELOG.md)
name=refspec-$version-x86_64-linux
mkdir "$made/first"
tar -xzf "$dist/$name.tar.gz" -C "$made/first"
unpacked=$made/elsewhere
mv "$made/first/$name" "$unpacked"
# Each asks for no library, and an older processor is told of.
for one in "$unpacked"/bin/refspec{,_map} "$unpacked/lib/libgix_refspec.so"; do
    asks_for_none "$one"
done
only_six "$unpacked/lib/libgix_refspec.so"
if has qemu-x86_64; then
    for program in refspec refspec_map; do
        status=0
        bare qemu-x86_64 -cpu core2duo "$unpacked/bin/$program" --version >"$made/out" 2>&1 || status=$?
        [ $status = 127 ] && grep -qF x86-64-v2 "$made/out" \
            || fail "on an older processor $program ends with status $status, and says $(cat "$made/out")"
    done
else
    say "left out: no qemu-x86_64, to try an older processor"
fi
# The commands of its page for a copy below ~/.local, and to remove it.
commands() { sed -n "s/^        \($1 .*\)/\1/p" "$unpacked/README"; }
(cd "$unpacked" && mkdir "$made/home/.local" && bare sh -euc "$(commands cp)")
beside=$made/home/.local/bin:
wants 0 '+refs/heads/*:refs/x/*' refspec canon '+refs/heads/*:refs/x/*'
(cd "$unpacked" && bare sh -euc "$(commands find)")
[ -z "$(find "$made/home/.local" ! -type d)" ] || fail "a copy isn't removed by the commands of README"
beside=$unpacked/bin:
check_programs
tests/refspec_map/replay.py "$unpacked/bin/refspec_map" >/dev/null
tests/refspec/replay.py "$unpacked/bin/refspec" >/dev/null
tests/refspec/git_refspec.py --stored "$unpacked/bin/refspec" >/dev/null
for page in refspec git-refspec refspec_map; do
    [ -s "$unpacked/share/man/man1/$page.1" ] || fail "there is no manual page $page"
    ! has man || bare env MANPATH="$unpacked/share/man" man "$page" >"$made/out" || fail "man $page fails"
done
bare bash -c '. "$0" && COMP_WORDS=(refspec ca) COMP_CWORD=1 && _refspec && [ "${COMPREPLY[*]}" = canon ]' \
    "$unpacked/share/bash-completion/completions/refspec" || fail "bash completes nothing"
if has fish && has git; then
    bare env XDG_DATA_DIRS="$unpacked/share:/usr/share" fish -c "complete -C 'git refspec '" >"$made/out"
    grep -q '^check' "$made/out" || fail "fish completes git refspec to $(cat "$made/out")"
fi
beside=
say "the archive: the stored samples of three programs, git refspec in a clone, manual pages, and completion"

# ---- C

# planner_in_c FOLDER WORD..: builds the planner where env knows the library by the words.
planner_in_c() {
    local folder=$1
    shift
    mkdir "$folder"
    cp bindings/c/examples/planner.c "$folder"
    (cd "$folder" && bare env "$@" sh -c 'gcc -Wall -Wextra -Werror -o planner planner.c $(pkg-config --cflags --libs gix_refspec)')
}
if ! has gcc || ! has pkg-config; then
    say "left out C, as there is no gcc or no pkg-config"
else
    planner_in_c "$made/c" PKG_CONFIG_PATH="$unpacked/lib/pkgconfig"
    check_planner env LD_LIBRARY_PATH="$unpacked/lib" "$made/c/planner"
    ! has qemu-x86_64 || wants 127 "$unpacked/lib/libgix_refspec.so.0.3: CPU ISA level is lower than required" \
        env LD_LIBRARY_PATH="$unpacked/lib" qemu-x86_64 -cpu core2duo "$made/c/planner"
    bare gcc -o "$made/c/static" "$made/c/planner.c" -I"$unpacked/include" "$unpacked/lib/libgix_refspec.a"
    check_planner "$made/c/static"
    say "the archive: a planner in C by pkg-config, and one without the shared library"
fi
if ! has cmake || ! has gcc; then
    say "left out cmake, as there is none"
else
    mkdir "$made/cmake"
    cp bindings/c/examples/planner.c "$made/cmake"
    cat >"$made/cmake/CMakeLists.txt" <<'END'
cmake_minimum_required(VERSION 3.10)
project(planner C)
find_package(gix_refspec 0.3 REQUIRED)
add_executable(planner planner.c)
target_link_libraries(planner gix_refspec::gix_refspec)
add_executable(static planner.c)
target_link_libraries(static gix_refspec::static)
END
    bare cmake -S "$made/cmake" -B "$made/cmake/out" -DCMAKE_PREFIX_PATH="$unpacked" >"$made/out" \
        && bare cmake --build "$made/cmake/out" >>"$made/out" || fail "cmake: $(cat "$made/out")"
    check_planner "$made/cmake/out/planner"
    check_planner "$made/cmake/out/static"
    sed -i 's/gix_refspec 0.3/gix_refspec 0.2/' "$made/cmake/CMakeLists.txt"
    ! bare cmake -S "$made/cmake" -B "$made/cmake/old" -DCMAKE_PREFIX_PATH="$unpacked" >"$made/out" 2>&1 \
        || fail "cmake takes this version for another"
    sed -i 's/gix_refspec 0.2/gix_refspec 0.3/' "$made/cmake/CMakeLists.txt"
    say "the archive: planners in C by cmake's find_package"
fi

# ---- Rust

# The crates as a user has them who has no registry: unpacked, and patched in.
crates=$made/crates
planner_in_rust() {
    local one
    mkdir -p "$crates" "$made/rust/src"
    for one in "$dist"/*.crate; do
        tar -xzf "$one" -C "$crates"
    done
    mv "$crates"/refspec-* "$crates/refspec"
    mv "$crates"/gix-refspec-sys-* "$crates/sys"
    cp "$crates/refspec/examples/planner.rs" "$made/rust/src/main.rs"
    cat >"$made/rust/Cargo.toml" <<END
[package]
name = "planner"
version = "0.1.0"
edition = "2021"
[dependencies]
refspec = { path = "../crates/refspec" }
[patch.crates-io]
gix-refspec-sys = { path = "../crates/sys" }
END
}
cargo_in() {
    bare env RUSTUP_HOME="${RUSTUP_HOME:-$HOME/.rustup}" CARGO_HOME="$made/cargo" CARGO_NET_OFFLINE=true "$@" \
        "$(command -v cargo)" build --quiet --manifest-path "$made/rust/Cargo.toml" >"$made/out" 2>&1
}
if ! has cargo || ! ls "$dist"/*.crate >/dev/null 2>&1; then
    say "left out Rust, as there is no cargo"
else
    beside=$(dirname "$(command -v cargo)"):
    planner_in_rust
    ! cargo_in || fail "cargo builds without the library"
    grep -q GIX_REFSPEC_FOLDER "$made/out" && ! grep -q panicked "$made/out" \
        || fail "cargo doesn't say what names the library: $(cat "$made/out")"
    sed -i 's/\(refspec = .*\) }/\1, features = ["vendored"] }/' "$made/rust/Cargo.toml"
    cargo_in || fail "by the feature vendored: $(cat "$made/out")"
    check_planner "$made/rust/target/debug/planner"
    sed -i 's/, features = .* }/ }/' "$made/rust/Cargo.toml"
    cargo_in PKG_CONFIG_PATH="$unpacked/lib/pkgconfig" || fail "by pkg-config: $(cat "$made/out")"
    check_planner "$made/rust/target/debug/planner"
    cp -R "$unpacked" "$made/copy"
    cargo_in GIX_REFSPEC_FOLDER="$made/copy" || fail "by GIX_REFSPEC_FOLDER: $(cat "$made/out")"
    check_planner "$made/rust/target/debug/planner"
    # A new archive is linked: one that lacks the calls is noticed.
    sleep 1
    (cd "$made" && echo 'int nothing;' >nothing.c && gcc -c nothing.c && rm copy/lib/libgix_refspec.a \
        && ar rc copy/lib/libgix_refspec.a nothing.o)
    ! cargo_in GIX_REFSPEC_FOLDER="$made/copy" || fail "cargo keeps what an earlier archive made"
    # What `cargo publish` would try, but for the registry: each crate is packaged again, and built of that.
    mkdir "$made/workspace"
    cp -R "$crates/sys" "$crates/refspec" bindings/rust/Cargo.toml "$made/workspace"
    mv "$made/workspace/sys" "$made/workspace/gix-refspec-sys"
    for crate in gix-refspec-sys refspec; do
        mv "$made/workspace/$crate/Cargo.toml.orig" "$made/workspace/$crate/Cargo.toml"
    done
    if cargo package --help | grep -q -- --registry; then
        cargo package --quiet --offline --workspace --features vendored --manifest-path "$made/workspace/Cargo.toml" >"$made/out" 2>&1 \
            || fail "cargo package: $(cat "$made/out")"
    else
        say "left out: this cargo builds no packages that need one another"
    fi
    beside=
    say "the crates: a planner in Rust by its own copy, by pkg-config and by GIX_REFSPEC_FOLDER, and again where the archive changes"
fi

# ---- Python

# in_python FOLDER WORD..: the planner and the tests in a virtual environment.
in_python() {
    local folder=$1
    shift
    check_planner env "$@" "$folder/bin/python" bindings/python/examples/planner.py
    (cd "$made/home" && bare env PYTHONDONTWRITEBYTECODE=1 "$@" "$folder/bin/python" -m unittest discover -q \
        -s "$sources/bindings/python/tests" >"$made/out" 2>&1) || fail "the tests in Python: $(cat "$made/out")"
}
# What auditwheel would look at, which Debian 12 hasn't: a wheel for manylinux and musllinux asks for no library, and is for the processor of its name.
for wheel in "$dist"/*.whl; do
    rm -rf "$made/unzipped"
    python3 -m zipfile -e "$wheel" "$made/unzipped"
    library=$made/unzipped/gix_refspec/libgix_refspec.so.0.3
    asks_for_none "$library"
    only_six "$library"
    case $wheel in
        *manylinux_2_17_x86_64.manylinux2014_x86_64.musllinux_1_1_x86_64.whl) processor=X86-64 ;;
        *manylinux_2_17_aarch64.manylinux2014_aarch64.musllinux_1_1_aarch64.whl) processor=AArch64 ;;
        *) fail "${wheel##*/} is for other systems" ;;
    esac
    LC_ALL=C readelf -h "$library" | grep -q "Machine:.*$processor" || fail "${wheel##*/} has a library of another processor"
done

python=$(command -v python3)
if ! "$python" -m venv "$made/wheel" >"$made/out" 2>&1; then
    say "left out Python, as it makes no virtual environment"
else
    bare "$made/wheel/bin/pip" install -q --no-index --disable-pip-version-check "$dist"/*_x86_64.whl >"$made/out" 2>&1 \
        || fail "pip install of the wheel: $(cat "$made/out")"
    in_python "$made/wheel"
    if has mypy; then
        mypy --strict --python-executable "$made/wheel/bin/python" --cache-dir "$made/mypy" bindings/python/examples/planner.py \
            >"$made/out" 2>&1 || fail "mypy: $(cat "$made/out")"
    else
        say "left out: no mypy"
    fi
    bare "$made/wheel/bin/pip" uninstall -q -y gix-refspec >"$made/out" 2>&1
    ! bare "$made/wheel/bin/python" -c 'import gix_refspec' 2>"$made/out" || fail "pip uninstall leaves the module"
    say "the wheel: a planner in Python, the tests, and types"
    "$python" -m venv "$made/source"
    bare env PYTHONDONTWRITEBYTECODE=1 "$made/source/bin/pip" install -q --no-index --disable-pip-version-check ./bindings/python >"$made/out" 2>&1 \
        || fail "pip install of the sources: $(cat "$made/out")"
    ! bare "$made/source/bin/python" -c 'import gix_refspec' 2>"$made/out" || fail "the sources bring a library along"
    grep -q GIX_REFSPEC_LIBRARY "$made/out" || fail "without the library Python says $(cat "$made/out")"
    in_python "$made/source" LD_LIBRARY_PATH="$unpacked/lib"
    in_python "$made/source" GIX_REFSPEC_LIBRARY="$unpacked/lib/libgix_refspec.so"
    find "$made/source" -name py.typed | grep -q gix_refspec || fail "the sources install no type hints"
    "$python" -m venv "$made/editable"
    cp -R bindings/python "$made/edited"
    bare env PYTHONDONTWRITEBYTECODE=1 "$made/editable/bin/pip" install -q --no-index --disable-pip-version-check -e "$made/edited" \
        >"$made/out" 2>&1 || fail "pip install -e of the sources: $(cat "$made/out")"
    in_python "$made/editable" LD_LIBRARY_PATH="$unpacked/lib"
    echo 'edited = True' >>"$made/edited/gix_refspec/__init__.py"
    bare env LD_LIBRARY_PATH="$unpacked/lib" "$made/editable/bin/python" -B -c 'import gix_refspec; assert gix_refspec.edited' \
        || fail "pip install -e doesn't import what was edited"
    bare "$made/editable/bin/pip" uninstall -q -y gix-refspec >"$made/out" 2>&1
    ! bare "$made/editable/bin/python" -c 'import gix_refspec' 2>/dev/null || fail "pip uninstall leaves what pip install -e made"
    say "the sources in Python: pip install, also -e, a planner, and the tests"
fi

# ---- Debian

shopt -s nullglob
debs=("$dist"/*_amd64.deb)
as_root=()
[ "$(id -u)" = 0 ] || as_root=(fakeroot)
if [ ${#debs[@]} = 0 ] || ! has dpkg || ! has "${as_root[@]:-env}"; then
    say "left out Debian's packages, as there is no dpkg, or no fakeroot"
else
    if has lintian; then
        lintian --allow-root --fail-on error,warning "$dist"/*.deb >"$made/out" 2>&1 || fail "lintian: $(cat "$made/out")"
        say "Debian's packages: nothing by lintian but what their notes explain"
    else
        say "left out: no lintian"
    fi
    root=$made/root
    mkdir -p "$root/var/lib/dpkg/updates" "$root/var/lib/dpkg/info"
    touch "$root/var/lib/dpkg/status"
    dpkg_in() {
        PATH=$PATH:/usr/sbin:/sbin "${as_root[@]}" dpkg --root="$root" --log=/dev/null --force-depends "$@" >"$made/out" 2>&1
    }
    dpkg_in --install "${debs[@]}" || fail "dpkg: $(cat "$made/out")"
    beside=$root/usr/bin:
    check_programs
    beside=
    library=$root/usr/lib/x86_64-linux-gnu
    if has gcc && has pkg-config; then
        planner_in_c "$made/deb" PKG_CONFIG_SYSROOT_DIR="$root" PKG_CONFIG_LIBDIR="$library/pkgconfig"
        check_planner env LD_LIBRARY_PATH="$library" "$made/deb/planner"
    fi
    if has gcc && has cmake; then
        # In a root of Debian lib is a link, and cmake may come by it.
        ln -s usr/lib "$root/lib"
        bare cmake -S "$made/cmake" -B "$made/cmake/deb" -DCMAKE_PREFIX_PATH="$root" >"$made/out" \
            && bare cmake --build "$made/cmake/deb" >>"$made/out" || fail "cmake over Debian's packages: $(cat "$made/out")"
        rm "$root/lib"
    fi
    mapfile -t names < <(printf '%s\n' "${debs[@]}" | xargs -n 1 basename | cut -d_ -f1)
    dpkg_in --purge "${names[@]}" || fail "dpkg --purge: $(cat "$made/out")"
    [ -z "$(find "$root" -path "$root/var" -prune -o ! -type d -print)" ] || fail "dpkg --purge leaves files in $root"
    say "Debian's packages: installed into a new root, used as the archive, and purged"
fi

# ---- the same by make install, and the same bytes again

listed() { (cd "$1" && find . ! -type d | LC_ALL=C sort); }
make --no-print-directory install PREFIX="$made/to" >/dev/null
[ "$(listed "$made/to")" = "$(listed "$unpacked" | grep -v -E '^\./(README|LICENSE-.*)$')" ] \
    || fail "make install has other files: $(diff <(listed "$made/to") <(listed "$unpacked"))"
make --no-print-directory uninstall PREFIX="$made/to" >/dev/null
[ -z "$(listed "$made/to")" ] || fail "make uninstall leaves $(listed "$made/to")"
(umask 077 && TZ=Asia/Tokyo LC_ALL=C.UTF-8 make --no-print-directory dist DIST="$made/again" >/dev/null)
diff -r "$dist" "$made/again" >"$made/out" || fail "a second make dist makes other bytes: $(cat "$made/out")"
say "make install has the files of the archive, make uninstall removes them, and a second make dist makes the same bytes"

# ---- any Linux, and arm64

tests/packages/roots.sh "$dist"
if has_arm64; then
    mkdir "$made/arm64"
    tar -xzf "$dist/refspec-$version-aarch64-linux.tar.gz" -C "$made/arm64" --strip-components=1
    for one in "$made"/arm64/bin/refspec{,_map} "$made/arm64/lib/libgix_refspec.so"; do
        asks_for_none "$one"
    done
    only_six "$made/arm64/lib/libgix_refspec.so"
    if has dpkg-deb && has qemu-aarch64; then
        for deb in "$dist"/*_arm64.deb; do
            dpkg-deb -x "$deb" "$made/debian-arm64"
        done
        [ "$(qemu-aarch64 "$made/debian-arm64/usr/bin/refspec" --version)" = "refspec $version" ] || fail "Debian's refspec for arm64 doesn't run"
        asks_for_none "$made/debian-arm64/usr/lib/aarch64-linux-gnu/libgix_refspec.so.0.3"
    fi
    tests/bindings/arm64.sh "$made/arm64"
elif [ -e out/aarch64/lib/libgix_refspec.so ]; then
    make --no-print-directory install-lib PREFIX="$made/arm64" BUILT_LIB=out/aarch64/lib >/dev/null
    only_six "$made/arm64/lib/libgix_refspec.so"
    tests/bindings/arm64.sh "$made/arm64"
else
    say "left out arm64, as nothing is built for it"
fi
