#!/bin/bash
# Builds the original crate behind the commands of refspec_map, as README.md beside this script says:
#   tools/oracle/build.sh SOURCE FOLDER [--stand-ins]
# SOURCE is the original's or bindings/rust/gix-refspec, which has the same interface. With the environment variable GIX_REFSPEC_FOLDER,
# which names a folder with lib/libgix_refspec.a, it builds versus too, beside the original. The tests of the interface and the examples of
# bindings/rust/gix-refspec come with either, for `cargo test -p gix-refspec` in FOLDER.
set -euo pipefail
here=$(cd "$(dirname "$0")" && pwd)
registry=/usr/share/cargo/registry # of Debian's packages

fail() {
    echo "build: $*" >&2
    exit 1
}

[ $# -ge 2 ] || fail "usage: tools/oracle/build.sh SOURCE FOLDER [--stand-ins]"
[ -e "$1/src/lib.rs" ] || fail "no source of gix-refspec in $1: it has no src/lib.rs"
command -v cargo >/dev/null || fail "the command cargo is missing"
source=$(cd "$1" && pwd)
folder=$2
mode=${3:-}
mkdir -p "$folder"
folder=$(cd "$folder" && pwd)

# What the crate asks for of another one: the line `version = ".."` of its table in a published Cargo.toml.
version_asked() {
    sed -n "/^\[dependencies\.$1\]/,/^$/s/^version = \"\(.*\)\"/\1/p" "$source/Cargo.toml"
}

# The version of a Debian package's crate, or any.
version_here() {
    local found
    found=$(find "$registry" -maxdepth 1 -name "$1-[0-9]*" 2>/dev/null | sort | tail -1)
    [ -n "$found" ] && echo "=${found##*/"$1"-}" || echo "*"
}

package() { # name, edition, dependencies
    printf '[package]\nname = "%s"\nversion = "0.0.1"\nedition = "%s"\n\n[dependencies]\n%s\n' "$@"
}

rm -rf "$folder"/{gix-refspec,gix-hash,gix-validate,refspec_rust,crate_bench,versus,.cargo}
mkdir -p "$folder/refspec_rust/src"
cp -R "$source" "$folder/gix-refspec"
cp "$here/refspec_rust/main.rs" "$folder/refspec_rust/src/"
members='"gix-refspec", "refspec_rust"'
bindings=$here/../../bindings/rust
mkdir -p "$folder/gix-refspec/tests"
cp "$bindings/gix-refspec/tests/interface.rs" "$folder/gix-refspec/tests/"
"$here/examples.py" "$bindings/gix-refspec/src" >"$folder/gix-refspec/tests/examples.rs"
sys="gix-refspec-sys = { path = \"$bindings/gix-refspec-sys\" }"
is_ours() { grep -q gix-refspec-sys "$source/Cargo.toml" 2>/dev/null; }

if [ "$mode" = --stand-ins ]; then
    bstr="bstr = { version = \"$(version_here bstr)\", default-features = false, features = [\"std\"] }"
    hash='gix-hash = { path = "../gix-hash" }'
    validate='gix-validate = { path = "../gix-validate" }'
    for crate in gix-hash gix-validate; do
        mkdir -p "$folder/$crate/src"
        cp "$here/stand-ins/$crate.rs" "$folder/$crate/src/lib.rs"
        members="$members, \"$crate\""
    done
    package gix-hash 2021 "" >"$folder/gix-hash/Cargo.toml"
    package gix-validate 2021 "$bstr" >"$folder/gix-validate/Cargo.toml"
    others="smallvec = \"$(version_here smallvec)\""$'\n'"thiserror = \"$(version_here thiserror)\""
    ! is_ours || others=$sys
    package gix-refspec 2024 "$bstr"$'\n'"$hash"$'\n'"$validate"$'\n'"$others" >"$folder/gix-refspec/Cargo.toml"
    if [ -d "$registry" ]; then
        mkdir -p "$folder/.cargo"
        printf '[source.crates-io]\nreplace-with = "debian"\n[source.debian]\ndirectory = "%s"\n[net]\noffline = true\n' \
            "$registry" >"$folder/.cargo/config.toml"
    fi
else
    [ -e "$source/Cargo.toml" ] || fail "$source has no Cargo.toml: give --stand-ins"
    bstr="bstr = \"$(version_asked bstr)\""
    hash="gix-hash = \"$(version_asked gix-hash)\""
    validate="gix-validate = \"$(version_asked gix-validate)\""
fi

package refspec_rust 2021 "gix-refspec = { path = \"../gix-refspec\" }"$'\n'"$hash"$'\n'"$bstr" \
    >"$folder/refspec_rust/Cargo.toml"
mkdir -p "$folder/crate_bench/src"
cp "$here/../bench/crate.rs" "$folder/crate_bench/src/main.rs"
package crate_bench 2021 "gix-refspec = { path = \"../gix-refspec\" }"$'\n'"$hash"$'\n'"$bstr" >"$folder/crate_bench/Cargo.toml"
members="$members, \"crate_bench\""
if [ -n "${GIX_REFSPEC_FOLDER:-}" ] && ! is_ours; then
    mkdir -p "$folder/versus/src"
    cp "$here"/versus/*.rs "$here/rows" "$folder/versus/src/"
    sed -n 's/^\([A-Z]*\) = \("it .*"\)$/pub const \1: \&str = \2;/p' "$here/known.py" >"$folder/versus/src/kinds.rs"
    package versus 2021 "$(printf '%s\n' 'gix-refspec = { path = "../gix-refspec" }' "$hash" "$validate" "$bstr" "$sys")" \
        >"$folder/versus/Cargo.toml"
    members="$members, \"versus\""
fi
printf '[workspace]\nresolver = "2"\nmembers = [%s]\n\n[profile.release]\nopt-level = 3\n' "$members" >"$folder/Cargo.toml"
(cd "$folder" && cargo build --release --quiet) || fail "cargo built nothing in $folder"
echo "built: $folder/target/release/refspec_rust"
