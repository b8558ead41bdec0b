#!/bin/bash
# Makes the packages of what was proved and built: tools/dist.sh FOLDER VERSION C_VERSION SONAME PROCESSOR..
#
# Into FOLDER go for each processor, x86_64 or aarch64, a tarball for Linux, three packages for Debian and a wheel for Python; and
# the crates in Rust, the sources, the page of the release, and a list of checksums. `make install` says what is in them; the
# programs are those of out/PROCESSOR, which need no library. SOURCE_DATE_EPOCH is the time of each file, so that two runs make
# the same bytes. Says what it leaves out for want of a tool.
set -eu -o pipefail
cd "$(dirname "${BASH_SOURCE[0]}")/.."
usage="usage: tools/dist.sh FOLDER VERSION C_VERSION SONAME PROCESSOR.."
folder=${1:?$usage} version=${2:?$usage} c_version=${3:?$usage} soname=${4:?$usage}
processors=("${@:5}")
export SOURCE_DATE_EPOCH=${SOURCE_DATE_EPOCH:?} LC_ALL=C TZ=UTC
umask 022
mkdir -p "$folder"
folder=$(cd "$folder" && pwd)
rm -f "$folder"/*.{tar.gz,whl,crate,deb} "$folder"/{README,SHA256SUMS}
made=$(mktemp -d)
trap 'rm -rf "$made"' EXIT

library_of() { [ "$1" = x86_64 ] && echo out/lib || echo "out/$1/lib"; }
install_below() {
    make --no-print-directory install DESTDIR="$made/$2" PROGRAMS="out/$1/refspec out/$1/refspec_map" \
        BUILT_LIB="$(library_of "$1")" "${@:3}" >/dev/null
}
set_times() { find "$1" -exec touch -h -d "@$SOURCE_DATE_EPOCH" {} +; }
# tarball NAME TAR_WORD..: makes NAME.tar.gz, with the same bytes from the same files.
tarball() {
    tar -c --sort=name --format=gnu --owner=0 --group=0 --numeric-owner --mtime="@$SOURCE_DATE_EPOCH" --mode=u=rwX,go=rX "${@:2}" \
        | gzip -9n >"$folder/$1.tar.gz"
    say "$1.tar.gz"
}
say() { echo "dist: $1"; }

# The tarballs: below one folder, and found from where that lies.
for processor in "${processors[@]}"; do
    name=refspec-$version-$processor-linux
    install_below "$processor" "$processor" PREFIX="/$name" PC_PREFIX='$${pcfiledir}/../..'
    cp packaging/README LICENSE-MIT LICENSE-APACHE "$made/$processor/$name"
    tarball "$name" -C "$made/$processor" "$name"
done

# What links the programs with another C library, as the licence of the one in them asks for; and the sources.
name=refspec-$version-objects
for processor in "${processors[@]}"; do
    mkdir -p "$made/objects/$name/$processor"
    cp "out/$processor"/objects/*.o "$made/objects/$name/$processor"
done
tarball "$name" -C "$made/objects" "$name"
name=refspec-$version-source
if git rev-parse --is-inside-work-tree >/dev/null 2>&1; then
    git -c tar.umask=022 archive --prefix="$name/" HEAD | gzip -9n >"$folder/$name.tar.gz"
    say "$name.tar.gz"
else
    say "left out the sources, as this is no clone"
fi

# The wheels, and the sources in Python.
libraries=()
for processor in "${processors[@]}"; do
    libraries+=("$(find "$made/$processor" -name "libgix_refspec.so.$c_version")")
done
say "$(python3 -B bindings/python/build_backend.py "${libraries[@]}" "$folder" | paste -sd ' ')"

# The crates, with a copy of each static library.
if ! command -v cargo >/dev/null; then
    say "left out the crates, as there is no cargo"
else
    mkdir "$made/rust"
    cp -R bindings/rust/{Cargo.toml,gix-refspec-sys,refspec} "$made/rust"
    for processor in "${processors[@]}"; do
        mkdir -p "$made/rust/gix-refspec-sys/vendored/$processor"
        cp "$(library_of "$processor")/libgix_refspec.a" "$made/rust/gix-refspec-sys/vendored/$processor"
    done
    cargo package --manifest-path "$made/rust/Cargo.toml" --workspace --no-verify --offline --allow-dirty \
        --target-dir "$made/crates" >"$made/cargo" 2>&1 || { cat "$made/cargo" >&2; exit 1; }
    cp "$made"/crates/package/*.crate "$folder"
    say "$(cd "$folder" && echo *.crate)"
fi

# ---- Debian's packages. What is installed goes to the folders of three, each with its own documents.

maintainer="The Jerseydate maintainers <maintainers@users.noreply.jerseydate.example>"
package=libgix-refspec${soname#libgix_refspec.so.}

# The kilobytes of a folder, as Debian counts them: each file's own, and one for anything else.
size_of() { find "$1" -printf '%y %s\n' | awk '{ sum += $1 == "f" ? int(($2 + 1023) / 1024) : 1 } END { print sum }'; }

# move PACKAGE PATH: what is installed there goes to the folder of a package.
move() {
    mkdir -p "$(dirname "$root/$1/usr/$2")"
    mv "$root/installed/usr/$2" "$root/$1/usr/$2"
}

# debian PACKAGE NAME: makes the package of its folder, with the control file and the notes to lintian of this name.
debian() {
    local at=$root/$1 documents=$root/$1/usr/share/doc/$1
    mkdir -p "$at/DEBIAN" "$documents"
    sed -e '/^@MIT@$/{' -e "r $made/mit" -e 'd;}' packaging/debian/copyright >"$documents/copyright"
    printf '%s (%s) unstable; urgency=medium\n\n  * As the sources say in CHANGELOG.md.\n\n -- %s  %s\n' \
        "$1" "$version" "$maintainer" "$(date -R -d "@$SOURCE_DATE_EPOCH")" | gzip -9n >"$documents/changelog.gz"
    if [ -e "packaging/debian/$2.overrides" ]; then
        mkdir -p "$at/usr/share/lintian/overrides"
        sed "s/@LIBRARY@/$package/" "packaging/debian/$2.overrides" >"$at/usr/share/lintian/overrides/$1"
    fi
    {
        sed -n 1p "packaging/debian/$2.control"
        printf 'Version: %s\nArchitecture: %s\nMaintainer: %s\nPriority: optional\nInstalled-Size: %s\n' \
            "$version" "$architecture" "$maintainer" "$(size_of "$at/usr")"
        sed 1d "packaging/debian/$2.control"
    } | sed -e "s/@LIBRARY@/$package/" -e "s/@VERSION@/$version/" | only "$architecture" >"$at/DEBIAN/control"
    (cd "$at" && find usr -type f -print0 | sort -z | xargs -0 md5sum) >"$at/DEBIAN/md5sums"
    set_times "$at"
    dpkg-deb --root-owner-group -Zxz --build "$at" "$folder/$1_${version}_$architecture.deb" >/dev/null
    say "$1_${version}_$architecture.deb"
}

# only ARCHITECTURE: the lines without one in front, and those of this one.
only() { sed -e "s/^\[$1\]//" -e '/^\[/d'; }

# three_debians PROCESSOR ARCHITECTURE: the three packages for a processor, whose name for Debian is the second.
three_debians() {
    local root=$made/debian-$1 architecture=$2 triplet=$1-linux-gnu tools='' one
    [ "$1" = x86_64 ] || tools=$triplet-
    install_below "$1" "debian-$1/installed" PREFIX=/usr LIBDIR="lib/$triplet" ZSH_FOLDER=share/zsh/vendor-completions
    for one in "libgix_refspec.so.$c_version" "$soname"; do
        move "$package" "lib/$triplet/$one"
    done
    one=$root/$package/usr/lib/$triplet/libgix_refspec.so.$c_version
    chmod 644 "$one"
    "${tools}strip" --strip-unneeded --remove-section=.comment --remove-section=.note "$one"
    for one in include lib; do
        move libgix-refspec-dev "$one"
    done
    one=$root/libgix-refspec-dev/usr/share/doc/libgix-refspec-dev
    mkdir -p "$one/examples"
    mv "$root/installed/usr/share/doc/gix_refspec/C.md" "$one"
    mv "$root"/installed/usr/share/doc/gix_refspec/*.c "$one/examples"
    rm -r "$root/installed/usr/share/doc/gix_refspec" "$root"/installed/usr/share/doc/refspec/LICENSE-*
    move refspec bin
    move refspec share
    "${tools}strip" --remove-section=.comment --remove-section=.note "$root"/refspec/usr/bin/refspec{,_map}
    gzip -9n "$root"/refspec/usr/share/man/man1/*.1
    mkdir "$root/$package/DEBIAN"
    echo "libgix_refspec ${soname#libgix_refspec.so.} $package (>= $version)" >"$root/$package/DEBIAN/shlibs"
    echo "activate-noawait ldconfig" >"$root/$package/DEBIAN/triggers"
    debian refspec refspec
    debian "$package" library
    debian libgix-refspec-dev libgix-refspec-dev
}

if ! command -v dpkg-deb >/dev/null; then
    say "left out Debian's packages, as there is no dpkg-deb"
else
    sed -n '/^Permission/,$p' LICENSE-MIT | sed -e 's/^/ /' -e 's/^ $/ ./' >"$made/mit"
    for processor in "${processors[@]}"; do
        three_debians "$processor" "$(sed -e s/x86_64/amd64/ -e s/aarch64/arm64/ <<<"$processor")"
    done
fi

install -m 644 packaging/README "$folder"
(cd "$folder" && sha256sum -- * >"$made/sums" && mv "$made/sums" SHA256SUMS)
chmod 644 "$folder"/*
say "README and SHA256SUMS"
