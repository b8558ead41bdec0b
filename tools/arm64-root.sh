#!/bin/bash
# Unpacks from Debian 12 what tests/bindings/arm64.sh runs Python with: tools/arm64-root.sh [PACKAGE..]
#
# Nothing is installed, and the lists of apt stay as they are. Into gix_refspec/debian-arm64 of the user's cache go the C library,
# Python with ctypes, and what PACKAGE names: libstd-rust-dev is the standard library for arm64 of Debian's Rust. It isn't in this
# folder, as these packages have links, which rt refuses.
set -eu -o pipefail
folder=${XDG_CACHE_HOME:-~/.cache}/gix_refspec/debian-arm64
packages=(libc6 libffi8 zlib1g libexpat1 libpython3.11-minimal libpython3.11-stdlib python3.11-minimal "$@")
made=$(mktemp -d)
trap 'rm -rf "$made"' EXIT
mkdir -p "$folder" "$made/lists/partial" "$made/cache/archives/partial"
chmod 755 "$made"
apt() {
    apt-get -q -o APT::Architecture=arm64 -o APT::Architectures=arm64 -o Dir::State::lists="$made/lists" -o Dir::Cache="$made/cache" \
        -o APT::Sandbox::User=root -o Acquire::Languages=none "$@"
}
apt update
(cd "$made" && apt download "${packages[@]}")
for package in "$made"/*.deb; do
    dpkg -x "$package" "$folder"
done
