#!/bin/bash
# Does what README.md says to type in root folders that have nothing but BusyBox and the package: tests/packages/roots.sh DIST
#
# DIST is what `make dist` made. Then Git is put there, with the libraries that it loads itself, and `git refspec` is run. One root
# is of this processor, with musl's loader for a program that loads the shared library; another is of arm64, whose programs qemu
# runs. Says what it leaves out for want of a tool.
set -eu -o pipefail
cd "$(dirname "${BASH_SOURCE[0]}")/../.."
dist=$(cd "${1:?usage: tests/packages/roots.sh DIST}" && pwd)
version=$(sed -n '/^## /{s/^## //p;q}' CHANGELOG.md)
made=$(mktemp -d)
trap 'rm -rf "$made"' EXIT
say() { echo "roots: $*"; }
fail() { say "$*" >&2; exit 1; }

busybox=$(command -v busybox || true)
if [ -z "$busybox" ] || ldd "$busybox" >/dev/null 2>&1; then
    say "left out, as there is no static BusyBox"
    exit 0
fi
chroot=$(PATH=$PATH:/usr/sbin:/sbin command -v chroot)
if [ "$(id -u)" = 0 ]; then
    enter=("$chroot")
elif unshare -r true 2>/dev/null; then
    enter=("$(command -v unshare)" -r "$chroot")
else
    say "left out, as neither root nor a user namespace is to be had"
    exit 0
fi

# new_root NAME: a root with BusyBox alone, and the tarballs beside the home folder's files.
new_root() {
    mkdir -p "$made/$1"/{bin,tmp,dev,home}
    cp "$busybox" "$made/$1/bin/busybox"
    "${enter[@]}" "$made/$1" /bin/busybox --install -s /bin
    cp "$dist"/refspec-"$version"-*-linux.tar.gz "$made/$1/home"
    mknod -m 666 "$made/$1/dev/null" c 1 3 2>/dev/null || : >"$made/$1/dev/null"
}
# add ROOT PROGRAM..: puts programs of this system there, with the libraries that they load.
add() {
    local file root=$made/$1
    shift
    for file in "$@" $(ldd "$@" | grep -o '/[^ :]*' | sort -u); do
        mkdir -p "$root${file%/*}"
        cp -L "$file" "$root$file"
    done
}
add_git() {
    add "$1" "$(command -v git)"
    mkdir -p "$made/$1$(git --exec-path)"
    for name in git git-upload-pack; do
        ln -sf "$(command -v git)" "$made/$1$(git --exec-path)/$name"
    done
    [ "$(command -v git)" = /usr/bin/git ] || ln -s "$(command -v git)" "$made/$1/bin/git"
    cp -R "$made/remote" "$made/clone" "$made/$1/home"
}
# in_root ROOT SCRIPT: what is typed at home, after what stands in for the processor.
stand_in=:
in_root() { env -i HOME=/home PATH=/usr/bin:/bin GIT_CONFIG_NOSYSTEM=1 "${enter[@]}" "$made/$1" /bin/sh -euc "cd /home; $stand_in; $2"; }
# wants LINES ROOT SCRIPT
wants() {
    local told
    told=$(in_root "$2" "$3" 2>&1) || true
    [ "$told" = "$1" ] || fail "in $2 \`$3\` writes: $told"
}

# The lines of README.md for any Linux.
lines=$(sed -n '/^## Install/,/^## /p' README.md | grep -E '^(tar -xzf refspec-|export PATH=)')
[ "$(wc -l <<<"$lines")" = 2 ] || fail "README.md doesn't say how to install the tarball: $lines"

if command -v git >/dev/null; then
    git_at() { env -i PATH="$PATH" HOME="$made" GIT_CONFIG_NOSYSTEM=1 git -c user.name=a -c user.email=a@b "$@"; }
    git_at init -q -b main "$made/remote"
    git_at -C "$made/remote" commit -q --allow-empty -m one
    git_at clone -q "$made/remote" "$made/clone"
    git_at -C "$made/clone" config remote.origin.url /home/remote
else
    say "left out git refspec, as there is no git"
fi

# check ROOT: what README.md says, in this root.
check() {
    wants "refspec $version" "$1" "$lines
        refspec --version"
    wants '+HEAD:refs/remotes/origin/HEAD' "$1" "$lines
        refspec canon +@:refs/remotes/origin/HEAD"
    wants 'ok main' "$1" "$lines
        echo main | refspec_map canon fetch"
    command -v git >/dev/null || return 0
    add_git "$1"
    wants 'status 0' "$1" "$lines
        cd clone; git refspec check; echo status \$?"
    wants '+refs/heads/*:refs/remotes/origin/* (configured)
  refs/heads/main  refs/remotes/origin/main' "$1" "$lines
        cd clone; git refspec plan"
    wants 'file:.git/config: remote.origin.fetch: refs/heads/a..b: A ref name must not have two dots in a row.' "$1" "$lines
        cd clone; git config remote.origin.fetch refs/heads/a..b; git refspec check 2>&1 | head -n 1"
}

new_root bare
check bare
say "the tarball in a root of its own, by README.md's lines$(command -v git >/dev/null && echo ', and git refspec beside Git')"

# ---- musl: a program that loads the shared library, and a static one

loader=/lib/ld-musl-x86_64.so.1
if ! command -v musl-gcc >/dev/null || [ ! -e $loader ]; then
    say "left out musl, as there is no musl-gcc or no loader"
else
    new_root musl
    check musl
    mkdir -p "$made/musl/lib"
    cp -L $loader "$made/musl/lib"
    folder=$made/musl/home/refspec-$version-x86_64-linux
    musl-gcc -O1 -I"$folder/include" -o "$made/musl/bin/planner" bindings/c/examples/planner.c -L"$folder/lib" -lgix_refspec
    musl-gcc -O1 -I"$folder/include" -static -o "$made/musl/bin/planner-static" bindings/c/examples/planner.c "$folder/lib/libgix_refspec.a"
    for planner in planner planner-static; do
        wants $'force\trefs/heads/main\trefs/x/main' musl "printf '1\trefs/heads/main\n' \
            | LD_LIBRARY_PATH=/home/${folder##*/}/lib $planner '+refs/heads/*:refs/x/*'"
    done
    musl-gcc -std=gnu11 -O1 -I"$folder/include" -Wl,--wrap=malloc,--wrap=realloc -static -o "$made/musl/bin/calls" \
        tests/bindings/bindings.c "$folder/lib/libgix_refspec.a" -pthread
    in_root musl calls || fail "the calls from C"
    say "musl: the tarball, a planner in C by the shared and by the static library, and the calls from C"
fi

# ---- arm64: qemu runs its programs

if [ ! -e "$dist/refspec-$version-aarch64-linux.tar.gz" ] || ! command -v qemu-aarch64 >/dev/null; then
    say "left out arm64, as there is no tarball for it, or no qemu-aarch64"
else
    new_root arm64
    stand_in='uname() { echo aarch64; }'
    add arm64 "$(command -v qemu-aarch64)"
    # What the line unpacks, unpacked before; then the line keeps its programs.
    in_root arm64 "${lines%%$'\n'*}"
    lines=${lines#*$'\n'}
    for program in "$made"/arm64/home/refspec-*-aarch64-linux/bin/refspec{,_map}; do
        mv "$program" "$program.arm64"
        printf '#!/bin/sh\nexec %s -0 "%s" "$0.arm64" "$@"\n' "$(command -v qemu-aarch64)" "${program##*/}" >"$program"
        chmod +x "$program"
    done
    check arm64
    say "arm64: the tarball in a root of its own, by README.md's lines"
fi
