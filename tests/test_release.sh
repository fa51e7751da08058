#!/bin/bash
# Tests bin/release: makes a release twice, in two checkouts, and compares the bytes. Then it is a
# user of it, in an empty root: one that has /usr, /etc, /dev and /proc of this machine and the
# folder of this test, and no kit, no repository, no home, no network and no variable but PATH.
# There it unpacks the archive and runs what README.md and the tutorial say, the manual, and the
# examples in C and Python; lays the packages over /usr, and does what docs/install.md says; runs
# the wheel; and builds the Rust crate by its path. Where this machine lets nobody mount, it runs
# all of it without the root.
#
#     tests/test_release.sh [LOG]
#
# LOG is what .ci/run printed, out/ci.log if it isn't given. If cmark-gfm is missing, it is
# installed from Debian's packages; if that can't be done, one line says that the test is left out.
set -euo pipefail
root=$(dirname "$(dirname "$(readlink -f "$0")")")
log=$(readlink -f "${1-$root/out/ci.log}")
work=$(mktemp -d)
trap 'rm -rf "$work"' EXIT

say() {
    printf 'release: %s\n' "$*"
}

# Fails where a program doesn't print what this file of the repository has.
prints() {
    local wanted=$root/$1
    shift
    diff "$wanted" <("$@") >&2 || { say "$* doesn't print $wanted"; exit 1; }
}

# What a process does that is to be in an empty root: its arguments are the test's folder, folders
# that lie over /usr or nothing, that of Rust's tools, where to run, and the command.
enter='
    set -e
    work=$1 over=$2 rust=$3 at=$4
    shift 4
    mount -t tmpfs none "$work/root"
    cd "$work/root"
    mkdir -p usr etc dev proc tmp rust ".$work"
    for name in bin lib lib64 sbin; do
        ln -s "usr/$name" "$name"
    done
    if [ -n "$over" ]; then
        mount -t overlay none -o "lowerdir=$over:/usr" usr
    else
        mount --bind /usr usr
    fi
    for name in etc dev proc; do
        mount --rbind "/$name" "$name"
    done
    mount --bind "$rust" rust
    mount --bind "$work" ".$work"
    exec /usr/sbin/chroot . sh -c "cd \"\$1\"; shift; exec \"\$@\"" sh "$at" "$@"
'

# Runs a command with no variable but PATH, and in an empty root, if this machine lets us.
plain() {
    if [[ -n $hides ]]; then
        env -i PATH=/usr/bin:/bin:/rust/bin unshare --mount --net \
            sh -c "$enter" sh "$work" "$over" "$rust" "$PWD" "$@"
    else
        env -i PATH=/usr/bin:/bin "$@"
    fi
}

make_twice() {
    "$root/bin/release" --log "$log" "$work/one"
    git clone -q "$root" "$work/clone"
    for file in mntgate/out/mntgate mntgate_c/out/libmntgate_c.a mntgate_c/out/heap.a; do
        install -D "$root/crates/$file" "$work/clone/crates/$file"
    done
    (umask 077; TZ=Asia/Tokyo LC_ALL=C "$work/clone/bin/release" --log "$log" "$work/two")
    diff -r "$work/one" "$work/two"
    (cd "$work/one" && sha256sum --check --quiet SHA256SUMS)
}

# The commands of these pages, as they stand, in the folder of the archive.
type_pages() {
    mkdir -p "$work/pages"
    cp -r "$root"/{tests,docs,README.md} "$work/pages"
    plain python3 -B "$work/pages/tests/test_pages.py" --in "$PWD" "$@"
}

completes() {
    local wanted=$1
    shift
    local COMP_WORDS=("$@") COMP_CWORD=$(($# - 1)) COMPREPLY
    # Out of a completion there is no `compopt`.
    _mntgate || true
    if [[ ${COMPREPLY[*]} != "$wanted" ]]; then
        say "bash completes $* to ${COMPREPLY[*]}, and not to $wanted"
        exit 1
    fi
}

use_completions() {
    source "$1"
    completes replay mntgate rep
    completes --no-reduction mntgate outcomes --no
    completes kernel mntgate replay --names k
    completes trysnapshot mntgate explain trysn
    completes examples/waiting.schedule mntgate replay examples/wai
    completes examples mntgate outcomes --save exam
}

use_archive() {
    tar xf "$work"/one/mntgate-*.tar.xz -C "$work"
    cd "$work"/mntgate-*-linux
    if ! diff <(plain bin/mntgate --version) - <<END >&2; then
mntgate $(sed -n 's/^Version: //p' lib/pkgconfig/mntgate.pc)
commit $(git -C "$root" rev-parse HEAD), proved by $(sed -n 's/^kit  *//p' PROOF.txt)
END
        say "--version names another commit or kit"
        exit 1
    fi
    type_pages README.md docs/tutorial.md
    plain man --pager=cat -l share/man/man1/mntgate.1 >/dev/null
    plain man --pager=cat -M "$PWD/share/man" 3 mntgate_split >/dev/null
    plain env PKG_CONFIG_PATH="$PWD/lib/pkgconfig" \
        sh -c 'gcc -o first bindings/c/examples/first.c $(pkg-config --cflags --libs mntgate)'
    prints bindings/c/examples/first.stdout plain env LD_LIBRARY_PATH="$PWD/lib" ./first
    prints bindings/python/examples/backup.stdout \
        plain python3 -B bindings/python/examples/backup.py
    use_completions share/bash-completion/completions/mntgate
    ! command -v zsh >/dev/null || zsh -n share/zsh/site-functions/_mntgate
    "$root/tests/test_pages.py" "$PWD/bin/mntgate"
}

use_packages() {
    local package
    for package in "$work"/one/*.deb; do
        dpkg-deb -x "$package" "$work/packed"
        dpkg-deb -e "$package" "$work/control"
        (cd "$work/packed" && md5sum --check --quiet "$work/control/md5sums")
    done
    [[ -n $hides ]] || return 0
    cd "$work"
    over=$work/packed/usr
    plain mntgate replay /usr/share/doc/mntgate/examples/waiting.schedule >/dev/null
    plain man --pager=cat mntgate >/dev/null
    plain man --pager=cat mntgate_split >/dev/null
    plain sh -c 'gcc -o first /usr/share/doc/libmntgate-dev/examples/first.c \
        $(pkg-config --cflags --libs mntgate)'
    prints bindings/c/examples/first.stdout plain ./first
}

use_wheel() {
    mkdir "$work/wheel"
    cd "$work/wheel"
    plain python3 -m zipfile -e "$work"/one/*.whl .
    cp "$root"/bindings/python/examples/*.py .
    prints bindings/python/examples/backup.stdout plain env PYTHONPATH=. python3 -B backup.py
    prints bindings/python/examples/remount.stdout plain env PYTHONPATH=. python3 -B remount.py
}

use_crate() {
    cp -r "$work/one/rust/mntgate" "$work/crate"
    cd "$work/crate"
    plain env PATH="/rust/bin:$rust/bin:/usr/bin:/bin" CARGO_HOME="$work/cargo" \
        CARGO_TARGET_DIR="$work/target" cargo build --offline --quiet --example first
    prints bindings/c/examples/first.stdout plain "$work/target/debug/examples/first"
}

if ! command -v cmark-gfm >/dev/null; then
    { apt-get install -y -qq cmark-gfm ||
        { apt-get update -qq && apt-get install -y -qq cmark-gfm; }; } >/dev/null 2>&1 || true
fi
for tool in cmark-gfm dpkg-deb xz; do
    if ! command -v "$tool" >/dev/null; then
        say "$tool is missing here, so no release is made: left out"
        exit 0
    fi
done
mkdir "$work/root"
over=
rust=$(rustc --print sysroot)
hides=
if unshare --mount --net mount -t tmpfs none "$work/root" 2>/dev/null; then
    hides=yes
else
    say "nobody may mount here, so all of it runs without an empty root"
fi
say "makes it twice, in two folders, and compares the bytes"
make_twice
say "uses the archive: program, the tutorial, manual, C, Python, completions, the pages' commands"
(use_archive)
say "uses the packages"
(use_packages)
say "uses the wheel"
(use_wheel)
say "uses the Rust crate"
(use_crate)
say "all passed"
