#!/usr/bin/env bash
# Installs each package of a release in a clean Debian without the Rattle kit, and tries it there.
#
#     release/test.sh [--out DIR] [--root TAR] [--suite NAME] [--languages] [--arch arm64] [tarball] [deb] [wheel] [node]
#
# It takes the packages of DIR, release/out unless given. For each it unpacks a clean Debian, installs the package by README.md's lines,
# and runs there each command that README.md shows, the man pages, a completion, and the C and the Python sample against the installed
# library. The Go and the Rust sample are tried where the root has a compiler for them, and else named as skipped: --languages makes a root
# with those of Debian. The root is of the suite bookworm unless --suite names another one: the Rust sample needs the rustc 1.85 of
# --suite trixie. Where lintian is installed, it runs without a message, and finds no fault in the Debian package but that no licence is
# granted.
#
# The package for Node is tried here, where node and npm are, by tests/process/node_package.py.
#
# --arch arm64 tries the packages for arm64: in a Debian for x86-64 with the C library for arm64 besides, where the kernel has qemu-aarch64
# run the program (binfmt_misc). So all but the program runs natively: the wheel is installed without asking pip whether it fits, and of
# the samples the one in C is tried, by Debian's cross compiler.
#
# It runs as root, and needs mmdebstrap and a mirror of Debian: about 150 megabytes, and two to eight minutes to make the root. --root TAR
# keeps the root for the next time, and takes a TAR that is there as it is. The script takes a gigabyte of /tmp while it runs, two with
# --languages, and a minute a package.
#
# The last line is 'N passed, M failed', with ', K skipped' after it where a package has no library or the root no compiler.
set -euo pipefail

HERE=$(cd "$(dirname "$0")" && pwd)
ROOT=$(dirname "$HERE")
OUT=$HERE/out TAR='' NAMES='' ARCH=amd64
HOLDS=python3,python3-venv,gcc,libc6-dev,pkg-config,man-db,bsdextrautils,bash-completion
SUITE=bookworm

while [ $# -gt 0 ]; do
    case $1 in
        --out) OUT=$2; shift ;;
        --root) TAR=$2; shift ;;
        --suite) SUITE=$2; shift ;;
        --arch) ARCH=$2; shift ;;
        --languages) HOLDS=$HOLDS,golang-go,rustc ;;
        tarball | deb | wheel | node) NAMES="$NAMES $1" ;;
        *) sed -n '2,4p' "$0" >&2; exit 2 ;;
    esac
    shift
done

fail() {
    echo "release/test.sh: $*" >&2
    exit 1
}
case $ARCH in
    amd64) MACHINE=x86_64 MORE=() ;;
    arm64)
        MACHINE=aarch64 MORE=("--architectures=amd64,arm64")
        HOLDS=$HOLDS,qemu-user,libc6:arm64,gcc-aarch64-linux-gnu,libc6-dev-arm64-cross
        ;;
    *) fail "the packages are for amd64 and arm64, and not for $ARCH" ;;
esac
[ "$(id -u)" = 0 ] || fail "run it as root"
command -v mmdebstrap > /dev/null || fail "mmdebstrap is missing: apt-get install mmdebstrap"
[ -f "$OUT/SHA256SUMS" ] || fail "no packages in $OUT: release/build.sh makes them"
(cd "$OUT" && sha256sum --quiet -c SHA256SUMS) || fail "the packages in $OUT are not those of its SHA256SUMS"

ls "$OUT"/*"_$ARCH.deb" > /dev/null 2>&1 || fail "no packages for $ARCH in $OUT"

ROOM=$(mktemp -d)
BOUND='' FORMATS=/proc/sys/fs/binfmt_misc REGISTERED='' MOUNTED=''
clean() {
    [ -z "$BOUND" ] || umount "$BOUND" 2> /dev/null || true
    [ -z "$REGISTERED" ] || echo -1 > "$REGISTERED" || true
    [ -z "$MOUNTED" ] || umount "$MOUNTED" 2> /dev/null || true
    rm -rf --one-file-system "$ROOM"
}
trap clean EXIT
# Has the kernel run programs for arm64 by the qemu-aarch64 of the root that they are in.
if [ "$ARCH" = arm64 ]; then
    if [ ! -e $FORMATS/register ]; then
        mount -t binfmt_misc binfmt_misc $FORMATS || fail "the kernel has no binfmt_misc"
        MOUNTED=$FORMATS
    fi
    if ! grep -qsx 'interpreter .*qemu-aarch64.*' $FORMATS/*; then
        FIRST='\x7fELF\x02\x01\x01\x00\x00\x00\x00\x00\x00\x00\x00\x00\x02\x00\xb7\x00'
        WHICH='\xff\xff\xff\xff\xff\xff\xff\x00\xff\xff\xff\xff\xff\xff\xff\xff\xfe\xff\xff\xff'
        echo ":causal_judge_arm64:M::$FIRST:$WHICH:/usr/bin/qemu-aarch64:" > $FORMATS/register
        REGISTERED=$FORMATS/causal_judge_arm64
    fi
fi
[ -n "$TAR" ] || TAR=$ROOM/root.tar
if [ ! -f "$TAR" ]; then
    echo "a clean Debian $SUITE with $HOLDS .."
    mmdebstrap --quiet --format=tar --variant=minbase "${MORE[@]}" --include="$HOLDS" "$SUITE" "$TAR.part" && mv "$TAR.part" "$TAR"
fi

PASSED=0 FAILED=0 SKIPPED=0
# Adds the counts of a line 'N passed, M failed[, K skipped]'; any other line is a failure.
add() {
    if [[ $1 =~ ^([0-9]+)\ passed,\ ([0-9]+)\ failed(,\ ([0-9]+)\ skipped)?$ ]]; then
        PASSED=$((PASSED + BASH_REMATCH[1])) FAILED=$((FAILED + BASH_REMATCH[2])) SKIPPED=$((SKIPPED + ${BASH_REMATCH[4]:-0}))
    else
        FAILED=$((FAILED + 1))
    fi
}

# Tries the package for Node as npm installs it, beside the program of the tarball.
try_node() {
    local package line
    if ! package=$(compgen -G "$OUT/causal-judge-*.tgz"); then
        echo "node: skipped: no package for Node"
        add "0 passed, 0 failed, 1 skipped"
        return
    fi
    mkdir "$ROOM/program" && tar -C "$ROOM/program" --strip-components 2 -xzf "$OUT"/*-x86_64-linux.tar.gz --wildcards '*/bin/causal_judge'
    python3 "$ROOT/tests/process/node_package.py" --package "$package" -- "$ROOM/program/causal_judge" > "$ROOM/said" 2>&1 || true
    sed '$d' "$ROOM/said"
    line=$(tail -1 "$ROOM/said")
    echo "node: $line"
    add "$line"
}

[ -n "$NAMES" ] || if [ "$ARCH" = amd64 ]; then NAMES="tarball deb wheel node"; else NAMES="tarball deb wheel"; fi
for name in $NAMES; do
    if [ "$name" = node ]; then
        try_node
        continue
    fi
    below=$ROOM/$name
    mkdir "$below"
    tar -C "$below" --numeric-owner -xf "$TAR"
    echo "$name: in $(sed -n 's/^PRETTY_NAME="\(.*\)"/\1/p' "$below/usr/lib/os-release")"
    mkdir -p "$below/given/packages" "$below/proc"
    cp "$OUT"/*"-$MACHINE-linux.tar.gz" "$OUT"/*"_$ARCH.deb" "$OUT"/*"_$MACHINE.whl" "$below/given/packages"
    cp -r "$ROOT/tests" "$HERE/inside.sh" "$below/given"
    # (a line of README.md may name the processor, or ask which it is)
    python3 "$ROOT/tests/process/documents.py" --installs "$name" |
        sed -e "s/x86_64\|\$(uname -m)/$MACHINE/g" -e "s/amd64\|\$(dpkg --print-architecture)/$ARCH/g" > "$below/given/install.$name"
    if mount -t proc proc "$below/proc" 2> /dev/null; then BOUND=$below/proc; fi
    chroot "$below" /usr/bin/env -i PATH=/usr/local/bin:/usr/bin:/usr/sbin:/bin:/sbin \
        bash /given/inside.sh "$name" "$(cat "$ROOT/VERSION")" "$MACHINE" < /dev/null > "$ROOM/said" 2>&1 || true
    if [ -n "$BOUND" ]; then umount "$BOUND"; BOUND=; fi
    sed '$d' "$ROOM/said"
    line=$(tail -1 "$ROOM/said")
    echo "$name: $line"
    add "$line"
    rm -rf --one-file-system "$below"
done

# Whether lintian runs to its end without a message, and finds no tag in the Debian package but the one that is allowed. README.md says why
# it is, and why the overrides in the package name two more, which lintian leaves out by itself.
ALLOWED=copyright-without-copyright-notice
is_clean() {
    local status=0
    lintian --profile debian --fail-on none --allow-root "$OUT"/*"_$ARCH.deb" > "$ROOM/tags" 2> "$ROOM/messages" || status=$?
    sed -i "/^W: causal-judge: $ALLOWED\( .*\)\?\$/d" "$ROOM/tags"
    cat "$ROOM/tags" "$ROOM/messages"
    [ $status = 0 ] || echo "lintian: status $status"
    [ $status = 0 ] && [ ! -s "$ROOM/tags" ] && [ ! -s "$ROOM/messages" ]
}
if command -v lintian > /dev/null; then
    if is_clean; then add "1 passed, 0 failed"; else add "0 passed, 1 failed"; fi
else
    echo "lintian: skipped: apt-get install lintian"
    add "0 passed, 0 failed, 1 skipped"
fi
echo "$PASSED passed, $FAILED failed$([ $SKIPPED = 0 ] || echo ", $SKIPPED skipped")"
[ $FAILED = 0 ]
