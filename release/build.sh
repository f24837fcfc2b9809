#!/usr/bin/env bash
# Makes the packages of a release, with their sums: a tarball, a Debian package and a Python wheel for x86-64 Linux, and the same for arm64;
# the page for browsers and its module, and the package for Node.
#
#     release/build.sh [--out DIR] [--no-library] [--wasm DIR | --no-wasm] [--arm64 DIR | --no-arm64]
#         [--unproved [--program FILE] [--library FILE]]
#
# It takes the program that ./check left, and the static library that ./check --library (or rt lib, in crates/causal_judge_library) left:
# that proves all that the library stands on once more, which takes about an hour, so this script never does it by itself.
#
# ./check leaves a mark, out/gate, where the whole gate passed at a commit with nothing changed. This script refuses without the mark of
# this commit, and where the program or the library is another one than the mark names. Then --unproved makes packages all the same: the
# file BUILD in each says UNPROVED, and so do their names. --program and --library take other files than those that the gate left.
# --no-library leaves the library, the header and the pkg-config file out, and BUILD says so.
#
# The module and the page are those of DIR, which release/wasm.sh left, or it has that make them; what is for arm64 is that of DIR, which
# release/arm64/build.py left, or it has that make it. Each takes some minutes. Where tools for one are missing, it is left out, and BUILD
# says why.
#
# The same commit and the same files give the same bytes, in any folder: times are those of the commit, files are sorted, and all are
# root's. Needs git, python3, dpkg-deb, help2man, gzip, binutils and, with the library, cc and the Rattle kit. npm makes the package for
# Node.
set -euo pipefail
export LC_ALL=C TZ=UTC
umask 022

HERE=$(cd "$(dirname "$0")" && pwd)
# shellcheck source=release/gate.sh
. "$HERE/gate.sh"
OUT=$HERE/out
PROGRAM=$ROOT/crates/causal_judge/out/causal_judge
LIBRARY=$ROOT/crates/causal_judge_library/out/libcausal_judge_library.a
UNPROVED='' NO_LIBRARY='' IS_OTHER='' WASM='' NO_WASM='' ARM64='' NO_ARM64=''

while [ $# -gt 0 ]; do
    case $1 in
        --out) OUT=$2; shift ;;
        --program) PROGRAM=$2 IS_OTHER=--program; shift ;;
        --library) LIBRARY=$2 IS_OTHER=--library; shift ;;
        --no-library) NO_LIBRARY=yes ;;
        --wasm) WASM=$2; shift ;;
        --no-wasm) NO_WASM='left out by --no-wasm' ;;
        --arm64) ARM64=$2; shift ;;
        --no-arm64) NO_ARM64='left out by --no-arm64' ;;
        --unproved) UNPROVED=yes ;;
        *) sed -n '2,6p' "$0" >&2; exit 2 ;;
    esac
    shift
done

[ -z "$IS_OTHER" ] || [ -n "$UNPROVED" ] || fail "$IS_OTHER goes with --unproved alone"
want "apt-get install git python3 dpkg help2man gzip binutils" git python3 dpkg-deb help2man gzip readelf
[ -x "$PROGRAM" ] || fail "$PROGRAM is missing: ./check leaves it"
if [ -z "$NO_LIBRARY" ] && [ ! -f "$LIBRARY" ]; then
    fail "$LIBRARY is missing: ./check --library builds it, which takes about an hour more; --no-library leaves it out"
fi

SOURCE_DATE_EPOCH=$(git -C "$ROOT" log -1 --format=%ct)
export SOURCE_DATE_EPOCH
SAID=$("$PROGRAM" --version | sed -n 1p)
KIT=$(marked kit)
if [ -n "$UNPROVED" ] && command -v rt > /dev/null; then KIT=$(kit_here); fi

# What the mark lacks, if anything.
doubt() {
    local doubt
    doubt=$(doubt_of_commit)
    if [ -n "$doubt" ]; then echo "$doubt"
    elif [ "$(marked program)" != "$(sum "$PROGRAM")" ]; then echo "the program is not the one that the gate left"
    elif [ -z "$NO_LIBRARY" ] && [ "$(marked library)" != "$(sum "$LIBRARY")" ]; then
        echo "the library is not one that the gate left: ./check --library"
    fi
}

DOUBT=$(doubt)
if [ -n "$DOUBT" ] && [ -z "$UNPROVED" ]; then
    fail "$DOUBT. --unproved makes packages that say so"
fi
# (of an unproved program nothing is claimed, so it may name another kit than that of this machine)
if [ "$SAID" != "causal_judge $VERSION ($KIT)" ] && [[ -z "$UNPROVED" || "$SAID" != "causal_judge $VERSION ("* ]]; then
    fail "VERSION says $VERSION and the kit is ${KIT:-unknown}, and the program says $SAID"
fi
if [ -n "$UNPROVED" ]; then
    NAMED=$VERSION-unproved DEBIAN=$VERSION~unproved WHEEL=$VERSION.dev0+unproved
    PROOF=(--unproved)
else
    NAMED=$VERSION DEBIAN=$VERSION WHEEL=$VERSION
    PROOF=()
fi

ROOM=$(mktemp -d)
trap 'rm -rf "$ROOM"' EXIT
mkdir -p "$OUT"
OUT=$(cd "$OUT" && pwd)
rm -f "$OUT"/causal_judge-*.tar.gz "$OUT"/causal-judge_*.deb "$OUT"/causal_judge-*.whl "$OUT"/causal-judge-*.tgz "$OUT"/causal_judge.html \
    "$OUT"/causal_judge.wasm "$OUT"/SHA256SUMS "$OUT"/BUILD

# One archive of the library with the one C function file that it takes memory by, and a shared object of it.
join_library() {
    local kit room=$ROOM/objects
    kit=$(kit_folder)
    [ -f "$kit/c/liblibc_c.a" ] || fail "the Rattle kit is missing: the library takes memory by its liblibc_c.a"
    mkdir "$room"
    (cd "$room" && ar x "$(realpath "$LIBRARY")" && ar x "$kit/c/liblibc_c.a" heap.pic.o)
    (cd "$room" && ar rcsD "$ROOM/libcausal_judge.a" ./*.o)
    (cd "$room" && cc -shared -s -Wl,--build-id=none -Wl,-soname,libcausal_judge.so -o "$ROOM/libcausal_judge.so" ./*.o)
    chmod 644 "$ROOM/libcausal_judge.a" "$ROOM/libcausal_judge.so"
}

[ -n "$NO_LIBRARY" ] || join_library

# The shared objects that files want of the system, beside those of the C library.
needed() {
    { readelf --dynamic "$@" 2> /dev/null || true; } | sed -n 's/.*(NEEDED).*\[\(.*\)\]/\1/p' |
        { grep -vE '^(libc|libm|libdl|librt|libpthread|ld-linux-x86-64|ld-linux-aarch64)\.so\.' || true; } | sort -u
}
# The least version of the C library that files want, which is 2.17 where they want an older one or none.
least() {
    { readelf --version-info "$@" 2> /dev/null || true; } | sed -n 's/.*GLIBC_\([0-9][0-9.]*\).*/\1/p' |
        { cat; echo 2.17; } | sort -uV | tail -1
}
# Fails where the files of a package want more than the C library.
wants_libc_alone() {
    local more
    more=$(needed "$@" | xargs)
    [ -z "$more" ] || fail "the packages depend on libc6 alone, and the program or the library needs $more"
}
LINKED=("$PROGRAM")
[ -n "$NO_LIBRARY" ] || LINKED+=("$ROOM/libcausal_judge.so")
wants_libc_alone "${LINKED[@]}"

# Whether a folder's BUILD is of this commit, with nothing changed.
is_of_commit() { [ -n "$UNPROVED" ] || grep -qx "commit $COMMIT" "$1/BUILD"; }
# Makes a part of the release in a folder by a command, and says the last line of why it can't.
made_by() {
    local said
    if said=$("$@" 2>&1); then return; fi
    echo "$said" | tail -1
}

# The module and the page for browsers, in $WASM; else NO_WASM says why there are none.
if [ -z "$NO_WASM" ] && [ -z "$WASM" ]; then
    WASM=$ROOM/wasm
    NO_WASM=$(made_by "$HERE/wasm.sh" --out "$WASM" "${PROOF[@]}")
fi
if [ -z "$NO_WASM" ]; then
    for file in causal_judge.wasm causal_judge.html BUILD; do
        [ -f "$WASM/$file" ] || fail "no $file in $WASM: release/wasm.sh makes it"
    done
    is_of_commit "$WASM" || fail "the module in $WASM is not of this commit"
fi
NO_NODE=$NO_WASM
[ -n "$NO_NODE" ] || command -v npm > /dev/null || NO_NODE="npm is missing"

# What is for arm64, in $ARM64; else NO_ARM64 says why there is nothing.
if [ -z "$NO_ARM64" ] && [ -z "$ARM64" ]; then
    ARM64=$ROOM/arm64
    NO_ARM64=$(made_by python3 "$HERE/arm64/build.py" "$ARM64")
fi
if [ -z "$NO_ARM64" ]; then
    for file in causal_judge libcausal_judge.a libcausal_judge.so BUILD; do
        [ -f "$ARM64/$file" ] || fail "no $file in $ARM64: release/arm64/build.py makes it"
    done
    is_of_commit "$ARM64" || fail "what is in $ARM64 is not of this commit"
    if [ -z "$UNPROVED" ] && ! grep -qx "libraries of the gate" "$ARM64/BUILD"; then
        fail "what is in $ARM64 was made of other libraries than those that the gate left: ./check in a fresh clone"
    fi
    wants_libc_alone "$ARM64/causal_judge" "$ARM64/libcausal_judge.so"
fi

BUILT_FOR_ARM64="proved code, compiled by one compiler, with C functions of its own; the gate ran none of it"
BUILT_AS_MODULE="proved code, compiled by a route that no proof covers, and compared with the library by tests"
{
    build_head "${KIT:-unknown}" "$UNPROVED"
    echo "program sha256 $(sum "$PROGRAM")"
    if [ -n "$NO_LIBRARY" ]; then
        echo "library none: left out by --no-library"
    else
        echo "library sha256 $(sum "$LIBRARY")"
        echo "libcausal_judge.a sha256 $(sum "$ROOM/libcausal_judge.a")"
        echo "libcausal_judge.so sha256 $(sum "$ROOM/libcausal_judge.so")"
    fi
    if [ -n "$NO_ARM64" ]; then
        echo "arm64 none: $NO_ARM64"
    else
        echo "arm64 program sha256 $(sum "$ARM64/causal_judge")"
        echo "arm64 libcausal_judge.a sha256 $(sum "$ARM64/libcausal_judge.a")"
        echo "arm64 libcausal_judge.so sha256 $(sum "$ARM64/libcausal_judge.so")"
        sed -n 's/^proved /arm64 proof /p' "$ARM64/BUILD"
        [ -n "$UNPROVED" ] || echo "arm64 was only built: $BUILT_FOR_ARM64"
    fi
    if [ -n "$NO_WASM" ]; then
        echo "module none: $NO_WASM"
    else
        echo "module sha256 $(sum "$WASM/causal_judge.wasm")"
        sed -n 's/^library /module proof /p' "$WASM/BUILD"
        [ -n "$UNPROVED" ] || echo "module was only built: $BUILT_AS_MODULE"
        echo "page sha256 $(sum "$WASM/causal_judge.html")"
    fi
    [ -z "$NO_NODE" ] || echo "node none: $NO_NODE"
} > "$ROOM/BUILD"

# The man pages and the completions, from the program's own help. help2man makes a page of a help up to its options; what comes after
# them has lines and columns that it would join, so it is taken over as it is.
mkdir "$ROOM/bin" "$ROOM/man" "$ROOM/completions"
cat > "$ROOM/bin/causal_judge" <<END
#!/bin/sh
"$(realpath "$PROGRAM")" "\$@" | awk '/^Options:/ { last = 1 } last && /^\$/ { over = 1 } !over { print }'
END
chmod 755 "$ROOM/bin/causal_judge"
python3 "$HERE/completions.py" "$PROGRAM" "$ROOM/completions"
COMMANDS=$("$PROGRAM" --help | sed -n '/^Commands:/,/^$/ s/^  \([a-z]*\) .*/\1/p' | grep -v '^help$')
# The topics that help has beside the commands.
topics() { for topic in forms refusals; do echo; "$PROGRAM" help "$topic"; done; }
# The part of a help after its options, as a section of a man page: after [COMMAND]. Quotes and dashes stay those that a shell takes.
after() {
    printf '[INPUT AND ANSWERS]\n.nf\n'
    { "$PROGRAM" "$@" --help | awk 'over { print } /^Options:/ { last = 1 } last && /^$/ { over = 1 }'; [ $# -gt 0 ] || topics; } |
        sed -e 's/\\/\\e/g' -e 's/^\./\\\&&/' -e 's/-/\\-/g' -e "s/'/\\\\(aq/g" -e 's/`/\\(ga/g' -e 's/\^/\\(ha/g' -e 's/~/\\(ti/g'
    printf '.fi\n'
}
# The man page of the program, or of a command: page [COMMAND].
page() {
    local words="causal_judge${1:+ $1}" name=causal_judge${1:+-$1} about
    after "$@" > "$ROOM/after"
    about=$("$PROGRAM" "$@" --help | sed -n '1 s/^./\L&/p')
    PATH=$ROOM/bin:$PATH help2man --no-info --section 1 --manual "User Commands" --source "causal_judge $NAMED" \
        --version-string "$VERSION" --name "$about" --include "$ROOM/after" "$words" |
        sed -e "s/^$words \\\\- /$name \\\\- /" -e "s/^\.TH [^ ]*/.TH ${name^^}/" > "$ROOM/man/$name.1"
}
page
for command in $COMMANDS; do
    page "$command"
done

# Puts a file in its place: MODE FROM TO.
put() { install -D -m "$1" "$2" "$3"; }

# The repository, as the commit has it, or, where files differ from it, as it is now.
mkdir "$ROOM/source"
if [ -z "$CHANGED" ]; then
    git -C "$ROOT" archive "$COMMIT" | tar -xf - -C "$ROOM/source"
else
    (cd "$ROOT" && comm -23 <(git ls-files | sort) <(git ls-files --deleted | sort) | tar -cf - -T -) | tar -xf - -C "$ROOM/source"
fi
# Puts the pages and the examples of a package in a folder: TO [--library].
WITH_LIBRARY=()
[ -n "$NO_LIBRARY" ] || WITH_LIBRARY=(--library)
put_pages() {
    local to=$1 file
    shift
    mkdir "$ROOM/pages"
    python3 "$HERE/pages.py" "$@" "$ROOM/source" "$ROOM/pages"
    cp "$ROOM/BUILD" "$ROOM/pages/BUILD"
    (cd "$ROOM/pages" && find . -type f -printf '%P\n') | while read -r file; do put 644 "$ROOM/pages/$file" "$to/$file"; done
    rm -r "$ROOM/pages"
}

# What differs between the processors: the machine's name, Debian's name for it, and the files.
for_x86_64() {
    MACHINE=x86_64 DEBIAN_MACHINE=amd64
    A_PROGRAM=$PROGRAM AN_ARCHIVE=$ROOM/libcausal_judge.a AN_OBJECT=$ROOM/libcausal_judge.so
}
for_arm64() {
    MACHINE=aarch64 DEBIAN_MACHINE=arm64
    A_PROGRAM=$ARM64/causal_judge AN_ARCHIVE=$ARM64/libcausal_judge.a AN_OBJECT=$ARM64/libcausal_judge.so
}

# All files of a package, below a folder, with the folders of libraries and completions of the kind.
put_files() {
    local below=$1 lib=$2 zsh=$3 file
    put 755 "$A_PROGRAM" "$below/bin/causal_judge"
    if [ -z "$NO_LIBRARY" ]; then
        put 644 "$ROOM/source/embed/causal_judge.h" "$below/include/causal_judge.h"
        put 644 "$AN_ARCHIVE" "$below/$lib/libcausal_judge.a"
        put 644 "$AN_OBJECT" "$below/$lib/causal_judge/libcausal_judge.so"
        sed -e "s|@VERSION@|$VERSION|" -e "s|@PREFIX@|$4|" -e "s|@LIB@|$lib|" "$HERE/causal_judge.pc.in" > "$ROOM/causal_judge.pc"
        put 644 "$ROOM/causal_judge.pc" "$below/$lib/pkgconfig/causal_judge.pc"
    fi
    for file in "$ROOM"/man/*.1; do put 644 "$file" "$below/share/man/man1/${file##*/}"; done
    put 644 "$ROOM/completions/causal_judge.bash" "$below/share/bash-completion/completions/causal_judge"
    put 644 "$ROOM/completions/causal_judge.zsh" "$below/share/zsh/$zsh/_causal_judge"
    put 644 "$ROOM/completions/causal_judge.fish" "$below/share/fish/vendor_completions.d/causal_judge.fish"
    put_pages "$below/share/doc/causal-judge" "${WITH_LIBRARY[@]}"
}

dated() { find "$1" -exec touch --no-dereference --date "@$SOURCE_DATE_EPOCH" {} +; }

tarball() {
    local name=causal_judge-$NAMED-$MACHINE-linux below
    below=$ROOM/$name
    # shellcheck disable=SC2016
    put_files "$below" lib site-functions '${pcfiledir}/../..'
    put 644 "$ROOM/BUILD" "$below/BUILD"
    (cd "$below" && find . -type f -printf '%P\n' | sort | xargs sha256sum > "$ROOM/sums")
    put 644 "$ROOM/sums" "$below/SHA256SUMS"
    dated "$below"
    tar -C "$ROOM" --sort=name --mtime "@$SOURCE_DATE_EPOCH" --owner 0 --group 0 --numeric-owner --format=ustar -cf - "$name" |
        gzip -9n > "$OUT/$name.tar.gz"
}

# The size of the files below a folder, as Debian's policy has it: their bytes, divided by 1024 and rounded up. The size of a folder itself
# depends on the file system, so no folder counts.
kibibytes() { find "$1" -type f -printf '%s\n' | awk '{ bytes += $1 } END { print int((bytes + 1023) / 1024) }'; }

debian() {
    local below=$ROOM/debian-$MACHINE doc=usr/share/doc/causal-judge file linked=("$A_PROGRAM")
    [ -n "$NO_LIBRARY" ] || linked+=("$AN_OBJECT")
    put_files "$below/usr" "lib/$MACHINE-linux-gnu" vendor-completions /usr
    for file in "$below"/usr/share/man/man1/*.1; do gzip -9n "$file"; done
    python3 "$HERE/dist_packages.py" "$ROOM/source/python/causal_judge" "$below/usr/lib/python3/dist-packages" "$WHEEL"
    { echo "causal_judge"; echo; cat "$ROOM/source/LICENSE"; } > "$below/$doc/copyright"
    { echo "causal-judge ($DEBIAN) unstable; urgency=medium"
      echo; echo "  * See CHANGELOG.md."; echo
      echo " -- $(git -C "$ROOT" log -1 --format='%an <%ae>')  $(date --rfc-email --date "@$SOURCE_DATE_EPOCH")"
    } | gzip -9n > "$below/$doc/changelog.gz"
    chmod 644 "$below/$doc/copyright" "$below/$doc/changelog.gz"
    mkdir -p "$below/usr/share/lintian/overrides"
    echo "# The program is byte for byte the one that the gate tested, with its symbols.
causal-judge: unstripped-binary-or-object [usr/bin/causal_judge]
# README.md links to it.
causal-judge: extra-license-file [$doc/LICENSE]" > "$below/usr/share/lintian/overrides/causal-judge"
    chmod 644 "$below/usr/share/lintian/overrides/causal-judge"
    mkdir "$below/DEBIAN"
    put 755 "$HERE/postinst" "$below/DEBIAN/postinst"
    put 755 "$HERE/prerm" "$below/DEBIAN/prerm"
    cat > "$below/DEBIAN/control" <<END
Package: causal-judge
Version: $DEBIAN
Architecture: $DEBIAN_MACHINE
Maintainer: $(git -C "$ROOT" log -1 --format='%an <%ae>')
Installed-Size: $(kibibytes "$below/usr")
Depends: libc6 (>= $(least "${linked[@]}"))
Suggests: python3 (>= 3.10)
Section: science
Priority: optional
Description: judge of causal consistency
 Reads the history of a run of a replicated store, and says whether what its
 clients were answered meets causal consistency, causal memory and causal
 convergence. Where it does not, it shows the operations that say so.
 .
 $(if [ -n "$UNPROVED" ]; then echo "This build is UNPROVED: nothing is claimed of it."; else echo "Each answer rests on a proof."; fi)
END
    (cd "$below" && find usr -type f | sort | xargs md5sum > DEBIAN/md5sums)
    dated "$below"
    dpkg-deb --root-owner-group -Zxz --threads-max=1 --build "$below" "$OUT/causal-judge_${DEBIAN}_$DEBIAN_MACHINE.deb" > /dev/null
}

wheel() {
    local below=$ROOM/wheel-$MACHINE minor
    put_pages "$below/share/doc/causal-judge"
    mkdir -p "$below/share"
    for file in "$ROOM"/man/*.1; do put 644 "$file" "$below/share/man/man1/${file##*/}"; done
    minor=$(least "$A_PROGRAM" | cut -d . -f 2)
    python3 "$HERE/wheel.py" "$A_PROGRAM" "$ROOM/source/python/causal_judge" "$below" "$WHEEL" "$minor" "$MACHINE" "$OUT"
}

for_x86_64
tarball
debian
wheel
if [ -z "$NO_ARM64" ]; then
    for_arm64
    tarball
    debian
    wheel
fi
if [ -z "$NO_WASM" ]; then
    put 644 "$WASM/causal_judge.html" "$OUT/causal_judge.html"
    put 644 "$WASM/causal_judge.wasm" "$OUT/causal_judge.wasm"
fi
if [ -z "$NO_NODE" ]; then
    python3 "$HERE/node_package.py" "$WASM/causal_judge.wasm" "$ROOM/source" "$NAMED" "$OUT" "$ROOM/BUILD" > /dev/null
fi
put 644 "$ROOM/BUILD" "$OUT/BUILD"
MADE=()
for file in "$OUT"/*.tar.gz "$OUT"/*.deb "$OUT"/*.whl "$OUT"/*.tgz "$OUT"/causal_judge.html "$OUT"/causal_judge.wasm; do
    [ ! -f "$file" ] || MADE+=("${file##*/}")
done
(cd "$OUT" && sha256sum -- "${MADE[@]}" > SHA256SUMS)
[ -z "$UNPROVED" ] || echo "UNPROVED: ${DOUBT:-as asked}"
[ -z "$NO_ARM64" ] || echo "nothing for arm64: $NO_ARM64"
[ -z "$NO_WASM" ] || echo "no page, no module, and no package for Node: $NO_WASM"
[ -n "$NO_WASM" ] || [ -z "$NO_NODE" ] || echo "no package for Node: $NO_NODE"
(cd "$OUT" && stat --format '%s %n' -- "${MADE[@]}" && cat SHA256SUMS)
