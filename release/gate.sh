# What build.sh and wasm.sh share, which source it with HERE set: the version, the commit, the kit, and the mark out/gate that ./check leaves.
# shellcheck shell=bash

ROOT=$(dirname "$HERE")
MARK=$ROOT/out/gate

fail() {
    echo "release/${0##*/}: $*" >&2
    exit 1
}
# Fails where a tool is missing: the line that installs all, and the tools.
want() {
    local installs=$1 tool
    shift
    for tool in "$@"; do
        command -v "$tool" > /dev/null || fail "$tool is missing: $installs"
    done
}

want "apt-get install git" git
VERSION=$(cat "$ROOT/VERSION")
COMMIT=$(git -C "$ROOT" rev-parse HEAD)
CHANGED=$(git -C "$ROOT" status --porcelain)

sum() { sha256sum "$1" | cut -d ' ' -f 1; }
# The folder of the kit on this machine, and what it says of itself.
kit_folder() { dirname "$(rt doc | awk 'END { print $NF }')"; }
kit_here() { cat "$(kit_folder)/KIT-ID"; }
# A line of the mark, without its first word.
marked() { sed -n "s/^$1 //p" "$MARK" 2> /dev/null || true; }
# What the mark lacks of this commit, if anything.
doubt_of_commit() {
    if [ ! -f "$MARK" ]; then echo "no mark out/gate: the whole gate has not passed"
    elif [ -n "$CHANGED" ]; then echo "files differ from the commit"
    elif [ "$(marked commit)" != "$COMMIT" ]; then echo "the gate passed at $(marked commit), and this is $COMMIT"
    fi
}
# The first lines of BUILD: of the kit, and, with a second word, of a build of which nothing is claimed.
build_head() {
    echo "version $VERSION"
    echo "commit $COMMIT${CHANGED:+, with files that differ from it}"
    echo "kit $1"
    if [ -n "${2:-}" ]; then
        echo "gate UNPROVED: nothing is claimed of this build"
    else
        echo "gate passed at this commit: $(marked gate)"
    fi
}
