#!/usr/bin/env bash
# Makes the judge for browsers and Node: the module causal_judge.wasm, and the page causal_judge.html that has it inside.
#
#     release/wasm.sh [--out DIR] [--unproved [--module FILE.bc]]
#
# It runs after ./check, over the libraries that the gate left in crates/*/out/rlib: wasm/capture.py proves crates/causal_judge_library
# over them once more, and keeps the LLVM module that Rattle hands to clang; wasm/retarget.sh makes a WebAssembly module of it; page.py
# makes the page. DIR, release/out/wasm where none is given, gets these two, judge.mjs, BUILD and SHA256SUMS, and library.a, which is what
# Rattle made of the same LLVM module for x86-64: tests compare the module with it.
#
# It refuses without the mark out/gate of this commit, which ./check leaves. Then --unproved makes both all the same, and BUILD and the
# page say UNPROVED. --module takes another LLVM module than that of the proved library. The same commit gives the same bytes.
#
# Needs the Rattle kit, git, python3 and binaryen, some minutes and 4 GB.
set -euo pipefail
export LC_ALL=C TZ=UTC
umask 022

HERE=$(cd "$(dirname "$0")" && pwd)
OUT=$HERE/out/wasm MODULE='' UNPROVED=''
# shellcheck source=release/gate.sh
. "$HERE/gate.sh"

while [ $# -gt 0 ]; do
    case $1 in
        --out) OUT=$2; shift ;;
        --module) MODULE=$(realpath "$2"); shift ;;
        --unproved) UNPROVED=yes ;;
        *) sed -n '4p' "$0" >&2; exit 2 ;;
    esac
    shift
done
[ -z "$MODULE" ] || [ -n "$UNPROVED" ] || fail "--module goes with --unproved alone"
want "apt-get install git python3 binaryen, and the Rattle kit" git python3 wasm-opt rt
KIT=$(kit_here)
DOUBT=$(doubt_of_commit)
if [ -z "$DOUBT" ] && [ "$(marked kit)" != "$KIT" ]; then DOUBT="the gate passed with the kit $(marked kit), and this is $KIT"; fi
[ -z "$DOUBT" ] || [ -n "$UNPROVED" ] || fail "$DOUBT. --unproved makes a module that says so"

ROOM=$(mktemp -d)
trap 'rm -rf "$ROOM"' EXIT
mkdir -p "$OUT"
OUT=$(cd "$OUT" && pwd)
rm -f "$OUT"/causal_judge.wasm "$OUT"/causal_judge.html "$OUT"/judge.mjs "$OUT"/library.a "$OUT"/BUILD "$OUT"/SHA256SUMS

if [ -n "$MODULE" ]; then
    cp "$MODULE" "$ROOM/library.bc"
    PROOF="of unknown code"
else
    python3 "$HERE/wasm/capture.py" "$ROOM/library.bc" --archive "$OUT/library.a" > "$ROOM/verdict"
    PROOF="$(tail -1 "$ROOM/verdict")"
fi
mapfile -t CALLS < <(sed -n 's/^uint8_t \(causal_judge_[a-z_]*\)(.*/\1/p' "$ROOT/embed/causal_judge.h")
"$HERE/wasm/retarget.sh" "$ROOM/library.bc" "$OUT/causal_judge.wasm" "${CALLS[@]}"
chmod 644 "$OUT/causal_judge.wasm"
cp "$HERE/wasm/judge.mjs" "$OUT/judge.mjs"

WORDS="The judge in this page is the proved code of causal_judge $VERSION ($KIT, commit $COMMIT),
compiled to WebAssembly by a route of its own, which no proof covers. Tests compare it with the library for x86-64."
[ -z "$UNPROVED" ] || WORDS="UNPROVED: nothing is claimed of the judge in this page, causal_judge $VERSION ($KIT, commit $COMMIT)."
python3 "$HERE/page.py" "$OUT/causal_judge.wasm" "$OUT/causal_judge.html" --about "$WORDS"

{
    build_head "$KIT" "$UNPROVED"
    echo "library $PROOF"
    echo "causal_judge.wasm sha256 $(sum "$OUT/causal_judge.wasm")"
    ROUTE="Rattle's LLVM module, clang for wasm64, memory in C, $(wasm-opt --version)"
    echo "causal_judge.wasm is the library's code, compiled by a route of our own: $ROUTE"
    echo "causal_judge.html sha256 $(sum "$OUT/causal_judge.html")"
} > "$OUT/BUILD"
(cd "$OUT" && sha256sum BUILD causal_judge.html causal_judge.wasm judge.mjs > SHA256SUMS)
[ -z "$UNPROVED" ] || echo "UNPROVED: ${DOUBT:-as asked}"
(cd "$OUT" && stat --format '%s %n' -- causal_judge.wasm causal_judge.html && cat SHA256SUMS)
