#!/usr/bin/env bash
# Makes a WebAssembly module with a 32-bit memory of an LLVM module that Rattle made of a static library for x86-64.
#
#     release/wasm/retarget.sh MODULE.bc OUT.wasm EXPORT..
#
# clang writes the module as text, in which the data layout, the target and the attributes that name x86-64 are replaced. clang then
# compiles it for wasm64 with vectors of 128 bits, and links it with heap.c, host.c and arithmetic.c. wasm-opt makes its 64-bit addresses
# 32-bit ones. Needs the Rattle kit, for its clang, and Debian's binaryen.
set -euo pipefail
export LC_ALL=C

HERE=$(cd "$(dirname "$0")" && pwd)
MODULE=$1 TO=$2
shift 2
STACK=1048576
# 3 GiB: addresses stay well below 2^32, and below what browsers allow a 32-bit memory.
MOST=3221225472
KIT=$(dirname "$(rt doc | awk 'END { print $NF }')")
CLANG=$KIT/toolchain/bin/clang
ROOM=$(mktemp -d)
trap 'rm -rf "$ROOM"' EXIT

TARGET=wasm64-unknown-unknown
LAYOUT=e-m:e-p:64:64-p10:8:8-p20:8:8-i64:64-i128:128-n32:64-S128-ni:1:10:20
COMPILE=("$CLANG" --target=$TARGET -mcpu=lime1 -msimd128 --no-default-config -no-canonical-prefixes -fno-crash-diagnostics
    -ffunction-sections -fdata-sections -Werror -c)
# As Rattle compiles for x86-64 and for wasm64: undefined ends trap, and 128-bit divisions are done in line.
AS_RATTLE=(-O3 -mllvm -trap-unreachable -mllvm -disable-machine-licm -mllvm -disable-postra-machine-licm -mllvm -sink-common-insts=false
    -mllvm -expand-div-rem-bits=64 -mllvm -expand-fp-convert-bits=64)

"$CLANG" --target=x86_64-unknown-linux-gnu --no-default-config -S -emit-llvm -Xclang -disable-llvm-passes -x ir "$MODULE" -o "$ROOM/given.ll"
sed -E -e "s/^target datalayout = .*/target datalayout = \"$LAYOUT\"/" -e "s/^target triple = .*/target triple = \"$TARGET\"/" \
    -e '/^attributes /s/ "probe-stack"="[^"]*"//' -e '/^attributes /s/ "stack-probe-size"="[^"]*"//' \
    -e '/^attributes /s/"target-cpu"="[^"]*"/"target-cpu"="lime1" "target-features"="+simd128"/' "$ROOM/given.ll" > "$ROOM/module.ll"
# What is of one processor alone would be compiled to something else, or not at all.
if grep -nE '@llvm\.x86|\basm |probe-stack|x86-64' "$ROOM/module.ll" >&2; then
    echo "release/wasm/retarget.sh: the module has parts that are of x86-64 alone" >&2
    exit 1
fi
"${COMPILE[@]}" "${AS_RATTLE[@]}" -x ir "$ROOM/module.ll" -o "$ROOM/module.o"
for file in heap host arithmetic; do
    "${COMPILE[@]}" -O2 -std=c11 -Wall -Wextra -ffreestanding -nostdinc -fno-builtin -x c "$HERE/$file.c" -o "$ROOM/$file.o"
done

EXPORTS=()
for name in judge_take judge_give judge_live judge_limit "$@"; do EXPORTS+=("--export=$name"); done
# The linker is in the same file as clang, which looks at the name it is called by.
(exec -a ld.lld "$CLANG" -flavor wasm -mwasm64 --no-entry --stack-first -z "stack-size=$STACK" "--max-memory=$MOST" --gc-sections --strip-all \
    --fatal-warnings --threads=1 "${EXPORTS[@]}" -o "$ROOM/wide.wasm" "$ROOM"/*.o)
python3 "$HERE/no_table.py" "$ROOM/wide.wasm" "$ROOM/bare.wasm"
FEATURES=(--enable-simd --enable-bulk-memory --enable-multivalue --enable-nontrapping-float-to-int --enable-sign-ext --enable-mutable-globals)
wasm-opt --enable-memory64 "${FEATURES[@]}" --no-validation --memory64-lowering "$ROOM/bare.wasm" -S -o "$ROOM/lowered.wat"
python3 "$HERE/narrow.py" "$ROOM/lowered.wat" "$ROOM/narrow.wat"
# The validation of the whole refuses what is left of 64-bit addresses.
if ! wasm-opt "${FEATURES[@]}" -O3 "$ROOM/narrow.wat" -o "$TO" 2> "$ROOM/said"; then
    head -c 2000 "$ROOM/said" >&2
    exit 1
fi
