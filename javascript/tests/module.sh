#!/usr/bin/env bash
# module.sh: tries the parts of the module that stand between the library and WebAssembly: the helpers of 128 bits and the heap, by a
# module of their own, and which forms of lines retarget.py refuses.
set -euo pipefail
here=$(cd -- "$(dirname -- "$0")/../module" && pwd)
clang=$(dirname "$(dirname "$(readlink -f "$(command -v rt)")")")/toolchain/bin/clang
room=$(mktemp -d)
trap 'rm -rf -- "$room"' EXIT
target=(--no-default-config -no-canonical-prefixes --target=wasm32-unknown-unknown -mbulk-memory -O2 -ffreestanding -Wno-incompatible-library-redeclaration)
for part in heap wide; do
    "$clang" "${target[@]}" -c "$here/$part.c" -o "$room/$part.o"
done
ln -s "$clang" "$room/wasm-ld"
"$room/wasm-ld" -o "$room/parts.wasm" --no-entry "$room"/{heap,wide}.o --stack-first -z stack-size=65536 --max-memory=4194304 \
    --export={malloc,free,rattle_alloc,rattle_realloc,rattle_dealloc,__ashlti3,__lshrti3,__multi3,__udivti3,__umodti3}
node "$(dirname "$here")/tests/module.mjs" "$room/parts.wasm"

# The forms of lines at which retarget.py ends.
cat >"$room/refused" <<'LINES'
  %r1 = alloca { i8, ptr }, align 8
  %r1 = alloca [2 x ptr], align 8
  %r1 = load { ptr, ptr }, ptr %r0, align 8
  %r1 = load { i8, ptr }, ptr %r0, align 4
  %r1 = load [2 x ptr], ptr %r0, align 8
  store { i8, ptr } %r1, ptr %r0, align 8
  store { ptr, i32 } %r1, ptr %r0, align 8
  %r1 = getelementptr { i8, ptr }, ptr %r0, i64 1
  %r1 = getelementptr ptr, ptr %r0, i64 1
  %r1 = inttoptr i64 %r0 to ptr
  %r1 = call i64 asm "nop", ""()
@static.1 = private constant { i8, ptr } { i8 1, ptr @static.0 }
@static.1 = private constant [2 x ptr] [ptr @static.0, ptr @static.0]
LINES
head -n 1 "$room/refused" >"$room/in.ll"
! python3 "$here/retarget.py" "$room/in.ll" "$room/out.ll" 2>/dev/null || { echo "retarget.py goes on behind a line that it does not know"; exit 1; }
PYTHONPATH=$here python3 -c '
import sys
from retarget import retargeted
taken = [line for line in map(str.rstrip, sys.stdin) if retargeted(line) is not None]
sys.exit("".join(f"retarget.py takes: {line}\n" for line in taken) or 0)' <"$room/refused"
