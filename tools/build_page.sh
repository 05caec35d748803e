#!/usr/bin/env bash
# Builds what web/emulator/index.html needs: web/emulator/built.js, with the console as a WebAssembly module of 64-bit memory, the game
# and the scene.
#
#     [FROM=MODULE] tools/build_page.sh
#
# The library is proved and built as everywhere (tools/build_library.sh). Its LLVM module, of which the code for C programs
# is made, is kept on the way, and the same compiler makes a second code of it, for wasm64. (A line
# `wasm64` in crates.txt does not serve yet: the toolchain compiles no call of the heap for that target, and its gate
# has no place for such a crate.) SCENE may name a built program in place of ./scene. FROM names an LLVM module to take instead of the
# library's, to try the page with one that is not proved.
top=$(cd "$(dirname "${BASH_SOURCE[0]}")/.." && pwd) || exit 1
kit=$(dirname "$(dirname "$(readlink -f "$(command -v rt)")")") || exit 1
scene=${SCENE:-$top/scene}
work=$(mktemp -d) || exit 1
trap 'rm -rf "$work"' EXIT

if [ -n "${FROM-}" ]; then
  cp "$FROM" "$work/module.bc" || exit 1
else
  MODULE=$work/module.bc "$top/tools/build_library.sh" || exit 1
fi

# The second code, and what it takes memory by.
clang=$kit/toolchain/bin/clang
target=(--no-default-config --target=wasm64-unknown-unknown -mbulk-memory -msign-ext -mnontrapping-fptoint -O3)
"$clang" "${target[@]}" -Wno-override-module -c -x ir "$work/module.bc" -o "$work/snes.o" 2>"$work/said" || { cat "$work/said" >&2; exit 1; }
grep -v "is not a recognized processor for this target" "$work/said" >&2
"$clang" "${target[@]}" -ffreestanding -Wall -Wextra -Werror -c "$top/web/emulator/heap.c" -o "$work/heap.o" || exit 1
calls=(snes_begin snes_frame snes_reset snes_keep snes_back snes_end page_alloc page_free)
(exec -a wasm-ld "$clang" -mwasm64 --no-entry --gc-sections --strip-all -z stack-size=1048576 \
  "${calls[@]/#/--export=}" -o "$work/snes.wasm" "$work/snes.o" "$work/heap.o") || exit 1

"$scene" "$work/scene" >/dev/null || exit 1
{
  echo '// Made by tools/build_page.sh.'
  echo 'const BUILT = {'
  for one in module:snes.wasm game:scene/game.sfc scene:scene/scene.sfc; do
    echo "  ${one%%:*}: '$(base64 -w 0 "$work/${one#*:}")',"
  done
  echo '};'
} >"$top/web/emulator/built.js"
echo "snes.wasm: $(stat -c %s "$work/snes.wasm") bytes, sha256 $(sha256sum "$work/snes.wasm" | cut -d ' ' -f 1)"
echo "open $top/web/emulator/index.html"
