#!/usr/bin/env bash
# Builds the library of the sources as they stand, without a proof, to try what calls it before it is proved:
#
#   tools/lab/unproved/build_library.sh OUT
#
# OUT is a folder. It gets libsnes_library.a, libbogtrun-snes.so and snes_library.ll. `LIBRARY=OUT/libsnes_library.a
# tools/compare/try_embedding.sh` and `FROM=OUT/snes_library.ll tools/build_page.sh` take them.
#
# `rt try` compiles programs alone. So in a copy of the sources the library is a program, whose main calls each export once. build.sh
# keeps the module of that try, and as_built.py takes the checks out. The exports then get the names that C calls
# them by, and main goes. In the module an export takes what C passes: a slice as pointer and length, a `Global` as nothing.
here=$(cd "$(dirname "$(readlink -f "${BASH_SOURCE[0]}")")" && pwd) || exit 2
[ $# -eq 1 ] && [[ $1 != -* ]] || { echo 'build_library.sh OUT: builds the library without a proof' >&2; exit 2; }
mkdir -p "$1" && out=$(readlink -f "$1") || exit 2
top=$(readlink -f "$here/../../..")
kit=$(dirname "$(dirname "$(readlink -f "$(command -v rt)")")") || exit 2
work=$(mktemp -d) || exit 2
trap 'rm -rf "$work"' EXIT
crate=$work/crates/snes_library

(cd "$top" && tar cf - --exclude=out crates crates.txt tools/lab) | tar xf - -C "$work" || exit 1
sed -i 's/^snes_library staticlib:/snes_library:/' "$work/crates.txt" && mv "$crate/src/lib.rt" "$crate/src/main.rt" || exit 1
cat >>"$crate/src/main.rt" <<'TEXT'

fn main(rt: HostRuntime) -> std::process::ExitCode {
    let alloc = rt.alloc();
    let none: &mut [u8] = &mut [];
    let other: &mut [u8] = &mut [];
    let mut room = [0u64; 2];
    let console = unsafe { &mut *(room.as_mut_ptr() as *mut kept_frames::SnesConsole) };
    let mut answer = SnesAnswer { cause: 0, place: 0, video: 0, sound: 0 };
    let statuses = [
        snes_play(alloc, b"", b"", b"", b"", 0, none, other, &mut answer),
        snes_begin(alloc, console, b"", b"", b"", 0, 1, 0, &mut answer),
        snes_frame(alloc, console, 0, 0, none, other, &mut answer),
        snes_reset(alloc, console),
        snes_keep(alloc, console, 0),
        snes_back(alloc, console, 0),
        snes_end(alloc, console),
    ];
    std::process::ExitCode::from((statuses[6] % 256) as u8)
}
TEXT
exports=$(sed -n '/no_mangle/{n; s/.*extern "C" fn \([a-z_]*\).*/\1/p}' "$crate"/src/*.rt)
MODULE=$work/module.ll "$work/tools/lab/unproved/build.sh" "$work/program" snes_library || exit 1
"$here/as_built.py" "$work" "$work/module.ll" "$work/library.ll" || exit 1
python3 - "$work/library.ll" "$out/snes_library.ll" $exports <<'PY' || exit 1
import re
import sys

text = open(sys.argv[1], encoding='utf-8').read()
for name in sys.argv[3:]:
    text = re.sub(rf'@"snes_library::(?:\w+::)*{name}"', f'@{name}', text)
    text, count = re.subn(rf'^define internal (.*@{name}\()', r'define \1', text, flags=re.M)
    if count != 1:
        sys.exit(f'the module has {count} functions of the export {name}')
start = text.index('define i32 @main()')
open(sys.argv[2], 'w', encoding='utf-8').write(text[:start] + text[text.index('\n}\n', start) + 3:])
PY
"$here/compile.sh" "$work/library.o" "$out/snes_library.ll" || exit 1
rm -f "$out/libsnes_library.a"
ar rcs "$out/libsnes_library.a" "$work/library.o" &&
  cc -shared -fPIC -O2 -o "$out/libbogtrun-snes.so" -Wl,--gc-sections -Wl,--whole-archive "$out/libsnes_library.a" -Wl,--no-whole-archive \
    "$top/embed/heap.c" || exit 1
echo "not proved: $out/libsnes_library.a"
