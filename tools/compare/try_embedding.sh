#!/usr/bin/env bash
# Tries the console as a library (docs/use/EMBEDDING.md): builds the programs of embed/ and a shared object with the library, plays the
# scene and the game by both and by `snes serial`, compares the bytes by their sums, and tries each refusal. So too the console a
# frame at a time: embed/frames.c, the Python package if there is pytest, and the libretro core if there is libretro.h.
#
#     tools/compare/try_embedding.sh [FRAMES]
#
# FRAMES is 60 if left out. The library is proved and built first if that is needed (tools/build_library.sh). LIBRARY may name
# another one, to try one that is not proved. Needs a C compiler and python3. SNES and SCENE may name built programs in place
# of ./snes and ./scene. Says each check, and ends with status 1 if one failed.
top=$(cd "$(dirname "${BASH_SOURCE[0]}")/../.." && pwd) || exit 1
frames=${1:-60}
snes=${SNES:-$top/snes}
# ./snes tells how far a build is; a built program has no such word.
quiet=(--quiet)
[ -z "${SNES-}" ] || quiet=()
scene=${SCENE:-$top/scene}
library=$top/crates/snes_library/out/libsnes_library.a
[ -z "${LIBRARY-}" ] || library=$(readlink -f "$LIBRARY")
libretro=${LIBRETRO:-/usr/include/libretro-common}
failed=0
passed=0

# Says whether a check held.
check() {
  if [ "$2" = "$3" ]; then
    passed=$((passed + 1))
    echo "ok      $1: $2"
  else
    failed=$((failed + 1))
    echo "FAILED  $1: $2, not $3"
  fi
}

sum_of() { sha256sum "$1" | cut -d ' ' -f 1; }

[ -n "${LIBRARY-}" ] || "$top/tools/build_library.sh" || exit 1
work=$(mktemp -d) || exit 1
trap 'rm -rf "$work"' EXIT
cd "$work" || exit 1
cc -O2 -Wall -Wextra -Werror -o frame "$top/embed/frame.c" "$top/embed/heap.c" "$library" || exit 1
cc -shared -fPIC -O2 -Wall -Wextra -Werror -o libsnes.so -Wl,--whole-archive "$library" -Wl,--no-whole-archive "$top/embed/heap.c" || exit 1
"$scene" scene >/dev/null || exit 1
inputs=(scene/scene.sfc scene/boot.bin scene/table.bin scene/script.txt)
"$snes" "${quiet[@]}" serial --cart "${inputs[0]}" --boot "${inputs[1]}" --table "${inputs[2]}" --script "${inputs[3]}" \
  --frames "$frames" --video video.raw --audio audio.raw >/dev/null || exit 1
video_size=$(stat -c %s video.raw)
sound_size=$(stat -c %s audio.raw)

# Of C: the last frame and all sound.
said=$(./frame "${inputs[@]}" "$frames" frame.raw sound.raw)
check 'C: the answer' "$said" "status 0 cause 0 place 0 video $video_size sound $sound_size"
tail -c 244736 video.raw >wanted.raw
check 'C: the last frame' "$(sum_of frame.raw)" "$(sum_of wanted.raw)"
check 'C: all sound' "$(sum_of sound.raw)" "$(sum_of audio.raw)"

# Of Python: all of both, and nothing behind them was touched.
said=$(python3 "$top/embed/play.py" ./libsnes.so "${inputs[@]}" "$frames" $((video_size + 1000)))
check 'Python: the answer' "$(sed -n 1p <<<"$said")" "status 0 cause 0 place 0 video $video_size sound $sound_size"
check 'Python: all video' "$(sed -n 's/^video //p' <<<"$said")" "$(sum_of video.raw)"
check 'Python: all sound' "$(sed -n 's/^sound //p' <<<"$said")" "$(sum_of audio.raw)"
check 'Python: bytes touched behind the output' "$(sed -n 's/^behind //p' <<<"$said")" '0 0'
check 'no frames' "$(python3 "$top/embed/play.py" ./libsnes.so "${inputs[@]}" 0 | sed -n 1p)" 'status 0 cause 0 place 0 video 0 sound 0'

# Refusals: the inputs in their order, one of them changed; then too many frames, and rooms that are too short.
refused() {
  local what=$1 wanted=$2
  shift 2
  said=$(python3 "$top/embed/play.py" ./libsnes.so "$@")
  check "$what" "$(sed -n 1p <<<"$said")" "status $wanted video 0 sound 0"
}
untouched() { check "$1: bytes touched" "$(sed -n 's/^behind //p' <<<"$said")" '0 0'; }
head -c 32767 "${inputs[0]}" >short.sfc
head -c 4194305 /dev/zero >long.sfc
head -c 65536 /dev/zero >none.sfc
python3 - "${inputs[0]}" <<'PY'
import sys
cart = bytearray(open(sys.argv[1], 'rb').read())
header = 0xffc0 if cart[0xffd5:0xffd6] in (b'\x21', b'\x31') and cart[0x7fd5] not in (0x20, 0x30) else 0x7fc0
for name, place, byte in (('chip.sfc', 0x16, 0x13), ('ram.sfc', 0x18, 8)):
    other = bytearray(cart)
    other[header + place] = byte
    open(name, 'wb').write(other)
table = bytearray(1024)
table[2 * 77:2 * 77 + 2] = (2048).to_bytes(2, 'little')
open('large.bin', 'wb').write(table)
open('line.txt', 'w').write('1 0000 0000\n1 0000 0000\nno line\n')
open('long.txt', 'wb').write(b'\n' * 1048577)
PY
rest=("${inputs[@]:1}")
refused 'a cartridge of 32,767 bytes' '3 cause 1 place 0' short.sfc "${rest[@]}" 1
untouched 'a refused cartridge'
refused 'a cartridge of 4,194,305 bytes' '3 cause 2 place 0' long.sfc "${rest[@]}" 1
refused 'a cartridge without a header' '3 cause 3 place 0' none.sfc "${rest[@]}" 1
refused 'a cartridge with the chip 13' '3 cause 4 place 19' chip.sfc "${rest[@]}" 1
refused 'a cartridge with RAM of size 8' '3 cause 5 place 8' ram.sfc "${rest[@]}" 1
refused 'a boot ROM of 1,024 bytes' '3 cause 6 place 0' "${inputs[0]}" "${inputs[2]}" "${inputs[2]}" "${inputs[3]}" 1
refused 'a table of 64 bytes' '3 cause 7 place 512' "${inputs[0]}" "${inputs[1]}" "${inputs[1]}" "${inputs[3]}" 1
refused 'a table with 2048 at entry 77' '3 cause 7 place 77' "${inputs[0]}" "${inputs[1]}" large.bin "${inputs[3]}" 1
refused 'a script with a bad third line' '3 cause 8 place 3' "${inputs[@]:0:3}" line.txt 1
refused 'a script of 1,048,577 bytes' '3 cause 8 place 0' "${inputs[@]:0:3}" long.txt 1
refused 'two refused inputs: the first is told' '3 cause 1 place 0' short.sfc "${inputs[2]}" large.bin line.txt 1
refused '36,001 frames' '1 cause 11 place 0' "${inputs[@]}" 36001 0 0
refused 'a video room that lacks a byte' '4 cause 9 place 0' "${inputs[@]}" 2 489471
refused 'a sound room that lacks a byte' '4 cause 10 place 0' "${inputs[@]}" "$frames" "$video_size" $((sound_size - 1))
said=$(ulimit -v 36500; ./frame "${inputs[@]}" 1 frame.raw sound.raw 2>/dev/null)
check 'too little memory' "$said" 'status 5 cause 12 place 0 video 0 sound 0'

# A frame at a time, by C: in each region, without resets and with them, with the free files and with named ones, with and without a
# try from a save state. Scripts with resets press the button in frames 1, 300, 400 and 401, and the state at 400 is kept.
game=$top/examples/game/minute.txt
{ echo 'version 2 pal' && cat "$game"; } >pal.txt
with_resets() {
  echo "version 2 $1"
  printf '%s\n' '1 0000 0000' reset "$(head -n 22 "$game")" '2 8100 0000' reset '100 8200 0100' reset '1 0000 1000' reset
  cat "$game"
}
with_resets ntsc >resets.txt
with_resets pal >resets_pal.txt
cc -std=c11 -O2 -Wall -Wextra -Werror -o frames "$top/embed/frames.c" "$top/embed/heap.c" "$library" || exit 1
serial() {
  "$snes" "${quiet[@]}" serial --cart scene/game.sfc --boot scene/boot.bin --table scene/table.bin --script "$1" --frames "$2" \
    --video video.raw --audio audio.raw >/dev/null || exit 1
}
compare() {
  check "$1: all video" "$(sum_of other.video)" "$(sum_of video.raw)"
  check "$1: all sound" "$(sum_of other.audio)" "$(sum_of audio.raw)"
}
for script in "$game" pal.txt resets.txt resets_pal.txt; do
  serial "$script" 600
  ./frames scene/game.sfc "$script" 600 other.video other.audio || exit 1
  compare "frames, ${script##*/}"
  ./frames --try 400 --boot scene/boot.bin --table scene/table.bin scene/game.sfc "$script" 600 other.video other.audio || exit 1
  compare "frames with a try, ${script##*/}"
done
check 'frames: a cartridge that is too short' "$(./frames short.sfc pal.txt 1 other.video other.audio 2>&1)" 'snes_begin: status 3 cause 1 place 0'
check 'frames: no frames' "$(./frames scene/game.sfc pal.txt 0 other.video other.audio 2>&1)" 'snes_begin: status 1 cause 11 place 0'
printf '%s\n' '1 0000 0000' reset >old.txt
printf '%s\n' 'version 2 ntsc' '0 0000 0000' reset >first.txt
printf '%s\n' 'version 2 ntsc' '1 0000 0000' reset '' reset >twice.txt
for script in old.txt first.txt twice.txt; do
  ./frames scene/game.sfc $script 1 other.video other.audio
  check "frames: a reset that is refused, $script" $? 3
done
printf '#include "snes.h"\nstatic_assert(SNES_FRAME_BYTES == 239 * 512 * 2 && SNES_FULL == 7 && SNES_CONSOLE_HELD == 16, "");\n' >header.cc
check 'the header in C++' "$(c++ -std=c++11 -Wall -Wextra -Werror -pedantic -I"$top/embed" -fsyntax-only header.cc 2>&1)" ''

# By Python, if there is pytest.
if python3 -c 'import pytest' 2>/dev/null; then
  said=$(PYTHONPATH=$top/embed/python SNES_LIBRARY=$PWD/libsnes.so SNES=$(command -v "$snes") SCENE=$(command -v "$scene") \
    PYTHONDONTWRITEBYTECODE=1 python3 -m pytest -q -p no:cacheprovider "$top/embed/python/tests" 2>&1)
  check 'the tests of the Python package' "$? $(tail -n 1 <<<"$said" | sed 's/ in .*//')" "0 $(grep -c '^def test_' "$top"/embed/python/tests/test_console.py) passed"
else
  echo '        without the tests of the Python package: there is no pytest'
fi

# By the libretro core, if there is the header.
if [ -f "$libretro/libretro.h" ]; then
  make -s -C "$top/core" LIBRARY="$library" LIBRETRO="$libretro" OUT="$PWD" || exit 1
  mkdir -p system/bogtrun_snes && cp scene/boot.bin scene/table.bin system/bogtrun_snes
  own=(--system system --set bogtrun_snes_boot=bogtrun_snes/boot.bin --set bogtrun_snes_table=bogtrun_snes/table.bin)
  serial "$game" 600
  said=$(./front ./bogtrun_snes_libretro.so scene/game.sfc "$game" 600 other.video other.audio)
  check 'core: what it says' "$said" 'Bogtrun SNES 1.1: 60.0985 frames and 32000 samples a second, region 0'
  compare 'core'
  serial resets.txt 600
  ./front ./bogtrun_snes_libretro.so scene/game.sfc resets.txt 600 other.video other.audio >/dev/null || exit 1
  compare 'core, resets'
  serial resets_pal.txt 420
  said=$(./front "${own[@]}" --set bogtrun_snes_region=pal ./bogtrun_snes_libretro.so scene/game.sfc resets_pal.txt 420 other.video other.audio)
  check 'core, PAL: what it says' "$said" 'Bogtrun SNES 1.1: 50.0070 frames and 32000 samples a second, region 1'
  compare 'core, PAL, resets'
  serial "$game" 60
  said=$(./front --reset 0 ./bogtrun_snes_libretro.so scene/game.sfc "$game" 60 other.video other.audio | sed 1d)
  check 'core: reset before the first frame' "$said" ''
  compare 'core: reset before the first frame'
  said=$(./front --system nowhere "${own[@]:2}" ./bogtrun_snes_libretro.so scene/game.sfc "$game" 1 other.video other.audio)
  check 'core: a boot ROM that is missing' "$? $said" '3 frame 0: nowhere/bogtrun_snes/boot.bin is missing, or not 64 bytes long'
  said=$(./front ./bogtrun_snes_libretro.so short.sfc "$game" 1 other.video other.audio)
  check 'core: a cartridge that is too short' "$? $said" '3 frame 0: The cartridge has fewer than 32,768 bytes'
  # Ten minutes, and a frame more that stands. Then reset powers on, and 60 frames are those of the start.
  mkfifo all.video all.audio
  tail -c "$(stat -c %s video.raw)" all.video >other.video &
  tail -c "$(stat -c %s audio.raw)" all.audio >other.audio &
  said=$(./front --reset 36001 ./bogtrun_snes_libretro.so scene/game.sfc "$game" 36061 all.video all.audio | sed 1d)
  wait
  check 'core: ten minutes are over' "$said" "frame 32399: The console has 3,600 frames left
frame 36000: The console has played its 36,000 frames. Reset: power on anew
frame 36000: Power on anew"
  compare 'core after ten minutes'
else
  echo "        without the libretro core: there is no $libretro/libretro.h"
fi
echo "$passed passed, $failed failed"
[ "$failed" -eq 0 ]
