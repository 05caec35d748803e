#!/usr/bin/env bash
# Tries `--unproved` of ./snes, ./look, ./trace, ./lint, ./scene, ./bench, ./header and ./stems: whether the programs that it
# builds put out what the proved ones do, and whether each of them says that it is not proved.
#
#     tools/evidence/try_unproved.sh [FOLDER]
#
# FOLDER has the proved programs snes_run, frame_look, snes_trace, cart_lint, scene_cart, cart_bench and cart_header; without it
# they are those in crates/NAME/out. The programs without a proof are built first if they are not there, and it says how long each took: a minute or
# two on an idle machine. It says each check; its status is 1 if one failed.
#
# This shows for a few frames that a first look sees what the proved program shows. It is no proof of anything.
top=$(cd "$(dirname "$(readlink -f "${BASH_SOURCE[0]}")")/../.." && pwd) || exit 2
folder=${1-}
[ -z "$folder" ] || folder=$(readlink -f "$folder") || exit 2
failed=0
passed=0
note='not proved: built without checking'

# Says whether a check held.
check() {
  if [ "$2" = "$3" ]; then
    passed=$((passed + 1))
    echo "ok      $1"
  else
    failed=$((failed + 1))
    echo "FAILED  $1: '$2', not '$3'"
  fi
}

proved() {
  local crate=$1
  shift
  "${folder:-$top/crates/$crate/out}/$crate" "$@"
}

for crate in snes_run frame_look snes_trace cart_lint scene_cart cart_bench cart_header; do
  [ -x "${folder:-$top/crates/$crate/out}/$crate" ] || { echo "try_unproved: there is no proved program of $crate" >&2; exit 2; }
done
work=$(mktemp -d) || exit 2
trap 'rm -rf "$work"' EXIT
cd "$work" && mkdir proved unproved || exit 2
# --version of a tool keeps what its program was built from, where that isn't kept yet.
for tool in snes look trace lint scene bench header stems; do "$top/$tool" --version >/dev/null; done
list_built() { (cd "$top" && find crates/*/out -printf '%p %s %T@\n' 2>/dev/null | sort); }
list_built >built_before

# Builds each first, so that the times that are said are those of the builds.
for tool in snes look trace lint scene bench header; do
  began=${EPOCHREALTIME/[^0-9]/}
  words=(--help)
  [ "$tool" != snes ] || words=(demo 7 --frames 1)
  [ "$tool" != scene ] || words=(scene)
  "$top/$tool" --unproved "${words[@]}" >/dev/null 2>said
  now=${EPOCHREALTIME/[^0-9]/}
  echo "$tool --unproved: $(((now - began) / 1000000)) seconds"
done

# Runs a command by both, each in a folder of its own, and compares what it prints, its status and every file.
alike() {
  local what=$1 tool=$2 crate=$3 status
  shift 3
  (cd proved && proved "$crate" "$@" >line 2>faults; echo $? >status)
  (cd unproved && "$top/$tool" --unproved "$@" >line 2>faults; echo $? >status)
  status=$(cat proved/status)
  check "$what: status" "$(cat unproved/status)" "$status"
  check "$what: says that it is not proved" "$(grep -c "^$tool: $note$" unproved/faults)" 1
  check "$what: the proved program does not" "$(grep -c 'not proved' proved/faults)" 0
  grep -v "^$tool: $note$" unproved/faults >rest
  mv rest unproved/faults
  check "$what: output" "$(diff -qr proved unproved)" ''
}
alike 'scene' scene scene_cart s
check 'scene: files' "$(ls unproved/s | wc -l)" 5
files=(--cart s/scene.sfc --boot s/boot.bin --table s/table.bin)
for command in serial run lockless; do
  alike "$command" snes snes_run "$command" "${files[@]}" --script s/script.txt --frames 40 --video video.$command --audio audio.$command
  check "$command: whole frames" "$(stat -c %s unproved/video.$command)" $((40 * 244736))
done
alike make snes snes_run make 7 --out image
alike demo snes snes_run demo 7 --frames 60
check 'demo: its line' "$(cat unproved/line)" 'frames 60 samples 31947 video 1271400168 sound 16274526'
for side in proved unproved; do
  printf 'go 3 0000 0000\nkeep 1\ngo 2 1000 0000\nback 1\ngo 2 0000 0000\n' >$side/plan.txt
  python3 - $side/tune.spc <<'P'
import sys

header = b"SNES-SPC700 Sound File Data v0.30\x1a\x1a\x1b\x1e" + bytes(219)
# At 0200: CLRP, then BRA to itself. One voice is on, its sample at 1000, so that something is to be heard.
memory = bytearray((3 * i) % 251 for i in range(65536))
memory[0x200:0x203] = bytes([0x20, 0x2F, 0xFE])
header = bytearray(header[:256])
header[0x25:0x27] = (0x200).to_bytes(2, "little")
registers = bytearray(128)
registers[0x00:0x08] = bytes([0x7F, 0x7F, 0, 0x10, 0, 0, 0x7F, 0])
registers[0x0C], registers[0x1C], registers[0x4C], registers[0x5D], registers[0x6C] = 0x7F, 0x7F, 1, 0x10, 0x20
open(sys.argv[1], "wb").write(bytes(header) + bytes(memory) + bytes(registers) + bytes(128))
P
done
alike rewind snes snes_run rewind "${files[@]}" --plan plan.txt --video rewound --audio rewound.sound
check 'rewind: status' "$(cat unproved/status)" 0
alike play snes snes_run play --spc tune.spc --table s/table.bin --samples 3200 --audio tune.raw
check 'play: samples' "$(stat -c %s unproved/tune.raw)" 12800
alike sums snes snes_run sums "${files[@]}" --frames 20 --sums run.csv
check 'sums: lines' "$(wc -l <unproved/run.csv)" 22
alike check snes snes_run check "${files[@]}" --frames 20 --sums run.csv
check 'check: status' "$(cat unproved/status)" 0
alike dump snes snes_run dump "${files[@]}" --frames 20 --state state.bin
alike spc snes snes_run spc "${files[@]}" --frames 40 --spc taken.spc
check 'spc: a whole file' "$(stat -c %s unproved/taken.spc)" 66048
alike 'look tags' look frame_look tags taken.spc
# ./stems is a script over three programs, each of which says that it is not proved.
(cd proved && "$top/tools/stems.sh" "${folder:-$top/crates/snes_run/out}/snes_run" "${folder:-$top/crates/frame_look/out}/frame_look" \
  "${folder:-$top/crates/scene_cart/out}/scene_cart" --seconds 1 taken.spc stems >line 2>faults; echo $? >status)
(cd unproved && "$top/stems" --unproved --seconds 1 taken.spc stems >line 2>faults; echo $? >status)
check 'stems: status' "$(cat unproved/status)" 0
check 'stems: say that they are not proved' "$(grep -cE "^(snes|look|scene): $note$" unproved/faults)" 3
rm -f {proved,unproved}/faults
check 'stems: output' "$(diff -qr proved unproved)" ''
check 'stems: files' "$(ls unproved/stems | wc -l)" 9
alike 'refused' snes snes_run serial "${files[@]/scene.sfc/boot.bin}" --script s/script.txt --frames 1 --video v --audio a
check 'refused: status' "$(cat unproved/status)" 3
alike 'look png' look frame_look png video.serial 39 frame.png
check 'look png: a picture' "$(head -c 4 unproved/frame.png | tail -c 3)" PNG
alike 'look sums' look frame_look sums video.serial audio.serial
alike 'trace' trace snes_trace "${files[@]}" --script s/script.txt --frame 2
check 'trace: has lines' "$([ "$(wc -l <unproved/line)" -gt 1000 ] && echo many)" many
alike 'scene --measured' scene scene_cart --measured m
alike 'lint' lint cart_lint m/scene.sfc --boot m/boot.bin --table m/table.bin --frames 20 --format sarif
check 'lint: finds something' "$(cat unproved/status)" 1
printf '[[case]]\nname = "scene"\ncart = "s/scene.sfc"\nframes = 2\nsums = "sums.csv"\n' | tee proved/cases.toml >unproved/cases.toml
alike 'bench' bench cart_bench cases.toml --update --junit results.xml
check 'bench: sums' "$(wc -l <unproved/sums.csv)" 4
for side in proved unproved; do
  python3 -c 'import sys; sys.stdout.buffer.write(bytes(0x7FFD) + b"\x80" + bytes(2))' >$side/bare.sfc
done
alike 'header' header cart_header bare.sfc headed.sfc --title "FIRST STEPS"
check 'header: a header' "$(head -c 32715 unproved/headed.sfc | tail -c 11)" 'FIRST STEPS'
alike 'snes with that header' snes snes_run sums --cart headed.sfc --frames 2 --sums headed.csv
check 'snes with that header: status' "$(cat unproved/status)" 0

check 'version: of the wrapper' "$("$top/snes" --unproved --version 2>/dev/null | head -n 1)" "$(proved snes_run --version) (not proved)"
version=$(proved snes_run --version)
for tool in snes look trace lint scene bench header stems; do
  check "version: $tool --unproved" "$("$top/$tool" --unproved --version 2>/dev/null | sed -n '1p;3p' | tr '\n' ',')" "${version/snes/$tool} (not proved),$note,"
  check "version: $tool" "$("$top/$tool" --version | sed -n '1p;2s/ .*//p' | tr '\n' ',')" "${version/snes/$tool},commit,"
done
check 'version: of the program itself' "$("$top/unproved/snes-unproved" --version)" "$(proved snes_run --version) (not proved)"
check 'help: says that it is not proved' "$("$top/snes" --unproved --help 2>&1 >/dev/null)" "snes: $note"
list_built >built_after
check 'nothing in crates/*/out was touched' "$(diff built_before built_after)" ''
check 'git ignores what was built' "$(cd "$top" && git status --porcelain unproved 2>/dev/null)" ''
echo "$passed passed, $failed failed"
[ "$failed" -eq 0 ]
