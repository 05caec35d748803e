#!/usr/bin/env bash
# Tries what ./trace says at its end: of a 65C816 that has stopped, of an SPC700 that has stopped, of a sound side that waits in its boot
# ROM, and nothing of a run that goes on.
#
#     tools/evidence/try_trace_ends.sh [TRACE]
#
# TRACE is the built program (crates/snes_trace/out/snes_trace). The status is 1 where it says something else.
top=$(cd "$(dirname "${BASH_SOURCE[0]}")/../.." && pwd) || exit 2
trace=${1:-$top/crates/snes_trace/out/snes_trace}
[ -x "$trace" ] || { echo "no program: $trace (ONLY_BUILD=1 tools/run_built.sh trace snes_trace builds it)" >&2; exit 2; }
work=$(mktemp -d) || exit 2
trap 'rm -rf "$work"' EXIT
cd "$work" || exit 2
python3 - "$top" <<'P' || exit 2
import re, sys


def cartridge(program):
    """32 KiB of LoROM with a program at 8000 and the RESET vector 8000."""
    rom = bytearray(32768)
    rom[: len(program)] = program
    rom[0x7FC0:0x7FE0] = b"ENDS".ljust(21) + bytes((0x20, 0, 5, 0, 0, 0, 0, 0xFF, 0xFF, 0, 0))
    rom[0x7FFC:0x7FFE] = (0x8000).to_bytes(2, "little")
    return bytes(rom)


def boot_rom(program):
    return program.ljust(62, b"\0") + b"\xc0\xff"


def write(name, data):
    open(name, "wb").write(data)


listing = open(sys.argv[1] + "/examples/spc700/boot.lst", encoding="utf-8").read()
write("free.bin", b"".join(bytes.fromhex(m) for m in re.findall(r"^[0-9A-F]{4}  ((?:[0-9A-F]{2} ?)+)", listing, re.M)))
write("sleeps.bin", boot_rom(b"\x00\xef"))  # NOP; SLEEP
write("goes.bin", boot_rom(b"\x2f\xfe"))  # BRA to itself
write("stops.sfc", cartridge(b"\xea\xdb"))  # NOP; STP
write("goes.sfc", cartridge(b"\x80\xfe"))  # BRA to itself
write("waits.sfc", cartridge(b"\xcb"))  # WAI
# LDA #CC; STA 2140; BRA to itself: the order is answered, and the sound side waits for a byte.
write("orders.sfc", cartridge(b"\xa9\x01\x8d\x41\x21\xa9\xcc\x8d\x40\x21\x80\xfe"))
write("table.bin", bytes(1024))
write("script.txt", b"")
P
bad=0 tried=0

# What it has to say of a cartridge and a boot ROM: CARTRIDGE BOOT LINE..
say() {
  local cart=$1 boot=$2
  shift 2
  tried=$((tried + 1))
  printf '%s\n' "$@" | sed '/^$/d; s/^/trace: where it ends the /' >wanted
  "$trace" --cart "$cart" --boot "$boot" --table table.bin --script script.txt --frame 1 --instructions >lines 2>said
  if ! cmp -s said wanted; then
    bad=$((bad + 1))
    echo "$cart, $boot: $(cat said)"
  fi
}

say stops.sfc goes.bin "console's processor has stopped: STP at 008001"
say goes.sfc sleeps.bin "sound side's processor has stopped: SLEEP or STOP at FFC1"
say goes.sfc free.bin 'sound side waits in its boot ROM: it shows AA and BB, and port 0 has 00, not CC'
say goes.sfc goes.bin ''
say waits.sfc goes.bin ''
say orders.sfc free.bin ''
echo "$tried ends tried, $bad are not as they should be"
[ $bad = 0 ]
