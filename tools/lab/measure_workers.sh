#!/usr/bin/env bash
# Measures what two threads cost: `serial`, `run` and `lockless` by wall-clock, over whole cartridges.
#
#   [FRAMES=300] [BUSY=0] tools/lab/measure_workers.sh FOLDER [TIMES] [PROGRAM]
#
# FOLDER has what `./scene --measured FOLDER` writes. PROGRAM is crates/snes_run/out/snes_run, where none is named. Each of the three
# commands runs TIMES times (8), one after the other in turn, on the scene and on the cartridge of `make 7`, with outputs to the
# null device. It prints the best and the median in milliseconds, and both over those of `serial`. With BUSY=N so many other
# processes loop meanwhile. The machine should do nothing else.
top=$(cd "$(dirname "$(readlink -f "${BASH_SOURCE[0]}")")/../.." && pwd) || exit 2
[ $# -ge 1 ] && [ -f "$1/scene.sfc" ] || { echo 'measure_workers.sh FOLDER [TIMES] [PROGRAM]: FOLDER is one of ./scene --measured' >&2; exit 2; }
folder=$(readlink -f "$1") times=${2:-8} program=$(readlink -f "${3:-$top/crates/snes_run/out/snes_run}") frames=${FRAMES:-300}
[ -x "$program" ] || { echo "no program: $program" >&2; exit 2; }
work=$(mktemp -d) || exit 2
busy=()
trap 'kill "${busy[@]}" 2>/dev/null; rm -rf "$work"' EXIT
"$program" make 7 --out "$work/seven.sfc" >/dev/null || exit 2
cp "$folder/scene.sfc" "$work/scene.sfc" || exit 2
for ((n = 0; n < ${BUSY:-0}; n++)); do
  (while :; do :; done) &
  busy+=($!)
done
for ((n = 0; n < times; n++)); do
  for cart in scene seven; do
    for command in serial run lockless; do
      began=${EPOCHREALTIME/[^0-9]/}
      # Two slashes, since two outputs may not have one name.
      "$program" $command --cart "$work/$cart.sfc" --boot "$folder/boot.bin" --table "$folder/table.bin" --script "$folder/script.txt" \
        --frames "$frames" --video /dev/null --audio /dev//null >/dev/null || exit 1
      echo "$cart $command $((${EPOCHREALTIME/[^0-9]/} - began))" >>"$work/times"
    done
  done
done
python3 - "$work/times" <<'P'
import collections
import statistics
import sys

times = collections.defaultdict(list)
for line in open(sys.argv[1], encoding="utf-8"):
    cart, command, taken = line.split()
    times[cart, command].append(int(taken) / 1000)
for (cart, command), taken in times.items():
    serial = times[cart, "serial"]
    best, median = min(taken), statistics.median(taken)
    print(f"{cart:6} {command:9} best {best:8.1f} ms ({best / min(serial):.2f})   median {median:8.1f} ms ({median / statistics.median(serial):.2f})")
P
