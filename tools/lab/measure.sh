#!/usr/bin/env bash
# Prints the table of figures of docs/lab/PERFORMANCE.md from the built program, each with what it was taken by.
#
#   tools/lab/measure.sh [OTHER..]
#
# The jobs: `scene` (the cartridge of ./scene --measured), `seven` (that of `snes make 7`), `red` (the one of snes_run's stored
# run: a backdrop, a loop of two instructions, and a sound processor that has halted), and the other three cartridges of ./scene
# --measured, whose sources are in examples/speed: `sieve` (work in RAM), `mode7` (a plane that turns, by HDMA on each line)
# and `tune` (eight voices with an echo, and a console that waits). For each it prints, of `serial`, the million
# instructions a frame (callgrind; the difference of a run of 25 frames and one of 5, over 20; a `-` where there is no
# valgrind), and the frames a second of processor time of `serial`, `run` and `lockless`, by the clock too for the last two:
# the best of RUNS (5) runs of FRAMES (600) frames, the programs in turn. All outputs go to the null device, so that no
# figure has the writing of files in it. An OTHER is a program with the same words, which is measured beside.
#
# The program has to be built: ./snes demo 7 --frames 0. SNES=PROGRAM measures another build, JOBS="red" only some jobs;
# SCENE=FOLDER takes the files that ./scene --measured has written there before. FILES=FOLDER leaves the jobs' files there, a folder
# each, for tools/lab/profile.py and tools/lab/unproved/try_hints.py; with RUNS=0 nothing is measured.
top=$(cd "$(dirname "${BASH_SOURCE[0]}")/../.." && pwd) || exit 2
snes=${SNES:-$top/crates/snes_run/out/snes_run}
[ -x "$snes" ] || { echo "no program: $snes (./snes demo 7 --frames 0 builds it)" >&2; exit 2; }
work=$(mktemp -d) || exit 2
trap 'rm -rf "$work"' EXIT
frames=${FRAMES:-600} runs=${RUNS:-5}

# The files of a cartridge of ./scene --measured, in a folder: FOLDER NAME. The tune has a boot ROM and a table of its own.
measured_in() {
  local from=${SCENE:-$work/measured} own=
  [ "$2" != tune ] || own=tune_
  [ -n "${SCENE:-}" ] || [ -d "$from" ] || "$top/scene" --measured "$from" >/dev/null || return
  cp "$from/$2.sfc" "$1/cart.sfc" && cp "$from/${own}boot.bin" "$1/boot.bin" && cp "$from/${own}table.bin" "$1/table.bin" &&
    cp "$from/script.txt" "$1/"
}

# The files of a job, in $work/JOB: cart.sfc, boot.bin, table.bin, script.txt.
files_of() {
  local folder=$work/$1
  mkdir -p "$folder" || return
  case $1 in
    red)
      cp "$top"/crates/snes_run/data/{boot.bin,table.bin,script.txt} "$folder/" &&
        cp "$top/crates/snes_run/data/red.sfc" "$folder/cart.sfc"
      ;;
    scene | sieve | mode7 | tune) measured_in "$folder" "$1" ;;
    seven)
      measured_in "$folder" scene && rm -f "$folder/cart.sfc" &&
        "$snes" make 7 --out "$folder/cart.sfc" >/dev/null
      ;;
    *)
      echo "no such job: $1" >&2
      return 1
      ;;
  esac
}

# The words of a run: COMMAND JOB FRAMES. Both outputs are the null device, under two names, as the program asks.
words_of() {
  local folder=$work/$2
  echo "$1" --cart "$folder/cart.sfc" --boot "$folder/boot.bin" --table "$folder/table.bin" \
    --script "$folder/script.txt" --frames "$3" --video /dev/null --audio /dev//null
}

# The instructions of a run: PROGRAM JOB FRAMES.
instructions() {
  # shellcheck disable=SC2046
  valgrind --tool=callgrind --callgrind-out-file=/dev/null "$1" $(words_of serial "$2" "$3") 2>&1 >/dev/null |
    awk '/Collected/ { print $4 }'
}

# Million instructions a frame: PROGRAM JOB.
instructions_of() {
  command -v valgrind >/dev/null || { echo "-"; return; }
  local short long
  short=$(instructions "$1" "$2" 5) long=$(instructions "$1" "$2" 25)
  awk -v short="${short:-0}" -v long="${long:-0}" 'BEGIN { if (short && long) printf "%.2f", (long - short) / 20 / 1e6; else print "-" }'
}

# Seconds by the clock and of the processor of one run: PROGRAM COMMAND JOB.
seconds() {
  local TIMEFORMAT='%R %U %S'
  # shellcheck disable=SC2046
  { time "$1" $(words_of "$2" "$3" "$frames") >/dev/null 2>&1; } 2>&1 | awk '{ print $1, $2 + $3 }'
}

programs=("$snes" "$@")
printf '%-8s %-28s %14s %16s %13s %16s %18s %21s\n' job program 'M instr/frame' 'serial, proc/s' 'run, proc/s' \
  'run, by clock/s' 'lockless, proc/s' 'lockless, by clock/s'
for job in ${JOBS:-scene seven red sieve mode7 tune}; do
  files_of "$job" || exit 2
  [ -z "${FILES:-}" ] || { mkdir -p "$FILES" && cp -r "$work/$job" "$FILES/"; } || exit 2
  [ "$runs" != 0 ] || continue
  declare -A best=()
  for _ in $(seq "$runs"); do
    for program in "${programs[@]}"; do
      for command in serial run lockless; do
        # shellcheck disable=SC2034
        read -r clock user < <(seconds "$program" "$command" "$job")
        for kind in clock user; do
          key="$program $command $kind"
          best[$key]=$(awk -v a="${best[$key]:-1e9}" -v b="${!kind}" 'BEGIN { print (b < a) ? b : a }')
        done
      done
    done
  done
  for program in "${programs[@]}"; do
    rate() { awk -v n="$frames" -v t="${best[$1]}" 'BEGIN { printf "%.0f", n / (t > 0 ? t : 0.001) }'; }
    printf '%-8s %-28s %14s %16s %13s %16s %18s %21s\n' "$job" "$(basename "$program")" "$(instructions_of "$program" "$job")" \
      "$(rate "$program serial user")" "$(rate "$program run user")" "$(rate "$program run clock")" \
      "$(rate "$program lockless user")" "$(rate "$program lockless clock")"
  done
done
