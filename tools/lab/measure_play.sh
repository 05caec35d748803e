#!/usr/bin/env bash
# Prints what `snes play` costs beside libgme, the library by which ffmpeg plays sound files: the table of docs/lab/PERFORMANCE.md.
#
#   tools/lab/measure_play.sh [OTHER..]
#
# The tune is that of `tools/evidence/tunes.py eight`: eight voices that always sound, by ADSR, each into an echo of 240 ms with eight taps. Its
# sound file is taken after 60 frames. Of each program it prints the million instructions of a second of sound (callgrind: the
# difference of 7 seconds and 2, over 5; a `-` where there is no valgrind), and the seconds of sound for a second of processor time, user and system: by the
# difference of LONG (120) seconds and SHORT (20), each the best of RUNS (5) runs, the programs in turn. The sound goes to the null device.
# ffmpeg has libgme make 32,000 samples a second, which is the rate of the S-DSP, and 44,100, which is what it does if it is not told
# and for which libgme converts them.
#
# The program has to be built: ./snes demo 7 --frames 0. SNES=PROGRAM measures another build, an OTHER is measured beside;
# SCENE=FOLDER has the table.bin that ./scene has written there before.
top=$(cd "$(dirname "${BASH_SOURCE[0]}")/../.." && pwd) || exit 2
snes=${SNES:-$top/crates/snes_run/out/snes_run}
[ -x "$snes" ] || { echo "no program: $snes (./snes demo 7 --frames 0 builds it)" >&2; exit 2; }
command -v ffmpeg >/dev/null || { echo 'measure_play: there is no ffmpeg' >&2; exit 2; }
work=$(mktemp -d) || exit 2
trap 'rm -rf "$work"' EXIT
runs=${RUNS:-5} long=${LONG:-120} short=${SHORT:-20}
if [ -n "${SCENE-}" ]; then cp "$SCENE/table.bin" "$work/"; else "$top/scene" "$work/files" >/dev/null && mv "$work/files/table.bin" "$work/"; fi || exit 2
"$top/tools/evidence/tunes.py" eight "$work/tune.sfc" && "$snes" spc --cart "$work/tune.sfc" --frames 60 --spc "$work/tune.spc" >/dev/null || exit 2

# The words that play some seconds: KIND SECONDS, where a kind is a program or a rate of ffmpeg. They are left in $words.
words_of() {
  case $1 in
    ffmpeg*) words=(ffmpeg -nostdin -v error -sample_rate "${1#ffmpeg }" -i "$work/tune.spc" -t "$2" -f s16le -y /dev/null) ;;
    *) words=("$1" play --spc "$work/tune.spc" --table "$work/table.bin" --samples $((32000 * $2)) --audio /dev/null) ;;
  esac
}

# The instructions of a run: KIND SECONDS.
instructions() {
  words_of "$@"
  valgrind --tool=callgrind --callgrind-out-file=/dev/null "${words[@]}" 2>&1 >/dev/null | awk '/Collected/ { print $4 }'
}

# The milliseconds of processor time of a run: KIND SECONDS.
milliseconds() {
  local TIMEFORMAT='%U %S'
  words_of "$@"
  { time "${words[@]}" >/dev/null 2>&1; } 2>&1 | awk '{ printf "%d", ($1 + $2) * 1000 }'
}

kinds=("$snes" "$@" 'ffmpeg 32000' 'ffmpeg 44100')
declare -A best=()
for _ in $(seq "$runs"); do
  for kind in "${kinds[@]}"; do
    for seconds in "$short" "$long"; do
      now=$(milliseconds "$kind" "$seconds")
      [ "${best[$kind $seconds]:-$now}" -lt "$now" ] || best[$kind $seconds]=$now
    done
  done
done
printf '%-28s %22s %32s\n' program 'M instr/second of sound' 'seconds of sound/processor second'
for kind in "${kinds[@]}"; do
  counted=-
  ! command -v valgrind >/dev/null || counted=$(awk -v a="$(instructions "$kind" 2)" -v b="$(instructions "$kind" 7)" 'BEGIN { printf "%.1f", (b - a) / 5e6 }')
  printf '%-28s %22s %32s\n' "$(basename "$kind")" "$counted" \
    "$(awk -v a="${best[$kind $short]}" -v b="${best[$kind $long]}" -v n=$((long - short)) 'BEGIN { printf "%.1f", n * 1000 / (b - a) }')"
done
