#!/usr/bin/env bash
# Prints million instructions a frame of programs that build.sh made: callgrind's difference of a run of 25 frames and one
# of 5, over 20. The jobs are the first three of tools/lab/measure.sh.
#
#   tools/lab/by_rustc/measure.sh PROGRAM..        JOBS="red" only some jobs; SCENE=FOLDER takes the files that ./scene --measured has written there before
here=$(cd "$(dirname "$(readlink -f "${BASH_SOURCE[0]}")")" && pwd) || exit 2
top=$here/../../..
[ $# -ge 1 ] || { echo 'measure.sh PROGRAM..: million instructions a frame' >&2; exit 2; }
work=$(mktemp -d) || exit 2
trap 'rm -rf "$work"' EXIT

# The files of a job, in $work/JOB: cart.sfc, boot.bin, table.bin, script.txt.
files_of() {
  local folder=$work/$1
  mkdir -p "$folder" || return
  case $1 in
    red) cp "$top"/crates/snes_run/data/* "$folder/" && mv "$folder/red.sfc" "$folder/cart.sfc" ;;
    scene)
      if [ -n "${SCENE:-}" ]; then cp "$SCENE"/{scene.sfc,boot.bin,table.bin,script.txt} "$folder/"; else "$top/scene" --measured "$folder" >/dev/null; fi &&
        mv "$folder/scene.sfc" "$folder/cart.sfc"
      ;;
    seven) "$2" make 7 "$folder" ;;
    *)
      echo "no such job: $1" >&2
      return 1
      ;;
  esac
}

# The instructions of a run: PROGRAM JOB FRAMES.
instructions() {
  valgrind --tool=callgrind --callgrind-out-file=/dev/null "$1" "$work/$2"/{cart.sfc,boot.bin,table.bin,script.txt} "$3" 2>&1 >/dev/null |
    awk '/Collected/ { print $4 }'
}

for job in ${JOBS:-scene seven red}; do
  files_of "$job" "$1" || exit 2
  for program in "$@"; do
    short=$(instructions "$program" "$job" 5) long=$(instructions "$program" "$job" 25)
    awk -v job="$job" -v name="$(basename "$program")" -v short="$short" -v long="$long" \
      'BEGIN { printf "%-6s %-24s %.3f\n", job, name, (long - short) / 20 / 1e6 }'
  done
done
