#!/usr/bin/env bash
# Runs each cartridge of a folder by GNU parallel (Debian's package `parallel`), and keeps of each run its sums, one
# sheet of small pictures and its line. Or runs each again, and checks the sums that another machine kept.
#
#     tools/many_runs.sh [--frames N] [--every N] [--jobs N] [--results FOLDER] [--sshlogin LIST] DIR
#     tools/many_runs.sh --check [--jobs N] [--results FOLDER] [--sshlogin LIST] DIR
#
# DIR has the cartridges (NAME.sfc, .smc, .swc or .fig, in either case: the program says which it takes), and boot.bin,
# table.bin and script.txt for all of them. NAME.txt beside a cartridge is the script of that one alone. Where there is no
# script, it is the empty one; with `--every 0` and `--check` the free boot ROM and the free table stand in for files that
# are not there. FOLDER (DIR/results) gets for each cartridge
#
#     NAME.csv    the sums of each frame and of all frames, by `snes sums`
#     NAME.png    a picture each N frames (--every, 60; 0 keeps none), from a second run by `serial`
#     NAME.line   the line of the program, its status, and the checksum of what the run was made from: the bytes of the
#                 cartridge and of the other files, the number of frames, and that of --every
#
# and `manifest`, which `sha256sum -c manifest` checks in FOLDER, on this machine or another. A run that fails has its
# status and its line there too, in a remark. `joblog` is that of parallel, of the last call. A call makes the runs that
# are not there yet, and those whose line is of other bytes or another number of frames: what is there of these is
# removed first. The status is 0 where all is there and each run had the status 0, else 1; of the words 2.
#
# `--check` changes nothing in FOLDER. It checks the files by the manifest, and each run by `snes check`, with as many
# frames as its line says; a run that failed is to fail with the same line. It names each run that differs, and where.
# The status is 0 where all is as it was kept, else 1.
#
# tools/many_runs.sbatch does the same as an array job of Slurm. docs/use/CHECKING.md has both, docs/lab/LAST-RUNS.md figures.
top=$(cd "$(dirname "${BASH_SOURCE[0]}")/.." && pwd) || exit 2
snes=${SNES:-$top/crates/snes_run/out/snes_run}
look=${LOOK:-$top/crates/frame_look/out/frame_look}
frames=600
every=60
jobs=
results=
logins=()
task=all

usage() { sed -n '2,7p' "${BASH_SOURCE[0]}" | sed 's/^# \{0,1\}//' >&2; exit 2; }

while [ $# -gt 0 ]; do
  case $1 in
    --frames) frames=$2; shift 2 || usage ;;
    --every) every=$2; shift 2 || usage ;;
    --jobs) jobs=$2; shift 2 || usage ;;
    --results) results=$2; shift 2 || usage ;;
    --sshlogin) logins+=(--sshlogin "$2"); shift 2 || usage ;;
    --check) task=check; shift ;;
    # For this script and the array job: one cartridge, every K-th from the I-th on, the manifest.
    --one) task=one; cart=$2; shift 2 || usage ;;
    --check-one) task=check_one; cart=$2; shift 2 || usage ;;
    --share) task=share; first=$2; step=$3; shift 3 || usage ;;
    --manifest) task=manifest; shift ;;
    -*) usage ;;
    *) break ;;
  esac
done
[ $# -eq 1 ] && [ -d "$1" ] || usage
dir=$(cd "$1" && pwd) || exit 2
results=${results:-$dir/results}
[ $task != check ] || [ -f "$results/manifest" ] || { echo "many_runs: no manifest in $results" >&2; exit 1; }
mkdir -p "$results" && results=$(cd "$results" && pwd) || exit 2

# The file names of the cartridges, each ended by a zero byte, in order.
carts() {
  (cd "$dir" && find . -maxdepth 1 -xtype f \( -iname '?*.sfc' -o -iname '?*.smc' -o -iname '?*.swc' -o -iname '?*.fig' \) -printf '%f\0' |
    LC_ALL=C sort -z)
}

# The script of a cartridge: its own, or that of all.
script_of() { [ -f "$dir/${1%.*}.txt" ] && echo "$dir/${1%.*}.txt" || echo "$dir/script.txt"; }

# Sets `inputs` to the words that name a cartridge and those of the other files that are there, and `empty` to those that name
# the empty script, if there is none: `serial` wants one.
name_inputs() {
  local script
  script=$(script_of "$1")
  inputs=(--cart "$dir/$1") empty=()
  [ ! -f "$dir/boot.bin" ] || inputs+=(--boot "$dir/boot.bin")
  [ ! -f "$dir/table.bin" ] || inputs+=(--table "$dir/table.bin")
  if [ -f "$script" ]; then inputs+=(--script "$script"); else empty=(--script /dev/null); fi
}

# The checksum of a file, or a word where there is none and the program has its own.
sum_or() { if [ -f "$1" ]; then sha256sum <"$1"; else echo "free $2"; fi; }

# What a run of a cartridge is made from, as a checksum.
made_from() {
  { sha256sum <"$dir/$1" && sum_or "$dir/boot.bin" boot && sum_or "$dir/table.bin" table && sum_or "$(script_of "$1")" script &&
    echo "frames $frames every $every"; } 2>/dev/null | sha256sum | cut -c 1-64
}

# Whether the run of a cartridge is there.
is_there() {
  local line=$results/${1%.*}.line
  [ -f "$line" ] && [ "$(sed -n 's/^from //p' "$line")" = "$(made_from "$1")" ]
}

# The status of a run that is there.
status_of() { sed -n 's/^status //p' "$results/${1%.*}.line"; }

# Says what a part of a run has said, under its name.
complain() { sed "s/^/$name: /" "$1" >&2; }

# Calls the program. A limit of file sizes is a fault that it tells.
call_snes() { (trap '' XFSZ && exec "$snes" "$@"); }

# Runs a cartridge by `serial`, and makes the sheet of what comes through a pipe. Both ends are opened here, so that none
# waits for a program that never opens it.
draw_sheet() {
  mkfifo "$part/video" && exec 3<>"$part/video" 4<"$part/video" || return 1
  "$look" sheet - "$part/png" --every "$every" <&4 >/dev/null 2>"$part/fault" 3>&- 4<&- &
  local drawing=$! drawn
  exec 4<&-
  call_snes serial "${inputs[@]}" "${empty[@]}" --frames "$frames" --video "$part/video" --audio /dev/null >/dev/null 2>>"$part/said" 3>&-
  local status=$?
  exec 3>&-
  wait $drawing
  drawn=$?
  [ $status -eq 0 ] && [ $drawn -eq 0 ]
}

# Runs one cartridge. What is kept gets its name only when it is whole, the line last.
run_one() {
  local name=${1%.*} part=$results/.$1.part status from inputs empty
  ! is_there "$1" || return "$(status_of "$1")"
  # What is there was made from something else.
  rm -f "$results/$name.line" "$results/$name.csv" "$results/$name.png"
  from=$(made_from "$1")
  name_inputs "$1"
  rm -rf "$part" && mkdir "$part" || return 2
  call_snes sums "${inputs[@]}" --frames "$frames" --sums "$part/csv" >"$part/line" 2>"$part/said"
  status=$?
  # Frames of no sheet: none is wanted, or a film of no frames.
  if [ $status -eq 0 ] && [ "$((10#$frames))" -gt 0 ] && [ "$((10#$every))" -gt 0 ]; then
    if draw_sheet "$1"; then mv "$part/png" "$results/$name.png"; else status=9 && complain "$part/fault"; fi
  fi
  complain "$part/said"
  [ $status -ne 0 ] || mv "$part/csv" "$results/$name.csv" || status=9
  printf 'status %s\nfrom %s\n' "$status" "$from" >>"$part/line" && mv "$part/line" "$results/$name.line" || status=9
  rm -rf "$part"
  return $status
}

# Checks one cartridge against what is kept of its run, and says where it differs.
check_one() {
  local name=${1%.*} inputs empty kept said status
  [ -f "$results/$name.line" ] || { echo "$name: was not run"; return 1; }
  kept=$(grep -v '^from ' "$results/$name.line")
  name_inputs "$1"
  if [ "$(status_of "$1")" = 0 ]; then
    frames=$(sed -n 's/^frames \([0-9]*\) .*/\1/p' "$results/$name.line")
    said=$(call_snes check "${inputs[@]}" --frames "$frames" --sums "$results/$name.csv")
    status=$?
  else
    # A run that failed kept no sums: it is to fail the same way.
    said=$(call_snes sums "${inputs[@]}" --frames "$frames" --sums /dev/null 2>/dev/null)
    status=$?
    [ "$said"$'\n'"status $status" != "$kept" ] || return 0
    said="status $status: $said" status=1
  fi
  [ $status -eq 0 ] || echo "$name: $said"
  return $status
}

# The sums of all that is kept, and a remark for each run that failed or is not there.
write_manifest() {
  local cart name kept
  (
    cd "$results" || exit 2
    carts | while IFS= read -r -d '' cart; do
      name=${cart%.*}
      if [ ! -f "$name.line" ]; then
        echo "# ${name//$'\n'/ } was not run"
        continue
      elif ! is_there "$cart"; then
        echo "# ${name//$'\n'/ } was run from other files, or for another number of frames"
        continue
      fi
      for kept in "$name.csv" "$name.line" "$name.png"; do
        [ -f "$kept" ] && sha256sum -- "$kept"
      done
      if [ "$(status_of "$cart")" != 0 ]; then
        echo "# ${name//$'\n'/ }: $(grep -v '^from ' "$name.line" | tr '\n' ' ' | sed 's/ $//')"
      fi
    done >.manifest && mv .manifest manifest
  )
}

# Says how it went, and gives the status.
tell() {
  local cart all=0 good=0
  while IFS= read -r -d '' cart; do
    all=$((all + 1))
    is_there "$cart" && [ "$(status_of "$cart")" = 0 ] && good=$((good + 1))
  done < <(carts)
  echo "$good of $all runs had the status 0; $results/manifest" >&2
  [ "$good" -eq "$all" ]
}

# Whether there is something to do: cartridges, no two of which would have results of the same name.
is_sound() {
  local cart name
  local -A seen
  while IFS= read -r -d '' cart; do
    name=${cart%.*}
    if [ -n "${seen[$name]-}" ]; then
      echo "many_runs: $cart and ${seen[$name]} would have results of the same name" >&2
      return 1
    fi
    seen[$name]=$cart
  done < <(carts)
  [ ${#seen[@]} -gt 0 ] || { echo "many_runs: no cartridge in $dir" >&2; return 1; }
  [ $task = check ] || [ $task = manifest ] || [ "$((10#$every))" -eq 0 ] || { [ -f "$dir/boot.bin" ] && [ -f "$dir/table.bin" ]; } ||
    { echo "many_runs: pictures want boot.bin and table.bin in $dir: ./scene writes free ones; --every 0 makes none" >&2; return 1; }
}

# Builds both programs of the sources as they are, unless the caller names others.
build_and_find() {
  command -v parallel >/dev/null || { echo "many_runs: parallel is not on the path (apt-get install parallel)" >&2; return 2; }
  [ -n "${SNES-}" ] || ONLY_BUILD=1 "$top/tools/run_built.sh" snes snes_run || return 2
  [ "$task" = check ] || [ -n "${LOOK-}" ] || ONLY_BUILD=1 "$top/tools/run_built.sh" look frame_look
}

# Calls this script for each cartridge that comes, as many at once as there are processors, with the word of its task.
side_by_side() {
  local bar=() log=()
  [ -t 2 ] && bar=(--bar)
  [ "$task" = check ] || log=(--joblog "$results/joblog")
  parallel --null "${bar[@]}" ${jobs:+--jobs "$jobs"} "${logins[@]}" "${log[@]}" \
    "$top/tools/many_runs.sh" --frames "$frames" --every "$every" --results "$results" "$1" {} "$dir"
}

[[ $frames =~ ^[0-9]{1,5}$ && $every =~ ^[0-9]{1,9}$ ]] || usage
case $task in
  one) run_one "$cart" ;;
  check_one) check_one "$cart" >&2 ;;
  share)
    is_sound || exit 1
    bad=0 number=0
    while IFS= read -r -d '' cart; do
      number=$((number + 1))
      [ $((number % step)) -eq $((first % step)) ] || continue
      run_one "$cart"
      status=$?
      [ $status -eq 0 ] || { bad=$((bad + 1)) && echo "$cart: status $status" >&2; }
    done < <(carts)
    [ $bad -eq 0 ]
    ;;
  manifest) is_sound && write_manifest && tell ;;
  check)
    is_sound || exit 1
    build_and_find || exit 2
    bad=0
    (cd "$results" && sha256sum --quiet -c manifest >&2) || bad=1
    carts | side_by_side --check-one || bad=1
    [ $bad -eq 0 ] && echo "each run is as $results has it" >&2
    ;;
  all)
    is_sound || exit 1
    build_and_find || exit 2
    carts | while IFS= read -r -d '' cart; do
      is_there "$cart" || printf '%s\0' "$cart"
    done | side_by_side --one
    write_manifest && tell
    ;;
esac
