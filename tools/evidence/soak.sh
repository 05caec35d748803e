#!/usr/bin/env bash
# Runs jobs at random by `serial` and by two workers over either wire, and compares every byte, the line that is said and the exit status.
#
# `tools/evidence/soak.sh COUNT [FIRST]`: the jobs of the numbers FIRST (0, where it isn't given) to FIRST + COUNT - 1, made by the program of
# crates/wild_jobs. Each is run by `serial` once, by `run` and `lockless` on all processors, and by `run` on one, while as many
# other processes as there are processors keep these busy (none with LOAD=0). Four jobs are under way at once (JOBS=N).
# `run` and `lockless` are then run once more behind a gate that counts (`console_rows job ..`): every turn has to have two
# threads.
#
# It is no part of the gate. It needs three programs: ./snes demo 7 --frames 0, and in crates/wild_jobs and crates/console_rows
# `rt run`. It says how many jobs were alike, and how many turns there were, on two threads and overlapping. Each job that wasn't
# alike is named, with its files kept under /tmp/snes-soak. The status is 1 where one wasn't, where fewer were compared than
# were asked for, or where a turn had one thread.
#
# What it can't show: that the two workers' steps fell between each other in any particular way. It can only try many ways,
# of which a busy machine makes more than an idle one; that all of them give the bytes of `serial` is the theorem.
top=$(cd "$(dirname "${BASH_SOURCE[0]}")/../.." && pwd) || exit 2
count=${1:-} first=${2:-0}
[[ $count =~ ^[1-9][0-9]*$ && $first =~ ^[0-9]+$ ]] || { echo "usage: tools/evidence/soak.sh COUNT [FIRST]" >&2; exit 2; }
export snes=${SNES:-$top/crates/snes_run/out/snes_run} jobs=${WILD_JOBS:-$top/crates/wild_jobs/out/wild_jobs}
export watched=${CONSOLE_ROWS:-$top/crates/console_rows/out/console_rows}
for program in "$snes" "$jobs" "$watched"; do
  [ -x "$program" ] || { echo "no program: $program" >&2; exit 2; }
done
export processor
processor=$(taskset -pc $$ | sed 's/.*: *//; s/[-,].*//') || exit 2
export work
work=$(mktemp -d) || exit 2
export kept=/tmp/snes-soak
load=()
for _ in $(seq "${LOAD:-$(nproc)}"); do
  (while :; do :; done) &
  load+=($!)
done
trap 'kill "${load[@]}" 2>/dev/null; rm -rf "$work"' EXIT

# One run of a job by a command: the words behind are the program, its outputs go to FOLDER/NAME.
one() {
  local folder=$1 name=$2 frames=$3 command=$4
  shift 4
  "$@" "$command" --cart "$folder/cart.sfc" --boot "$folder/boot.bin" --table "$folder/table.bin" \
    --script "$folder/script.txt" --frames "$frames" --video "$folder/$name.video" --audio "$folder/$name.audio" \
    >"$folder/$name.said" 2>"$folder/$name.errors"
  echo "status $?" >>"$folder/$name.said"
}

# A job by its number: prints `alike`, `other` or `none`.
job() {
  local number=$1 folder=$work/$1 frames
  frames=$("$jobs" "$number" "$folder") || { echo none; return; }
  frames=${frames% frames}
  [[ $frames =~ ^[0-9]+$ ]] || { echo none; return; }
  one "$folder" serial "$frames" serial "$snes"
  one "$folder" all "$frames" run "$snes"
  one "$folder" one "$frames" run taskset -c "$processor" "$snes"
  one "$folder" lockless "$frames" lockless "$snes"
  one "$folder" counted "$frames" run "$watched" job
  one "$folder" counted_lockless "$frames" lockless "$watched" job
  cat "$folder/counted.errors" "$folder/counted_lockless.errors" >>"$work/counts"
  local same=alike part name
  grep -q '^frames ' "$folder/serial.said" && grep -qx 'status 0' "$folder/serial.said" || same=none
  # A frame has 244,736 bytes; a run without pictures would compare nothing.
  [ "$(stat -c %s "$folder/serial.video")" = $((244736 * frames)) ] || same=none
  for name in all one lockless counted counted_lockless; do
    for part in said video audio; do
      cmp -s "$folder/serial.$part" "$folder/$name.$part" || same=other
    done
  done
  if [ $same != alike ]; then
    mkdir -p "$kept" && cp -r "$folder" "$kept/"
    echo "job $number: $same" >&2
  fi
  rm -rf "$folder"
  echo $same
}
export -f one job

started=$(date +%s)
seq "$first" $((first + count - 1)) | xargs -P "${JOBS:-4}" -I {} bash -c 'job {}' >"$work/told"
alike=$(grep -cx alike "$work/told")
turns=0 on_two=0 overlapped=0
while read -r made _ two _ _ _ met _; do
  turns=$((turns + made)) on_two=$((on_two + two)) overlapped=$((overlapped + met))
done <"$work/counts"
echo "$turns turns, $on_two on two threads, $overlapped overlapped"
echo "$count jobs: $alike alike by serial, by run on all processors and on one, and by lockless, $((count - alike)) not, in $(($(date +%s) - started)) s" \
  "(from $first on, at a load of $(cut -d ' ' -f 1 /proc/loadavg) on $(nproc) processors)"
[ "$alike" = "$count" ] && [ "$turns" -gt 0 ] && [ "$turns" = "$on_two" ]
