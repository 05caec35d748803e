#!/usr/bin/env bash
# Runs everything that is no part of the gate, and ends with one line: `full check: N of M parts hold`.
#
#     tools/evidence/full_check.sh [PART | PART:ITEM ..]
#
# Its parts, the cheap ones first, and the items of each:
#
#     edits        each wrong change can be made (check_edits.sh); crates.txt names what is used (check_crates.sh); links of pages
#                  lead somewhere, and a planted dead one is named (check_pages.sh, try_check_pages.sh); listings give the bytes
#                  in the sources (check_listings.py), the formula the table's numbers (make_table.py), ca65 the pinned
#                  cartridges of examples/, if it is there (build_examples.sh)
#     device       full devices and names that can't be made, by the built program
#     ends         what ./trace says of machines that go nowhere (try_trace_ends.sh), its labels, ends and coverage
#                  (try_trace_words.sh), and the lines of source that it counts, if ca65 is there (compare_lines.py)
#     bench        the cases of ./bench, wrong files of cases, its reports and the CI pieces of its page (try_bench.sh)
#     lint         each rule of ./lint, its formats and arguments, and the planted faults, if ca65 is there (try_lint.py); its logs of
#                  SARIF are validated if SARIF_SCHEMA names the schema (try_lint.py says how to get it)
#     tags         the tags that ./look prints of sound files at random (try_tags.py)
#     music        the commands that take music out of a cartridge; voices beside ffmpeg's player, if it is there (try_music.py)
#     states       what snes dump and snes spc write of cartridges at random (try_states.py, try_sound_files.py)
#     plans        what snes rewind writes of plans at random, beside serial (try_plans.py)
#     edges        the cases of try_edges.py by the built programs; 10,000 hostile inputs and command lines (try_hostile.py);
#                  each fault of tools/evidence/edges is told (try_edge_faults.sh)
#     allocations  each request for memory is refused once (refuse_each_allocation.sh)
#     soak         SOAK jobs (1000) by two workers, 50 an item (soak.sh)
#     rows         the rows of the console without a fault, and each planted fault (try_row_faults.sh)
#     workers      the bodies that make a run by one worker (try_one_worker.sh)
#     bodies       the wrong bodies of each crate (try_wrong_bodies.sh), each refused where that counts (refused_at.py)
#
# It can be ended at any time and called again. What held is noted in records/full_check.held (HELD names another file), a line
# an item: a sum of all that the item rests on (sources, edits, scripts, built programs, the toolchain's logic), part, item,
# date, commit, kit. An item whose sum stands there is not tried again, at this commit or a later one, here or on another
# machine: so the file is committed after a run. Of the toolchain the sum has what `rt version` says behind `logic`, a sum
# of the libraries that the prover takes; two kits that differ by name alone count as one, and the line names the one that was used.
# The output of each item goes to CHECKED/PART-ITEM, of all of `workers` to CHECKED/workers (CHECKED: /tmp/snes-full-check).
#
# It wants the built programs (./snes demo 7 --frames 0, ./look --help, ./trace --help, ./lint --help, ./bench --help; ONLY_BUILD=1
# tools/run_built.sh CRATE CRATE for wild_jobs and console_rows), a C compiler, and some three hours of four processors,
# of which the wrong bodies take nearly all. TREE, a clone of this repository that it may keep its proofs in, spares proofs of crates
# below. It checks what is committed. The status is 1 where a part doesn't hold.
top=$(cd "$(dirname "${BASH_SOURCE[0]}")/../.." && pwd) || exit 2
checked=${CHECKED:-/tmp/snes-full-check}
held=${HELD:-$top/records/full_check.held}
mkdir -p "$checked" && touch "$held" || exit 2
export snes=${SNES:-$top/crates/snes_run/out/snes_run}
jobs=${WILD_JOBS:-$top/crates/wild_jobs/out/wild_jobs}
watched=${CONSOLE_ROWS:-$top/crates/console_rows/out/console_rows}
commit=$(git -C "$top" rev-parse --short HEAD) || exit 2
read -r kit _ < <(rt version) || exit 2
parts=("$@")
[ $# -gt 0 ] || parts=(edits device ends bench lint tags music states plans edges allocations soak rows workers bodies)

# A full device, a device that takes everything, a name that can't be made: what the program says and its status.
device() {
  local data=$top/crates/snes_run/data work said status bad=0
  work=$(mktemp -d) || return 2
  try() {
    local want=$1 words=$2 video=$3 audio=$4 command
    for command in run serial lockless; do
      said=$(timeout 60 "$snes" $command --cart "$data/red.sfc" --boot "$data/boot.bin" --table "$data/table.bin" \
        --script "$data/script.txt" --frames 1 --video "$video" --audio "$audio")
      status=$?
      echo "$command $video $audio: status $status, $said"
      [ "$status" = "$want" ] && [ "$said" = "$words" ] || bad=1
    done
  }
  try 4 'cannot write video' /dev/full "$work/audio"
  try 4 'cannot write sound' "$work/video" /dev/full
  try 4 'cannot write video' "$work/none/video" "$work/audio"
  try 0 'frames 1 samples 532' /dev/null "$work/audio"
  [ "$(stat -c %s "$work/audio")" = 2128 ] || bad=1
  timeout 60 "$snes" demo 7 --frames 1 >/dev/full
  status=$?
  echo "demo 7 --frames 1 >/dev/full: status $status"
  [ $status = 4 ] || bad=1
  rm -rf "$work"
  return $bad
}

# The sum of words and files.
sum_of() {
  local word
  for word; do if [ -f "$word" ]; then sha256sum <"$word"; else echo "$word"; fi; done | sha256sum | cut -c 1-20
}

# What the check of a crate rests on: the committed sources of it and of all below, and the toolchain's logic.
sources_of() { "$top/tools/evidence/proof_sources.py" "$1"; }

# What is committed in a file or folder.
committed() { git -C "$top" rev-parse "HEAD:$1"; }

# Notes that an item held, in place of what was noted of it before: SUM NAME.
note() {
  local line
  line="$1 $part $2 $(date -u +%Y-%m-%dT%H:%MZ) $commit $kit"
  (
    flock 9
    { grep -v " $part $2 " "$held"; echo "$line"; } | sort -k 2,3 >"$checked/held.new"
    cp "$checked/held.new" "$held"
  ) 9<"$held"
}

# Drops what is noted of an item.
forget() {
  (
    flock 9
    grep -v " $part $1 " "$held" >"$checked/held.new"
    cp "$checked/held.new" "$held"
  ) 9<"$held"
}

# Whether an item is to be tried: all of a part are, where no word names one.
chosen() { [ -z "$only" ] || [ "$only" = "$1" ]; }

# Tries an item of a part, unless it is noted that all it rests on held before.
item() {
  local name=$1 sum=$2
  shift 2
  chosen "$name" || return
  items=$((items + 1))
  if [ "$sum" != now ] && grep -q "^$sum $part $name " "$held"; then
    noted=$((noted + 1))
  elif "$@" >"$checked/$part-$name" 2>&1; then
    [ "$sum" = now ] || note "$sum" "$name"
  else
    bad=$((bad + 1))
    echo "$part, $name: $(tail -n 1 "$checked/$part-$name")"
  fi
}

# These take some seconds and are tried each time.
edits() {
  item edits now "$top/tools/gate/check_edits.sh"
  item crates now "$top/tools/gate/check_crates.sh"
  item pages now "$top/tools/evidence/try_check_pages.sh"
  item listings now "$top/tools/gate/check_listings.py"
  item table now "$top/tools/make_table.py"
  ! command -v ca65 >/dev/null || item examples now "$top/tools/build_examples.sh"
}

ends() {
  item all now "$top/tools/evidence/try_trace_ends.sh"
  item words now "$top/tools/evidence/try_trace_words.sh"
  ! command -v ca65 >/dev/null || item lines now "$top/tools/compare/compare_lines.py" "$top/crates/snes_trace/out/snes_trace"
}

bench() {
  local program=$top/crates/cart_bench/out/cart_bench
  item cases "$(sum_of "$program" "$top"/crates/cart_bench/{stdout,data/*} "$top"/{docs/use/BENCH.md,tools/evidence/try_bench.sh})" "$top/tools/evidence/try_bench.sh" "$program"
}

lint() {
  local program=$top/crates/cart_lint/out/cart_lint rest=("${SARIF_SCHEMA:-no schema}" "$(command -v ca65 >/dev/null && echo ca65)")
  item rules "$(sum_of "$program" "$top"/tools/evidence/{try_lint.py,lint/{faults.cfg,faults.s,sarif_schema.py}} "${rest[@]}")" \
    "$top/tools/evidence/try_lint.py" --lint "$program" ${SARIF_SCHEMA:+--schema "$SARIF_SCHEMA"}
}

tags() {
  local program=$top/crates/frame_look/out/frame_look
  item random "$(sum_of "$program" "$top/tools/evidence/try_tags.py" "$(command -v ffprobe >/dev/null && echo ffprobe)")" \
    "$top/tools/evidence/try_tags.py" --look "$program"
}

music() {
  local look=$top/crates/frame_look/out/frame_look scene=$top/crates/scene_cart/out/scene_cart
  local name files=("$top"/{docs/use/SPC-FILES.md,tools/stems.sh,tools/evidence/{try_music,tunes}.py}) others
  others=$(for name in ffmpeg ffprobe file; do ! command -v $name >/dev/null || echo $name; done)
  item page "$(sum_of "$snes" "$look" "$scene" "${files[@]}" "$others")" \
    "$top/tools/evidence/try_music.py" --snes "$snes" --look "$look" --scene "$scene"
}

states() {
  local scene=$top/crates/scene_cart/out/scene_cart
  item random "$(sum_of "$snes" "$scene" "$top/tools/evidence/try_states.py")" "$top/tools/evidence/try_states.py" "$snes" "$scene"
  item sounds "$(sum_of "$snes" "$top/tools/evidence/try_sound_files.py")" "$top/tools/evidence/try_sound_files.py" "$snes"
}

plans() {
  item random "$(sum_of "$snes" "$top/tools/evidence/try_plans.py")" "$top/tools/evidence/try_plans.py" "$snes"
}

# The programs and scripts that the cases are tried with.
edges() {
  local fault name programs=()
  for name in snes_run frame_look scene_cart snes_trace; do programs+=("$top/crates/$name/out/$name"); done
  local scripts=("$top"/tools/evidence/edges/*.py "$top"/{snes,look,scene,trace,docs/use/CHECKING.md} "$top"/tools/{run_built.sh,built_from.sh,gate_over_copy.sh,with_progress.sh,lines_below.sh,many_runs.sh,many_runs.sbatch})
  item cases "$(sum_of "$snes" "${programs[@]}" "${scripts[@]}" "$top/tools/evidence/try_edges.py")" "$top/tools/evidence/try_edges.py" --snes "$snes"
  item hostile "$(sum_of "$snes" "$top"/tools/evidence/edges/{oracle,lab}.py "$top/tools/evidence/try_hostile.py")" "$top/tools/evidence/try_hostile.py" --snes "$snes"
  for fault in "$top"/tools/evidence/edges/*.edit; do
    fault=$(basename "$fault" .edit)
    item "$fault" "$(sum_of "$(sources_of snes_run)" "${programs[@]}" "${scripts[@]}" "$top/tools/evidence/try_edges.py" "$(committed "tools/evidence/edges/$fault.edit")")" \
      "$top/tools/evidence/try_edge_faults.sh" "$fault"
  done
}

allocations() {
  item each "$(sum_of "$snes" "$top/tools/evidence/refuse_each_allocation.sh")" "$top/tools/evidence/refuse_each_allocation.sh" "$snes"
}

soak() {
  local first count=${SOAK:-1000}
  for ((first = 0; first < count; first += 50)); do
    item "$first" "$(sum_of "$snes" "$jobs" "$watched" "$top/tools/evidence/soak.sh" "$first")" "$top/tools/evidence/soak.sh" \
      $((count - first < 50 ? count - first : 50)) "$first"
  done
}

rows() {
  local fault crate below
  local -A rest
  for crate in console_rows sound_rows console_vectors; do
    rest[$crate]=$(sum_of "$(sources_of $crate)" "$(committed crates/$crate)" "$(committed tools/evidence/try_row_faults.sh)")
  done
  item none "$(sum_of "${rest[console_rows]}" "${rest[sound_rows]}" "${rest[console_vectors]}")" "$top/tools/evidence/try_row_faults.sh" none
  for fault in "$top"/tools/evidence/row_faults/*.edit; do
    below=${rest[console_rows]}
    ! grep -q '^file: crates/free_files/' "$fault" || below=${rest[sound_rows]}
    fault=$(basename "$fault" .edit)
    [[ $fault != pads_* ]] || below=${rest[console_vectors]}
    item "$fault" "$(sum_of "$below" "$(committed "tools/evidence/row_faults/$fault.edit")")" "$top/tools/evidence/try_row_faults.sh" "$fault"
  done
}

# All that are to be tried are tried by one call, which runs the program once as it stands; each is noted as it is told.
workers() {
  local body below line left=()
  local -A sums
  below=$(sum_of "$(sources_of console_rows)" "$(committed crates/console_rows)" "$(committed tools/evidence/try_one_worker.sh)" "$(committed tools/evidence/count_threads.sh)")
  for body in "$top"/tools/evidence/one_worker/*.edit; do
    body=$(basename "$body" .edit)
    chosen "$body" || continue
    items=$((items + 1))
    sums[$body]=$(sum_of "$below" "$(committed "tools/evidence/one_worker/$body.edit")")
    if grep -q "^${sums[$body]} $part $body " "$held"; then noted=$((noted + 1)); else left+=("$body"); fi
  done
  [ ${#left[@]} -gt 0 ] || return
  bad=${#left[@]}
  while IFS= read -r line; do
    echo "$line"
    body=${line%%: *}
    if [[ -n ${sums[$body]-} && $line == "$body: told by "* ]]; then
      note "${sums[$body]}" "$body"
      bad=$((bad - 1))
    fi
  done < <("$top/tools/evidence/try_one_worker.sh" "${left[@]}" 2>&1) >"$checked/workers"
  [ $bad = 0 ] || echo "workers: $(tail -n 1 "$checked/workers")"
}

bodies() {
  local crate
  for crate in "$top"/tools/evidence/wrong_bodies/*/; do
    crate=$(basename "$crate")
    chosen "$crate" || continue
    # What held before it was kept where each is refused, or is no longer recorded so, is tried again.
    "$top/tools/evidence/refused_at.py" counts "$crate" || forget "$crate"
    item "$crate" "$(sum_of "$(sources_of "$crate")" "$(committed "tools/evidence/wrong_bodies/$crate")")" \
      "$top/tools/evidence/try_wrong_bodies.sh" "$crate"
  done
}

if [ -n "${TREE-}" ]; then
  # Both parts that prove in it look at this commit.
  cd "$TREE" && git fetch -q "$top" HEAD && git checkout -q --force --detach FETCH_HEAD && git clean -fdq crates || exit 2
fi
hold=0
for part in "${parts[@]}"; do
  started=$(date +%s) items=0 noted=0 bad=0 only=
  [[ $part != *:* ]] || { only=${part#*:} && part=${part%%:*}; }
  case $part in
    edits | ends | bench | lint | tags | music | states | plans | edges | allocations | soak | rows | workers | bodies) $part ;;
    device) item all now device ;;
    *) echo "no part of this name: $part" ;;
  esac
  [ $bad = 0 ] && [ $items -gt 0 ] && hold=$((hold + 1))
  echo "$part${only:+, $only}: $items items, $bad don't hold, $noted are noted from before; $(($(date +%s) - started)) s"
done
echo "full check: $hold of ${#parts[@]} parts hold ($commit, $(date -u +%Y-%m-%d))"
[ "$hold" = ${#parts[@]} ]
