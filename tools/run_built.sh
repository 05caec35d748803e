#!/usr/bin/env bash
# Runs a program of this repository, and proves and builds it first where that is needed.
#
#   tools/run_built.sh TOOL CRATE [WORD..]
#
# TOOL is the name under which messages are printed, CRATE the crate of the program, the words are the program's.
# File names are those of the folder in which it is called. `./snes`, `./scene`, `./look`, `./trace`, `./lint`,
# `./bench` and `./header` are calls of it.
#
# The program is built where it is missing or was built from other sources. What it was built from is kept beside it,
# in crates/CRATE/out/CRATE.sums: the checksum of the sources of the crates that it stands on, and that of the program.
# So a tree that was copied elsewhere is not built again, nor one whose files were touched, whatever their times. A
# program that the gate, or `rt run` in its crate, has built has other bytes than those that are kept, or none are: it is
# taken as it is where no source is newer, and its sums are kept then.
#
# To build is to run the gate, `rt ci`, over a copy of those crates without the edits that have to fail. It takes minutes,
# says on standard error how far it is, and its log is crates/CRATE/out/build.log. A toolchain that keeps proofs on the
# machine takes here what the gate has proved, and there what is proved here; one that keeps none proves the crates of
# each program anew. Of several calls at once one builds, and the others wait for it. However a call ends that builds,
# the gate that it began is ended and the copy is gone; the next call begins anew, with the proofs that are kept.
#
# --version alone builds and runs nothing: it prints the version, the commit, whether the program is proved, and the toolchain.
#
# Where there is no program to run, the status is 70, which no program here has. With ONLY_BUILD set it is not run. A
# write beyond a limit of file sizes is a fault that the program tells, and does not end it by a signal.
top=$(cd "$(dirname "$(readlink -f "${BASH_SOURCE[0]}")")/.." && pwd) || exit 70
tool=$1
crate=$2
shift 2
out=$top/crates/$crate/out
program=$out/$crate
log=$out/build.log

source "$top/tools/built_from.sh" && source "$top/tools/gate_over_copy.sh" || exit 70

if [ "$#,${1-}" = 1,--version ]; then
  echo "$tool $(version_of_tree)"
  tell_sources "$(proof_of "$crate")"
  exit 0
fi

# The crates whose programs are built now: this one, and of the console's and the scene's the other, where it is not built
# either; the scene's is small, and wanted right after the first build.
to_build() {
  local name together=("$crate")
  case $crate in snes_run | scene_cart) together=(snes_run scene_cart) ;; esac
  for name in "${together[@]}"; do is_built "$name" || echo "$name"; done
}

build() {
  local work total name names
  local -A lines
  work=$(mktemp -d) || return 1
  exec 8> >(exec 9>&- && watch_over "$work")
  mapfile -t names < <(to_build)
  for name in "${names[@]}"; do lines[$name]=$("$top/tools/lines_below.sh" "$name"); done
  # A source that is saved from here on is not in the copy, whose checksum is kept.
  touch "$work/begun"
  copy_sources "$work" "${names[@]}" || give_up "the sources could not be copied to $work"
  total=$(wc -l <"$work/crates.txt")
  say "the program is proved and built first: $total crates, $(nproc) at once (log: $log)"
  run_gate "$total" || give_up "the program was not proved and built; see $log"
  for name in "${names[@]}"; do
    mkdir -p "$top/crates/$name/out" &&
      cp "$work/crates/$name/out/$name" "$top/crates/$name/out/$name.new" &&
      touch -r "$work/begun" "$top/crates/$name/out/$name.new" &&
      mv "$top/crates/$name/out/$name.new" "$top/crates/$name/out/$name" ||
      give_up "the program of $name could not be put into $top/crates/$name/out"
    keep_sums "$top/crates/$name/out/$name" "$(sum_of_sources "$work" "${lines[$name]}")"
  done
  exec 8>&-
}

# Bash alone takes a SIGINT for that of the command which it waits for.
trap 'trap - INT && kill -s INT $$' INT

# The console's program and the scene's are built together, so they have one lock.
lock=$out/build.lock
[ "$crate" != scene_cart ] || lock=$top/crates/snes_run/out/build.lock

if ! is_built "$crate"; then
  command -v rt >/dev/null || give_up "rt, the command of the Rattle toolchain, is not on the path (README.md, 'Quick start')"
  mkdir -p "$out" "${lock%/*}" 2>/dev/null && [ -w "$out" ] || give_up "$out can't be written to; take a clone of your own"
  hold_lock "$lock"
  is_built "$crate" || build
  exec 9>&-
fi
[ -z "${ONLY_BUILD-}" ] || exit 0
trap '' XFSZ
exec "$program" "$@"
