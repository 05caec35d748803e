#!/usr/bin/env bash
# Runs a program of this repository that was built without its proof, for a first look, and builds it first if needed.
#
#   tools/run_unproved.sh TOOL CRATE [WORD..]
#
# TOOL is the name for messages, CRATE the crate of the program, the words are the program's. File names are those of the
# folder in which it is called. `./snes --unproved`, and so `./look`, `./trace`, `./lint`, `./scene`,
# `./bench` and `./header`, are calls of it.
#
# The program is built of the same sources, without checks, by tools/lab/unproved/build.sh, which says how. Nobody has proved it: the
# toolchain's prover does not run. So it can't be taken for the proved one. It is unproved/TOOL-unproved, in a folder that git
# ignores. Each call says on standard error that it is not proved. `snes-unproved --version` says so itself: the copy of the
# sources that is compiled has that text. --version of each script says it without building anything. Nothing is read from or written to crates/*/out.
#
# It is built again if its sources or the scripts that build it have changed; their checksum is kept beside it, in
# unproved/TOOL-unproved.sums. With ONLY_BUILD set it is not run. Where there is no program to run, the status is 70.
top=$(cd "$(dirname "$(readlink -f "${BASH_SOURCE[0]}")")/.." && pwd) || exit 70
tool=$1
crate=$2
shift 2
out=$top/unproved
program=$out/$tool-unproved
log=$program.log
source "$top/tools/built_from.sh" || exit 70

# The checksum of the sources and of what builds them.
sum_of_all() {
  { sum_of_sources "$1" "$lines" && sha256sum <"$1/tools/lab/unproved/build.sh" && cat "$1"/tools/lab/unproved/{as_built.py,split.py,compile.sh}; } | sum
}

# Whether the program is there and was built from the sources as they are.
is_there() {
  local kept_sources
  [ -f "$program" ] && [ -x "$program" ] && has_kept_sums "$program" && [ "$kept_sources" = "$(sum_of_all "$top")" ]
}

# Builds the program from a copy, in which the version's text says that it is not proved.
build() {
  local sources texts status
  work=$(mktemp -d) || return 1
  copy_sources "$work" "$crate" && mkdir -p "$work/tools/lab" && cp -r "$top/tools/lab/unproved" "$work/tools/lab" || return 1
  sources=$(sum_of_all "$work")
  texts=$work/crates/run_io/src/help.rt
  if [ "$crate" = snes_run ]; then
    sed -i 's/^\(const VERSION: &str = "snes [0-9.]*\)\\n";$/\1 (not proved)\\n";/' "$texts" && grep -q '(not proved)\\n' "$texts" || return 1
  fi
  say "built first, without checking: a minute or two (log: $log)"
  mkdir "$work/built"
  # The word is what the program under construction is called with: it does next to nothing.
  set -m
  (cd "$work" && PARTS=$(nproc) exec tools/lab/unproved/build.sh built/program "$crate" --version) </dev/null >"$log" 2>&1 9>&- &
  building=$!
  set +m
  wait "$building"
  status=$?
  building=
  [ "$status" -eq 0 ] && [ -x "$work/built/program" ] && mv "$work/built/program" "$program.new" && mv "$program.new" "$program" || return 1
  keep_sums "$program" "$sources"
}

# Ends what builds, whose process group it has, and removes the copy.
clean_up() {
  [ -z "$building" ] || { kill -TERM -- "-$building" && wait "$building"; } 2>/dev/null
  [ -z "$work" ] || rm -rf "$work"
  building='' work=''
}

note='not proved: built without checking'
if [ "$#,${1-}" = 1,--version ]; then
  say "$note"
  echo "$tool $(version_of_tree) (not proved)"
  tell_sources "$note"
  exit 0
fi
lines=$("$top/tools/lines_below.sh" "$crate")
if ! is_there; then
  command -v rt >/dev/null || give_up "rt, the command of the Rattle toolchain, is not on the path (README.md, 'Quick start')"
  mkdir -p "$out" 2>/dev/null && [ -w "$out" ] || give_up "$out can't be written to; take a clone of your own"
  work='' building=''
  trap clean_up EXIT
  for signal in INT TERM HUP; do trap "exit $((128 + $(kill -l "$signal")))" "$signal"; done
  hold_lock "$program.lock"
  is_there || build || give_up "the program was not built; see $log"
  exec 9>&-
  clean_up
  trap - EXIT INT TERM HUP
fi
say "$note"
[ -z "${ONLY_BUILD-}" ] || exit 0
trap '' XFSZ
exec "$program" "$@"
