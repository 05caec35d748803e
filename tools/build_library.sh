#!/usr/bin/env bash
# Proves and builds the library: crates/snes_library/out/libsnes_library.a (docs/use/EMBEDDING.md).
#
#     [MODULE=FILE] tools/build_library.sh
#
# Nothing is done where the library stands and was built from the sources as they are. It is that library whose checksum is kept
# beside it, in libsnes_library.a.sums, with the checksum of the sources of its crates.
#
# `rt lib` would prove each crate below the library again, also after ./snes has. This script takes what the gate keeps on the
# machine. It runs the gate over a copy of the library's crates, without the edits that have to fail, so what is not kept is proved.
# Then the prover checks the library over the crates that the gate made in the copy, and the compiler takes what that check
# proved, as the gate does it for a program. MODULE names a file for the compiler's LLVM module (tools/build_page.sh); the library is
# then built in any case. It says on standard error how far it is; the log is crates/snes_library/out/build.log. The status is 70 if
# there is no library at the end.
top=$(cd "$(dirname "$(readlink -f "${BASH_SOURCE[0]}")")/.." && pwd) || exit 70
tool=build_library
source "$top/tools/built_from.sh" && source "$top/tools/gate_over_copy.sh" || exit 70
[ $# -eq 0 ] || { echo '[MODULE=FILE] build_library.sh: proves and builds the library' >&2; exit 2; }
crate=snes_library
out=$top/crates/$crate/out
library=$out/lib$crate.a
log=$out/build.log
kit=$(dirname "$(dirname "$(readlink -f "$(command -v rt)")")") || exit 70

# The words that name the crate and what it stands on, to check it and to build it.
name_crates() {
  local line below name
  line=$(sed -n "s/^$crate staticlib: *//p" "$work/crates.txt")
  words=(--crate-name "$crate" src/lib.rt --crate-type staticlib --extern "std=$kit/rlibs/std.rlib" -L "dependency=$kit/rlibs")
  for name in $line; do
    if [ -d "$work/crates/$name" ]; then below=$work/crates/$name/out/rlib; else below=$kit/rlibs; fi
    words+=(--extern "$name=$below/$name.rlib")
  done
  for name in $(folders_of <"$work/crates.txt"); do words+=(-L "dependency=$work/$name/out/rlib"); done
  words+=(--antt-project "$kit/rattle/logic/antt-project.json" --links "$crate=")
}

# The toolchain by links, with a compiler that keeps the module that it is given.
make_toolchain() {
  local one
  mkdir -p "$work/toolchain/bin"
  for one in "$kit"/toolchain/*; do [ "${one##*/}" = bin ] || ln -s "$one" "$work/toolchain/"; done
  for one in "$kit"/toolchain/bin/*; do [ "${one##*/}" = clang ] || ln -s "$one" "$work/toolchain/bin/"; done
  printf '#!/bin/sh\nfor word; do case $word in *.bc) cp "$word" "%s" ;; esac; done\nexec "%s" "$@"\n' \
    "$work/module.bc" "$kit/toolchain/bin/clang" >"$work/toolchain/bin/clang"
  chmod +x "$work/toolchain/bin/clang"
}

build() {
  local work words sources total lines
  work=$(mktemp -d) || return 1
  exec 8> >(exec 9>&- && watch_over "$work")
  lines=$("$top/tools/lines_below.sh" "$crate")
  copy_sources "$work" "$crate" || give_up "the sources could not be copied to $work"
  sources=$(sum_of_sources "$work" "$lines")
  total=$(wc -l <"$work/crates.txt")
  say "the library's $total crates are proved first, where they are not kept (log: $log)"
  run_gate "$total" || give_up "the library was not proved; see $log"
  say 'the library is built'
  name_crates
  make_toolchain
  (
    cd "$work/crates/$crate" &&
      "$kit/bin/rattle" check "${words[@]}" --logic-built "$kit/logic_built" --jobs 2 -o "$work/checked" &&
      "$kit/bin/rattle" build "${words[@]}" --crate-checked "$work/checked" --toolchain "$work/toolchain" --backend llvm -o "$work/made.a"
  ) >>"$log" 2>&1 || give_up "the library was not built; see $log"
  [ -z "${MODULE-}" ] || cp "$work/module.bc" "$MODULE" || give_up "the compiler's module could not be put into $MODULE"
  cp "$work/made.a" "$library.new" && mv "$library.new" "$library" || give_up "$library could not be written"
  keep_sums "$library" "$sources"
  exec 8>&-
}

is_library_built && [ -z "${MODULE-}" ] && exit 0
command -v rt >/dev/null || give_up "rt, the command of the Rattle toolchain, is not on the path (README.md, 'Quick start')"
mkdir -p "$out" 2>/dev/null && [ -w "$out" ] || give_up "$out can't be written to; take a clone of your own"
hold_lock "$out/library.lock"
is_library_built && [ -z "${MODULE-}" ] && exit 0
build
