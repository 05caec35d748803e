#!/usr/bin/env bash
# Builds one of the programs that measure a part of the console: processor_speed, step_speed or turn_speed.
#
#   [PROVED=1] [KEPT=FOLDER] tools/lab/speed/build.sh OUT NAME
#
# OUT gets the program, built without a proof by tools/lab/unproved/build.sh. With PROVED=1 the program and all crates below it are
# proved and built as always (`rt run`), from nothing. With KEPT the copy that this works in stays in FOLDER, so that the next call
# proves only what has changed.
#
# CI proves no program of these: they are no evidence. `rt ci` refuses a .rt or .antt file that no crate of crates.txt has, so each
# file has .txt behind its name here. The copy has them under their own names beside the repository's crates, with the lines of
# crates.lines. turn_speed has the emitter of turn_rows, whose files are copied too.
here=$(cd "$(dirname "$(readlink -f "${BASH_SOURCE[0]}")")" && pwd) || exit 2
top=$(cd "$here/../../.." && pwd) || exit 2
[ $# -eq 2 ] && [ -d "$here/crates/$2" ] || { echo 'build.sh OUT NAME: builds processor_speed, step_speed or turn_speed' >&2; exit 2; }
out=$(readlink -f "$1") || exit 2
name=$2
if [ -n "${KEPT-}" ]; then
  mkdir -p "$KEPT" && work=$(cd "$KEPT" && pwd) || exit 2
  rm -rf "$work"/crates/*/{src,specs,proofs}
else
  work=$(mktemp -d) || exit 2
  trap 'rm -rf "$work"' EXIT
fi

mkdir -p "$work/tools/lab" && cp "$top/HANDLES" "$work" && cat "$top/crates.txt" "$here/crates.lines" >"$work/crates.txt" || exit 2
cp -r "$top/tools/lab/unproved" "$work/tools/lab" || exit 2
(cd "$top" && tar -cf - crates/*/{src,specs,proofs} 2>/dev/null) | tar -C "$work" -xf - || exit 2
(cd "$here" && find crates -name '*.txt') | while IFS= read -r file; do
  mkdir -p "$work/$(dirname "$file")" && cp "$here/$file" "$work/${file%.txt}" || exit 2
done || exit 2

# The files of one crate that another has too.
mkdir -p "$work/crates/turn_speed/specs" || exit 2
for file in src/emitter.rt specs/Emitter.antt specs/EmitterLaws.antt specs/Lib.antt; do
  sed 's/Rattle\.turn_rows\./Rattle.turn_speed./' "$top/crates/turn_rows/$file" >"$work/crates/turn_speed/$file" || exit 2
done

if [ -n "${PROVED-}" ]; then
  (cd "$work/crates/$name" && rt run) && cp "$work/crates/$name/out/$name" "$out"
else
  (cd "$work" && tools/lab/unproved/build.sh "$out" "$name")
fi
