#!/bin/bash
# Runs a program of snes as it is installed: snes, snes-look, snes-trace, snes-lint, snes-scene, snes-bench and snes-stems are this file
# under seven names. The programs are in lib/snes; they run alone too. snes-stems is a script that calls three of them. This adds --version with commit and proof, and on a terminal
# how far a run is (with_progress.sh, which ./snes of the repository has too; snes-lint prints it itself).
name=${0##*/}
top=$(dirname "$(dirname "$(readlink -f "${BASH_SOURCE[0]}")")") || exit 70
library=$top/lib/snes
program=$library/$name
[ "$name" != snes-stems ] || program=$library/stems.sh
[ -f "$program" ] && [ -x "$program" ] || { echo "$name: there is no program $program" >&2; exit 70; }
quiet=no
if [ "$name,${1-}" = snes,--quiet ]; then
  quiet=yes
  shift
fi
if [ "$#,${1-}" = 1,--version ]; then
  # The program snes says its version itself; the others have none.
  if [ "$name" = snes ]; then "$program" --version || exit; else sed -n "1s/^snes /$name /p" "$library/about"; fi
  sed 1d "$library/about"
  exit
fi
[ "$name" != snes-stems ] || set -- "$library"/{snes,snes-look,snes-scene} "$@"
if [ "$name" != snes ] || [ ! -t 2 ]; then
  # A write beyond a limit of file sizes is a fault that the program tells, and does not end it by a signal.
  trap '' XFSZ
  words=()
  [ "$name" != snes-lint ] || [ $# -eq 0 ] || [ ! -t 2 ] || words=(--progress)
  for word; do [ "$word" != --progress ] || words=(); done
  exec "$program" "$@" "${words[@]}"
fi
source "$library/with_progress.sh" || exit 70
run_with_progress "$program" "$@"
