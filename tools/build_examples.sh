#!/usr/bin/env bash
# Builds the cartridges of examples/ by ca65 and ld65 (Debian's package cc65) in a folder of its own, and compares each
# with the sum in its folder and with the bytes that the crates have.
#
#   tools/build_examples.sh          compares; status 0 if all agree, 1 if one differs, 2 without the assembler
#   tools/build_examples.sh --write  writes the sums and the bytes anew
top=$(cd "$(dirname "$(readlink -f "${BASH_SOURCE[0]}")")/.." && pwd) || exit 2
for tool in ca65 ld65 make python3; do
  command -v "$tool" >/dev/null || { echo "build_examples: $tool is missing (apt-get install cc65 make python3)" >&2; exit 2; }
done
work=$(mktemp -d) || exit 2
trap 'rm -rf "$work"' EXIT
cp -r "$top/examples" "$work" || exit 2
status=0
declare -A made=([hello]="hello" [game]="game" [speed]="sieve mode7 tune"
  [profiles]="autoread flips lineirq hires region field vram keyon keyoff oneshot latch")
for name in hello game speed profiles; do
  folder=$work/examples/$name
  make -s -C "$folder" clean && make -s -C "$folder" || { echo "build_examples: $name could not be built" >&2; exit 2; }
  # shellcheck disable=SC2046
  sums=$(cd "$folder" && sha256sum $(printf '%s.sfc ' ${made[$name]}))
  if [ "${1-}" = --write ]; then
    echo "$sums" >"$top/examples/$name/SHA256"
  fi
  while read -r sum file; do
    if grep -qx "$sum  $file" "$top/examples/$name/SHA256"; then
      echo "$file: as pinned, $sum"
    else
      echo "$file: $sum, but examples/$name/SHA256 has another sum"
      status=1
    fi
  done <<<"$sums"
done
images=("$work/examples" "$top/crates")
if [ "${1-}" = --write ]; then
  "$top/tools/write_game.py" "${images[@]}" || exit 2
fi
if "$top/tools/write_game.py" "${images[@]}" --compare; then
  echo "the crates free_game, speed_carts, idiom_carts and console_vectors have these bytes"
else
  status=1
fi
exit "$status"
