#!/usr/bin/env bash
# Plants each fault of tools/evidence/row_faults/*.edit in the code, one at a time, and runs rows, which have to tell it: their output has to
# differ from that in the `stdout` of their crate. With no fault planted it has to be that. A fault of crates/free_files and one
# whose name begins with `voices_` are met by the rows of crates/sound_rows, one whose name begins with `pads_` by the rows of
# both pads of crates/console_vectors, any other by those of crates/console_rows.
#
# Nothing is proved here: `rt try` runs a program as it stands, so that a fault is met by the rows alone and not by a contract.
# A fault of the free boot ROM changes its definition with its bytes, so it would be proved too.
# An edit is as in crates/*/must-fail, but that its file is named from the top. The words are names of faults, or `none` for the rows
# with no fault planted; without words `none` and all faults are tried, a minute or two each. Works on what is committed, in a
# folder of its own. It names the first row that tells each fault. The status is 1 where a fault is not told, can't be
# planted, or doesn't run, or where the rows are not as they should be without one.
top=$(cd "$(dirname "${BASH_SOURCE[0]}")/../.." && pwd) || exit 2
work=$(mktemp -d) || exit 2
trap 'rm -rf "$work"' EXIT
git clone -q "$top" "$work/snes" && cd "$work/snes" || exit 2

# Takes the rows of a crate: their words, what they have to print, and what no title of a row begins with. Of console_rows
# that is the stored output of `rows.txt` alone, which ends before the first row of the workers.
take_rows() {
  rows=$work/snes/crates/$1
  case $1 in
    console_rows)
      words=("$rows/data/rows.txt") untitled='^bytes:\|^rows \|^frame \|^after '
      sed '/^run "frames /,$d' "$rows/stdout" >"$work/wanted"
      ;;
    sound_rows)
      words=() untitled='^  \|^cycle \|^sample '
      cp "$rows/stdout" "$work/wanted"
      ;;
    console_vectors)
      words=(games "$rows/data/pads.txt") untitled='^frame [0-9]\|^sound of \|^the first frame \|^no frame '
      sed -n "/^the cartridges of examples/q; /^the game's first /,\$p" "$rows/stdout" >"$work/wanted"
      ;;
  esac
}

# The crate whose rows have to tell a fault.
rows_of() {
  case $1 in
    pads_*) echo console_vectors ;;
    voices_*) echo sound_rows ;;
    *) if grep -q '^file: crates/free_files/' "$top/tools/evidence/row_faults/$1.edit"; then echo sound_rows; else echo console_rows; fi ;;
  esac
}

# What the rows print, without the lines that `rt try` adds; nothing where the program didn't end well.
shown() {
  (cd "$rows" && rt try --seconds 600 -- "${words[@]}") >"$work/said" 2>"$work/errors" || return 1
  grep -q '^run=ended status=0' "$work/said" "$work/errors" || return 1
  grep -v '^checked: \|^run=\|^interpreter: ' "$work/said" >"$work/rows"
}

# Plants a fault.
plant() {
  python3 - "$1" <<'P'
import sys

name = old = None
for line in open(sys.argv[1], encoding="utf-8").read().split("\n"):
    if line.startswith("file: "):
        name = line[6:]
    elif line.startswith("old: "):
        old = line[5:]
    elif line.startswith("new: "):
        text = open(name, encoding="utf-8").read()
        if text.count(old) != 1:
            sys.exit(f"its text stands {text.count(old)} times in {name}: {old}")
        open(name, "w", encoding="utf-8").write(text.replace(old, line[5:]))
P
}

# Runs the rows of a crate with no fault planted.
as_they_stand() {
  take_rows "$1"
  if ! shown; then
    echo "none: the rows of $1 don't run"
    tail -n 4 "$work/said" "$work/errors"
    return 1
  elif ! cmp -s "$work/rows" "$work/wanted"; then
    echo "none: the rows of $1 are not as they should be"
    diff "$work/rows" "$work/wanted" | head -n 4
    return 1
  fi
  echo "none: the rows of $1 are as they should be"
}

# Runs the rows with a fault planted, and names the first row that tells it.
told() {
  local line row
  take_rows "$(rows_of "$1")"
  if ! plant "$work/snes/tools/evidence/row_faults/$1.edit"; then
    echo "$1: can't be planted"
    return 1
  elif ! shown; then
    echo "$1: doesn't run"
    tail -n 2 "$work/errors"
    return 1
  elif cmp -s "$work/rows" "$work/wanted"; then
    echo "$1: NOT TOLD"
    return 1
  fi
  line=$(cmp "$work/rows" "$work/wanted" | sed 's/.*line //')
  row=$(head -n "$line" "$work/wanted" | grep -v "$untitled" | tail -n 1)
  echo "$1: told by '$row'"
}

bad=0 tried=0
if [ $# -gt 0 ]; then faults=("$@"); else mapfile -t faults < <(echo none; ls "$top/tools/evidence/row_faults" | sed 's/\.edit$//'); fi
for fault in "${faults[@]}"; do
  git checkout -q -- crates
  if [ "$fault" = none ]; then
    { as_they_stand console_rows && as_they_stand sound_rows && as_they_stand console_vectors; } || bad=$((bad + 1))
  else
    tried=$((tried + 1))
    told "$fault" || bad=$((bad + 1))
  fi
done
echo "$tried faults tried, $((${#faults[@]} - bad)) of ${#faults[@]} runs as they should be"
[ $bad = 0 ]
