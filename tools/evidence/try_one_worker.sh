#!/usr/bin/env bash
# Tries the bodies of tools/evidence/one_worker/*.edit, one at a time: each makes a run, or some of its turns, in one thread or one leg after
# the other. Their bytes are the same, so these bodies meet every contract, and tests have to detect them: the rows `workers` of
# `console_rows` print something else, or, of a body that has two threads only behind a gate that counts, the built program starts
# too few threads (count_threads.sh). As the sources stand neither may complain.
#
#   tools/evidence/try_one_worker.sh [BODY ..]
#
# Each body is proved first, in the crates whose sources it changes (`rt check`), so that it is seen that no contract refuses it.
# Then the programs are built without a proof (tools/lab/unproved/build.sh), one or two minutes each. An edit is as in
# crates/*/must-fail, but that its file is named from the top. Works on what is committed, in a clone of its own; TREE names a
# clone where crates are proved already, with nothing changed in it, and is left so. PROVE=no leaves the proofs out. The
# status is 1 where a body is not detected, can't be made, or isn't proved.
top=$(cd "$(dirname "${BASH_SOURCE[0]}")/../.." && pwd) || exit 2
work=$(mktemp -d) || exit 2
trap 'rm -rf "$work"' EXIT
tree=${TREE:-$work/snes}
[ -n "${TREE:-}" ] || git clone -q "$top" "$tree" || exit 2
cd "$tree" && git diff --quiet -- crates || exit 2
grep 'turn has two threads' "$top/crates/console_rows/stdout" >"$work/wanted"

# Makes a body.
make_body() {
  python3 - "$1" <<'P'
import sys

name = old = None
for line in open(sys.argv[1], encoding="utf-8").read().split("\n"):
    if line.startswith("file: "):
        name = line[6:]
    elif line.startswith("old: "):
        old = line[5:]
    elif line.startswith("new: "):
        text = open(name, encoding="utf-8").read()
        if text.count(old) != 1:
            sys.exit(f"its text stands {text.count(old)} times in {name}: {old}")
        open(name, "w", encoding="utf-8").write(text.replace(old, line[5:]))
P
}

# Proves the crates whose sources a body changes.
prove() {
  local crate
  [ "${PROVE:-yes}" = no ] && return
  for crate in $(sed -n 's,^file: crates/\([a-z0-9_]*\)/.*,\1,p' "$1" | sort -u); do
    (cd "$tree/crates/$crate" && rt check) >"$work/proved" 2>&1 || { tail -n 3 "$work/proved"; return 1; }
  done
}

# Builds a program of the tree without a proof.
build() { "$tree/tools/lab/unproved/build.sh" "$work/$1" "$@" >"$work/built" 2>&1 || { tail -n 3 "$work/built"; return 1; }; }

# What the rows of the workers print. A body that waits for ever at each turn is cut off; what it has printed counts.
rows() { (cd "$tree/crates/console_rows/data" && timeout 600 "$work/console_rows" workers workers.txt 2>"$work/counts") >"$work/rows"; }

# Whether the tests complain of the tree as it is, and how: nothing where they don't.
detected_by() {
  local body=$1
  if [ "$body" = two_threads_only_behind_a_gate_that_counts ]; then
    build snes_run demo 7 --frames 1 || return 2
    "$tree/tools/evidence/count_threads.sh" "$work/snes_run" >"$work/threads" 2>&1 || grep -m 1 wanted "$work/threads"
    return 0
  fi
  build console_rows || return 2
  rows
  grep -Fxv -f "$work/wanted" "$work/rows" | head -n 1
}

git -C "$tree" checkout -q -- crates
complaint=$(detected_by none) || { echo "the program can't be built as it stands: $complaint"; exit 1; }
if [ -n "$complaint" ] || ! cmp -s "$work/rows" "$work/wanted"; then
  echo "the rows are not as they should be as it stands: $complaint"
  exit 1
fi
bad=0 tried=0
if [ $# -gt 0 ]; then bodies=("$@"); else mapfile -t bodies < <(ls "$top/tools/evidence/one_worker" | sed 's/\.edit$//'); fi
for body in "${bodies[@]}"; do
  edit=$top/tools/evidence/one_worker/$body.edit
  tried=$((tried + 1))
  if ! make_body "$edit"; then
    echo "$body: can't be made" && bad=$((bad + 1))
  elif ! why=$(prove "$edit"); then
    echo "$body: isn't proved: $why" && bad=$((bad + 1))
  elif ! complaint=$(detected_by "$body"); then
    echo "$body: can't be built: $complaint" && bad=$((bad + 1))
  elif [ -z "$complaint" ]; then
    echo "$body: NOT TOLD" && bad=$((bad + 1))
  else
    echo "$body: told by $complaint"
  fi
  git checkout -q -- crates
done
echo "$tried bodies, $((tried - bad)) told"
[ $bad = 0 ]
