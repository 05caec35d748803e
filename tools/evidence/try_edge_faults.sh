#!/usr/bin/env bash
# Plants the faults of tools/evidence/edges/*.edit, one at a time, and has the scripts tell each: they stand
# where clauses say little of what a program does with the system. tools/evidence/try_edges.py has to fail on each, in a case
# at least.
#
#     tools/evidence/try_edge_faults.sh [FAULT ..]
#
# Each program is built without a proof (tools/lab/unproved/build.sh), in some minutes, from a copy of what is committed. An
# edit is as in crates/*/must-fail, but that its file is named from the top. The programs beside it are those that are built
# here. The words are names of faults; without words all are tried. The status is 1 where a fault is not told or can't be made.
top=$(cd "$(dirname "${BASH_SOURCE[0]}")/../.." && pwd) || exit 2
work=$(mktemp -d) || exit 2
trap 'rm -rf "$work"' EXIT

# Makes a fault in the copy.
make_fault() {
  python3 - "$1" <<'P'
import sys

name = old = None
for line in open(sys.argv[1], encoding="utf-8").read().split("\n"):
    if line.startswith("file: "):
        name = line[6:]
    elif line.startswith("old: "):
        old = line[5:]
    elif line.startswith("new: "):
        text = open(name, encoding="utf-8").read()
        if text.count(old) != 1:
            sys.exit(f"its text stands {text.count(old)} times in {name}: {old}")
        open(name, "w", encoding="utf-8").write(text.replace(old, line[5:]))
P
}

bad=0 tried=0
if [ $# -gt 0 ]; then faults=("$@"); else mapfile -t faults < <(cd "$top/tools/evidence/edges" && ls -- *.edit | sed 's/\.edit$//'); fi
for fault in "${faults[@]}"; do
  tried=$((tried + 1))
  rm -rf "$work/snes" && mkdir "$work/snes" && git -C "$top" archive HEAD | tar -C "$work/snes" -xf - && cd "$work/snes" || exit 2
  if ! make_fault "$top/tools/evidence/edges/$fault.edit"; then
    echo "$fault: can't be made" && bad=$((bad + 1))
  elif ! tools/lab/unproved/build.sh "$work/program" >"$work/said" 2>&1; then
    echo "$fault: isn't built: $(tail -n 1 "$work/said")" && bad=$((bad + 1))
  elif "$top/tools/evidence/try_edges.py" --snes "$work/program" >"$work/said" 2>&1; then
    echo "$fault: NOT TOLD" && bad=$((bad + 1))
  elif ! grep -q '^FAIL ' "$work/said"; then
    echo "$fault: the cases weren't tried: $(tail -n 1 "$work/said")" && bad=$((bad + 1))
  else
    echo "$fault: told by $(grep -c '^FAIL ' "$work/said") cases, the first $(sed -n 's/^FAIL //p' "$work/said" | head -n 1)"
  fi
done
echo "$tried faults, $((tried - bad)) told"
[ $bad = 0 ]
