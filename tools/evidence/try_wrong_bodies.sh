#!/usr/bin/env bash
# Tries the wrong bodies in tools/evidence/wrong_bodies/CRATE/*.edit, each of which the check of its crate has to refuse.
#
#     tools/evidence/try_wrong_bodies.sh [--with-gate] [CRATE ..]
#
# They are of the same form as those in crates/CRATE/must-fail, which the gate tries: two or a few of each crate whose clauses no
# proof above cites (docs/lab/DECISIONS.md); these are the others. With --with-gate those of the gate are tried too: an
# edit that can't be compiled fails here, and not every toolchain's gate tells of it.
#
# Of a crate as many as change different functions are tried in one check (try_together.py), the others one by one.
#
# The words are names of crates; without words all are tried, which takes hours of a processor, as do
# the proofs that stand below, where they are not made yet. Works on what is committed, in a folder of its own, or
# in the clone TREE, whose proofs are taken and kept (its sources are made those of this commit).
#
# What each was refused at is kept in tools/evidence/wrong_bodies/refused_at.tsv (by tools/evidence/refused_at.py, which says what counts), and a
# mutant that was refused on these very sources before is not tried again, unless its line is taken out there. The
# status is 1 where a mutant is not refused, or is refused only where that says little of the contract.
top=$(cd "$(dirname "${BASH_SOURCE[0]}")/../.." && pwd) || exit 1
with_gate=no
if [ "${1-}" = --with-gate ]; then
  with_gate=yes
  shift
fi
work=$(mktemp -d) || exit 2
trap 'rm -rf "$work"' EXIT
tree=${TREE:-$work/snes}

[ -e "$tree/.git" ] || git clone -q --no-checkout "$top" "$tree" || exit 2
cd "$tree" && git fetch -q "$top" HEAD && git checkout -q --force --detach FETCH_HEAD && git clean -fdq crates || exit 2
if [ $# -gt 0 ]; then crates=("$@"); else mapfile -t crates < <((ls tools/evidence/wrong_bodies; [ $with_gate = no ] || ls -d crates/*/must-fail | cut -d/ -f2) | sort -u); fi
[ $with_gate = yes ] || rm -rf crates/*/must-fail
for crate in "${crates[@]}"; do
  [ -d "tools/evidence/wrong_bodies/$crate" ] || [ -d "crates/$crate/must-fail" ] || { echo "no edits of $crate" >&2; exit 2; }
  [ -d "tools/evidence/wrong_bodies/$crate" ] || continue
  mkdir -p "crates/$crate/must-fail"
  cp "tools/evidence/wrong_bodies/$crate"/*.edit "crates/$crate/must-fail/" || exit 2
done
# What was refused on these very sources before is not tried again.
for crate in "${crates[@]}"; do
  while read -r name; do
    [ -f "crates/$crate/must-fail/$name.edit" ] || continue
    rm "crates/$crate/must-fail/$name.edit" && echo "$crate/$name: was refused before, on these sources"
  done < <("$top/tools/evidence/refused_at.py" held "$crate")
done
status=0
left=()
for crate in "${crates[@]}"; do
  count=$(find "crates/$crate/must-fail" -name '*.edit' | wc -l)
  [ "$count" -gt 0 ] || continue
  # Many are refused in one check of several at once; the others are tried one by one.
  [ "$count" = 1 ] || "$top/tools/evidence/try_together.py" "$tree" "$crate" || status=1
  [ -z "$(find "crates/$crate/must-fail" -name '*.edit' -print -quit)" ] || left+=("$crate")
done
if [ ${#left[@]} -gt 0 ]; then
  rt must-fail "${left[@]}" 2>&1 | tee "$work/said"
  [ "${PIPESTATUS[0]}" -eq 0 ] || status=1
  "$top/tools/evidence/refused_at.py" keep "$tree" "$work/said" "${left[@]}" || status=1
fi
git checkout -q --force HEAD && git clean -fdq crates
exit $status
