#!/usr/bin/env bash
# Builds the serial run of the console by rustc, from the same texts: ghost items, clauses, tactics and `prove!` are
# taken out of the crates below it, and one program is made of them in one unit.
#
#   tools/lab/by_rustc/build.sh OUT [FLAG..]       the FLAGs go to rustc, as -C debuginfo=1 for callgrind_annotate
#
# The program says how it is called at the head of bench.rs. It has no noalias, as the proved program has none. With
# UNCHECKED=1 it has no checks of indices and divisors either: they are taken out of what LLVM is given, so CLANG has to name a
# clang that reads what this rustc writes (the toolchain's does). It differs from the proved program in what is built in: here
# each `#[inline(always)]` is kept.
here=$(cd "$(dirname "$(readlink -f "${BASH_SOURCE[0]}")")" && pwd) || exit 2
[ $# -ge 1 ] || { echo 'build.sh OUT [FLAG..]: builds the serial run by rustc' >&2; exit 2; }
out=$1
shift
work=$(mktemp -d) || exit 2
trap 'rm -rf "$work"' EXIT
python3 "$here/strip.py" "$here/../../.." "$work" && cp "$here"/{kit,bench}.rs "$work/" && mkdir "$work/out" || exit 1
flags=(--edition 2024 --crate-name bench -C opt-level=3 -C target-cpu=x86-64-v2 -C codegen-units=1 -C panic=abort -Z mutable-noalias=no)
if [ -n "${UNCHECKED:-}" ]; then
  # rustc writes what LLVM gets before any pass; the calls at which a check fails are taken out (their blocks end in
  # `unreachable`), clang optimizes it, and its object takes the place of rustc's when the program is linked.
  export CLANG=${CLANG:-$(dirname "$(readlink -f "$(command -v rt)")")/../toolchain/bin/clang}
  cat >"$work/link" <<'LINK'
#!/usr/bin/env bash
folder=$(dirname "$(readlink -f "$0")")
grep -vE '^ *(tail )?call .*(panic_bounds_check|slice_index_fail|panic_const_(div|rem)_by_zero|panic_const_(div|rem)_overflow)' \
  "$folder/out/bench.ll" >"$folder/unchecked.ll"
"$CLANG" -O3 -march=x86-64-v2 -fPIC -ffunction-sections -Wno-override-module -c "$folder/unchecked.ll" -o "$folder/unchecked.o" || exit 1
words=()
for word in "$@"; do
  [[ $word == *bench*cgu.0.rcgu.o ]] && word=$folder/unchecked.o
  words+=("$word")
done
exec cc "${words[@]}"
LINK
  chmod +x "$work/link"
  flags+=(-C no-prepopulate-passes --emit=link,llvm-ir -C linker-flavor=gcc -C "linker=$work/link")
fi
RUSTC_BOOTSTRAP=1 rustc "${flags[@]}" "$@" --out-dir "$work/out" "$work/main.rs" >"$work/log" 2>&1 ||
  { grep -E '^error' -A9 "$work/log" >&2; exit 1; }
mv "$work/out/bench" "$out"
