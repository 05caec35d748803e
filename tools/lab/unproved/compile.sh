#!/usr/bin/env bash
# Makes a program of the LLVM modules that as_built.py or split.py wrote, by the toolchain's compiler and linker. All modules are
# compiled at the same time.
#
#   tools/lab/unproved/compile.sh OUT MODULE.ll ..
#
# With an OUT that ends in .o the one module becomes an object for a library, and nothing is linked.
[ $# -ge 2 ] || { echo 'compile.sh OUT MODULE.ll ..: makes a program of modules' >&2; exit 2; }
out=$1
shift
kit=$(dirname "$(dirname "$(readlink -f "$(command -v rt)")")") || exit 2
objects=$(mktemp -d) || exit 2
trap 'rm -rf "$objects"' EXIT
# The words that the toolchain gives its compiler for a proved program.
machine=(-no-trap-after-noreturn -trap-unreachable -no-x86-call-frame-opt -disable-machine-licm -disable-postra-machine-licm
  -sink-common-insts=false -mergefunc-use-aliases)
position=-fPIE
[[ $out != *.o ]] || position=-fPIC
compile() {
  "$kit/toolchain/bin/clang" --no-default-config -no-canonical-prefixes --target=x86_64-unknown-linux-gnu -march=x86-64 -Wno-override-module \
    "--sysroot=$kit/toolchain" -ffunction-sections -fdata-sections "$position" -O3 -fintegrated-cc1 -Xclang -fmerge-functions \
    "${machine[@]/#/-mllvm=}" -c -x ir "$1" -o "$2"
}
if [[ $out == *.o ]]; then
  compile "$1" "$out"
  exit
fi
names=()
running=()
for module; do
  names+=("$objects/${#names[@]}.o")
  compile "$module" "${names[-1]}" &
  running+=($!)
done
failed=0
for one in "${running[@]}"; do wait "$one" || failed=1; done
[ "$failed" -eq 0 ] &&
  said=$("$kit/bin/rattle-link" --target x86_64-unknown-linux-gnu --toolchain "$kit/toolchain" -o "$out" "${names[@]}" \
    "$kit/c/libos_c.a" "$kit/c/liblibc_c.a" 2>&1) || { echo "${said-}" >&2; exit 1; }
