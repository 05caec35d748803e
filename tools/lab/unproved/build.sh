#!/usr/bin/env bash
# Builds a program of the sources as they stand, without a proof, nearly as the toolchain builds what is proved: to measure what
# a change gains before it is proved.
#
#   [MODULE=FILE] [PROVED=1] [PARTS=N] tools/lab/unproved/build.sh OUT [CRATE WORD..]
#
# CRATE is snes_run where none is named. Its words are what `rt try` runs on the way, to no other end: a short run.
# MODULE names a file for the LLVM module as `rt try` has it, for try_hints.py. With PARTS the module is cut into N
# parts that are compiled at the same time (split.py): sooner built for a first look, and not for figures, since less is inlined.
#
# `rt try` compiles a program with a check at each operation. Its LLVM module is kept on the way; as_built.py takes the
# checks out, which a proved program doesn't have, and puts in what the sources say of inlining; the toolchain's compiler and
# linker make the program of that. What is not the same: the toolchain drops `inline(always)` from a function that would grow
# very large, by a rule that its pages don't tell. Here it is dropped above SIZE instructions (as_built.py), which was found by
# the module of a proved build: with PROVED=1 the program is proved and built as always (`rt run`), and MODULE gets the
# module that was made for it, into which what is always built in has been built already.
here=$(cd "$(dirname "$(readlink -f "${BASH_SOURCE[0]}")")" && pwd) || exit 2
[ $# -ge 1 ] || { echo 'build.sh OUT [CRATE WORD..]: builds a program without a proof' >&2; exit 2; }
out=$(readlink -f "$1")
shift
[ $# -gt 0 ] || set -- snes_run demo 7 --frames 1
crate=$1
shift
kit=$(dirname "$(dirname "$(readlink -f "$(command -v rt)")")") || exit 2
work=$(mktemp -d) || exit 2
trap 'rm -rf "$work"' EXIT

# The toolchain by links, with a compiler that keeps the largest module that it is given.
mkdir -p "$work/kit/bin" "$work/kit/toolchain/bin"
for one in "$kit"/*; do
  case ${one##*/} in bin | toolchain) ;; *) ln -s "$one" "$work/kit/" ;; esac
done
for one in "$kit"/bin/*; do
  case ${one##*/} in rt | rtlib.py) cp "$one" "$work/kit/bin/" ;; *) ln -s "$one" "$work/kit/bin/" ;; esac
done
# Beside a try `rt` has the prover look for names that a check refuses. Nobody reads here what it finds.
[ -n "${PROVED-}" ] || { rm "$work/kit/bin/rattle" && printf '#!/bin/sh\n' >"$work/kit/bin/rattle" && chmod +x "$work/kit/bin/rattle"; } || exit 2
ln -s "$kit/toolchain/lib" "$work/kit/toolchain/lib"
for one in "$kit"/toolchain/bin/*; do
  [ "${one##*/}" = clang ] || ln -s "$one" "$work/kit/toolchain/bin/"
done
cat >"$work/kit/toolchain/bin/clang" <<TEXT
#!/bin/sh
for word; do
  case \$word in *.bc)
    [ -f "$work/module.bc" ] && [ "\$(stat -c %s "\$word")" -lt "\$(stat -c %s "$work/module.bc")" ] || cp "\$word" "$work/module.bc" ;;
  esac
done
# The whole program comes with checks of addresses. Nobody runs what that would compile.
for word; do
  [ "\$word" != -fsanitize=address ] || exit 1
done
exec "$kit/toolchain/bin/clang" "\$@"
TEXT
chmod +x "$work/kit/toolchain/bin/clang"
how=(try --seconds 600)
[ -z "${PROVED-}" ] || how=(run)
(cd "$here/../../../crates/$crate" && "$work/kit/bin/rt" "${how[@]}" -- "$@") >"$work/said" 2>&1
[ -f "$work/module.bc" ] || { tail -n 9 "$work/said" >&2; exit 1; }

"$kit/toolchain/bin/clang" --no-default-config -Wno-override-module -O0 -S -emit-llvm -x ir "$work/module.bc" -o "$work/module.ll" || exit 1
[ -z "${MODULE-}" ] || cp "$work/module.ll" "$MODULE" || exit 1
if [ -n "${PROVED-}" ]; then
  cp "$work/module.ll" "$work/program.ll"
else
  "$here/as_built.py" "$here/../../.." "$work/module.ll" "$work/program.ll"
fi || exit 1
modules=("$work/program.ll")
if [ "${PARTS:-1}" -gt 1 ]; then
  "$here/split.py" "$work/program.ll" "$work/part" "$PARTS" || exit 1
  modules=("$work"/part.*.ll)
fi
"$here/compile.sh" "$out" "${modules[@]}"
