#!/usr/bin/env bash
# Makes a release: everything that has to hold is tried, then the package is made, tried and summed. It stops at the first that fails.
#
#     tools/release.sh OUT [ROOT [C_ROOT]]
#
# In this order: what the steps need is here; the tree has no changes, and CHANGELOG.md has closed the version; CI (.ci/run); everything
# that is not part of CI (tools/evidence/full_check.sh); the library (tools/build_library.sh); the package twice, which have to be the same bytes;
# lintian; the package in roots without the toolchain (tools/evidence/try_package.sh, with ROOT and C_ROOT if they are given); the first
# look (tools/evidence/try_unproved.sh); the commit and the tree are still those of the beginning.
#
# OUT, a folder outside the tree, then has the package, the archive, SHA256SUMS, and full_check.held: what held, to be committed as
# records/full_check.held. It takes hours: CI about one, the full check the rest. What it did is in OUT/release.log. If it stops, the
# status is 1, and there is no SHA256SUMS.
# With ONLY set to words of these steps, it makes no release, but tries them: needs tree ci full library package lint root look same.
top=$(cd "$(dirname "$(readlink -f "${BASH_SOURCE[0]}")")/.." && pwd) || exit 2
usage() {
  echo 'release.sh OUT [ROOT [C_ROOT]]: tries all, and makes the package' >&2
  exit 2
}
[ $# -ge 1 ] && [ $# -le 3 ] && [[ $1 != -* ]] || usage
mkdir -p "$1" && out=$(readlink -f "$1") || exit 2
roots=()
for root in "${@:2}"; do
  [ -d "$root" ] || { echo "release: there is no folder $root" >&2; exit 2; }
  roots+=("$(readlink -f "$root")")
done
cd "$top" || exit 2
steps=(needs tree ci full library package lint root look same)
for word in ${ONLY-}; do
  [[ " ${steps[*]} " == *" $word "* ]] || { echo "release: there is no step $word; the steps are: ${steps[*]}" >&2; exit 2; }
done
log=$out/release.log
: >"$log" || exit 2
began_at=$(git rev-parse HEAD) || exit 2

# Does a step, whose output goes into the log. The first that fails is the last.
step() {
  local name=$1 began=$SECONDS
  shift
  [ -z "${ONLY-}" ] || [[ " $ONLY " == *" $name "* ]] || return 0
  echo "== $name: $*" >>"$log"
  if "$@" >>"$log" 2>&1; then
    echo "$name: done in $((SECONDS - began)) seconds"
  else
    echo "release: $name failed; see $log" >&2
    tail -n 5 "$log" >&2
    exit 1
  fi
}

# What a later step needs is missed now, and not after hours.
has_needs() {
  local name bad=0
  for name in rt cc ar ranlib strip objdump dpkg-deb dpkg lintian python3 unshare chroot sha256sum; do
    command -v "$name" >/dev/null || { echo "there is no $name" && bad=1; }
  done
  command -v man >/dev/null || command -v mandoc >/dev/null || { echo 'there is neither man nor mandoc' && bad=1; }
  [ ${#roots[@]} -eq 2 ] || command -v debootstrap >/dev/null || { echo 'there is no debootstrap, and not both roots are given' && bad=1; }
  [ "$(id -u)" -eq 0 ] || { echo 'chroot needs root' && bad=1; }
  return "$bad"
}
is_clean() {
  [ -z "$(git status --porcelain)" ] || { echo 'the tree has changes' && git status --short && return 1; }
  ! grep -q '^## [0-9.]* (not closed yet)' CHANGELOG.md || { echo 'CHANGELOG.md has not closed its first version' && return 1; }
}
# Its notes go to OUT, so that the tree stays as it is committed.
check_fully() { cp records/full_check.held "$out/full_check.held" && HELD=$out/full_check.held tools/evidence/full_check.sh; }
package_twice() {
  rm -rf "$out/again" && rm -f "$out"/snes_*_amd64.deb "$out"/snes_*_amd64.tar.gz || return 1
  tools/package.sh "$out" && tools/package.sh "$out/again" && cmp "$out"/snes_*_amd64.deb "$out"/again/*.deb &&
    cmp "$out"/snes_*_amd64.tar.gz "$out"/again/*.tar.gz && rm -rf "$out/again"
}
no_warning() { lintian --fail-on error,warning "$out"/snes_*_amd64.deb; }
in_roots() { tools/evidence/try_package.sh "$out"/snes_*_amd64.deb "${roots[@]}"; }
is_same() {
  [ "$(git rev-parse HEAD)" = "$began_at" ] || { echo "the commit was $began_at when the release began" && return 1; }
  [ -z "$(git status --porcelain)" ] || { echo 'the tree has changes now' && git status --short && return 1; }
}
rm -f "$out/SHA256SUMS" || exit 2
step needs has_needs
step tree is_clean
step ci .ci/run
step full check_fully
step library tools/build_library.sh
step package package_twice
step lint no_warning
step root in_roots
step look tools/evidence/try_unproved.sh
step same is_same
[ -z "${ONLY-}" ] || exit 0
(cd "$out" && sha256sum snes_*_amd64.deb snes_*_amd64.tar.gz >SHA256SUMS.new && mv SHA256SUMS.new SHA256SUMS && cat SHA256SUMS)
