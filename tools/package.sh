#!/usr/bin/env bash
# Makes what a user without the toolchain installs: a Debian package and a tar archive of the same tree, in OUT.
#
#     tools/package.sh [--from FOLDER] OUT
#
# OUT gets snes_VERSION_amd64.deb and snes_VERSION_amd64.tar.gz. The programs are those that CI has built, crates/NAME/out/NAME, each
# of the sources as they are now; else the status is 1 and nothing is made. (CI keeps no checksums: of its programs it is seen only that no
# source is newer. tools/release.sh runs CI itself.) With --from they are FOLDER/snes_run, frame_look,
# snes_trace, cart_lint, scene_cart and cart_bench, and FOLDER/libsnes_library.a if it is there. Nobody knows then what they were built
# from: VERSION ends with ~unproved, and PROVED and --version say that a proof is not shown.
#
# The library is part of it if tools/build_library.sh has built it, and is left out with a message if not. Installed, its files
# have names of this project (DECISIONS, "The package"). The package depends on the C library alone, at least of the version that
# the programs ask for. Man pages and completions are made by tools/package/texts.py of the programs' own help.
#
# Two calls with the same programs and the same SOURCE_DATE_EPOCH (the time of the commit, if it is not set) make the same bytes.
# It needs dpkg-deb, python3, objdump, and for the library cc and ar. MAINTAINER names who is asked about the package.
top=$(cd "$(dirname "$(readlink -f "${BASH_SOURCE[0]}")")/.." && pwd) || exit 2
tool=package
source "$top/tools/built_from.sh" || exit 2
give_up() {
  say "$*"
  exit 1
}

folder=
if [ "${1-}" = --from ] && [ $# -eq 3 ]; then
  folder=$(readlink -f "$2") || exit 2
  shift 2
fi
[ $# -eq 1 ] && [[ $1 != -* ]] || { echo 'package.sh [--from FOLDER] OUT: makes a Debian package and a tar archive' >&2; exit 2; }
mkdir -p "$1" && out=$(readlink -f "$1") || exit 2
cd "$top" || exit 2
umask 022
export LC_ALL=C TZ=UTC
version=$(version_of_tree)
[ -n "$version" ] || give_up 'no version in crates/run_io/src/help.rt'
full=$version
commit=$(commit_of_tree)
export SOURCE_DATE_EPOCH=${SOURCE_DATE_EPOCH:-$(git log -1 --format=%ct 2>/dev/null || echo 0)}
maintainer=${MAINTAINER:-$(git log -1 --format='%an <%ae>' 2>/dev/null)}

# Crates and names of what is installed.
declare -A crates=([snes]=snes_run [snes-look]=frame_look [snes-trace]=snes_trace [snes-lint]=cart_lint [snes-scene]=scene_cart
  [snes-bench]=cart_bench)
names=(snes snes-look snes-scene snes-trace snes-lint snes-bench)
proof=
for name in "${names[@]}"; do
  crate=${crates[$name]}
  if [ -n "$folder" ]; then
    [ -x "$folder/$crate" ] || give_up "there is no program $folder/$crate"
  else
    is_built "$crate" || give_up "crates/$crate/out/$crate is not built, or of other sources: run .ci/run, or ./snes, ./look, ./trace, ./lint, ./scene and ./bench"
    proof+="$name: crate $crate, of $(tools/lines_below.sh "$crate" | wc -l) crates whose sources have the sum $(sum_of_sources "$top" "$(tools/lines_below.sh "$crate")")"$'\n'
  fi
done
library=${folder:-$top/crates/snes_library/out}/libsnes_library.a
if [ -z "$folder" ] && [ -f "$library" ]; then
  is_library_built || give_up "$library is of other sources: run tools/build_library.sh, or remove it"
fi
if [ -n "$folder" ]; then
  full=$version~unproved
  shown='not shown to be proved: the programs were taken from a folder'
  told='The programs of
 this package are not shown to be proved.'
else
  told='The bytes are those
 that its specification of the console gives, by a proof that was checked by
 machine; /usr/share/doc/snes/PROVED says of which sources.'
  shown="proved: by $(rt version 2>/dev/null || echo 'a toolchain that is not on the path')"
fi

work=$(mktemp -d) || exit 2
trap 'rm -rf "$work"' EXIT
tree=$work/tree
usr=$tree/usr
doc=$usr/share/doc/snes
mkdir -p "$usr"/{bin,lib/snes} "$doc" "$tree/DEBIAN"
program_of() { echo "${folder:-$top/crates/${crates[$1]}/out}/${crates[$1]}"; }
for name in "${names[@]}"; do install -m 755 "$(program_of "$name")" "$usr/lib/snes/$name"; done
install -m 755 tools/package/run.sh "$usr/bin/snes"
for name in "${names[@]:1}"; do ln -s snes "$usr/bin/$name"; done
install -m 644 tools/with_progress.sh "$usr/lib/snes"
install -m 755 tools/stems.sh "$usr/lib/snes"
ln -s snes "$usr/bin/snes-stems"
printf 'snes %s\ncommit %s\n%s\n' "$version" "$commit" "$shown" >"$usr/lib/snes/about"

programs=()
for name in snes-look snes-trace snes-lint snes-scene snes-bench; do programs+=("$(program_of "$name")"); done
tools/package/texts.py "$usr/share" "${programs[@]}" tools/stems.sh "$version" "$(date -d "@$SOURCE_DATE_EPOCH" +%F)" ||
  give_up 'the man pages were not made'

mkdir -p "$usr/share/lintian/overrides"
{
  echo '# The programs are installed as the toolchain made them, byte for byte.'
  echo 'snes: unstripped-binary-or-object [usr/lib/snes/snes*]'
} >"$usr/share/lintian/overrides/snes"

# The library with the three calls by which it allocates, static and shared. The shared object shows the calls of snes.h alone.
triplet=x86_64-linux-gnu
needs=("$usr"/lib/snes/snes*)
if [ -f "$library" ]; then
  place=$usr/lib/$triplet
  lib=libbogtrun-snes
  mkdir -p "$usr/include/bogtrun" "$place/pkgconfig" "$doc/examples"
  echo '{ global: snes_play; snes_begin; snes_frame; snes_reset; snes_keep; snes_back; snes_end; local: *; };' >"$work/names"
  cc -O2 -fPIC -ffile-prefix-map="$top"=. -c embed/heap.c -o "$work/heap.o" && cp "$library" "$work/$lib.a" &&
    ar rD "$work/$lib.a" "$work/heap.o" && ranlib -D "$work/$lib.a" &&
    cc -shared -o "$work/$lib.so.1" -Wl,-soname,"$lib.so.1",--build-id=none,-z,relro,-z,now,--gc-sections \
      -Wl,--version-script="$work/names" -Wl,--whole-archive "$work/$lib.a" -Wl,--no-whole-archive || give_up 'the library was not linked'
  install -m 644 "$work/$lib.a" "$work/$lib.so.1" "$place"
  strip --strip-unneeded -D "$place/$lib.so.1"
  ln -s "$lib.so.1" "$place/$lib.so"
  install -m 644 embed/snes.h "$usr/include/bogtrun"
  install -m 644 embed/frame.c embed/frames.c embed/play.py "$doc/examples"
  cat >"$place/pkgconfig/bogtrun-snes.pc" <<TEXT
prefix=\${pcfiledir}/../../..
includedir=\${prefix}/include
libdir=\${prefix}/lib/$triplet

Name: bogtrun-snes
Description: Super Nintendo emulator whose output is proved, whole or a frame at a time
Version: $version
Cflags: -I\${includedir}/bogtrun
Libs: -L\${libdir} -lbogtrun-snes
TEXT
  needs+=("$place/$lib.so.1")
  echo "$lib 1 snes (>= $full)" >"$tree/DEBIAN/shlibs"
  echo 'activate-noawait ldconfig' >"$tree/DEBIAN/triggers"
  cat >>"$usr/share/lintian/overrides/snes" <<'TEXT'
# Program and library are one package, since both come from one tree and one proof.
snes: package-name-doesnt-match-sonames *
snes: link-to-shared-library-in-wrong-package *
TEXT
else
  say "without the library: $library is not there (tools/build_library.sh)"
fi

# The pages for who installs it.
install -m 644 docs/use/COMMANDS.md "$doc"
gzip -9nc CHANGELOG.md >"$doc/CHANGELOG.md.gz"
{
  printf 'snes (%s) unstable; urgency=medium\n\n  * What changed is in CHANGELOG.md.gz.\n\n' "$full"
  echo " -- $maintainer  $(date -R -d "@$SOURCE_DATE_EPOCH")"
} | gzip -9nc >"$doc/changelog.gz"
{
  printf 'Format: https://www.debian.org/doc/packaging-manuals/copyright-format/1.0/\nUpstream-Name: snes\n\nFiles: *\n'
  sed -n 's/^Copyright (c) /Copyright: /p' LICENSE
  echo 'License: Expat'
  sed '1,/^Copyright/d' LICENSE | sed '1{/^$/d}; s/^$/./; s/^/ /'
} >"$doc/copyright"
find "$usr/share/man" -type f -exec gzip -9n {} +

# What it was made from, and each file's sum.
{
  printf 'Package: snes %s\nCommit: %s\nProof: %s\n' "$full" "$commit" "$shown"
  printf 'Time: %s\n' "$(date -d "@$SOURCE_DATE_EPOCH" +'%F %T UTC')"
  if [ -z "$folder" ]; then
    printf '\nThe toolchain builds a program only after it has proved each crate below it. These are the crates:\n\n%s\n' "$proof"
    echo 'That the programs are of these sources is known by kept checksums, or, of programs that CI has built, by their times.'
    echo 'The library, if it is here, was built by the same toolchain; its C part (heap.c) is not proved.'
  fi
  printf '\nThe sums of the files. In the folder above bin and lib: grep -E "^[0-9a-f]{64} " share/doc/snes/PROVED | sha256sum -c\n\n'
  (cd "$usr" && find . -type f ! -name PROVED -printf '%P\n' | sort | xargs -d '\n' sha256sum)
} >"$doc/PROVED"

# The C library: the newest of its symbols' versions that a program asks for.
libc=$(objdump -T "${needs[@]}" 2>/dev/null | grep -o 'GLIBC_[0-9.]*' | sort -uV | tail -n 1)
others=$(objdump -p "${needs[@]}" | awk '/NEEDED/ { print $2 }' | grep -vxE 'lib(c|m|pthread|dl|rt)\.so\.[0-9]+|ld-linux-x86-64\.so\.2' | sort -u)
[ -z "$others" ] || give_up "more than the C library is needed: $others"
[ -n "$libc" ] || give_up 'no version of the C library was found in the programs'
cat >"$tree/DEBIAN/control" <<TEXT
Package: snes
Version: $full
Section: otherosfs
Priority: optional
Architecture: amd64
Maintainer: $maintainer
Installed-Size: $(find "$usr" -type f -printf '%s\n' | awk '{ all += int(($1 + 1023) / 1024) } END { print all }')
Depends: libc6 (>= ${libc#GLIBC_})
Description: Super Nintendo emulator without a window, for checks and archives
 Give it a cartridge, a script of pads and a number of frames: it writes raw
 video and raw audio, byte for byte the same on every run. $told
 .
 With it come snes-look (pictures, sounds, sums), snes-trace (each step of a
 run), snes-lint (warnings of what fails on a console), snes-bench (cases for
 CI), snes-stems (the voices of a tune apart) and snes-scene (free cartridges
 and the files that a run needs).
TEXT
(cd "$tree" && find usr -type f -print0 | sort -z | xargs -0 md5sum) >"$tree/DEBIAN/md5sums"
find "$tree" -type d -exec chmod 755 {} +
chmod 644 "$tree"/DEBIAN/*
find "$tree" -exec touch -h -d "@$SOURCE_DATE_EPOCH" {} +

name=snes_${full}_amd64
dpkg-deb --root-owner-group --threads-max=1 -Zxz --build "$tree" "$work/$name.deb" >/dev/null || give_up 'dpkg-deb failed'
tar -C "$tree" --sort=name --format=gnu --owner=0 --group=0 --numeric-owner --mtime="@$SOURCE_DATE_EPOCH" \
  --transform "s,^usr,snes-$full,S" -cf - usr | gzip -9n >"$work/$name.tar.gz" || give_up 'tar failed'
mv "$work/$name.deb" "$work/$name.tar.gz" "$out" || exit 2
(cd "$out" && sha256sum "$name.deb" "$name.tar.gz")
