#!/usr/bin/env bash
# Tries a package that tools/package.sh made where there is no toolchain and no network: it is installed in a minimal Debian, everything
# in it is used, and it is removed again.
#
#     tools/evidence/try_package.sh PACKAGE.deb [ROOT [C_ROOT]]
#
# ROOT is a folder that `debootstrap --variant=minbase bookworm ROOT` has made; it is copied, not changed. If the library is part of
# the package, the C example is linked and run in a second root, C_ROOT, made with --include=gcc,libc6-dev,pkg-config. The script makes
# a root that is not named, which takes some minutes and a network. The package's tar archive is beside it, by the same name. It
# needs root (chroot, unshare), dpkg, python3, and man or mandoc. With both roots it takes a minute or two. It says each check; its
# status is 1 if one failed.
top=$(cd "$(dirname "$(readlink -f "${BASH_SOURCE[0]}")")/../.." && pwd) || exit 2
[ $# -ge 1 ] && [ -f "$1" ] || { echo 'try_package.sh PACKAGE.deb [ROOT [C_ROOT]]: installs, uses and removes a package' >&2; exit 2; }
[ "$(id -u)" -eq 0 ] || { echo 'try_package: chroot and unshare need root' >&2; exit 2; }
package=$(readlink -f "$1")
failed=0
passed=0

# Says whether a check held.
check() {
  if [ "$2" = "$3" ]; then
    passed=$((passed + 1))
    echo "ok      $1"
  else
    failed=$((failed + 1))
    echo "FAILED  $1: '$2', not '$3'"
  fi
}

work=$(mktemp -d) || exit 2
trap 'rm -rf "$work"' EXIT
# Copies a root to a folder, or makes it there with the packages that --include names.
make_root() {
  if [ -n "$2" ]; then
    cp -a "$2" "$1" || exit 2
  else
    debootstrap --variant=minbase ${3:+"--include=$3"} bookworm "$1" >"$work/log" 2>&1 || { tail -n 3 "$work/log" >&2; exit 2; }
  fi
}
root=$work/root
make_root "$root" "${2-}"
# Runs words in the root, without a network. Its environment is that of a login there.
inside() { unshare -nm sh -c 'mount -t proc proc "$0/proc" && exec chroot "$0" "$@"' "$root" /usr/bin/env -i PATH=/usr/sbin:/usr/bin:/sbin:/bin HOME=/root LC_ALL=C "$@"; }
# Every file there, but for what the package manager itself notes, and the cache of the linker.
list_files() {
  (cd "$root" && find . -xdev \( -path './var/lib/dpkg/status*' -o -path './var/lib/dpkg/lock*' -o -path './var/lib/dpkg/triggers*' \
    -o -path ./var/log/dpkg.log -o -path ./etc/ld.so.cache -o -path './var/cache/ldconfig*' \) -o -printf '%y %p %l\n' | sort)
}
check 'there is no toolchain' "$(inside sh -c 'command -v rt cc gcc clang python3')" ''
check 'there is no network' "$(inside sh -c 'cut -d : -f 1 /proc/net/dev | sed 1,2d; sed 1d /proc/net/route')" '    lo'
list_files >"$work/before"
cp "$package" "$root/tmp/snes.deb"
inside dpkg -i /tmp/snes.deb >"$work/said" 2>&1
check 'it is installed' "$? $(inside dpkg-query -W -f '${Status}' snes)" '0 install ok installed'
rm "$root/tmp/snes.deb"

# The programs.
mkdir "$root/tmp/try"
run() { inside sh -c "cd /tmp/try && $*"; }
check 'demo: its line' "$(run snes demo 7 --frames 60)" 'frames 60 samples 31947 video 1271400168 sound 16274526'
run snes-scene s >/dev/null
check 'scene: files' "$(ls "$root/tmp/try/s" | tr '\n' ' ')" 'boot.bin game.sfc scene.sfc script.txt table.bin '
files='--cart s/scene.sfc --boot s/boot.bin --table s/table.bin --script s/script.txt'
for command in serial run lockless; do
  check "$command: its line" "$(run snes $command $files --frames 60 --video $command.video --audio $command.audio)" 'frames 60 samples 31947'
done
check 'serial and run: the same bytes' "$(run 'cmp serial.video run.video && cmp serial.audio lockless.audio && echo same')" same
check 'serial: whole frames' "$(stat -c %s "$root/tmp/try/serial.video")" $((60 * 244736))
check 'spc: its line' "$(run snes spc $files --frames 60 --spc taken.spc)" 'frames 60 samples 31947'
check 'look tags: a file without tags' "$(run snes-look tags taken.spc)" 'header: no tags'
check 'play: the file is taken' "$(run snes play --spc taken.spc --table s/table.bin --samples 320 --audio taken.audio)" 'samples 320'
check 'stems --mix: its line' "$(run snes-stems --mix --seconds 1 taken.spc music)" 'mix.wav sound'
check 'stems --mix: as play and look' "$(run 'snes play --spc taken.spc --table s/table.bin --samples 32000 --audio mix.raw >/dev/null && snes-look wav mix.raw mix.wav && cmp mix.wav music/mix.wav && echo same')" same
check 'stems: its lines' "$(run 'snes-stems --seconds 1 taken.spc music | sort | cut -d " " -f 1 | tr "\\n" " "')" 'echo.wav voice0.wav voice1.wav voice2.wav voice3.wav voice4.wav voice5.wav voice6.wav voice7.wav '
check 'stems: files alone' "$(ls -A "$root/tmp/try/music" | wc -l) of $(cat "$root"/tmp/try/music/voice*.wav | wc -c) bytes" "10 of $((8 * 128044)) bytes"
run snes-look png serial.video 59 frame.png >/dev/null
run snes-look wav serial.audio sound.wav >/dev/null
python3 - "$root/tmp/try" >"$work/read" <<'P'
import struct, sys, wave, zlib

png = open(sys.argv[1] + "/frame.png", "rb").read()
place, lines, size = 8, b"", None
while place < len(png):
    length, kind = struct.unpack(">I4s", png[place:place + 8])
    body = png[place + 8:place + 8 + length]
    assert zlib.crc32(kind + body) == struct.unpack(">I", png[place + 8 + length:place + 12 + length])[0]
    if kind == b"IHDR":
        size = struct.unpack(">II", body[:8])
    if kind == b"IDAT":
        lines += body
    place += 12 + length
print("picture", *size, "of colours" if len(set(zlib.decompress(lines))) > 20 else "of one colour")
sound = wave.open(sys.argv[1] + "/sound.wav")
samples = sound.readframes(sound.getnframes())
print("sound", sound.getframerate(), sound.getnchannels(), sound.getnframes(), samples == open(sys.argv[1] + "/serial.audio", "rb").read())
P
check 'the PNG, read by another program' "$(sed -n 1p "$work/read")" 'picture 512 478 of colours'
check 'the WAV, read by another program' "$(sed -n 2p "$work/read")" 'sound 32000 2 31947 True'
check 'trace: instructions of a frame' "$(run "snes-trace $files --frame 1 --instructions --lines 500 | wc -l")" 500
run "snes-look sums serial.video serial.audio >sums.csv"
cat >"$root/tmp/try/bench.toml" <<'T'
[[case]]
name = "scene"
cart = "s/scene.sfc"
boot = "s/boot.bin"
table = "s/table.bin"
script = "s/script.txt"
frames = 60
sums = "sums.csv"
[[case.frame]]
at = 59
png = "frame.png"
T
check 'bench: a case' "$(run snes-bench bench.toml)" 'ok scene
1 case: 1 as expected, 0 failed, 0 could not be run'
check 'lint: the game' "$(run snes-lint s/game.sfc --frames 30)" 's/game.sfc: 0 warnings, 0 notes, in 30 frames'
run snes-scene --measured m >/dev/null
run 'snes-lint m/scene.sfc --boot m/boot.bin --table m/table.bin --frames 30 --format json >lint.json; echo $? >lint.status'
check 'lint: the measured scene, its status' "$(cat "$root/tmp/try/lint.status")" 1
early='print(*(one["address"] for one in json.load(open(sys.argv[1]))["findings"] if one["rule"] == "product-early"))'
check 'lint: the measured scene, a product too early' "$(python3 -c "import json, sys; $early" "$root/tmp/try/lint.json")" 0083AD

# What the wrapper adds.
dpkg -x "$package" "$work/tree" || exit 2
version=$(sed -n '1s/^snes //p' "$work/tree/usr/lib/snes/about")
# In a package whose programs aren't shown to be proved, the program may say so itself (tools/run_unproved.sh builds it so).
unproved='s/^$//'
[[ $package != *~unproved_* ]] || unproved='1s/ (not proved)$//'
for name in snes snes-look snes-trace snes-lint snes-scene snes-bench snes-stems; do
  check "$name --version" "$(run $name --version | sed "$unproved")" "$name $version
$(sed 1d "$work/tree/usr/lib/snes/about")"
done
# The pages, by whatever of man and mandoc is here.
pages() {
  local page
  for page in "$work"/tree/usr/share/man/man*/*.gz; do
    ! command -v man >/dev/null || LC_ALL=C.UTF-8 MANROFFSEQ='' MANWIDTH=80 man --warnings -E UTF-8 -l -Tutf8 -Z "$page" 2>&1 >/dev/null
    ! command -v mandoc >/dev/null || { gzip -dc "$page" | mandoc -T lint -W warning; }
  done
}
check 'the man pages: no warning' "$(pages)" ''
check 'the man pages: eight' "$(ls "$work"/tree/usr/share/man/man*/*.gz | wc -l)" 8
# The help, read from the sources: ./snes would have to be built first.
help_of_sources() {
  python3 - "$top/crates/run_io/src/help.rt" <<'P'
import re, sys

text = re.search(r'static HELP: &str = "\\\n(.*?)";', open(sys.argv[1], encoding="utf-8").read(), re.S)[1]
print(text.replace("\\n\\\n", "\n").replace("\\n", "\n").replace("\\x20", " "))
P
}
check 'help: the text of the sources' "$(run snes --help)" "$(help_of_sources)"
# Runs words in the root with a terminal as standard error, and prints what came there. A run that says how far it is ends then.
on_terminal() {
  python3 - "$root" "$@" <<'P'
import os, pty, subprocess, sys

master, slave = pty.openpty()
enter = 'mount -t proc proc "$0/proc" && exec chroot "$0" "$@"'
running = subprocess.Popen(["unshare", "-nm", "sh", "-c", enter, sys.argv[1], "/usr/bin/env", "-i", "PATH=/usr/bin:/bin", *sys.argv[2:]],
                           stdin=subprocess.DEVNULL, stdout=subprocess.DEVNULL, stderr=slave)
os.close(slave)
said = b""
try:
    while some := os.read(master, 4096):
        said += some
        # Once a long run has said how far it is, it need not go on.
        if b" a second" in said:
            running.terminate()
except OSError:
    pass
running.wait()
sys.stdout.write(said.decode().replace("\r", "\n"))
P
}
check 'a hint after invalid arguments' "$(on_terminal snes nothing | grep -c 'snes --help says more')" 1
long=(snes serial --cart /tmp/try/s/scene.sfc --boot /tmp/try/s/boot.bin --table /tmp/try/s/table.bin --script /tmp/try/s/script.txt
  --frames 9000 --video /tmp/try/long.video --audio /tmp/try/long.audio)
check 'a long run says how far it is' "$(on_terminal "${long[@]}" | grep -qE 'snes: [0-9]+ of 9000 frames, [0-9]+ a second' && echo said)" said
rm -f "$root"/tmp/try/long.*
for word in '' --progress; do
  check "lint${word:+ $word} says how far it is" "$(on_terminal snes-lint /tmp/try/s/game.sfc --frames 300 $word | grep -oE '[0-9]+ of 300' | tail -n 1)" '300 of 300'
done
check 'completion: commands' "$(inside bash -c '. /usr/share/bash-completion/completions/snes; COMP_WORDS=(snes se); COMP_CWORD=1; _snes; echo "${COMPREPLY[@]}"')" serial
check 'completion: options' "$(inside bash -c '. /usr/share/bash-completion/completions/snes-trace; COMP_WORDS=(snes-trace --ins); COMP_CWORD=1; _snes_trace; echo "${COMPREPLY[@]}"')" --instructions
check 'completion: formats' "$(inside bash -c '. /usr/share/bash-completion/completions/snes-lint; COMP_WORDS=(snes-lint a --format s); COMP_CWORD=3; _snes_lint; echo "${COMPREPLY[@]}"')" sarif
check 'completion: stems' "$(inside bash -c '. /usr/share/bash-completion/completions/snes-stems; COMP_WORDS=(snes-stems --m); COMP_CWORD=1; _snes_stems; echo "${COMPREPLY[@]}"')" --mix
check 'completion: values' "$(inside bash -c '. /usr/share/bash-completion/completions/snes-look; COMP_WORDS=(snes-look avi --region p); COMP_CWORD=3; _snes_look; echo "${COMPREPLY[@]}"')" pal
check 'the sums of PROVED' "$(inside sh -c 'cd /usr && grep -E "^[0-9a-f]{64} " share/doc/snes/PROVED | sha256sum -c --quiet && echo hold')" hold

# The archive, in a folder of its own.
mkdir "$root/tmp/try/opt" && tar -C "$root/tmp/try/opt" --strip-components 1 -xf "${package%.deb}.tar.gz"
check 'the archive: the same files' "$(diff -r --no-dereference "$work/tree/usr" "$root/tmp/try/opt" | grep -v 'share: lintian$')" ''
check 'the archive: a demo' "$(run opt/bin/snes demo 7 --frames 60)" 'frames 60 samples 31947 video 1271400168 sound 16274526'

# Removes the package from the root again, which leaves the files that were there before.
remove() {
  rm -rf "$root/tmp/try"
  inside dpkg -P snes >"$work/said" 2>&1
  check 'it is removed' "$? $(inside dpkg-query -W -f '${Status}' snes 2>/dev/null)" '0 '
  list_files >"$work/after"
  check 'nothing is left behind' "$(diff "$work/before" "$work/after")" ''
}
remove

# The library, if it is part of the package: where there is a C compiler, the C example is linked with what is installed, and runs.
if [ -d "$work/tree/usr/include/bogtrun" ]; then
  rm -rf "$root"
  make_root "$root" "${3-}" gcc,libc6-dev,pkg-config
  check 'for C: there is no toolchain' "$(inside sh -c 'command -v rt clang python3')" ''
  list_files >"$work/before"
  cp "$package" "$root/tmp/snes.deb"
  inside dpkg -i /tmp/snes.deb >"$work/said" 2>&1
  check 'for C: it is installed' "$? $(inside dpkg-query -W -f '${Status}' snes)" '0 install ok installed'
  rm "$root/tmp/snes.deb"
  mkdir "$root/tmp/try"
  check 'pkg-config: the version' "$(inside pkg-config --modversion bogtrun-snes)" "${version%%~*}"
  check 'the shared object shows its calls alone' "$(inside nm -D --defined-only -j /usr/lib/x86_64-linux-gnu/libbogtrun-snes.so.1 | xargs)" \
    'snes_back snes_begin snes_end snes_frame snes_keep snes_play snes_reset'
  source=/usr/share/doc/snes/examples/frame.c
  check 'the C example, shared: links' "$(run "cc -o shared $source \$(pkg-config --cflags --libs bogtrun-snes) 2>&1 && echo links")" links
  check 'the C example, static: links' "$(run "cc -o static $source \$(pkg-config --cflags bogtrun-snes) -l:libbogtrun-snes.a 2>&1 && echo links")" links
  check 'the C example, shared: what it loads' "$(run 'ldd shared | grep -c libbogtrun-snes.so.1')" 1
  run snes-scene s >/dev/null
  run "snes serial $files --frames 60 --video video --audio audio" >/dev/null
  for kind in shared static; do
    run "./$kind s/scene.sfc s/boot.bin s/table.bin s/script.txt 60 $kind.frame $kind.sound" >/dev/null
    check "the C example, $kind: the last frame" "$(run "tail -c 244736 video | cmp - $kind.frame && echo same")" same
    check "the C example, $kind: all sound" "$(run "cmp audio $kind.sound && echo same")" same
  done
  check 'the C example, a frame at a time: links' "$(run "cc -o frames ${source%.c}s.c \$(pkg-config --cflags --libs bogtrun-snes) 2>&1 && echo links")" links
  run './frames --try 30 s/scene.sfc s/script.txt 60 frames.video frames.audio' >/dev/null
  check 'the C example, a frame at a time: all video' "$(run 'cmp video frames.video && echo same')" same
  check 'the C example, a frame at a time: all sound' "$(run 'cmp audio frames.audio && echo same')" same
  # The archive is used from a folder of its own: pkg-config names that folder.
  mkdir "$root/opt/snes" && tar -C "$root/opt/snes" --strip-components 1 -xf "${package%.deb}.tar.gz"
  flags='PKG_CONFIG_PATH=/opt/snes/lib/x86_64-linux-gnu/pkgconfig pkg-config --cflags --libs bogtrun-snes'
  check 'the archive for C: links' "$(run "cc -o moved /opt/snes/share/doc/snes/examples/frame.c \$($flags) -Wl,-rpath,/opt/snes/lib/x86_64-linux-gnu 2>&1 && echo links")" links
  check 'the archive for C: what it loads' "$(run 'ldd moved | grep -c /opt/snes/')" 1
  run './moved s/scene.sfc s/boot.bin s/table.bin s/script.txt 60 moved.frame moved.sound' >/dev/null
  check 'the archive for C: the last frame' "$(run 'cmp shared.frame moved.frame && echo same')" same
  rm -rf "$root/opt/snes"
  remove
else
  echo '        the library is not part of this package'
fi
echo "$passed passed, $failed failed"
[ "$failed" -eq 0 ]
