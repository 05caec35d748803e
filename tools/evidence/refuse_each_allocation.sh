#!/usr/bin/env bash
# Refuses each request for memory of the built program in turn, on a run of one red frame, by `run`, `serial` and
# `lockless`, and on two samples of a sound file, by `play`: each time the answer is that of the whole run, or it is
# `no memory` with no output created.
#
# It is no part of the gate. It needs the program (`./snes demo 7 --frames 0` builds it) and a C compiler,
# with which it makes a small library, outside of the repository, that stands before malloc and realloc.
# It says how many requests were refused; its status is 1 where an answer was neither, where no request was refused at
# all (the library was not taken, as by a static program), or where there were more than MOST (5000). Where no memory is found
# for the words themselves the program says nothing and ends with the same status, 5.
top=$(cd "$(dirname "${BASH_SOURCE[0]}")/../.." && pwd) || exit 1
program=$(realpath "${1:-$top/crates/snes_run/out/snes_run}") || exit 2
data=$top/crates/snes_run/data
[ -x "$program" ] || { echo "no program: $program" >&2; exit 2; }
work=$(mktemp -d) || exit 2
trap 'rm -rf "$work"' EXIT
# A path of a library that is to be loaded first may have neither a space nor a colon, so it is named from there.
cd "$work" || exit 2

cat >"$work/refuse.c" <<'C'
/* The request for memory of this number, from 1, finds none; the file MARK is made then. */
#define _GNU_SOURCE
#include <dlfcn.h>
#include <errno.h>
#include <fcntl.h>
#include <stdatomic.h>
#include <stdlib.h>
#include <unistd.h>

static atomic_long requests;

static int refused(void) {
  const char *number = getenv("REFUSED");
  if (!number || atomic_fetch_add(&requests, 1) + 1 != atol(number)) return 0;
  close(open(getenv("MARK"), O_CREAT | O_WRONLY, 0600));
  errno = ENOMEM;
  return 1;
}

void *malloc(size_t size) {
  void *(*real)(size_t) = (void *(*)(size_t))dlsym(RTLD_NEXT, "malloc");
  return refused() ? NULL : real(size);
}

void *realloc(void *old, size_t size) {
  void *(*real)(void *, size_t) = (void *(*)(void *, size_t))dlsym(RTLD_NEXT, "realloc");
  return refused() ? NULL : real(old, size);
}
C
"${CC:-cc}" -O2 -shared -fPIC -o "$work/refuse.so" "$work/refuse.c" -ldl || exit 2

# One frame of the console: 114,688 dots of 001F, 7,680 of 0000; 532 samples of silence.
yes "$(printf '\x1f')" | head -c 229376 | tr '\n' '\0' >"$work/red"
head -c 15360 /dev/zero >>"$work/red"
head -c 2128 /dev/zero >"$work/silence"

# A sound file of one voice of noise, by the registers of the S-DSP, and its first two samples.
{ printf 'SNES-SPC700 Sound File Data' && head -c 66021 /dev/zero; } >"$work/hiss.spc"
for register in 00:7f 07:7f 0c:7f 3d:01 4c:01 6c:20; do
  printf "\\x${register#*:}" |
    dd of="$work/hiss.spc" bs=1 seek=$((16#10100 + 16#${register%:*})) conv=notrunc status=none
done
printf '\0\0\0\0\xfa\x82\0\0' >"$work/noise"

# Calls the program with one request refused, and tells what came of it: whole, none or neither.
call() {
  rm -f "$work/video" "$work/audio" "$work/mark"
  if [ "$1" = play ]; then
    words=(--spc "$work/hiss.spc" --table "$data/table.bin" --samples 2)
    line='samples 2' sound=$work/noise
  else
    words=(--cart "$data/red.sfc" --boot "$data/boot.bin" --table "$data/table.bin" --script "$data/script.txt"
      --frames 1 --video "$work/video")
    line='frames 1 samples 532' sound=$work/silence
  fi
  REFUSED=$2 MARK=$work/mark LD_PRELOAD=./refuse.so "$program" "$1" "${words[@]}" --audio "$work/audio" \
    >"$work/said" 2>"$work/errors"
  status=$?
  said=$(cat "$work/said")
  if [ $status -eq 0 ] && [ "$said" = "$line" ] && cmp -s "$work/audio" "$sound" &&
    { [ "$1" = play ] || cmp -s "$work/video" "$work/red"; }; then
    came=whole
  elif [ $status -eq 5 ] && [ ! -e "$work/video" ] && [ ! -e "$work/audio" ] &&
    { [ -z "$said" ] || [ "$said" = 'no memory' ]; }; then
    came=none
  else
    came=neither
  fi
}

bad=0
for command in run serial lockless play; do
  whole=0 none=0 ended=no
  for number in $(seq "${MOST:-5000}"); do
    call "$command" "$number"
    # Where there were no more requests nothing was refused, and the run has to be whole.
    [ -e "$work/mark" ] || [ $came = whole ] || came=neither
    if [ $came = neither ]; then
      bad=$((bad + 1))
      echo "$command, request $number: status $status, said '$said'"
    elif [ -e "$work/mark" ]; then
      eval "$came=\$(($came + 1))"
    fi
    [ -e "$work/mark" ] || { ended=yes && break; }
  done
  if [ $ended = no ]; then
    bad=$((bad + 1))
    echo "$command: there are more than ${MOST:-5000} requests"
  elif [ $((none + whole)) -eq 0 ]; then
    bad=$((bad + 1))
    echo "$command: no request was refused, so the library was not taken"
  fi
  echo "$command: $((none + whole)) requests refused in turn, $none times no memory, $whole times the whole run"
done
exit $((bad > 0))
