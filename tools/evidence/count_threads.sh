#!/usr/bin/env bash
# Counts the threads that the built program starts, as a user runs it, with no gate that counts.
#
#   tools/evidence/count_threads.sh [PROGRAM]
#
# PROGRAM is crates/snes_run/out/snes_run, where none is named. A small library stands before the system's pthread_create and
# counts its calls (cc, LD_PRELOAD). Ten frames of the cartridge of `make 7` are run by `serial`, `run`, `lockless` and `demo`.
# Each of their turns starts one thread, and a frame has four turns at least. So `serial` has to start none, and each of the
# others forty or more. The bytes of `run` and `lockless` have to be those of `serial`. The status is 1 where that is not so.
top=$(cd "$(dirname "$(readlink -f "${BASH_SOURCE[0]}")")/../.." && pwd) || exit 2
program=${1:-$top/crates/snes_run/out/snes_run}
[ -x "$program" ] || { echo "no program: $program" >&2; exit 2; }
program=$(readlink -f "$program")
work=$(mktemp -d) || exit 2
trap 'rm -rf "$work"' EXIT
cd "$work" || exit 2

# The program ends without the C library's last calls, so the count stands in a file that is mapped.
cat >count.c <<'C'
#define _GNU_SOURCE
#include <dlfcn.h>
#include <fcntl.h>
#include <pthread.h>
#include <stdatomic.h>
#include <stdlib.h>
#include <sys/mman.h>
#include <unistd.h>

static _Atomic unsigned long *begun;

__attribute__((constructor)) static void map(void) {
    int file = open(getenv("THREADS_BEGUN"), O_RDWR | O_CREAT | O_TRUNC, 0600);
    if (file < 0 || ftruncate(file, sizeof *begun) != 0) _exit(99);
    begun = mmap(0, sizeof *begun, PROT_READ | PROT_WRITE, MAP_SHARED, file, 0);
    if (begun == MAP_FAILED) _exit(99);
    close(file);
}

int pthread_create(pthread_t *thread, const pthread_attr_t *attr, void *(*start)(void *), void *arg) {
    int (*real)(pthread_t *, const pthread_attr_t *, void *(*)(void *), void *) = dlsym(RTLD_NEXT, "pthread_create");
    atomic_fetch_add(begun, 1);
    return real(thread, attr, start, arg);
}
C
cc -shared -fPIC -O1 -o count.so count.c -ldl || { echo "cc can't make the library that counts" >&2; exit 2; }
"$program" make 7 --out cart >/dev/null || exit 2
# A boot ROM whose program reads and writes the ports for ever, a table of zeros, no script.
printf '\xE4\xF4\xBC\xC4\xF4\x2F\xF9' >boot
head -c 55 /dev/zero >>boot
printf '\xC0\xFF' >>boot
head -c 1024 /dev/zero >table
: >script

# The threads that a command starts; nothing where it doesn't end well. A body whose legs wait for each other in one thread is cut
# off: what it has started by then counts.
threads_of() {
  THREADS_BEGUN=$work/begun LD_PRELOAD=$work/count.so timeout 20 "$program" "$@" >said 2>&1
  case $? in 0 | 124) od -An -tu8 "$work/begun" | tr -d ' ' ;; esac
}

bad=0
for command in serial run lockless demo; do
  rm -f begun
  if [ $command = demo ]; then
    begun=$(threads_of demo 7 --frames 10)
  else
    begun=$(threads_of $command --cart cart --boot boot --table table --script script --frames 10 --video $command.video --audio $command.audio)
  fi
  least=40 most=10000000
  [ $command = serial ] && least=0 most=0
  if [ -z "$begun" ] || [ "$begun" -lt $least ] || [ "$begun" -gt $most ]; then
    echo "$command: ${begun:-no} threads for 10 frames, $least or more are wanted" && bad=$((bad + 1))
  else
    echo "$command: $begun threads for 10 frames"
  fi
done
for command in run lockless; do
  cmp -s serial.video $command.video && cmp -s serial.audio $command.audio || { echo "$command: other bytes than serial"; bad=$((bad + 1)); }
done
[ $bad = 0 ]
