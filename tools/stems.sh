#!/bin/bash
# Plays each of the nine parts of a sound file into a WAV of its own: the eight voices and the echo. Or plays all of them into one WAV.
#
#     tools/stems.sh SNES LOOK SCENE WORD..
#     tools/stems.sh --help
#
# SNES, LOOK and SCENE are the programs snes_run, frame_look and scene_cart, the words are the user's. ./stems of the repository and the
# installed snes-stems (tools/package/run.sh) are calls of it; the text below is also their man page and their completions.
# A WAV gets its name when it is whole. What is unfinished is in a folder of its own in the user's folder, and is removed at the end.
help() {
  cat <<'TEXT'
Plays a sound file (.spc) into nine WAV files: voice0.wav to voice7.wav have a voice each, and echo.wav has the echo of all voices.
Prints a line for each file that it wrote: the name, and whether the file has sound or silence.

Usage: stems [OPTIONS] <TUNE> <FOLDER>

Arguments:
  <TUNE>    the sound file
  <FOLDER>  where the files are written; it is made if it is not there

Options:
      --mix           write one file, mix.wav, with all parts together, in place of the nine
      --seconds <N>   the length of each file, at most 600; without it, length and fade of the file's tags, or 120 seconds
      --fade <MS>     the last milliseconds, in which the sound fades out; without --seconds they are added to the length
      --table <FILE>  the interpolation table of the S-DSP; without it, the free table
      --quiet         print nothing on how far it is
  -h, --help          Print help

Statuses: 0 done, 2 the command line, a file or a device is at fault.
TEXT
}

fail() {
  [ -z "$shown" ] || printf '\r\033[K' >&2
  echo "stems: $*" >&2
  exit 2
}
misused() { fail "$* (--help says how it is called)"; }

# A number of at most so many digits, without zeros in front.
number() {
  [[ $2 =~ ^[0-9]{1,$3}$ ]] || misused "$1 needs a number of at most $3 digits, not '$2'"
  echo $((10#$2))
}

shown=
case ${1-} in -h | --help) help && exit ;; esac
[ $# -ge 3 ] || misused 'the programs are not named'
snes=$1 look=$2 scene=$3
shift 3
seconds= fade= table= quiet=no parts=(voice{0..7} echo) places=()
while [ $# -gt 0 ]; do
  case $1 in
    -h | --help) help && exit ;;
    --quiet) quiet=yes && shift && continue ;;
    --mix) parts=(mix) && shift && continue ;;
    --seconds | --fade | --table) [ $# -ge 2 ] || misused "$1 needs a value" ;;
    -?*) misused "there is no option '$1'" ;;
    *) places+=("$1") && shift && continue ;;
  esac
  case $1 in
    --seconds) seconds=$(number "$1" "$2" 3) || exit ;;
    --fade) fade=$(number "$1" "$2" 5) || exit ;;
    --table) table=$2 ;;
  esac
  shift 2
done
[ ${#places[@]} -eq 2 ] || misused 'it needs a sound file and a folder'
tune=${places[0]} folder=${places[1]}
# A name is a path, and no option.
case $tune in -*) tune=./$tune ;; esac
case $folder in -*) folder=./$folder ;; esac
case $table in -*) table=./$table ;; esac

tags=$("$look" tags "$tune") || exit 2
if [ -z "$seconds" ]; then
  length=$(sed -n 's/^length: //p' <<<"$tags")
  : "${fade:=$([ -z "$length" ] || sed -n 's/^fade: //p' <<<"$tags")}"
  : "${length:=120}" "${fade:=0}"
  milliseconds=$((1000 * length + fade))
else
  : "${fade:=0}"
  milliseconds=$((1000 * seconds))
fi
[ "$milliseconds" -le 600000 ] || fail "$((milliseconds / 1000)) seconds are too long: name --seconds, at most 600"
[ "$fade" -le 99999 ] || fail "a fade of $fade milliseconds is too long: name --fade, at most 99999"

mkdir -p "$folder" || fail "cannot make the folder $folder"
for name in "${parts[@]}"; do
  [ ! "$tune" -ef "$folder/$name.wav" ] && { [ -z "$table" ] || [ ! "$table" -ef "$folder/$name.wav" ]; } || fail "$folder/$name.wav is an input"
  [ ! -d "$folder/$name.wav" ] || fail "$folder/$name.wav is a folder"
done
work=$(mktemp -d "$folder/.stems.XXXXXX") || fail "cannot write in $folder"
trap 'rm -rf "$work"' EXIT
for signal in INT TERM HUP; do trap "exit $((128 + $(kill -l "$signal")))" "$signal"; done
# A write beyond a limit of file sizes is a fault that the programs tell.
trap '' XFSZ
if [ -z "$table" ]; then
  "$scene" "$work/files" >/dev/null || fail 'the free table was not written'
  table=$work/files/table.bin
fi
fades=()
[ "$fade" -eq 0 ] || fades=(--fade "$fade")
[ "$quiet" = yes ] || [ ! -t 2 ] || shown=yes
for name in "${parts[@]}"; do
  voices=(--voices "${name#voice}")
  [ "$name" != mix ] || voices=()
  [ -z "$shown" ] || printf '\r\033[Kstems: %s.wav, %d of %d' "$name" $((++count)) ${#parts[@]} >&2
  said=$("$snes" play --spc "$tune" --table "$table" --samples $((32 * milliseconds)) "${voices[@]}" "${fades[@]}" --audio "$work/raw") ||
    fail "$name.wav was not made: $said"
  "$look" wav "$work/raw" "$work/wav" || fail "$name.wav was not written"
  mv -fT "$work/wav" "$folder/$name.wav" || fail "$name.wav was not written"
  sound=sound
  ! cmp -s -n $((128 * milliseconds)) "$work/raw" /dev/zero || sound=silence
  [ -z "$shown" ] || printf '\r\033[K' >&2
  echo "$name.wav $sound" || fail 'cannot write to standard output'
done
