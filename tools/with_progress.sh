# How a run is followed by a person: for ./snes, and for the installed `snes` (tools/package/run.sh). It is read by `source`.
#
# Where a person looks on, a run of more than two seconds says how many of its frames are done, in one line that is written
# again and again and is gone at the end. It is told by the length of the video file, so nothing is said of one that goes
# into a pipe. What is run is a child of this shell, which passes signals on to it and waits.

# Passes a signal on to what runs.
pass_on() {
  got=$1
  [ -z "$running" ] || kill -s "$1" "$running" 2>/dev/null
}

# Ends as what ran did: by the same signal, or with its status.
end() {
  local signal
  for signal in INT TERM HUP; do
    [ "$status" -ne $((128 + $(kill -l "$signal"))) ] || { trap - "$signal" && kill -s "$signal" $$; }
  done
  exit "$status"
}

# Runs a command until it has ended, and keeps its status. A shell without job control has a child ignore SIGINT and
# SIGQUIT, which is undone, and gives it no standard input, so that is named.
follow() {
  local signal known input=0
  running='' got=''
  for signal in INT TERM HUP QUIT; do trap "pass_on $signal" "$signal"; done
  { : <&0; } 2>/dev/null || input=-
  (
    trap : INT QUIT
    trap - INT QUIT
    trap '' XFSZ
    exec "$@" 3>&-
  ) <&$input &
  running=$!
  [ -z "$got" ] || kill -s "$got" "$running" 2>/dev/null
  # A signal ends the wait, and not what is waited for. What then ended by itself has its own status, if bash still
  # knows it: it answers 127 or -1 if not.
  wait "$running"
  status=$?
  while kill -0 "$running" 2>/dev/null; do wait "$running"; status=$?; done
  wait "$running"
  known=$?
  [ "$known" -lt 0 ] || [ "$known" -eq 127 ] || status=$known
  running=
}

# The value that an option has among the words.
value_of() {
  local option=$1
  shift
  while [ $# -gt 1 ]; do
    [ "$1" = "$option" ] && { printf '%s' "$2"; return; }
    shift
  done
}

# Says how far a run is, until it is ended or this shell is gone. Its naps are reads of a pipe that nothing is written
# to, so that no process is left of it.
say_progress() {
  local video=$1 frames=$2 began=${EPOCHREALTIME/[^0-9]/} now made nap
  trap - INT TERM HUP QUIT
  exec {nap}<> <(:)
  read -rt 2 -u "$nap"
  while [ -f "$video" ] && kill -0 $$ 2>/dev/null; do
    now=${EPOCHREALTIME/[^0-9]/}
    made=$(($(stat -L -c %s -- "$video" 2>/dev/null || echo 0) / 244736))
    printf '\r\033[Ksnes: %d of %d frames, %d a second' "$made" "$((10#$frames))" $((made * 1000000 / (now - began + 1))) >&2
    read -rt 0.5 -u "$nap"
  done
}

# Ends that, and leaves the line empty.
end_progress() {
  [ -n "$saying" ] || return
  kill "$saying" 2>/dev/null
  wait "$saying" 2>/dev/null
  printf '\r\033[K' >&2
}

# Runs the console's program, and ends as it does. $quiet says `yes` if nothing is said of how far it is.
run_with_progress() {
  local program=$1 frames line
  shift
  saying=
  frames=$(value_of --frames "$@")
  if [ "$quiet" = no ] && [[ ${1-} =~ ^(run|serial|lockless)$ && $frames =~ ^[0-9]{1,5}$ ]]; then
    say_progress "$(value_of --video "$@")" "$frames" &
    saying=$!
  fi
  if [ -n "$saying" ] && [ -t 1 ]; then
    # The line of the program comes where the line of the progress was: it waits in a pipe that this shell holds.
    exec 3<> <(:)
    follow "$program" "$@" >&3
    end_progress
    while IFS= read -rt 0.1 -u 3 line; do printf '%s\n' "$line"; done
  else
    follow "$program" "$@"
    end_progress
  fi
  end
}
