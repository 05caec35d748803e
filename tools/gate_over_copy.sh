# Runs the gate over a copy of some crates, for the scripts that build of what it proves: tools/run_built.sh and
# tools/build_library.sh. It is read by `source`, after tools/built_from.sh, with the copy's folder in $work and the log's
# name in $log. Descriptor 8 leads to `watch_over` by then.

# Tells each crate that is proved, of what the gate has printed since it was looked at last.
tell() {
  local line
  while IFS= read -r line <&7; do
    line=$part$line
    part=''
    if [[ $line =~ ^rt:\ ([a-z0-9_]+)\ (proved|is\ kept) ]]; then
      finished=$((finished + 1))
      say "proved $finished of $1: ${BASH_REMATCH[1]}"
    fi
  done
  part=$part$line
}

# Ends the gate, whose process group it is told, and removes the copy as soon as this script has ended, by whatever.
watch_over() {
  local group='' word
  trap '' INT TERM HUP QUIT
  while read -r word; do group=$word; done
  if [ "${group:-none}" != none ]; then
    kill -TERM -- "-$group" 2>/dev/null && sleep 1
    kill -KILL -- "-$group" 2>/dev/null
  fi
  rm -rf "$1"
}

# Runs the gate over a copy, in a process group of its own, and tells how far it is.
run_gate() {
  local gate finished=0 part=''
  : >"$log" && exec 7<"$log" || return 1
  set -m
  # rt is a program of Python, which else would hold its lines back.
  (cd "$work" && PYTHONUNBUFFERED=1 exec rt ci) </dev/null >>"$log" 2>&1 7<&- 8>&- 9>&- &
  gate=$!
  set +m
  echo "$gate" >&8
  while kill -0 "$gate" 2>/dev/null; do
    tell "$1"
    sleep 1
  done
  wait "$gate"
  local status=$?
  tell "$1"
  exec 7<&-
  echo none >&8
  return "$status"
}
