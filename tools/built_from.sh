# What a built program was built from, for the scripts that build one: tools/run_built.sh, tools/run_unproved.sh and
# tools/package.sh. It is read by `source`, with the repository's folder in $top and the name for messages in $tool.

say() { echo "$tool: $*" >&2; }

give_up() {
  say "$*"
  exit 70
}

# The version that the sources have, as 1.1.
version_of_tree() { sed -n 's/^const VERSION: &str = "snes \([0-9.]*\)\\n";$/\1/p' "$top/crates/run_io/src/help.rt"; }

# The commit of the sources, and whether they differ from it. An unpacked archive has none.
commit_of_tree() {
  local commit=
  [ ! -e "$top/.git" ] || commit=$(git -C "$top" rev-parse HEAD 2>/dev/null)
  [ -z "$commit" ] || [ -z "$(git -C "$top" status --porcelain --untracked-files=no 2>/dev/null)" ] || commit="$commit, with changes"
  echo "${commit:-not known}"
}

# What --version of a tool says behind its first line: the commit, whether the program is proved, and the toolchain on the path.
tell_sources() {
  echo "commit $(commit_of_tree)"
  echo "$1"
  { command -v rt >/dev/null && rt version; } || echo 'rt is not on the path'
}

# Whether the program of a crate is proved, as --version says it. It builds nothing.
proof_of() {
  if is_built "$1"; then
    echo 'proved: built by CI of the sources as they are'
  elif [ -x "$top/crates/$1/out/$1" ]; then
    echo 'proved, but of other sources: the next call proves and builds it again'
  else
    echo 'not built: the first call proves and builds it'
  fi
}

# The folders of the crates of such lines of crates.txt, from the top of the repository.
folders_of() { sed 's/[ :].*//; s,^,crates/,'; }

# Finds the sources of the crates of such lines in the current folder, as `find` is told.
find_sources() {
  local folders
  mapfile -t folders < <(folders_of <<<"$1")
  shift
  find "${folders[@]}" -name out -prune -o \( -path '*/src/*.rt' -o -path '*/specs/*.antt' \) "$@"
}

# The checksum of a text.
sum() { sha256sum | cut -c 1-64; }

# The checksum of the sources of the crates of such lines, in a tree.
sum_of_sources() { (cd "$1" && { echo "$2" && find_sources "$2" -print0 | LC_ALL=C sort -z | xargs -0 sha256sum; } | sum); }

# Keeps what a program was built from, beside it: the checksum of its sources, and its own.
keep_sums() { { echo "$2 $(sum <"$1")" >"$1.sums.new" && mv "$1.sums.new" "$1.sums"; } 2>/dev/null; }

# Whether a program is the one whose sums are kept. It leaves the kept checksum of its sources in $kept_sources.
has_kept_sums() {
  local kept_program=''
  kept_sources=''
  [ ! -r "$1.sums" ] || read -r kept_sources kept_program <"$1.sums"
  [ "$(sum <"$1")" = "$kept_program" ]
}

# Whether the proved program of a crate stands and was built from the sources as they are.
is_built() {
  local made=$top/crates/$1/out/$1 lines sources kept_sources
  [ -f "$made" ] && [ -x "$made" ] || return 1
  lines=$("$top/tools/lines_below.sh" "$1")
  sources=$(sum_of_sources "$top" "$lines")
  if has_kept_sums "$made"; then
    [ "$sources" = "$kept_sources" ]
    return
  fi
  # The gate has built it, or `rt run`.
  [ -z "$(cd "$top" && find_sources "$lines" -newer "$made" -print -quit)" ] || return 1
  keep_sums "$made" "$sources"
  return 0
}

# Whether the proved library stands and was built from the sources as they are (tools/build_library.sh).
is_library_built() {
  local made=$top/crates/snes_library/out/libsnes_library.a kept_sources
  [ -f "$made" ] && has_kept_sums "$made" && [ "$kept_sources" = "$(sum_of_sources "$top" "$("$top/tools/lines_below.sh" snes_library)")" ]
}

# Copies crates and those below them to a folder, without what was made of them and without their must-fail edits.
copy_sources() {
  local work=$1 folders
  shift
  "$top/tools/lines_below.sh" "$@" >"$work/crates.txt" && cp "$top/HANDLES" "$work" || return 1
  mapfile -t folders < <(folders_of <"$work/crates.txt")
  tar -C "$top" --exclude=out --exclude=must-fail -cf - "${folders[@]}" | tar -C "$work" -xf -
}

# Waits until this call alone builds: it holds a lock on descriptor 9 from then on.
hold_lock() {
  exec 9>"$1"
  if command -v flock >/dev/null && ! flock -n 9; then
    say "another call is building it"
    until flock -w 1 9; do :; done
  fi
}
