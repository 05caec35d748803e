#!/usr/bin/env bash
# Prints the lines of crates.txt of some crates and of all that they stand on, lowest first.
#
#     tools/lines_below.sh CRATE ..
top=$(cd "$(dirname "$(readlink -f "${BASH_SOURCE[0]}")")/.." && pwd) || exit 2
awk -v roots="$*" '
  !/^#/ && /:/ { split($0, part, ":"); split(part[1], head, " "); line[head[1]] = $0; stands[head[1]] = part[2] }
  function visit(crate, below, count, i) {
    if (crate in seen || !(crate in line)) return
    seen[crate] = 1
    count = split(stands[crate], below, " ")
    for (i = 1; i <= count; i++) visit(below[i])
    print line[crate]
  }
  END { count = split(roots, root, " "); for (i = 1; i <= count; i++) visit(root[i]) }' "$top/crates.txt"
