#!/usr/bin/env bash
# Plants one fault of each kind in a copy of the committed pages, and runs check_pages.sh there, which has to name each.
#
#     tools/evidence/try_check_pages.sh
#
# Each fault is a command, the file that the complaint has to begin with, and a word that it has to have. Without a fault the check
# has to find nothing. It takes no proof and some seconds. The status is 1 if a fault is not named, or something else is.
top=$(cd "$(dirname "${BASH_SOURCE[0]}")/../.." && pwd) || exit 2
work=$(mktemp -d) || exit 2
trap 'rm -rf "$work"' EXIT
git clone -q "$top" "$work/snes" && cd "$work/snes" || exit 2
tried=0 bad=0

# Plants a fault by the command, and wants one complaint that begins with the file and has the word.
fault() {
  local command=$1 file=$2 word=$3 said status
  tried=$((tried + 1))
  eval "$command" || { echo "the fault can't be planted: $command"; bad=$((bad + 1)); return; }
  said=$(tools/gate/check_pages.sh)
  status=$?
  if [ "$status" = 1 ] && [ "$(wc -l <<<"$said")" = 2 ] && [[ $(head -n 1 <<<"$said") == "$file"*"$word"* ]]; then
    echo "named: $(head -n 1 <<<"$said")"
  else
    bad=$((bad + 1))
    echo "not as it should be (status $status): $command"
    echo "$said"
  fi
  git checkout -q . && git clean -qfd
}

tools/gate/check_pages.sh >"$work/without" || { cat "$work/without"; exit 1; }
md=md # the names of pages below are none, so they are not written out in this script
fault "sed -i 's/use.TRACE.$md)/use\/TRACES.$md)/' CHANGELOG.md" CHANGELOG.md "dead link: there is no docs/use/TRACES.$md"
fault "echo 'See [there](docs/use/TRACE.$md#no-such-heading).' >>CONTRIBUTING.md" CONTRIBUTING.md "has no heading #no-such-heading"
fault "echo '# Alone' >docs/use/ALONE.$md" "docs/use/ALONE.$md" "no way of links leads to it"
fault "cp docs/scene.png docs/alone.png" docs/alone.png "no way of links leads to it"
fault "echo '// docs/use/GONE.$md has the rules.' >>crates/beam/src/lib.rt" crates/beam/src/lib.rt "names docs/use/GONE.$md"
fault "echo '# docs/use/GONE.$md has the rules.' >>tools/evidence/soak.sh" tools/evidence/soak.sh "names docs/use/GONE.$md"
fault "echo 'What \`GONE.$md\` says.' >>docs/use/TRACE.md" docs/use/TRACE.md "names GONE.$md"
index=docs/machine/INDEX.md
fault "sed -i '/^| 2100 INIDISP /s/.display_written./\`display_wrote\`/' $index" $index "crates/ppu_regs/specs/Pages.antt has no display_wrote"
fault "sed -i 's/.write_mosaic. |/\`wrote_mosaic\` |/' $index" $index "crates/ppu_regs/src/pages.rt has no wrote_mosaic"
fault "sed -i '/^| 2122 CGDATA /s/.write_byte./\`read_byte\`/' $index" $index "cgram_written and read_byte have no stem in common"
fault "sed -i 's/^| 2106 MOSAIC | .PPU.(PPU.$md#written-registers)/| 2106 MOSAIC | [PPU](PPU.$md#tiles)/' $index" $index "PPU.$md has no 2106 in a table below #tiles"
fault "sed -i '/^| 2106 MOSAIC /d' $index" docs/machine/PPU.md "has the register 2106, which the index lacks"
fault "sed -i 's/^| mosaic | .*/| mosaic | see mode 7 |/' $index" $index "is no line of an entry"
fault "sed -i 's/^| mosaic | .PPU.(PPU.$md#mosaic)/| mosaic | [PPU](PPU.$md#tiles)/' $index" $index "PPU.$md has no mosaic below #tiles"
echo "$tried faults of the pages, $bad not named"
[ "$bad" = 0 ]
