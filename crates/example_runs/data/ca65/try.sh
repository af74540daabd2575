#!/bin/sh
# Tries ca65, ld65 and cl65 of cc65 with the files of this folder:  try.sh
# The box of box.s and box.v by `gravitar asm`, and that of box65.s by ca65 and ld65, have to be the same image, byte for
# byte; each of the generator's words by avg.inc has to be that of `gravitar asm`; star.c has to draw its star.
# It needs gravitar, ca65, ld65 and cl65 (Debian: cc65). The last line is `N passed, M failed`; the status is 1 where
# something differs, and 2 where nothing was tried.
set -eu
[ $# = 0 ] || { echo "usage: try.sh" >&2; exit 2; }
here=$(CDPATH= cd -- "$(dirname -- "$0")" && pwd)
for tool in awk ca65 cl65 cmp gravitar ld65; do
    command -v $tool >/dev/null || { echo "try.sh: no $tool on the path" >&2; exit 2; }
done
work=$(mktemp -d) || exit 2
trap 'rm -rf "$work"' EXIT
trap 'exit 1' INT TERM HUP
cp "$here"/* "$work"
cd "$work"
passed=0 failed=0
# NAME COMMAND..
has() {
    name=$1
    shift
    if "$@" >said 2>&1; then passed=$((passed + 1)); else failed=$((failed + 1)); echo "failed $name"; cat said; fi
}
refused() {
    name=$1
    shift
    if "$@" >said 2>&1; then failed=$((failed + 1)); echo "failed $name: not refused"; else passed=$((passed + 1)); fi
}

has "box.s" sh -c 'gravitar asm box.s box.v box.img >box.listing'
has "box65.s" ca65 -g -o box.o box65.s
has "its image" ld65 -C gravitar.cfg -Ln box.labels -o box65.img box.o
has "the same image" cmp box.img box65.img
has "its names" sh -c 'awk -f "$1/../recipes/labels.awk" box.labels >names' sh "$here"
has "irq is 9018" grep -x '9018 irq' names
has "the names of the listing" sh -c 'awk -f "$1/../recipes/labels.awk" box.s box.v box.listing >ours' sh "$here"
has "irq is 9018 there too" grep -x '9018 irq' ours
has "line is 2826" grep -x '2826 line' ours
printf 'break right\ngo\nregs\ndis right 2\n' >script
has "the names in a script" sh -c 'sh "$1/../recipes/debug.sh" box.img box.tape script names >said.names' sh "$here"
has "right is where it stops" grep 'stop break 9033 at [0-9]*  right' said.names
has "in3 is a name of the listing" sh -c 'sh "$1/../recipes/debug.sh" box.img box.tape script ours | grep "^9033: .* -> in3$"' sh "$here"

# All words of the generator, with the ends of their ranges.
cat >words <<'WORDS'
vctr -4096, 4095, 7
vctr 4095, -4096, 0
vctr 1, -1, 1
svec -32, 30, 7
svec 30, -32, 0
svec 2, -2, 1
svec 0, 0, 3
stat 0, 0
stat 7, 15
scal 0, 0
scal 7, 255
cntr
halt
rtsl
jsrl $2000
jsrl $5FFE
jmpl $2800
jmpl $3456
WORDS
{ echo '        .org $2800'; sed 's/^/        /' words; } >words.v
{ printf '        .include "avg.inc"\n        .segment "PICTURES"\n'; sed 's/^/        /' words; printf '        .segment "VECTORS"\n        .res 6\n'; } >words.s
: >none.s
has "the words by gravitar" sh -c 'gravitar asm none.s words.v words.img >listing'
has "the words by avg.inc" sh -c 'ca65 -o words.o words.s && ld65 -C gravitar.cfg -o words65.img words.o'
has "the same words" cmp words.img words65.img
for word in 'vctr 4096, 0, 0' 'vctr 0, -4097, 0' 'vctr 0, 0, 8' 'svec 1, 0, 1' 'svec 0, 32, 1' 'svec 0, 0, 8' 'stat 8, 0' \
    'stat 0, 16' 'scal 8, 0' 'scal 0, 256' 'jsrl $2801' 'jsrl $6000' 'jmpl $1FFE'; do
    { echo '        .org $2800'; echo "        $word"; } >bad.v
    { printf '        .include "avg.inc"\n        .segment "PICTURES"\n        %s\n        .segment "VECTORS"\n        .res 6\n' "$word"; } >bad.s
    refused "$word by gravitar" gravitar asm none.s bad.v bad.img
    refused "$word by avg.inc" sh -c 'ca65 -o bad.o bad.s && ld65 -C gravitar.cfg -o bad.img bad.o'
done

has "star.c" cl65 -t none -C gravitar-c.cfg -Ln star.labels -o star.img crt0.s star.c
has "43,008 bytes" test "$(($(wc -c <star.img)))" -eq 43008
has "a run of it" sh -c 'gravitar run star.img box.tape >log && gravitar frames star.img box.tape >frames'
has "no reset, and the end" awk '$1 == "W" || $1 == "X" { exit 1 } END { exit $1 != "E" }' log
# A star of eight rays: each picture has as much to the left as to the right, and the last one isn't the first.
has "each picture is a star" awk '
    $1 == "F" && $2 > 0 { if ($4 != 8 || $5 != -$7 || $6 != -$8) { print; exit 1 } n++; last = $5 " " $6; if (n == 1) first = last }
    END { exit !(n > 50 && first != last) }' frames
has "the names of C" sh -c 'awk -f "$1/../recipes/labels.awk" star.labels >star.names && grep "^9[0-9A-F]* _main$" star.names' sh "$here"
echo "$passed passed, $failed failed"
[ $failed -eq 0 ]
