#!/bin/sh
# Tries the font and the two games with it, Seven and Rubble:  try.sh [--bot]
# It assembles them, does the tape of a whole play, and compares its log with the stored checksum, and the cells of the
# EAROM with the score that was played. With --bot it also plays again by bot.py, half a minute, and compares the tape.
# It needs gravitar and sha256sum on the path, and for --bot python3. The last line is `N passed, M failed`; the status
# is 1 where something differs, and 2 where nothing was tried.
set -eu
case $#:${1-} in 0:) ;; 1:--bot) ;; *) echo "usage: try.sh [--bot]" >&2; exit 2 ;; esac
here=$(CDPATH= cd -- "$(dirname -- "$0")" && pwd)
for tool in awk cmp gravitar od sha256sum; do
    command -v $tool >/dev/null || { echo "try.sh: no $tool on the path" >&2; exit 2; }
done
work=$(mktemp -d) || exit 2
trap 'rm -rf "$work"' EXIT
trap 'exit 1' INT TERM HUP
cd "$work"
passed=0 failed=0
# NAME COMMAND..
has() {
    name=$1
    shift
    if "$@" >said 2>&1; then passed=$((passed + 1)); else failed=$((failed + 1)); echo "failed $name"; cat said; fi
}
digits() { od -An -v -tx1 -N "$2" "$1" | tr -d ' \n'; }

# The font alone: each sign begins at its place and leaves the beam 18 units to the right.
: >none.s
has "the font" sh -c 'gravitar asm none.s "$1" font.img >font.listing' sh "$here/../font/font.v"
has "56 signs" test "$(grep -c ': 00 C0$' font.listing)" -eq 56
has "each ends 18 units to the right" awk '
    FNR == 1 { file++ }
    $1 == ".org" { x = y = 0 }
    $1 == "svec" { x += $2; y += $3 }
    $1 == "rtsl" { signs++; if (x != 18 || y != 0) { print "line " FNR ": " x ", " y; exit 1 } }
    END { exit signs != 56 }' "$here/../font/font.v"
sed '/^; vim/,$d' "$here/../font/font.v" >font
has "the game's font is the font" sh -c 'head -c "$(wc -c <font)" "$1" | cmp - font' sh "$here/rubble.v"

has "Seven" sh -c 'cat "$1/font/font.v" "$1/seven/pictures.v" >seven.v && gravitar asm "$1/seven/seven.s" seven.v seven.img >seven.listing' sh "$here/.."
has "its play" sh -c 'gravitar run seven.img "$1" --save seven.board >seven.log' sh "$here/../seven/seven.tape"
has "its log" test "$(sha256sum <seven.log | cut -d' ' -f1)" = "$(cat "$here/../seven/seven.log.sha256")"
has "a miss and two points" test "$(sh "$here/../recipes/byte.sh" seven.board 0013)" = 02

has "the game" sh -c 'gravitar asm "$1/rubble.s" "$1/rubble.v" rubble.img >rubble.listing' sh "$here"
head -c 64 /dev/zero | tr '\0' '\377' >cells
has "a play" sh -c 'gravitar run rubble.img "$1" --earom cells --save board >log' sh "$here/rubble.tape"
has "its log" test "$(sha256sum <log | cut -d' ' -f1)" = "$(cat "$here/rubble.log.sha256")"
cut -c1 log | sort | uniq -c >kinds
has "strokes, both POKEYs and the latch" awk '{ n[$2] = $1 } END { exit !(n["S"] && n["A"] && n["B"] && n["L"] && n["E"] && !n["W"] && !n["X"]) }' kinds
# The high score is three bytes from 002C on, and the cells are the same with a check behind them.
dd if=board of=high bs=1 skip=$((260 + 0x2C)) count=4 2>dd.said
has "the best score is in the EAROM" test "$(digits cells 4)" = "$(digits high 4)"
has "it isn't 0" test "$(digits cells 3)" != 000000
# A new board with these cells shows it from the beginning.
printf '3000000 END\n' >short
has "another run" sh -c 'gravitar run rubble.img short --earom cells --save second >second.log'
dd if=second of=again bs=1 skip=$((260 + 0x2C)) count=4 2>dd.said
has "the best score stays" cmp high again
# No picture is cut short: each takes four interrupts.
has "pictures" sh -c 'gravitar frames rubble.img "$1" >frames' sh "$here/rubble.tape"
has "a picture at each fourth interrupt" awk '$1 == "F" && $2 > 1 { if ($3 - at > 24700) { print; bad = 1 } } { at = $3 } END { exit bad }' frames
if [ "${1-}" = --bot ]; then
    has "the bot" sh -c 'python3 "$1/bot.py" gravitar rubble.img 70 >tape' sh "$here"
    has "the bot's tape" cmp tape "$here/rubble.tape"
fi
echo "$passed passed, $failed failed"
[ $failed -eq 0 ]
