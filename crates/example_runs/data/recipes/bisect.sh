#!/bin/sh
# Where a run goes wrong, by halving:  bisect.sh IMAGE TAPE FROM TO COMMAND [WORD..]
# COMMAND gets its words and then the file of a saved board. Its status says whether the board is good (0) or wrong
# (1 to 124); any other ends the search. The board at FROM has to be good, and that at TO wrong. It prints the clock at
# which the last good board stands, and the instruction that is done next. Each try begins at the last good board.
set -eu
[ $# -ge 5 ] || { echo "usage: bisect.sh IMAGE TAPE FROM TO COMMAND [WORD..]" >&2; exit 2; }
command -v gravitar > /dev/null || { echo "bisect.sh: no gravitar on the path" >&2; exit 1; }
image=$1 tape=$2 from=$3 to=$4
shift 4
for clock in "$from" "$to"; do
    case $clock in '' | *[!0-9]* | 0?*) echo "bisect.sh: FROM and TO are clocks: $clock" >&2; exit 2 ;; esac
done
work=$(mktemp -d) || exit 2
trap 'rm -rf "$work"' EXIT
trap 'exit 1' INT TERM HUP
good() {
    code=0
    "$@" "$work/new" > "$work/said" 2>&1 || code=$?
    [ $code -lt 125 ] || { cat "$work/said" >&2; echo "bisect.sh: status $code of $1" >&2; exit 1; }
    return $code
}
gravitar run "$image" "$tape" --until "$from" --save "$work/new" > /dev/null
good "$@" || { echo "bisect.sh: the board at $from is wrong" >&2; exit 1; }
mv "$work/new" "$work/board"
gravitar run "$image" "$tape" --state "$work/board" --until "$to" --save "$work/new" > /dev/null
! good "$@" || { echo "bisect.sh: the board at $to is good" >&2; exit 1; }
while [ $(( to - from )) -gt 1 ]; do
    middle=$(( (from + to) / 2 ))
    gravitar run "$image" "$tape" --state "$work/board" --until $middle --save "$work/new" > /dev/null
    if good "$@"; then from=$middle; mv "$work/new" "$work/board"; else to=$middle; fi
done
gravitar show "$work/board" > "$work/text"
sed -n 1,2p "$work/text"
echo "dis $(sed -n 's/^cpu pc \(....\).*/\1/p' "$work/text") 1" > "$work/script"
gravitar debug "$image" "$tape" "$work/script" --state "$work/board"
