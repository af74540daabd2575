#!/bin/sh
# Which instruction first changes a field of the board, and when:  who.sh IMAGE TAPE LINE FIELD FROM TO
# LINE and FIELD are words of the text of a board, such as `pk1 audc`, `earom control` or `board out`. The
# field has to change between the clocks FROM and TO, and the status is 1 where it doesn't. Each pass asks
# `seek` for 500 boards and goes on between the two at which the field differs first. Where a device or the
# tape changes the field by itself, the instruction is the one under way.
set -eu
[ $# = 6 ] || { echo "usage: who.sh IMAGE TAPE LINE FIELD FROM TO" >&2; exit 2; }
command -v gravitar > /dev/null || { echo "who.sh: no gravitar on the path" >&2; exit 1; }
image=$1 tape=$2 line=$3 field=$4 from=$5 to=$6
for clock in "$from" "$to"; do
    case $clock in '' | *[!0-9]* | 0?*) echo "who.sh: FROM and TO are clocks: $clock" >&2; exit 2 ;; esac
done
work=$(mktemp -d) || exit 2
trap 'rm -rf "$work"' EXIT
trap 'exit 1' INT TERM HUP
found=
while [ $(( to - from )) -gt 1 ]; do
    clocks=$(awk -v a="$from" -v b="$to" 'BEGIN { s = int((b - a + 499) / 500)
        for (c = a; c < b; c += s) printf "%.0f,", c; printf "%.0f", b }')
    gravitar seek "$image" "$tape" "$clocks" > "$work/boards"
    found=$(awk -v l="$line" -v f="$field" '
        $1 == "clock" { before = clock; clock = $2 }
        $1 == l {
            value = ""
            for (i = 2; i < NF && $i != f; i++);
            for (i++; i <= NF && $i !~ /^[a-z]/; i++) value = value " " $i
            if (before != "" && value != last && !found++) print before, clock, last " ->" value
            last = value
        }' "$work/boards")
    [ "$found" ] || { echo "who.sh: $line $field doesn't change" >&2; exit 1; }
    from=${found%% *} to=${found#* } to=${to%% *}
done
[ "$found" ] || { echo "who.sh: TO isn't two clocks or more behind FROM" >&2; exit 2; }
gravitar seek "$image" "$tape" "$from" > "$work/board"
pc=$(sed -n 's/^cpu pc \(....\).*/\1/p' "$work/board")
echo "dis $pc 1" > "$work/script"
echo "clock $from: $line $field ${found#* * }"
gravitar debug "$image" "$tape" "$work/script"
