#!/bin/sh
# Draws strokes with gnuplot, in the standard range (docs/BOARD.md), or with --fit in that of all frames.
#   picture.sh [--fit] FRAMES LOG OUT.svg   all strokes of LOG, or those of one picture that frame.awk made
#   picture.sh [--fit] FRAMES LOG FOLDER    each picture as FOLDER/1.png, 2.png and so on
# Bits 2, 1 and 0 of a colour are red, green and blue. It needs gnuplot.
set -eu
fit=
if [ "${1-}" = --fit ]; then fit=fit; shift; fi
[ $# = 3 ] || { echo "usage: picture.sh [--fit] FRAMES LOG OUT.svg, or with a FOLDER" >&2; exit 2; }
command -v gnuplot > /dev/null || { echo "picture.sh: no gnuplot on the path" >&2; exit 1; }
out=$3
case $1 in /*) frames=$1 ;; *) frames=./$1 ;; esac
case $2 in /*) log=$2 ;; *) log=./$2 ;; esac
here=$(CDPATH= cd -- "$(dirname -- "$0")" && pwd)
work=$(mktemp -d) || exit 2
trap 'rm -rf "$work"' EXIT
trap 'exit 1' INT TERM HUP
sh "$here/range.sh" "$frames" $fit > "$work/range"
case $out in
    *.svg) grep '^S' "$log" > "$work/strokes" || { echo "picture.sh: no stroke in $log" >&2; exit 1; }; terminal=svg ;;
    *) awk -f "$here/blocks.awk" "$frames" "$log" > "$work/strokes"; terminal=png ;;
esac
# gnuplot runs what stands between backticks in a name, so it is given no name from outside: it works in a
# folder of its own.
(cd "$work" && gnuplot) <<END
load "range"
set terminal $terminal size 420,high background rgb "black"
unset border; unset tics; unset key; set size ratio -1; set margins 0,0,0,0
rgb(c, i) = 17 * i * ((c & 4 ? 65536 : 0) + (c & 2 ? 256 : 0) + (c & 1))
if ("$terminal" eq "svg") {
    set output "all.svg"
    plot "strokes" using 3:4:(\$5-\$3):(\$6-\$4):(rgb(int(\$7), int(\$8))) with vectors nohead lw 2 lc rgb variable
} else {
    stats "strokes" using 2 nooutput
    do for [k = 1:STATS_blocks] {
        set output sprintf("%d.png", k)
        plot "strokes" index k - 1 using 3:4:(\$5-\$3):(\$6-\$4):(rgb(int(\$7), int(\$8))) with vectors nohead lw 2 lc rgb variable
    }
}
END
if [ "$terminal" = svg ]; then
    cat "$work/all.svg" > "$out"
else
    mkdir -p -- "$out"
    case $out in /*) ;; *) out=./$out ;; esac
    mv "$work"/*.png "$out"
fi
