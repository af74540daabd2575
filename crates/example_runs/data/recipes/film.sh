#!/bin/sh
# A film of a run as an animated GIF, by gnuplot:  film.sh [--fit] FRAMES LOG OUT.gif [EVERY]
# It shows each 4th picture, or each EVERYth, for as long as the board takes for so many, in hundredths of
# a second, and begins again at its end. The range is the standard one (docs/BOARD.md), and with --fit that
# of all frames. It needs gnuplot with GIFs that move (Debian: gnuplot-nox).
set -eu
fit=
if [ "${1-}" = --fit ]; then fit=fit; shift; fi
case $#:${4-4} in
    *[!0-9]*:* | *:*[!0-9]* | *:0*) set -- ;;
    3:* | 4:*) ;;
    *) set -- ;;
esac
[ $# -gt 0 ] || { echo "usage: film.sh [--fit] FRAMES LOG OUT.gif [EVERY]" >&2; exit 2; }
command -v gnuplot > /dev/null || { echo "film.sh: no gnuplot on the path" >&2; exit 1; }
out=$3 every=${4:-4}
case $1 in /*) frames=$1 ;; *) frames=./$1 ;; esac
case $2 in /*) log=$2 ;; *) log=./$2 ;; esac
here=$(CDPATH= cd -- "$(dirname -- "$0")" && pwd)
work=$(mktemp -d) || exit 2
trap 'rm -rf "$work"' EXIT
trap 'exit 1' INT TERM HUP
sh "$here/range.sh" "$frames" $fit > "$work/range"
awk -v every="$every" -f "$here/blocks.awk" "$frames" "$log" > "$work/strokes"
delay=$(awk -v e="$every" '$1 == "F" { if ($2 == 1) a = $3; b = $3; n = $2 }
    END { printf "%d", (n > 1 ? e * (b - a) / (n - 1) / 15120 + 0.5 : 100) }' "$frames")
# gnuplot runs what stands between backticks in a name, so it is given no name from outside: it works in a
# folder of its own and writes to its output.
(cd "$work" && gnuplot > film) <<END
load "range"
set terminal gif animate delay $delay loop 0 size 420,high background rgb "black"
unset border; unset tics; unset key; set size ratio -1; set margins 0,0,0,0
rgb(c, i) = 17 * i * ((c & 4 ? 65536 : 0) + (c & 2 ? 256 : 0) + (c & 1))
stats "strokes" using 2 nooutput
do for [k = 1:STATS_blocks] {
    plot "strokes" index k - 1 using 3:4:(\$5-\$3):(\$6-\$4):(rgb(int(\$7), int(\$8))) with vectors nohead lw 2 lc rgb variable
}
END
cat "$work/film" > "$out"
