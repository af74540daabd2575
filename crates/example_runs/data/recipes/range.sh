#!/bin/sh
# Prints the range of a picture and its height, as lines of gnuplot:  range.sh FRAMES [fit]
# It is the standard range (docs/BOARD.md), and with `fit` that of all pictures, with an edge. The status is 1
# where nothing is drawn.
set -eu
case $#,${2-fit} in 1,fit | 2,fit) ;; *) echo "usage: range.sh FRAMES [fit]" >&2; exit 2 ;; esac
awk -v fit="${2-}" '
    $1 == "F" && NF == 8 {
        if (!n++ || $5 < x0) x0 = $5
        if (n == 1 || $6 < y0) y0 = $6
        if (n == 1 || $7 > x1) x1 = $7
        if (n == 1 || $8 > y1) y1 = $8
    }
    END {
        if (!n) { print "range.sh: nothing is drawn" > "/dev/stderr"; exit 1 }
        if (!fit) {
            printf "high = 315\nset xrange [-9830400:9830400]\nset yrange [-7372800:7372800]\n"
            exit
        }
        print "high = 420"
        edge = (x1 - x0 + y1 - y0) / 50 + 1
        printf "set xrange [%d:%d]\nset yrange [%d:%d]\n", x0 - edge, x1 + edge, y0 - edge, y1 + edge
    }' < "$1"
