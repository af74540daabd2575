#!/bin/sh
# The sound of a log as a wav file, POKEY 1 at the left and POKEY 2 at the right:  stereo.sh LOG OUT.wav
# It needs sox. There are 44,100 samples a second, each with the levels at its moment.
set -eu
[ $# = 2 ] || { echo "usage: stereo.sh LOG OUT.wav" >&2; exit 2; }
command -v sox > /dev/null || { echo "stereo.sh: no sox on the path" >&2; exit 1; }
work=$(mktemp -d) || exit 2
trap 'rm -rf "$work"' EXIT
trap 'exit 1' INT TERM HUP
awk 'BEGIN { print "; Sample Rate 44100"; print "; Channels 2" }
    /^[ABEX]/ { while (n * 1512000 / 44100 < $2) { print n / 44100, a / 60, b / 60; n++ } }
    /^A/ { a = $3 + $4 + $5 + $6 }
    /^B/ { b = $3 + $4 + $5 + $6 }
    END { if (!n) { print "stereo.sh: no sound" > "/dev/stderr"; exit 1 } }' < "$1" > "$work/sound.dat"
sox "$work/sound.dat" -b 16 "$work/sound.wav" highpass 20 norm -3
cat "$work/sound.wav" > "$2"
