#!/bin/sh
# The sound of a run as a wav file, one channel:  wav.sh IMAGE TAPE OUT.wav
# It needs gravitar and sox. The high-pass takes away the mean level; `norm` makes the sound as loud as it can be.
set -eu
[ $# = 3 ] || { echo "usage: wav.sh IMAGE TAPE OUT.wav" >&2; exit 2; }
for tool in gravitar sox; do
    command -v $tool > /dev/null || { echo "wav.sh: no $tool on the path" >&2; exit 1; }
done
work=$(mktemp -d) || exit 2
trap 'rm -rf "$work"' EXIT
trap 'exit 1' INT TERM HUP
gravitar pcm "$1" "$2" 34 > "$work/pcm"
sox -t raw -e signed-integer -b 32 -L -r 44471 -c 1 "$work/pcm" -b 16 "$work/sound.wav" highpass 20 norm -3
cat "$work/sound.wav" > "$3"
