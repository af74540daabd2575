#!/bin/sh
# A film with sound as MP4:  movie.sh IMAGE TAPE OUT.mp4
# It needs gravitar, gnuplot, sox and ffmpeg. Each picture is shown from its own clock on, and the sound is that of
# stereo.sh: POKEY 1 at the left, POKEY 2 at the right.
set -eu
[ $# = 3 ] || { echo "usage: movie.sh IMAGE TAPE OUT.mp4" >&2; exit 2; }
for tool in gravitar gnuplot sox ffmpeg; do
    command -v $tool > /dev/null || { echo "movie.sh: no $tool on the path" >&2; exit 1; }
done
here=$(CDPATH= cd -- "$(dirname -- "$0")" && pwd)
work=$(mktemp -d) || exit 2
trap 'rm -rf "$work"' EXIT
trap 'exit 1' INT TERM HUP
gravitar run "$1" "$2" > "$work/log"
gravitar frames "$1" "$2" > "$work/frames"
sh "$here/picture.sh" "$work/frames" "$work/log" "$work/pictures"
sound= codec=
if grep -q '^[AB]' "$work/log"; then
    sh "$here/stereo.sh" "$work/log" "$work/sound.wav"
    sound="-i sound.wav" codec="-c:a aac -b:a 160k"
fi
# The pictures without a stroke have no file; the one before them stays.
awk 'function show(until) { printf "file pictures/%d.png\nduration %.6f\n", n, (until - at) / 1512000 }
    $1 == "F" && $2 > 0 && $4 > 0 { if (n) show($3); at = n++ ? $3 : 0 }
    $1 == "E" || $1 == "X" { if (n) { show($2); printf "file pictures/%d.png\n", n } }' "$work/frames" > "$work/list"
[ -s "$work/list" ] || { echo "movie.sh: nothing is drawn" >&2; exit 1; }
(cd "$work" && ffmpeg -loglevel error -nostdin -f concat -i list $sound -vf 'fps=60,pad=ceil(iw/2)*2:ceil(ih/2)*2,format=yuv420p' -c:v libx264 $codec out.mp4)
cat "$work/out.mp4" > "$3"
