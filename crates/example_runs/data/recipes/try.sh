#!/bin/sh
# Tries every recipe over the ship, in a folder of its own, and prints what each made:  try.sh
# It needs gravitar, gnuplot and sox on the path; without ffmpeg it leaves out the film with sound, and without zip and
# unzip a zip file. The last line is `N passed, M failed`; the status is 1 where a recipe fails or one that has to fail
# doesn't, and 2 where nothing was tried.
set -eu
here=$(CDPATH= cd -- "$(dirname -- "$0")" && pwd)
ship=$here/../ship
for tool in awk cmp gnuplot gravitar sox; do
    command -v $tool >/dev/null || { echo "try.sh: no $tool on the path" >&2; exit 2; }
done
work=$(mktemp -d) || exit 2
trap 'rm -rf "$work"' EXIT
trap 'exit 1' INT TERM HUP
cd "$work"
passed=0 failed=0 said=$work/said

pass() { passed=$((passed + 1)); }
fail() { failed=$((failed + 1)); echo "failed: $*"; cat "$said" 2>/dev/null || true; }
# Does a recipe, which has to make a file of some bytes.
makes() {
    made=$1
    shift
    if "$@" >"$said" 2>&1 && [ -s "$made" ]; then
        pass
        echo "$made: $(($(wc -c <"$made"))) bytes"
    else
        fail "$*"
    fi
}
# The same for a recipe that writes to its output.
writes() {
    made=$1
    shift
    if "$@" >"$made" 2>"$said" && [ -s "$made" ]; then
        pass
        echo "$made: $(($(wc -c <"$made"))) bytes"
    else
        fail "$*"
    fi
}
# A recipe that has to fail, with a word on why, which stays in the file `why`.
refused() {
    if "$@" >"$said" 2>&1 || [ ! -s "$said" ]; then fail "not refused, or without a word: $*"; else pass; fi
    cp "$said" why
}
differ() { if cmp -s "$1" "$2"; then fail "$1 and $2 are the same"; else pass; fi; }
has() { if "$@" >"$said" 2>&1; then pass; else fail "$*"; fi; }

writes ship.tape awk -f "$here/keys.awk" "$ship/ship.keys"
has cmp ship.tape "$ship/ship.tape"
writes ship.listing gravitar asm "$ship/ship.s" "$ship/ship.v" ship.img
writes ship.log gravitar run ship.img ship.tape
writes ship.frames gravitar frames ship.img ship.tape
writes ship.profile gravitar profile ship.img ship.tape
writes one.log awk -v k=60 -f "$here/frame.awk" ship.frames ship.log
writes one.svg awk -f "$here/svg.awk" ship.frames one.log
writes fit.svg awk -v fit=1 -f "$here/svg.awk" ship.frames one.log
has grep -q 'viewBox="-9830400 -7372800 19660800 14745600"' one.svg
differ one.svg fit.svg
writes film.svg awk -v every=4 -f "$here/film.awk" ship.frames ship.log
makes gnuplot.svg sh "$here/picture.sh" ship.frames one.log gnuplot.svg
makes fitted.svg sh "$here/picture.sh" --fit ship.frames one.log fitted.svg
differ gnuplot.svg fitted.svg
makes pictures/554.png sh "$here/picture.sh" ship.frames ship.log pictures
has test -s pictures/1.png
makes ship.gif sh "$here/film.sh" ship.frames ship.log ship.gif 40
makes fitted.gif sh "$here/film.sh" --fit ship.frames ship.log fitted.gif 40
makes ship.wav sh "$here/wav.sh" ship.img ship.tape ship.wav
makes stereo.wav sh "$here/stereo.sh" ship.log stereo.wav
writes ship.trace sh "$here/trace.sh" ship.img ship.tape 325630 40
has test "$(wc -l <ship.trace)" -eq 40
writes named.trace awk -f "$here/names.awk" "$ship/ship.s" ship.listing ship.trace
has grep '^thrust:$' named.trace
writes named.profile awk -f "$here/names.awk" "$ship/ship.s" ship.listing ship.profile
has grep ' thrust$' named.profile
writes who sh "$here/who.sh" ship.img ship.tape pk1 audc 300000 400000
has grep 'sta \$6001$' who
writes longest.trace sh "$here/trace.sh" ship.img ship.tape 325630 2500

# Names in a script and in what the debugger prints, from the listing of both sources.
writes ship.names awk -f "$here/labels.awk" "$ship/ship.s" "$ship/ship.v" ship.listing
has grep -x '9037 turn' ship.names
has grep -x '0011 heading' ship.names
printf 'al 009037 .turn\nal 000011 .heading\nal 008000 .in3\n' >ship.labels
writes label.names awk -f "$here/labels.awk" ship.labels
has grep -x '9037 turn' label.names
printf 'break turn\ngo\nregs\nclear\nwatch heading\nmem list 4\nmem place+1 2\ndis turn 2\nmem list-1 2\nvdis 2800 1\ngo\n' >script
writes plain awk -f "$here/script.awk" ship.names script
has grep -x 'mem 0021 2' plain
writes named.text sh "$here/debug.sh" ship.img ship.tape script ship.names
has grep -x 'stop break 9037 at [0-9]*  turn' named.text
has grep '^cpu pc 9037 .*  turn$' named.text
has grep -x 'stop watch 0011 at [0-9]*  heading' named.text
has grep '^9039: .*  -> in3$' named.text
writes other.trace awk -f "$here/names.awk" ship.names ship.trace
has grep '^thrust:$' other.trace
printf 'break nowhere\n' >bad.script
refused awk -f "$here/script.awk" ship.names bad.script
refused sh "$here/debug.sh" ship.img ship.tape bad.script ship.names
refused awk -f "$here/labels.awk" /dev/null

# Where a run goes wrong: the heading is no longer 0.
printf '#!/bin/sh\n[ "$(sh "$1/byte.sh" "$2" 0011)" = 00 ]\n' >upright
chmod +x upright
writes wrong sh "$here/bisect.sh" ship.img ship.tape 1000000 2000000 ./upright "$here"
has grep 'inc \$11$' wrong
has grep "$(($(sed -n 's/^stop watch 0011 at //; s/  heading//p' named.text) - 5))" wrong
refused sh "$here/bisect.sh" ship.img ship.tape 1000000 1100000 ./upright "$here"
refused sh "$here/bisect.sh" ship.img ship.tape 2000000 3000000 ./upright "$here"
refused sh "$here/bisect.sh" ship.img ship.tape 1000000 2000000 sh -c 'exit 125'
refused sh "$here/byte.sh" ship.img 9000

# The bytes of a text, which have to be those of the game's.
printf 'over1: GAME OVER\n' >text
writes text.s awk -f "$here/text.awk" text
has grep '^        .byte 16, 10, 22, 14, 36, 24, 31, 14, 27, 255$' "$here/../rubble/rubble.s"
has grep '^over1: *.byte 16, 10, 22, 14, 36, 24, 31, 14, 27, 255 ' text.s
printf 'low: game\n' >bad.text
refused awk -f "$here/text.awk" bad.text

# An image of a ROM set: a folder, a zip file, a set in two parts, and what is no set.
mkdir set clone
at=0
for chip in l7 mn7 np7 r7 d1 ef1 h1 j1 kl1; do
    length=4096
    [ $chip != l7 ] || length=2048
    dd if=ship.img of=set/a.$chip bs=1 skip=$at count=$length 2>said.dd
    at=$((at + length))
done
tail -c 4096 ship.img >set/a.m1
{ head -c 34816 ship.img; tail -c 4096 ship.img; tail -c 4096 ship.img; } >twice.img
makes set.img sh "$here/image.sh" set.img set
has cmp set.img twice.img
if command -v zip >/dev/null && command -v unzip >/dev/null; then
    (cd set && zip -q ../set.zip *)
    makes zipped.img sh "$here/image.sh" zipped.img set.zip
    has cmp zipped.img twice.img
fi
mv set/a.d1 clone/B.D1
refused sh "$here/image.sh" x.img set
makes split.img sh "$here/image.sh" split.img set clone
has cmp split.img twice.img
cp clone/B.D1 set/b.kl1
refused sh "$here/image.sh" x.img set clone
mv set/b.kl1 set/a.kl1
head -c 4095 set/a.m1 >short
mv short set/a.m1
refused sh "$here/image.sh" x.img set clone
refused sh "$here/image.sh" x.img nowhere
has test ! -e x.img

if command -v ffmpeg >/dev/null; then
    makes ship.mp4 sh "$here/movie.sh" ship.img ship.tape ship.mp4
    has sh -c 'ffmpeg -nostdin -v error -i ship.mp4 -f null -'
    makes square.mp4 sh -c 'gravitar asm "$2/square.s" "$2/square.v" square.img && sh "$1/movie.sh" square.img "$2/square.tape" square.mp4' sh "$here" "$here/../square"
else
    echo "skipped movie.sh: no ffmpeg"
fi

# Names that a shell, awk or gnuplot would take as something else.
name=$(printf "it's=\140touch ran\140 \$(touch ran)\na")
cp ship.frames "$name.frames"
cp one.log "$name.log"
makes "$name.svg" sh "$here/picture.sh" "$name.frames" "$name.log" "$name.svg"
makes "$name.gif" sh "$here/film.sh" "$name.frames" "$name.log" "$name.gif"
makes "$name.png/1.png" sh "$here/picture.sh" "$name.frames" "$name.log" "$name.png"
makes "$name.wav" sh "$here/stereo.sh" ship.log "$name.wav"
has test ! -e ran

printf '1 left\n' >bad.keys
refused awk -f "$here/keys.awk" bad.keys
refused awk -v k=9999 -f "$here/frame.awk" ship.frames ship.log
refused awk -f "$here/svg.awk" /dev/null ship.log
refused awk -f "$here/film.awk" /dev/null ship.log
refused sh "$here/picture.sh" /dev/null ship.log x.svg
refused sh "$here/film.sh" /dev/null ship.log x.gif
refused sh "$here/film.sh" ship.frames ship.log x.gif 0
refused sh "$here/wav.sh" none.img ship.tape x.wav
refused sh "$here/stereo.sh" /dev/null x.wav
refused sh "$here/trace.sh" none.img ship.tape 0 10
refused sh "$here/trace.sh" ship.img ship.tape 0 2501
refused sh "$here/who.sh" ship.img ship.tape pk1 audf 300000 400000
for recipe in bisect byte debug film image movie picture range stereo trace wav who; do
    refused sh "$here/$recipe.sh"
    has grep '^usage: ' why
done
# A path on which nothing is but what a shell script needs anyway.
mkdir bare
for tool in awk cat dirname grep mktemp rm sed sh; do ln -s "$(command -v $tool)" bare; done
for recipe in "trace.sh ship.img ship.tape 0 10" "who.sh ship.img ship.tape pk1 audc 300000 400000" "wav.sh ship.img ship.tape x.wav"; do
    refused env PATH="$work/bare" sh "$here/"$recipe
    has grep 'no gravitar on the path' why
done
has test ! -e x.svg -a ! -e x.gif -a ! -e x.wav
echo "$passed passed, $failed failed"
[ $failed -eq 0 ]
