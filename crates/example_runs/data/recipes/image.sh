#!/bin/sh
# An image of a ROM set:  image.sh OUT.img SET..
# A SET is a folder, or a zip file, for which it needs unzip. It looks for one file a chip, by the end of its name: .l7,
# .mn7, .np7, .r7, .d1, .ef1, .h1, .j1, .kl1, .m1. For each chip the last SET that has it decides, so a split set is its
# parent and then itself. The status is 1 where a chip is absent, or is there twice, or has a wrong length; then OUT.img
# isn't written. docs/ROMS.md
set -eu
[ $# -ge 2 ] || { echo "usage: image.sh OUT.img SET.." >&2; exit 2; }
out=$1
shift
stop() { echo "image.sh: $*" >&2; exit 1; }
work=$(mktemp -d) || exit 2
trap 'rm -rf "$work"' EXIT
trap 'exit 1' INT TERM HUP
mkdir "$work/chips"
number=0
for set; do
    number=$((number + 1))
    if [ -d "$set" ]; then
        folder=$set
    else
        [ -f "$set" ] || stop "no folder and no file $set"
        command -v unzip > /dev/null || stop "no unzip on the path"
        folder=$work/$number
        unzip -qq -o "$set" -d "$folder" < /dev/null || stop "unzip doesn't take $set"
    fi
    found=
    for chip in l7 mn7 np7 r7 d1 ef1 h1 j1 kl1 m1; do
        find "$folder/." ! -name . -prune -type f -iname "*.$chip" > "$work/names"
        case $(($(wc -l < "$work/names"))) in
            0) continue ;;
            1) ;;
            *) echo "image.sh: $set has several files for $chip:" >&2; sed 's/^/    /' "$work/names" >&2; exit 1 ;;
        esac
        length=4096
        [ $chip != l7 ] || length=2048
        name=$(cat "$work/names")
        [ $(($(wc -c < "$name"))) -eq $length ] || stop "$name has $(($(wc -c < "$name"))) bytes, not $length"
        cp "$name" "$work/chips/$chip"
        found=1
    done
    [ "$found" ] || stop "$set has no file of this board"
done
for chip in l7 mn7 np7 r7 d1 ef1 h1 j1 kl1 m1; do
    [ -f "$work/chips/$chip" ] || stop "no file for $chip"
done
cd "$work/chips"
cat l7 mn7 np7 r7 d1 ef1 h1 j1 kl1 m1 m1 > "$work/image"
cd "$OLDPWD"
cat "$work/image" > "$out"
