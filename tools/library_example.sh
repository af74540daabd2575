#!/bin/sh
# Makes small_board, the board of docs/OWNBOARD.md, in a fresh folder, from the page's blocks
# alone, proves it, and runs it.
#   library_example.sh FOLDER [FLAG..]
# FOLDER isn't there yet, or is empty. rt check and rt run get the flags, as --jobs 1.
# A line that is a path in backticks and a colon says which file the block after it is. All files
# but crates.txt are in the folder of its last crate. The crates before that one are copied from
# this repository, whose crates.txt has to have the same lines. The output of the program has to be
# the file stdout of the page. It needs awk and rt of the Rattle kit.
# The last line is `N passed, M failed`, of the files, the proof and the output. The status is 1
# where one failed, and 2 where nothing was tried.
set -eu
stop() { printf 'library_example.sh: %s\n' "$1" >&2; exit 2; }
[ $# != 0 ] || { sed -n 's/^# *//; 4p' "$0" >&2; exit 2; }
case $1 in -* | '') stop "no folder $1" ;; esac
for tool in awk cut diff grep rt sed; do
    command -v "$tool" >/dev/null || stop "no $tool on the path"
done
top=$(CDPATH= cd -- "$(dirname -- "$0")/.." && pwd -P)
[ ! -e "$1" ] || [ -z "$(ls -A -- "$1")" ] || stop "$1 isn't empty"
mkdir -p -- "$1" || exit 2
folder=$(CDPATH= cd -- "$1" && pwd -P)
shift
work=$(mktemp -d) || exit 2
trap 'rm -rf "$work"' EXIT
trap 'exit 1' INT TERM HUP
passed=0

# The lines of the page's files: the path of each, a tab, and the line.
awk '
    /^`[A-Za-z0-9_.\/]+`:$/ {
        path = substr($0, 2, length($0) - 3)
        blank = 0
        begun = 0
        next
    }
    path == "" { next }
    /^$/ { blank++; next }
    /^    / {
        if (begun) while (blank-- > 0) print path "\t"
        blank = 0
        begun = 1
        print path "\t" substr($0, 5)
        next
    }
    { path = "" }
' "$top/docs/OWNBOARD.md" >"$work/lines"

# The lines of a file of the page.
block() {
    awk -v path="$1" 'index($0, path "\t") == 1 { print substr($0, length(path) + 2) }' \
        "$work/lines"
}
# Writes the files of the page. What is wrong is printed, here and below.
write_files() {
    cut -f 1 "$work/lines" | sort -u >"$work/paths"
    while read -r path; do
        case $path in
            crates.txt) file=$folder/$path ;;
            /* | ../* | */../*) echo "$path leads out of the folder"; return 1 ;;
            *) file=$crate/$path ;;
        esac
        mkdir -p -- "$(dirname -- "$file")" && block "$path" >"$file" || return 1
    done <"$work/paths"
}
# Copies the crates that the page uses.
copy_crates() {
    block crates.txt | sed '$d' >"$work/copied"
    while read -r line; do
        grep -qxF -e "$line" "$top/crates.txt" || { echo "crates.txt has no line $line"; return 1; }
        name=${line%%:*}
        mkdir "$folder/crates/$name" || return 1
        for part in src specs proofs; do
            [ -d "$top/crates/$name/$part" ] || continue
            cp -R "$top/crates/$name/$part" "$folder/crates/$name/" || return 1
        done
    done <"$work/copied"
}
files() {
    [ "$board" ] || { echo "the page has no crates.txt"; return 1; }
    write_files && copy_crates
}
proof() { cd "$crate" && rt check "$@"; }
output() { cd "$crate" && rt run "$@" >"$work/output" && diff stdout "$work/output"; }
# Does a part: its name, and its words.
part() {
    label=$1
    shift
    if "$@" >"$work/said" 2>&1 </dev/null; then
        passed=$((passed + 1))
        echo "ok $label"
    else
        echo "failed $label"
        tail -n 40 "$work/said" | sed 's/^/    /'
        echo "$passed passed, 1 failed"
        exit 1
    fi
}

board=$(block crates.txt | sed -n '$s/:.*//p')
crate=$folder/crates/$board
part "the files" files
part "rt check in $crate" proof "$@"
part "the output" output "$@"
echo "$passed passed, 0 failed"
