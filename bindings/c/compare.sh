#!/bin/sh
# Holds the calls of the library, from C, against the program:
#     compare.sh FOLDER     FOLDER is the library's. The program is GRAVITAR, else FOLDER/gravitar
# With the timers on: the log, the records, the samples and the board of a run in stretches; what is
# said of a bad tape, and of which line; and the output, the note, the status and the stores of
# command lines. CC and CFLAGS of the environment name another compiler, and its options. It ends at
# the first that differs, with status 1.
set -eu
[ $# = 1 ] || { sed -n 's/^# *//; 3p' "$0" >&2; exit 2; }
here=$(CDPATH= cd -- "$(dirname -- "$0")" && pwd -P)
lib=$(CDPATH= cd -- "$1" && pwd -P)
gravitar=${GRAVITAR-$lib/gravitar}
[ -x "$gravitar" ] || { echo "compare.sh: no program $gravitar" >&2; exit 2; }
embed=$here/../../crates/example_runs/data/embed
work=$(mktemp -d) || exit 2
trap 'rm -rf "$work"' EXIT
trap 'exit 1' INT TERM HUP
mkdir "$work/mine" "$work/its"
cd "$work"
for name in compare command; do
    ${CC-gcc} -std=c11 -Wall -Wextra -Werror ${CFLAGS--O2} -I "$lib" -I "$embed" -o $name \
        "$here/$name.c" "$lib/libgravitar.a"
done

# The calls that run.
"$gravitar" asm "$embed/timers.s" "$embed/kinds.v" image >listing
printf '100 IN3 FB\n40000 IN3 FF\n300001 END\n' >tape
printf '0 IN3 FB\n5 IN3 FF\n6 IN9 FF\n7 END\n' >bad
"$gravitar" run image tape --timers --save its/board >its/whole
sed '$d' its/whole >its/log
"$gravitar" pcm image tape 34 --timers >its/pcm
"$gravitar" run image bad 2>its/note >its/none || [ $? = 4 ]
[ "$(wc -l <its/log)" -gt 300 ]
./compare image tape bad 300001 >said
cmp compare.log its/log
cmp compare.lines its/log
cmp compare.pcm its/pcm
cmp compare.board its/board
words=$(sed 's/^[0-9]*: //' said)
if [ "gravitar: bad: $words" != "$(cat its/note)" ] || ! grep -q '^3: line 3: ' said; then
    echo "compare.sh: of the bad tape: $(cat said), where the program says $(cat its/note)" >&2
    exit 1
fi

# Command lines: each in two folders, by the program and by one call.
printf 'regs\nuntil 5000\ndev\nmem 27F0 16\ngo\n' >script
: >empty
lines=0
line() {
    status=$1
    shift
    lines=$((lines + 1))
    for folder in its mine; do
        rm -rf $folder
        mkdir $folder
        cp image tape bad script empty "$embed/timers.s" "$embed/kinds.v" $folder
        head -c 64 image >$folder/cells
        [ $folder = its ] && does=$gravitar || does=$work/command
        code=0
        (cd $folder && "$does" "$@" >../$folder.out 2>../$folder.note) || code=$?
        [ $code = "$status" ] || { echo "compare.sh: status $code, not $status: $*" >&2; exit 1; }
    done
    cmp its.out mine.out
    cmp its.note mine.note
    diff -r its mine
}
line 0 run image tape --cuts 7,100,200000 --save saved --timers --earom cells --cost
line 0 asm timers.s kinds.v made
line 0 debug image tape script --timers
line 0 frames image tape --until 100000
line 2 run image
line 4 run image bad
line 4 asm kinds.v timers.s made
line 5 run image nothing --save saved
line 4 run empty tape
echo "timers, a bad tape and $lines command lines are the program's"
