#!/bin/sh
# Tries the tools for those who keep and compare runs, over the examples:  keep_and_compare.sh PROGRAM
# They are board_diff.py, also as git's textconv, first_difference.py with two images, two tapes and two boards,
# manifest.py with sha256sum, and boards along a run into a file and into many.
# It needs awk, cmp, git, python3, sha256sum and split. The last line is `N passed, M failed`; the status is 1 where
# something differs, and 2 where nothing was tried.
set -eu
[ $# = 1 ] || { sed -n 's/^# *//; 2p' "$0" >&2; exit 2; }
stop() { printf 'keep_and_compare.sh: %s\n' "$1" >&2; exit 2; }
program=$(command -v "$1") && [ -f "$program" ] && [ -x "$program" ] || stop "no program $1"
for tool in awk cmp git python3 sha256sum split; do
    command -v $tool >/dev/null || stop "no $tool on the path"
done
tools=$(CDPATH= cd -- "$(dirname -- "$0")" && pwd -P)
examples=$tools/../crates/example_runs/data
case $program in /*) ;; *) program=$PWD/$program ;; esac
work=$(mktemp -d) || exit 2
trap 'rm -rf "$work"' EXIT
trap 'exit 1' INT TERM HUP
cd "$work"
passed=0 failed=0
# NAME COMMAND..
has() {
    name=$1
    shift
    if "$@" >said 2>&1; then passed=$((passed + 1)); else failed=$((failed + 1)); echo "failed $name"; cat said; fi
}
# NAME STATUS COMMAND..: its output stays in `said`.
gives() {
    name=$1 wanted=$2 status=0
    shift 2
    "$@" >said 2>&1 || status=$?
    if [ $status = "$wanted" ]; then passed=$((passed + 1)); else failed=$((failed + 1)); echo "failed $name: status $status"; cat said; fi
}
says() { has "$1" grep -e "$2" said.kept; }

cp "$program" gravitar
./gravitar asm "$examples/score/score.s" "$examples/score/score.v" score.img >score.listing
./gravitar asm "$examples/ship/ship.s" "$examples/ship/ship.v" ship.img >ship.listing
awk -f "$examples/recipes/labels.awk" "$examples/score/score.s" score.listing >score.names
cp "$examples/score/first.tape" "$examples/ship/ship.tape" .

# Two boards, in which the count and a cell differ.
./gravitar run score.img first.tape --until 9000 --save one.board >log
./gravitar run score.img first.tape --until 19000 --save two.board >log
gives "two boards" 1 python3 -B "$tools/board_diff.py" one.board two.board --names score.names
cp said said.kept
says "the count" '^ram 0010 count: 01 -> 02$'
says "the cell" '^cell 0: 01 -> 02$'
says "the clock" '^clock: 90[0-9]* -> 190[0-9]*$'
gives "one board twice" 0 python3 -B "$tools/board_diff.py" one.board one.board
gives "no board" 2 python3 -B "$tools/board_diff.py" one.board score.img
# Git's diff has what `show` leaves out.
git init -q kept
git -C kept config user.email nobody@example.org
git -C kept config user.name nobody
git -C kept config diff.gravitar.textconv "python3 -B '$tools/board_diff.py' --text"
echo '*.board diff=gravitar' >kept/.gitattributes
cp one.board kept/at.board
git -C kept add -A
git -C kept commit -qm one
cp two.board kept/at.board
git -C kept diff >said.kept
says "git: the count" '^+ram 0010: 02 '
says "git: the cell" '^+cell 0: 02$'

# The first difference: two tapes, two images, two boards, a log.
awk '{ print } $1 == 3000 { print "5000 IN4 12" }' first.tape >other.tape
gives "two tapes with one log" 0 python3 -B "$tools/first_difference.py" ./gravitar score.img first.tape -- ./gravitar score.img other.tape
awk '{ print } $1 == 3000 { print "5000 IN3 FE"; print "5100 IN3 FF" }' first.tape >pressed.tape
gives "two tapes" 1 python3 -B "$tools/first_difference.py" ./gravitar score.img first.tape -- ./gravitar score.img pressed.tape
cp said said.kept
says "the first line" '^the logs differ first at clock 50[0-9][0-9]$'
says "the first board" '^the boards differ first in clock 5000$'
says "the port" '^  board in3: FF -> FE$'
sed 's/adc #60/adc #61/' "$examples/ship/ship.s" >other.s
./gravitar asm other.s "$examples/ship/ship.v" other.img >log
gives "two images" 1 python3 -B "$tools/first_difference.py" --piece 300000 ./gravitar ship.img ship.tape -- ./gravitar other.img ship.tape
cp said said.kept
says "the register" '^  cpu a: 3C -> 3D$'
printf '\001' | dd of=two.board bs=1 seek=$((260 + 0x10)) conv=notrunc 2>dd.said
./gravitar run score.img first.tape --until 19000 --save three.board >log
gives "two boards to begin at" 1 python3 -B "$tools/first_difference.py" ./gravitar score.img first.tape --state two.board -- \
    ./gravitar score.img first.tape --state three.board
./gravitar run ship.img ship.tape >ship.log
gives "a program and its log" 0 python3 -B "$tools/first_difference.py" ./gravitar ship.img ship.tape -- ship.log
sed '3000s/ [^ ]*$/ 14/' ship.log >other.log
gives "a program and another log" 1 python3 -B "$tools/first_difference.py" --piece 500000 ./gravitar ship.img ship.tape -- other.log
gives "no such program" 2 python3 -B "$tools/first_difference.py" ./none ship.img ship.tape -- ship.log

# A manifest of a run with cells and with a board at its end.
head -c 64 /dev/zero | tr '\0' '\377' >cells
gives "a manifest" 0 python3 -B "$tools/manifest.py" make run.manifest first.log gravitar score.img first.tape --earom cells --save end.board
has "sha256sum takes it" sha256sum --strict -c run.manifest
gives "its check" 0 python3 -B "$tools/manifest.py" check run.manifest
has "its log" cmp first.log "$examples/score/first.log"
has "its cells" test "$(od -An -tx1 -N 1 cells.after | tr -d ' ')" = 03
cp other.tape first.tape
gives "another tape" 1 python3 -B "$tools/manifest.py" check run.manifest
cp "$examples/score/first.tape" first.tape
gives "the tape again" 0 python3 -B "$tools/manifest.py" check run.manifest

# Boards along a run: a file after another in one, by split, and each is the board of its clock.
mkfifo boards
split -b 4356 -d -a 3 boards at. &
splitting=$!
./gravitar run score.img first.tape --cuts 1000,2000,3000,4000 --save boards >log
wait $splitting
has "five boards" test "$(echo at.*)" = "at.000 at.001 at.002 at.003 at.004"
./gravitar show at.002 >shown
has "the third is of clock 3000" grep -x 'clock 3000' shown
./gravitar run score.img first.tape --state at.001 >rest
has "the rest of the run from the second" sh -c 'tail -n "$(wc -l <rest)" "$1" | cmp - rest' sh "$examples/score/first.log"
echo "$passed passed, $failed failed"
[ $failed -eq 0 ]
