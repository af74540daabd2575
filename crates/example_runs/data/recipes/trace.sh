#!/bin/sh
# A trace of instructions with the registers before each:  trace.sh IMAGE TAPE CLOCK N
# It runs to CLOCK, and then N instructions, 2,500 at most: a script of the debugger has so much room. The
# debugger goes over them twice: the first pass finds the addresses, the second lists the instruction at each.
set -eu
[ $# = 4 ] || { echo "usage: trace.sh IMAGE TAPE CLOCK N" >&2; exit 2; }
case $4 in
    '' | *[!0-9]* | 0 | ?????*) few= ;;
    *) few=1 ;;
esac
[ "$few" ] && [ "$4" -le 2500 ] || { echo "trace.sh: N is a number from 1 to 2500: $4" >&2; exit 2; }
command -v gravitar > /dev/null || { echo "trace.sh: no gravitar on the path" >&2; exit 1; }
work=$(mktemp -d) || exit 2
trap 'rm -rf "$work"' EXIT
trap 'exit 1' INT TERM HUP
awk -v c="$3" -v n="$4" 'BEGIN { print "until " c; while (n--) print "regs\nstep 1" }' > "$work/first"
gravitar debug "$1" "$2" "$work/first" > "$work/registers"
awk -v c="$3" 'BEGIN { print "until " c } /^cpu/ { print "dis " $3 " 1\nregs\nstep 1" }' "$work/registers" > "$work/second"
gravitar debug "$1" "$2" "$work/second" > "$work/listing"
awk '
    /^clock/ { clock = $2 }
    /^[0-9A-F]+: / { text = $0 }
    /^cpu/ { sub(/^cpu pc .... /, ""); printf "%9d %-31s %s\n", clock, text, $0 }' "$work/listing"
