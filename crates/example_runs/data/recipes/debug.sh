#!/bin/sh
# A debugger's script with names, and names in what it prints:  debug.sh IMAGE TAPE SCRIPT NAMES
# NAMES is what labels.awk makes. A name stands where the debugger takes an address: `break irq`, `mem list+4 16`.
set -eu
[ $# = 4 ] || { echo "usage: debug.sh IMAGE TAPE SCRIPT NAMES" >&2; exit 2; }
command -v gravitar > /dev/null || { echo "debug.sh: no gravitar on the path" >&2; exit 1; }
here=$(CDPATH= cd -- "$(dirname -- "$0")" && pwd)
work=$(mktemp -d) || exit 2
trap 'rm -rf "$work"' EXIT
trap 'exit 1' INT TERM HUP
# awk takes a name with = in it for a variable, so it is given copies.
cat < "$3" > "$work/script"
cat < "$4" > "$work/names"
(cd "$work" && awk -f "$here/script.awk" names script) > "$work/plain" || exit 1
gravitar debug "$1" "$2" "$work/plain" > "$work/text"
awk -f "$here/names.awk" "$work/names" "$work/text"
