#!/bin/sh
# Tries the files for Vim:  try.sh
# Each source of the repository names its type; a refusal of the assembler leads to its line; a tape's bad line is marked.
# It needs gravitar and vim. The last line is `N passed, M failed`; the status is 1 where something differs, and 2 where
# nothing was tried.
set -eu
[ $# = 0 ] || { echo "usage: try.sh" >&2; exit 2; }
here=$(CDPATH= cd -- "$(dirname -- "$0")" && pwd -P)
for tool in gravitar timeout vim; do
    command -v $tool >/dev/null || { echo "try.sh: no $tool on the path" >&2; exit 2; }
done
work=$(mktemp -d) || exit 2
trap 'rm -rf "$work"' EXIT
trap 'exit 1' INT TERM HUP
cd "$work"
passed=0 failed=0
# NAME WANTED: the file `said` has to have this text alone.
is() {
    if [ "$(cat said)" = "$2" ]; then passed=$((passed + 1)); else failed=$((failed + 1)); echo "failed $1: $(cat said)"; fi
}
# FILE EXPRESSION: what the expression is after the file was opened.
asks() {
    : >said
    HOME=$work timeout -s KILL 60 vim -es -N -i NONE -u NONE --cmd "set runtimepath^=$here modeline" --cmd 'syntax on' --cmd 'filetype on' \
        -c "${3-}" -c "call writefile([string($2)], 'said')" -c 'qall!' "$1" </dev/null >out 2>&1 || true
}
find "$here/../../crates/example_runs/data" "$here/../ca65" -name '*.s' -o -name '*.v' -o -name '*.inc' | sort >sources
while read -r source; do
    asks "$source" '&filetype'
    is "$source" "'gravitar'"
done <sources
mkdir 'a b'
printf '        .org $9000\nstart:  lda #5\n        sta lamp\n' >'a b/game.s'
: >'a b/game.v'
for part in s v; do
    asks "a b/game.$part" 'map(getqflist(), {_, e -> [bufname(e.bufnr), e.lnum, trim(e.text)]})' 'compiler gravitar | silent make!'
    is "the line of a refusal, from .$part" "[['a b/game.s', 3, 'unknown name']]"
done
printf 'lamp = $8800\n' | cat - 'a b/game.s' >good
mv good 'a b/game.s'
asks 'a b/game.s' 'len(getqflist())' 'compiler gravitar | silent make!'
is "no refusal" 0
test -s 'a b/game.img' && passed=$((passed + 1)) || { failed=$((failed + 1)); echo "failed: no image"; }
printf '12 IN3 FE\n12 IN9 FE\n20 END\n' >a.tape
for line in 1:tapeClock 2:tapeError 3:tapeClock; do
    asks a.tape "synIDattr(synID(${line%:*}, 1, 1), 'name')"
    is "line ${line%:*} of a tape" "'${line#*:}'"
done
echo "$passed passed, $failed failed"
[ $failed -eq 0 ]
