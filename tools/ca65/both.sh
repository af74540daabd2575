#!/bin/sh
# Assembles processor sources with `gravitar asm` and with ca65 and ld65 of cc65, and compares their bytes in the
# order of the source. It prints a line a source, and then `N passed, M failed`; the status is 1 where one differs,
# and 2 where nothing was compared: no program, no source, no ca65.
#   both.sh PROGRAM [SOURCE..]      without sources: both.s beside it, and those of the four examples
set -eu
[ $# -gt 0 ] || { sed -n 's/^# *//; 5p' "$0" >&2; exit 2; }
stop() { printf 'both.sh: %s\n' "$1" >&2; exit 2; }
program=$(command -v "$1") && [ -f "$program" ] && [ -x "$program" ] || stop "no program $1"
shift
here=$(CDPATH= cd -- "$(dirname -- "$0")" && pwd)
examples=$here/../../examples
[ $# -gt 0 ] || set -- "$here/both.s" "$examples/latch/latch.s" "$examples/square/square.s" "$examples/tune/tune.s" "$examples/score/score.s"
for source; do [ -f "$source" ] || stop "no file $source"; done
command -v ca65 >/dev/null && command -v ld65 >/dev/null || stop "no ca65 and ld65 here, nothing was compared (Debian: cc65)"
work=$(mktemp -d) || exit 2
trap 'rm -rf "$work"' EXIT
trap 'exit 1' INT TERM HUP
passed=0 failed=0
: >"$work/none.v"
for source; do
    # The listing has each line's bytes behind a colon; od has those of the other, a line a byte.
    if timeout -s KILL 60 "$program" asm "$source" "$work/none.v" "$work/img" </dev/null >"$work/listing" &&
        ca65 -o "$work/o" "$source" && ld65 -C "$here/flat.cfg" -o "$work/bin" "$work/o" &&
        sed 's/^[^:]*://' "$work/listing" | tr -s ' ' '\n' | sed '/^$/d' >"$work/ours" &&
        od -An -v -tx1 "$work/bin" | tr 'a-f' 'A-F' | tr -s ' ' '\n' | sed '/^$/d' >"$work/theirs" &&
        [ -s "$work/ours" ] && cmp -s "$work/ours" "$work/theirs"; then
        passed=$((passed + 1))
        echo "same ${source##*/}: $(($(wc -l <"$work/ours"))) bytes"
    else
        failed=$((failed + 1))
        echo "differs ${source##*/}"
    fi
done
echo "$passed passed, $failed failed"
[ $failed -eq 0 ]
