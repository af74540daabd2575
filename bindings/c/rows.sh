#!/bin/sh
# Does the rows of crates/board_rows by one call of the library each, four parts at a time:
#     rows.sh FOLDER [FILE..]     FOLDER is the library's; FILE is a suite, by default all of them
# command.c does a command line as one call of gravitar_command, and tools/rows.sh takes it as the
# program. The last line is `N passed, M failed`; the status is 1 where a row differs, and 2 where
# nothing was tried.
set -eu
[ $# -gt 0 ] || { sed -n 's/^# *//; 3p' "$0" >&2; exit 2; }
here=$(CDPATH= cd -- "$(dirname -- "$0")" && pwd -P)
lib=$(CDPATH= cd -- "$1" && pwd -P)
shift
work=$(mktemp -d) || exit 2
trap 'rm -rf "$work"' EXIT
trap 'exit 1' INT TERM HUP
gcc -std=c11 -O2 -Wall -Wextra -Werror -I "$lib" -o "$work/by-call" "$here/command.c" \
    "$lib/libgravitar.a"
for part in 1 2 3 4; do
    {
        code=0
        "$here/../../tools/rows.sh" "$work/by-call" --part $part/4 "$@" >"$work/part$part" 2>&1 ||
            code=$?
        echo $code >"$work/code$part"
    } &
done
wait
passed=0 failed=0
for part in 1 2 3 4; do
    read -r code <"$work/code$part"
    # A part of a short suite may have no row.
    case $code:$(tail -n 1 "$work/part$part") in
        [01]:*' passed, '*' failed') ;;
        '2:no row') continue ;;
        *) cat "$work/part$part" >&2; exit 2 ;;
    esac
    grep -v -e '^ok ' -e ' passed, ' -e '^left out' "$work/part$part" || true
    set -- $(tail -n 1 "$work/part$part")
    passed=$((passed + $1)) failed=$((failed + $3))
done
echo "$passed passed, $failed failed"
[ $((passed + failed)) -gt 0 ] || exit 2
[ "$failed" -eq 0 ]
