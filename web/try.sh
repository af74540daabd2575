#!/bin/sh
# Tests the page: its session, player and workshop under Node, and the page itself in the browsers
# that are there, each held against the program.
#   try.sh [--hour] [--faults] [--pictures FOLDER] [PROGRAM]
# PROGRAM is gravitar, proved or not: by default GRAVITAR of the environment, else tools/quick.sh
# builds it. --hour also plays an hour at a call a frame, and measures its memory and its looks.
# --faults also plants faults into copies of the page's scripts, each of which a test must refuse.
# --pictures keeps the browsers' screenshots. What a machine lacks (node, a browser) is named and
# counted as skipped. The last line is `N passed, M failed, K skipped`; the status is 1 where
# something failed, and 2 where nothing was tried.
set -eu
here=$(cd "$(dirname "$0")" && pwd -P)
work=$(mktemp -d) || exit 2
trap 'rm -rf "$work"' EXIT
trap 'exit 1' INT TERM HUP

hour= faults= pictures= program=${GRAVITAR-}
while [ $# -gt 0 ]; do
    case $1 in
        --hour) hour=1 ;;
        --faults) faults=1 ;;
        --pictures) pictures=${2-}; shift ;;
        -*) sed -n 's/^# *//; 2,10p' "$0" >&2; exit 2 ;;
        *) program=$1 ;;
    esac
    shift
done

passed=0 failed=0 skipped=0
skip() { # NAME WHY
    echo "$1: skipped, since $2"
    skipped=$((skipped + 1))
}
# A number of a last line such as `5 passed, 0 failed, 1 skipped`, or 0.
number() { # WORD
    sed -n '$s/.*\b\([0-9][0-9]*\) '"$1"'.*/\1/p' "$work/said" | grep . || echo 0
}
# Runs a test, shows what it says, and counts what its last line says. A test without such a line,
# or with a status that isn't its line's, failed.
try() { # NAME COMMAND..
    name=$1
    shift
    echo "$name:"
    status=0
    "$@" >"$work/said" 2>&1 </dev/null || status=$?
    sed 's/^/    /' "$work/said"
    # Of planted faults the line says how many are refused.
    sed -i '$s/ refused, / passed, /; $s/ not refused/ failed/' "$work/said"
    if sed -n '$p' "$work/said" | grep -q '^[0-9]* passed, [0-9]* failed'; then
        passed=$((passed + $(number passed)))
        skipped=$((skipped + $(number skipped)))
        count=$(number failed)
        [ "$count" != 0 ] || [ "$status" = 0 ] || [ "$(number passed)" = 0 ] || count=1
        failed=$((failed + count))
    else
        echo "    $name ended with status $status and no last line"
        failed=$((failed + 1))
    fi
}

if [ -z "$program" ] && command -v rt >/dev/null && command -v python3 >/dev/null; then
    "$here/../tools/quick.sh" "$work/gravitar"
    program=$work/gravitar
fi
if ! command -v node >/dev/null; then
    skip "the tests under Node, and the browsers" "there is no node"
elif [ "$(node -p 'parseInt(process.versions.node)')" -lt 20 ]; then
    skip "the tests under Node, and the browsers" "node is $(node --version), and they need 20"
elif [ ! -x "$program" ]; then
    skip "the tests under Node, and the browsers" "there is no program to compare with; name one"
else
    try "the module" node "$here/test/library.mjs"
    try sessions node "$here/test/session.mjs" "$program"
    try player node "$here/test/player.mjs"
    # One row in eight, since each command starts Node.
    try "the command line" "$here/../tools/rows.sh" "$here/gravitar.mjs" --part 3/8
    try workshop node "$here/test/workshop.mjs" "$program"
    if [ "$hour" ]; then try "an hour" node "$here/test/hour.mjs" "$program"; fi
    if [ "$faults" ]; then
        try "faults in core.js" node "$here/test/faults.mjs" "$program"
        try "faults in the page" node "$here/test/page_faults.mjs"
        try "faults in the workshop" node "$here/test/workshop_faults.mjs" "$program"
        try "faults in the workshop's page" \
            env GRAVITAR="$program" node "$here/test/workshop_page_faults.mjs"
    fi
    try browsers env GRAVITAR="$program" node "$here/test/browser.mjs" ${pictures:+"$pictures"}
fi
echo "$passed passed, $failed failed, $skipped skipped"
[ "$failed" = 0 ] || exit 1
[ "$passed" != 0 ] || exit 2
