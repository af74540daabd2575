#!/bin/sh
# Checks all of this repository that isn't proved.
#   check.sh [FOLDER]            every check: some ten minutes on four processors
#   check.sh --short [FOLDER]    those that depend on neither time nor chance, under four minutes: links, names,
#                                numbers, the scripts' form, the rows over a quick build, web/module.js
# FOLDER has gravitar, as tools/quick.sh builds it (with --lib where not --short); without it this is done first, which
# needs rt of the Rattle kit. It also needs awk, python3 and the tools of a POSIX system, which are failures where
# they aren't there. What else a machine lacks is named, and counted as skipped.
# A line a check, `ok NAME`, `failed NAME` with what its tool printed, or `skipped NAME: WHY`. The last line is
# `N passed, M failed, K skipped`. The status is 1 where one failed, and 2 where nothing was tried.
set -eu
usage() { sed -n 's/^# *//; 3,5p' "$0" >&2; exit 2; }
short= folder=
[ "${1-}" != --short ] || { short=1; shift; }
case $#:${1-} in 0:) ;; 1:-* | 1:) usage ;; 1:*) folder=$1 ;; *) usage ;; esac
tools=$(CDPATH= cd -- "$(dirname -- "$0")" && pwd -P)
top=$tools/..
examples=$top/crates/example_runs/data
if [ "$folder" ]; then
    folder=$(CDPATH= cd -- "$folder" && pwd -P) && [ -x "$folder/gravitar" ] || { echo "check.sh: no gravitar in $1" >&2; exit 2; }
fi
work=$(mktemp -d) || exit 2
jobs=
ends() {
    code=$?
    for job in $jobs; do kill "$job" 2>/dev/null || true; done
    cd /
    rm -rf "$work"
    exit $code
}
trap ends EXIT
trap 'exit 1' INT TERM HUP
passed=0 failed=0 skipped=0
unset CDPATH ASM GRAVITAR GRAVITAR_LIB

pass() { passed=$((passed + 1)); echo "ok $1${2:+: $2}"; }
skip() { skipped=$((skipped + 1)); echo "skipped $1: $2"; }
# Tells of a check that ended with status $2 what its tool printed into $3.
result() {
    if [ "$2" = 0 ]; then
        pass "$1" "$(tail -n 1 "$3" | grep -e ' passed' -e ' bytes' || true)"
    else
        failed=$((failed + 1))
        echo "failed $1: status $2"
        if grep -q -e '^differs' -e '^wrong' -e '^failed' "$3"; then
            grep -e '^differs' -e '^wrong' -e '^failed' "$3" | head -n 40
            tail -n 1 "$3"
        else
            tail -n 40 "$3"
        fi | sed 's/^/    /'
    fi
}
# Does a check: its name, and its words.
check() {
    name=$1 status=0
    shift
    "$@" >"$work/said" 2>&1 </dev/null || status=$?
    result "$name" $status "$work/said"
}
# The same for a check that was begun beside the others: its name, its process, and the file of what it prints.
ended() {
    status=0
    wait "$2" || status=$?
    result "$1" $status "$3"
}
# The first of these tools that isn't on the path.
lacks() {
    for tool; do command -v "$tool" >/dev/null || { echo "no $tool"; return 0; }; done
    return 1
}
# The same as check, for a check that needs the tools $2.
check_with() {
    name=$1
    if why=$(lacks $2); then skip "$name" "$why"; return 0; fi
    shift 2
    check "$name" "$@"
}

# Each script has the form that the others have.
scripts() {
    find "$top" -name .git -prune -o -name out -prune -o -name target -prune -o -type f \( -name '*.sh' -o -path '*/.ci/run' \) -exec sh -c '
        bad=0
        for script; do
            sh -n "$script" || { echo "$script: no shell takes it"; bad=1; }
            case $script in */.ci/run) continue ;; esac
            grep -q "^set -eu" "$script" || { echo "$script: no set -eu"; bad=1; }
        done
        exit $bad' sh {} +
}
# The program reads nothing of its input, whatever it does.
input_stays() {
    cd "$work"
    cp "$examples/latch/latch.s" c
    cp "$examples/latch/latch.v" v
    cp "$examples/latch/latch.script" d
    printf '20 END\n' >t
    "$program" asm c v i >listing
    "$program" run i t --save s >log
    for words in "asm c v o" "run i t --save s" "debug i t d" "show s" "soak 1" "pcm i t 8" "frames i t" "seek i t 5,4" "profile i t" "run none t" "run"; do
        cp "$top/README.md" given
        { timeout -s KILL 60 "$program" $words >text 2>note || true; cat >rest; } <given
        cmp -s given rest || { echo "$words reads its input"; return 1; }
    done
}
# The rows in four parts beside one another.
rows() {
    parts=
    for part in 1 2 3 4; do
        "$tools/rows.sh" "$program" --part $part/4 --seconds 120 >"$work/rows.$part" 2>&1 </dev/null &
        jobs="$jobs $!" parts="$parts $!"
    done
    part=1
    for job in $parts; do
        ended "the rows, part $part of 4" "$job" "$work/rows.$part"
        part=$((part + 1))
    done
}

for tool in awk python3 cmp find grep sed timeout; do
    if why=$(lacks $tool); then echo "failed the machine: $why"; failed=$((failed + 1)); fi
done
# These are begun beside the others: the tests of the tools, and web/module.js, which is made anew and compared.
python3 -B -m unittest discover -s "$tools/tests" -t "$tools" >"$work/tests" 2>&1 </dev/null &
tests=$! jobs=$! module=
if [ -f "$tools/web.sh" ] && [ -f "$top/web/module.js" ] && ! lacks rt python3 >/dev/null; then
    "$tools/web.sh" --check >"$work/module" 2>&1 </dev/null &
    module=$! jobs="$jobs $!"
fi
check links python3 "$tools/doc_links.py"
check names python3 "$tools/doc_names.py"
check numbers python3 "$tools/facts.py"
check scripts scripts

program=
if [ "$folder" ]; then
    program=$folder/gravitar
elif why=$(lacks rt python3); then
    failed=$((failed + 1))
    echo "failed the program: $why"
else
    mkdir "$work/bin"
    if [ "$short" ] || lacks gcc ar >/dev/null; then
        check "the program" "$tools/quick.sh" "$work/bin/gravitar"
    else
        check "the program and the library" "$tools/quick.sh" --lib "$work/bin/gravitar"
    fi
    folder=$work/bin
    [ ! -x "$work/bin/gravitar" ] || program=$work/bin/gravitar
fi
if [ "$program" ]; then
    check "the input stays" input_stays
    rows
fi
ended "tests of these tools" $tests "$work/tests"
if [ "$program" ] && [ -z "$short" ]; then
    export PATH="$folder:$PATH:/usr/games"
    check "the pages' commands" python3 "$tools/doc_commands.py"
    check_with "the guide, pasted" "bash git" python3 -B "$tools/doc_pasted.py"
    grep '^passed over' "$work/said" | sed 's/^/    /' || true
    check "broken files" python3 "$tools/broken_files.py" "$program" --jobs 2
    check_with "memory refused" cc "$tools/refuse_memory.sh" "$program"
    check "real faults and kills" "$tools/real_faults.sh" "$program" 20
    check_with recipes "gnuplot sox" sh "$examples/recipes/try.sh"
    grep '^skipped' "$work/said" | sed 's/^/    /' || true
    check_with "a game and its font" sha256sum sh "$examples/rubble/try.sh"
    check_with "sources by ca65" "ca65 ld65" "$tools/ca65/both.sh" "$program"
    check_with "ca65, ld65 and C" "ca65 cl65 ld65" sh "$examples/ca65/try.sh"
    check_with "a tape from MAME" mame sh "$examples/recipes/mame.sh"
    check_with "files for Vim" vim "$tools/vim/try.sh"
    check "planted differences" python3 -B "$tools/planted_differences.py" "$program"
    check_with "runs that are kept and compared" "git sha256sum split" "$tools/keep_and_compare.sh" "$program"
    if [ -f "$folder/libgravitar.a" ]; then
        check_with "the library and its bindings" gcc "$examples/embed/try.sh" "$folder"
        grep 'passed over' "$work/said" | sed 's/^/    /' || true
    else
        skip "the library and its bindings" "no libgravitar.a beside the program"
    fi
    if [ -f "$top/web/try.sh" ]; then
        check_with "the page" node "$top/web/try.sh" "$program"
        grep '^skipped' "$work/said" | sed 's/^/    /' || true
    fi
fi
if [ "$module" ]; then
    ended "web/module.js is what the sources give" $module "$work/module"
elif [ -f "$tools/web.sh" ] && [ -f "$top/web/module.js" ]; then
    skip "web/module.js is what the sources give" "$(lacks rt python3)"
fi
jobs=
echo "$passed passed, $failed failed, $skipped skipped"
[ $((passed + failed)) -gt 0 ] || exit 2
[ $failed -eq 0 ] || exit 1
