#!/bin/sh
# Whether the tests of the bindings refuse wrong libraries:
#     wrong.sh FOLDER [WRONG..]     FOLDER is the library's, WRONG a number of c/wrong.c
# For each number, by default all, a wrong library is built over the right one. c/compare.sh,
# python/tests and cargo test have to fail over it, and where a command line is wrong c/rows.sh
# (some suites) and beside_program.py too. All of them pass over the right one. The last line
# is `N refused, M passed`; the status is 1 where one passed, and 2 where something is missing. It
# takes a minute or two.
set -eu
[ $# -gt 0 ] || { sed -n 's/^# *//; 3p' "$0" >&2; exit 2; }
here=$(CDPATH= cd -- "$(dirname -- "$0")" && pwd -P)
lib=$(CDPATH= cd -- "$1" && pwd -P)
shift
[ $# -gt 0 ] || set -- 1 2 3 4 5 6
for tool in ar cargo gcc objcopy python3; do
    command -v $tool >/dev/null || { echo "wrong.sh: no $tool on the path" >&2; exit 2; }
done
work=$(mktemp -d) || exit 2
trap 'rm -rf "$work"' EXIT
trap 'exit 1' INT TERM HUP
GRAVITAR=${GRAVITAR-$lib/gravitar}
export GRAVITAR

try() ( # NAME FOLDER
    exec >"$work/said" 2>&1
    case $1 in
        c) "$here/c/compare.sh" "$2" ;;
        rows)
            cd "$here/../crates/board_rows/data"
            "$here/c/rows.sh" "$2" programs.rows cells.rows words.rows ;;
        python) GRAVITAR_LIB=$2 PYTHONPATH=$here/python PYTHONDONTWRITEBYTECODE=1 \
            python3 -m unittest discover -s "$here/python/tests" ;;
        beside) GRAVITAR_LIB=$2 PYTHONPATH=$here/python PYTHONDONTWRITEBYTECODE=1 \
            python3 "$here/python/tests/beside_program.py" "$GRAVITAR" ;;
        rust) GRAVITAR_LIB=$2 CARGO_TARGET_DIR=$work/target \
            cargo test -q --offline --manifest-path "$here/rust/Cargo.toml" ;;
    esac
)

for name in c rows python beside rust; do
    try $name "$lib" && continue
    cat "$work/said" >&2
    echo "wrong.sh: $name fails over the right library" >&2
    exit 2
done
refused=0 passed=0
for wrong; do
    folder=$work/wrong$wrong
    mkdir "$folder"
    cp "$lib/gravitar.h" "$folder"
    objcopy $(for call in advance records pcm command; do
        echo --redefine-sym gravitar_$call=true_gravitar_$call
    done) "$lib/libgravitar.a" "$folder/libgravitar.a"
    gcc -std=c11 -O2 -fPIC -Wall -Wextra -Werror -DWRONG="$wrong" -I "$lib" -c -o "$work/wrong.o" \
        "$here/c/wrong.c"
    ar rs "$folder/libgravitar.a" "$work/wrong.o" 2>/dev/null
    gcc -shared -o "$folder/libgravitar.so" -Wl,--whole-archive "$folder/libgravitar.a" \
        -Wl,--no-whole-archive
    # The rows and the random lines are done by command lines alone.
    [ "$wrong" -gt 3 ] && names='c rows python beside rust' || names='c python rust'
    for name in $names; do
        if try $name "$folder"; then
            passed=$((passed + 1))
            echo "wrong $wrong: passed by $name"
        else
            refused=$((refused + 1))
            why=$(grep -m 1 -E 'differ|^FAIL:|^ERROR:|^---- |compare.sh:' "$work/said" || true)
            echo "wrong $wrong: refused by $name: ${why:-$(tail -n 1 "$work/said")}"
        fi
    done
done
echo "$refused refused, $passed passed"
[ "$passed" -eq 0 ]
