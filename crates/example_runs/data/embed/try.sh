#!/bin/sh
# Builds the examples and the bindings over the library for C, runs them, and holds what they write against the
# program's own log and samples, and the records against the lines of the log. The callers are built with the
# sanitizers of addresses and undefined behaviour.
#     try.sh [FOLDER]     FOLDER is the library's, as tools/quick.sh --lib or tools/lib_folder.sh leaves it, by
#                         default what GRAVITAR_LIB names; else the library is proved and built
# The rows of crates/board_rows are done by one call each, four parts at a time, and in Python 500 random command
# lines, which have to give what the program gives.
# The program is GRAVITAR of the environment, else FOLDER/gravitar, else that of crates/gravitar_program/out. It
# needs gcc. What else a machine lacks (clang, a sanitizer, python3, pip, Dask, cargo) is said and passed over.
# It ends at the first that fails. The last line is `N passed, M failed, K skipped`; the status isn't 0 where one
# failed, and 2 where nothing was tried.
set -eu
passed=0 skipped=0 whole=
here=$(CDPATH= cd -- "$(dirname -- "$0")" && pwd -P)
root=$here/../../../..
work=$(mktemp -d) || exit 2
ends() {
    code=$?
    cd /
    rm -rf "$work"
    [ "$code" = 0 ] || [ "$code" = 2 ] || [ "$whole" ] || echo "$passed passed, 1 failed, $skipped skipped"
}
trap ends EXIT
trap 'exit 1' INT TERM HUP
stop() { echo "try.sh: $1" >&2; exit 2; }
for tool in awk cmp gcc sed; do command -v $tool >/dev/null || stop "no $tool on the path"; done
lib=${1-${GRAVITAR_LIB-}}
if [ "$lib" ]; then
    lib=$(CDPATH= cd -- "$lib" && pwd -P) && [ -f "$lib/libgravitar.a" ] || stop "no libgravitar.a in ${1-${GRAVITAR_LIB-}}"
else
    lib=$work/lib
    "$root/tools/lib_folder.sh" --proved "$lib"
fi
gravitar=${GRAVITAR-$lib/gravitar}
[ -x "$gravitar" ] || gravitar=$root/crates/gravitar_program/out/gravitar_program
[ -x "$gravitar" ] || stop "no program $gravitar"
cp -R "$here/../square" "$here/../ship" "$work"
cd "$work"

# What the program itself writes of them.
"$gravitar" asm square/square.s square/square.v square.img >square.listing
"$gravitar" run square.img square/square.tape | sed '$d' >want
"$gravitar" asm ship/ship.s ship/ship.v ship.img >ship.listing
words='square/square.s square/square.v square/square.tape 160000'
printf 'regs\nuntil 200000\nregs\nbreak 905B\ngo\nvdis 2000 8\n' >script
session='ship/ship.s ship/ship.v ship/ship.tape script'
"$gravitar" debug ship.img ship/ship.tape script >want.session
"$gravitar" profile ship.img ship/ship.tape --until 5000000 >profile
awk -f "$here/../recipes/names.awk" ship/ship.s ship.listing profile | grep '^R' >named
export GRAVITAR="$gravitar"

skip() {
    skipped=$((skipped + 1))
    echo "$1: passed over, since $2"
}
tell() {
    passed=$((passed + 1))
    echo "$*"
}
say_log() { # NAME FILE
    [ -s want ]
    cmp want "$2"
    tell "$1: the log of gravitar run, $(wc -l <want) lines"
}

say_session() { # NAME FILE
    [ -s want.session ]
    cmp want.session "$2"
    tell "$1: the session of gravitar debug, $(wc -l <want.session) lines"
}

# Whether a compiler makes programs with these options that run.
can() { # COMPILER OPTIONS..
    { echo '#include <stdio.h>'; echo 'int main(void) { return puts("can") < 0; }'; } >can.c
    "$@" -o can can.c >can.txt 2>&1 && ./can >>can.txt 2>&1
}

# The examples and the limits in C.
try_c() { # NAME COMPILER OPTIONS..
    say=$1
    shift
    for example in frames game records session; do
        "$@" -std=c11 -Wall -Wextra -Werror -pedantic -I "$lib" -o "$example" "$here/$example.c" \
            "$lib/libgravitar.a"
    done
    ./frames $words >c.log 2>frames.txt
    say_log "$say: frames" c.log
    ./game ship/ship.s ship/ship.v 100 game.log game.tape game.pcm >game.txt
    "$gravitar" run ship.img game.tape | sed '$d' | cmp - game.log
    "$gravitar" pcm ship.img game.tape 34 | cmp - game.pcm
    tell "$say: game: $(cat game.txt)"
    ./records "$here/kinds.s" "$here/kinds.v" ship/ship.tape 1000000 >records.txt
    ./records ship/ship.s ship/ship.v ship/ship.tape 13600000 >records.txt
    tell "$say: records: $(cat records.txt)"
    ./session $session >c.session
    say_session "$say: session" c.session
    (CC=$1 && shift && CFLAGS=$* && export CC CFLAGS && "$root/bindings/c/compare.sh" "$lib") >compare.txt
    tell "$say: compare: $(cat compare.txt)"
    "$@" -std=c11 -Wall -Wextra -Werror -I "$lib" -o limits "$root/bindings/c/limits.c" "$lib/libgravitar.a" \
        -Wl,--wrap=malloc,--wrap=realloc,--wrap=free -pthread
    ./limits ship/ship.s ship/ship.v ship/ship.tape >limits.txt
    tell "$say: limits: at most $(sed -n 's/.* \([0-9]*\) bytes of stack.*/\1/p' limits.txt | sort -n | tail -n 1)" \
        "bytes of stack"
}
try_both() { # NAME COMPILER OPTIONS..
    say=$1
    shift
    can "$@" || { skip "$say" "it isn't there or builds nothing"; return 0; }
    try_c "$say" "$@" -O2
    if can "$@" -fsanitize=address,undefined; then
        try_c "$say with sanitizers" "$@" -O1 -g -fsanitize=address,undefined -fno-sanitize-recover=all
    else
        skip "$say with sanitizers" "it has none"
    fi
}
try_both gcc gcc
try_both clang clang
# The kit's compiler has no headers of its own.
kit=$(command -v rt >/dev/null && dirname "$(rt doc | tail -1)" || true)
try_both "the kit's clang" "$kit/toolchain/bin/clang" -isystem "$(gcc -print-file-name=include)"
"$root/bindings/c/rows.sh" "$lib" >rows.txt || { cat rows.txt; exit 1; }
tell "rows by one call each: $(tail -n 1 rows.txt)"
if command -v valgrind >/dev/null; then
    gcc -std=c11 -O1 -g -I "$lib" -o frames "$here/frames.c" "$lib/libgravitar.a"
    valgrind -q --error-exitcode=9 --leak-check=full ./frames $words >c.log 2>frames.txt || { cat frames.txt; exit 1; }
    say_log "gcc under valgrind: frames" c.log
else
    skip valgrind "it isn't there"
fi
if command -v g++ >/dev/null; then
    { echo '#include "gravitar.h"'; echo 'int main() { return gravitar_version() - GRAVITAR_VERSION; }'; } >c.cc
    g++ -Wall -Wextra -Werror -pedantic -I "$lib" -o cc c.cc "$lib/libgravitar.a" && ./cc
    tell "g++: the header"
fi
if command -v pkg-config >/dev/null; then
    # Its words are quoted for a shell.
    eval "gcc -O2 -o shared \"\$here/frames.c\" $(PKG_CONFIG_PATH=$lib pkg-config --cflags --libs gravitar)"
    LD_LIBRARY_PATH=$lib ./shared $words >shared.log 2>frames.txt
    say_log pkg-config shared.log
else
    skip pkg-config "it isn't there"
fi

# The package for Python, built from a copy of its folder.
try_python() { # NAME, and the settings of the environment
    say=$1
    shift
    tests=$root/bindings/python/tests
    env "$@" PYTHONPATH="$work/site" python3 -B -m unittest discover -v -s "$tests" >python.txt 2>&1 ||
        { cat python.txt; exit 1; }
    tell "$say: $(sed -n 's/^Ran \([0-9]*\) .*/\1 tests/p' python.txt)"
    ! grep -q ' skipped .*Dask' python.txt || skip "$say: Dask" "it isn't there"
    env "$@" PYTHONPATH="$work/site" python3 -B "$tests/beside_program.py" "$gravitar" >python.txt || { cat python.txt; exit 1; }
    tell "$say: beside the program: $(cat python.txt)"
    env "$@" PYTHONPATH="$work/site" python3 -B "$here/profile.py" ship/ship.s ship/ship.v ship/ship.tape 5000000 >python.named
    cmp named python.named
    tell "$say: the profile of gravitar profile with names, $(wc -l <named) lines"
    env "$@" PYTHONPATH="$work/site" python3 -B "$here/picture.py" $words picture.svg >python.log
    say_log "$say" python.log
}
if ! command -v python3 >/dev/null; then
    skip python3 "it isn't there"
elif ! python3 -m pip --version >/dev/null 2>&1; then
    skip "pip install" "python3 has no pip; the package's folder is taken as it is"
    cp -R "$root/bindings/python" site
    try_python python3 "GRAVITAR_LIB=$lib"
else
    cp -R "$root/bindings/python" package
    GRAVITAR_LIB=$lib python3 -m pip install -q --no-build-isolation --no-index --root-user-action ignore \
        --disable-pip-version-check --target site ./package
    try_python python3 -u GRAVITAR_LIB
    asan=$(gcc -print-file-name=libasan.so)
    if [ -e "$asan" ]; then
        try_python "python3 with gcc's address sanitizer" -u GRAVITAR_LIB LD_PRELOAD="$asan" \
            ASAN_OPTIONS=detect_leaks=0
    fi
fi
[ ! -e picture.svg ] || echo "picture.svg has $(grep -c '^<path' picture.svg) strokes"

# The crate for Rust, built elsewhere.
if command -v cargo >/dev/null; then
    export GRAVITAR_LIB="$lib" CARGO_TARGET_DIR="$work/target"
    manifest=$root/bindings/rust/Cargo.toml
    cargo test -q --offline --manifest-path "$manifest" >cargo.txt 2>&1 || { cat cargo.txt; exit 1; }
    tell "cargo test: $(awk '/^test result: ok/ { sum += $4 } END { print sum }' cargo.txt) tests"
    cargo run -q --offline --release --manifest-path "$manifest" --example frames -- $words >rust.log
    say_log cargo rust.log
    cargo run -q --offline --release --manifest-path "$manifest" --example session -- $session >rust.session
    say_session cargo rust.session
    target=$(rustc -vV | sed -n 's/^host: //p')
    if RUSTUP_AUTO_INSTALL=0 RUSTFLAGS=-Zsanitizer=address cargo +nightly test -q --offline --tests --manifest-path "$manifest" \
        --target "$target" >cargo.txt 2>&1; then
        tell "cargo +nightly with the address sanitizer: the tests"
    elif grep -q '^test result: FAILED\|AddressSanitizer' cargo.txt; then
        cat cargo.txt
        exit 1
    else
        skip "cargo +nightly -Zsanitizer=address" "this machine's doesn't build it"
    fi
else
    skip cargo "it isn't there"
fi
[ "$passed" -gt 0 ] || stop "nothing was tried"
whole=1
echo "$passed passed, 0 failed, $skipped skipped"
