#!/bin/sh
# FOLDER: changes a copy of the crates so that gravitar_c is the program with the library's calls.
# `rt try` runs no static library, so quick.sh tries this in its place.
set -eu
[ $# = 1 ] || { echo "quick_lib.sh FOLDER" >&2; exit 2; }
cd "$1"
sed -i 's/^gravitar_c staticlib:/gravitar_c:/' crates.txt
main=crates/gravitar_program/src/main.rt
cd crates/gravitar_c/src
sed -e '/^\/\/!/d' -e '/^#!\[tactic/d' lib.rt >exports.rt
{
    sed -n '1,/^#!\[tactic/p' "../../../$main"
    echo 'mod exports;'
    # No process has the number 0; the condition is there that the calls are compiled.
    sed -e '1,/^#!\[tactic/d' -e '/^fn main/a\
    if process::id(rt.process()) == 0 {\
        return ExitCode::from(calls(rt.alloc()));\
    }' "../../../$main"
    cat <<'END'

use run_stretch::calls::GravitarReport;
use exports::{
    gravitar_advance, gravitar_assemble, gravitar_command, gravitar_pcm, gravitar_power_on,
    gravitar_records, gravitar_version,
};

fn calls(alloc: Global) -> u8 {
    let mut board = [0u8; 8];
    let mut text = [0u8; 8];
    let mut report = GravitarReport { clock: 0, used: 0, place: 0 };
    let image = [0u8; 8];
    if gravitar_version() == 0
        || gravitar_power_on(&mut board) == 0
        || gravitar_advance(alloc, &image, &mut board, &image, 1, 0, 0, &mut text, &mut report) == 0
        || gravitar_records(alloc, &image, &mut board, &image, 1, 0, 0, &mut text, &mut report) == 0
        || gravitar_pcm(alloc, &image, &mut board, &image, 1, 1, 0, &mut text, &mut report) == 0
        || gravitar_assemble(alloc, &image, &image, &mut board, &mut text, &mut report) == 0
        || gravitar_command(alloc, &image, &mut text, &mut report) == 0
    {
        return 0;
    }
    1
}
END
} >main.rt
rm lib.rt
