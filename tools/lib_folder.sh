#!/bin/sh
# Completes the folder of a library for C, which programs in each language take as it is.
#   lib_folder.sh FOLDER            FOLDER has libgravitar.a, as quick.sh --lib builds it without a proof
#   lib_folder.sh --proved FOLDER   also builds libgravitar.a, of crates/gravitar_c, which `rt lib` proves
# FOLDER gets libgravitar.so, gravitar.h and gravitar.pc. It may be moved: gravitar.pc names its own folder.
# It needs gcc and ar, and for --proved rt of the Rattle kit.
set -eu
proved=
[ "${1-}" != --proved ] || { proved=1; shift; }
[ $# = 1 ] || { sed -n 's/^# *//; 2,6p' "$0" >&2; exit 2; }
root=$(CDPATH= cd -- "$(dirname -- "$0")" && pwd -P)/..
mkdir -p -- "$1"
CDPATH= cd -- "$1"
work=$(mktemp -d) || exit 2
trap 'rm -rf "$work"' EXIT
trap 'exit 1' INT TERM HUP

if [ "$proved" ]; then
    kit=$(dirname "$(rt doc | tail -1)")
    (cd "$root/crates/gravitar_c" && rt lib) >"$work/said" 2>&1 || { cat "$work/said" >&2; exit 1; }
    # The kit's part for malloc, realloc and free goes into the archive, so that it is all that a program links.
    mkdir "$work/parts"
    (cd "$work/parts" && ar x "$root/crates/gravitar_c/out/libgravitar_c.a" && ar x "$kit/c/liblibc_c.a")
    rm -f libgravitar.a
    ar rcs libgravitar.a "$work"/parts/*.o
fi

# The shared object has no names but those of the header.
echo '{ global: gravitar_*; local: *; };' >"$work/names"
gcc -shared -o libgravitar.so -Wl,-soname,libgravitar.so -Wl,--version-script="$work/names" \
    -Wl,--whole-archive libgravitar.a -Wl,--no-whole-archive
cp "$root/include/gravitar.h" .
cat >gravitar.pc <<END
libdir=\${pcfiledir}
includedir=\${pcfiledir}

Name: gravitar
Description: A colour vector arcade board as calls of plain bytes and numbers
Version: $(sed -n 's/^#define GRAVITAR_VERSION //p' gravitar.h)
Libs: -L\${libdir} -Wl,-rpath,\${libdir} -lgravitar
Cflags: -I\${includedir}
END
