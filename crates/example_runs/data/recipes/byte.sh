#!/bin/sh
# Bytes of a saved board's RAM or vector RAM, two hexadecimal digits each:  byte.sh BOARD HHHH [N]
set -eu
[ $# = 2 ] || [ $# = 3 ] || { echo "usage: byte.sh BOARD HHHH [N]" >&2; exit 2; }
case $2 in
    0[0-7][0-9A-Fa-f][0-9A-Fa-f]) from=260 ;;
    2[0-7][0-9A-Fa-f][0-9A-Fa-f]) from=$(( 2308 - 0x2000 )) ;;
    *) echo "byte.sh: no address of the RAM or the vector RAM: $2" >&2; exit 2 ;;
esac
od -An -v -tx1 -j $(( from + 0x$2 )) -N "${3:-1}" < "$1" | tr 'a-f' 'A-F' | sed 's/^ *//'
