#!/bin/sh
# The module of the page in web/, and the page as one file.
#   web.sh           makes web/module.js from the sources, by quick.sh --wasm in two minutes,
#                    web/examples.js from the examples, and web/single.js from the page
#   web.sh --check   makes them elsewhere, and compares: status 1 where one isn't the same
#   web.sh --single OUT.html [IMAGE [TAPE]]   writes the page with its scripts, and with a game, as
#                    one file that can be sent to somebody
# All but --single need rt of the Rattle kit on the path, and all need python3.
set -eu
usage() { sed -n 's/^# *//; 2,8p' "$0" >&2; exit 2; }
tools=$(cd "$(dirname "$0")" && pwd -P)
web=$tools/../web

if [ "${1-}" = --single ]; then
    [ $# -ge 2 ] && [ $# -le 4 ] || usage
    shift
    exec python3 "$tools/wasm/single_page.py" "$web/index.html" "$@"
fi
case "$#,${1-}" in 0, | 1,--check) ;; *) usage ;; esac
work=$(mktemp -d) || exit 2
trap 'rm -rf "$work"' EXIT
trap 'exit 1' INT TERM HUP

"$tools/quick.sh" --wasm "$work/gravitar.wasm" >"$work/said"
sum=$(sha256sum <"$work/gravitar.wasm" | cut -d ' ' -f 1)
{
    echo '// The library as a module of WebAssembly, in base64, which tools/web.sh made from the'
    echo "// sources with $(rt version). Nothing of it is proved."
    echo "// SHA-256 of the module: $sum"
    echo 'var GRAVITAR_MODULE = `'
    base64 -w 96 "$work/gravitar.wasm"
    echo '`;'
} >"$work/module.js"

if [ "${1-}" != --check ]; then
    cp "$work/module.js" "$web/module.js"
    echo "web/module.js: $(wc -c <"$web/module.js") bytes, of the module $sum"
    python3 "$tools/web_examples.py"
    exec python3 "$tools/web_single.py"
fi
status=0
if cmp -s "$work/module.js" "$web/module.js"; then
    echo "web/module.js is what the sources give: the module $sum"
else
    echo "web/module.js isn't what the sources give, which is the module $sum;" \
        "it names $(sed -n 's/.*SHA-256 of the module: //p' "$web/module.js" | head -n 1)." \
        "tools/web.sh makes it again" >&2
    status=1
fi
python3 "$tools/web_examples.py" --check || status=1
python3 "$tools/web_single.py" --check || status=1
exit "$status"
