#!/bin/sh
# Does the rows of crates/board_rows/data with a program that has this command line, each row in an empty
# folder, and prints a line a row. FORMAT.txt beside the rows says how they are written, docs/SUITE.md how
# they are used with another emulator.
#   rows.sh PROGRAM [--row TEXT] [--part K/N] [--tap] [--seconds N] [FILE..]
# Without files: all that crates/board_rows/args names. --row: only the rows with this text in their title.
# --part: of N parts of these rows the Kth, so that several can be done at a time. --tap: the lines are TAP,
# version 13. --seconds: a command has so many seconds (60), and is then killed, which is status 137. ASM in
# the environment names another program, which does the commands `asm` for one that has none.
# A row that differs is printed with what was wanted and what came: the first line in which they differ, and
# two lines on both sides of it. A command with a call that fails is left out, since no call of a program can
# be made to fail from here; the last line but one counts these.
# The last line is `N passed, M failed`. The status is 1 where a row differs, and 2 where nothing was tried:
# a word or a file that isn't known, no row of this title, a `with` without its text, a tool that isn't there.
set -euf
usage() { sed -n 's/^# *//; 5p' "$0" >&2; exit 2; }
stop() { printf 'rows.sh: %s\n' "$1" >&2; exit 2; }

program= row= only= tap= part=1 parts=1 seconds=60
while [ $# -gt 0 ]; do
    case $1 in
        --row | --part | --seconds)
            [ $# -gt 1 ] || usage
            case $1 in
                --row) row=$2 only=1 ;;
                --part) case $2 in */*) part=${2%%/*} parts=${2#*/} ;; *) usage ;; esac ;;
                *) seconds=$2 ;;
            esac
            shift ;;
        --tap) tap=1 ;;
        -*) usage ;;
        *)
            [ -z "$program" ] || break
            [ "$1" ] || usage
            program=$1 ;;
    esac
    shift
done
[ "$program" ] || usage
for number in "$seconds" "$part" "$parts"; do case $number in '' | *[!0-9]* | 0*) usage ;; esac; done
[ "$part" -le "$parts" ] || usage
for tool in awk cat cksum cmp cp dd grep head ls mkfifo mktemp od rm sed sort timeout tr uniq wc; do
    command -v "$tool" >/dev/null || stop "no $tool on the path"
done
[ "$(awk 'BEGIN { print substr("awk works", 5) }' 2>/dev/null)" = works ] || stop "this awk doesn't work"

# The whole path of a program.
whole_path() {
    found=$(command -v "$1") && [ -f "$found" ] && [ -x "$found" ] || stop "no program $1"
    case $found in /*) ;; *) found=$PWD/$found ;; esac
}
whole_path "$program"
program=$found
assembler=$program
[ -z "${ASM-}" ] || { whole_path "$ASM" && assembler=$found; }
tools=$(CDPATH= cd -- "$(dirname -- "$0")" && pwd)
data=$tools/../crates/board_rows
if [ $# -eq 0 ]; then
    [ -r "$data/args" ] || stop "no rows in $data"
    while IFS= read -r name; do set -- "$@" "$data/data/$name"; done <"$data/args"
fi
for file; do
    [ -f "$file" ] && [ -r "$file" ] || stop "no file $file"
    # awk takes a name with an equals sign as a variable.
    case $file in /* | ./* | ../*) ;; *) file=./$file ;; esac
    set -- "$@" "$file"
    shift
done
work=$(mktemp -d) || exit 2
trap 'rm -rf "$work"' EXIT
trap 'exit 1' INT TERM HUP
mkdir "$work/given" "$work/parts"

# Looks at the form of each line, and prints the rows that are wanted. A given text that only these rows want stands there as `needs NAME`.
suite='
function bad(why) { print FILENAME ": line " FNR ": " why > "/dev/stderr"; failed = 1; exit 2 }
/^(row|given) ./ {
    n++
    title = $0; sub(/^[a-z]+ /, "", title)
    keep[n] = (!only || index(title, row)) && found++ % parts == part - 1; wanted += keep[n]
    if ($1 == "given") given[title] = n
}
/^$/ || /^#/ { next }
!n { bad("no row begins here") }
/^with / {
    name = substr($0, 6)
    if (!(name in given) || given[name] == n) bad("no given " name " stands before")
    needs[n, ++count[n]] = given[name]
}
!/^([|\\:?@]|\.\.\.$|once$|out$|\$ gravitar( |$)|(row|given|with|file|status|note|store|same|keep|text) .|patch [^ ]+ [0-9]+$|length [^ ]+ [0-9]+$|copy [^ ]+ [^ ]+$|at [0-9]+$|sum [0-9]+ [0-9]+$|fail (out|shelf) [0-9]+$)/ {
    bad("no line of a suite: " $0)
}
{ block[n] = block[n] $0 "\n" }
END {
    if (failed) exit 2
    if (!wanted) { print only ? "no row has this in its title: " row : "no row" > "/dev/stderr"; exit 2 }
    for (b = n; b; b--) if (keep[b] || need[b]) for (k = 1; k <= count[b]; k++) need[needs[b, k]] = 1
    for (b = 1; b <= n; b++) {
        if (!keep[b]) sub(/^given/, "needs", block[b])
        if (keep[b] || need[b]) printf "%s", block[b]
    }
}'
ROW=$row awk -v only="$only" -v part="$part" -v parts="$parts" 'BEGIN { row = ENVIRON["ROW"] }'"$suite" "$@" >"$work/suite" || exit 2
wanted=$(grep -c -e '^row ' -e '^given ' "$work/suite")
passed=0 failed=0 skipped=0 number=0 title= differs= step= words= tried= given=

# A byte in octal digits; so many bytes; the bytes of a line of hexadecimal digits, and of a content.
octal() { printf '%03o' "0x$1"; }
run_of() { [ "$2" -eq 0 ] || dd if=/dev/zero bs="$2" count=1 2>/dev/null | tr '\000' "\\$(octal "$1")"; }
digits() { for w in $1; do case $w in *'*'*) run_of "${w%\**}" "${w#*\*}" ;; *) printf "\\$(octal "$w")" ;; esac; done; }
bytes() {
    while IFS= read -r l; do
        case $l in
            '|'*) printf '%s\n' "${l#?}" ;;
            '\'*) printf '%s' "${l#?}" ;;
            :*) digits "${l#?}" ;;
        esac
    done <"$1"
}
# The lines of $1 are a pattern for those of $2.
fits='
function fit(p, l,  f, w, k, r) {
    if (substr(p, 1, 1) == "|") return substr(p, 2) == l
    k = split(p, w, " "); f = p; sub(/ [0-9]+ [0-9]+$/, "", f); f = substr(f, 2) " "
    r = substr(l, length(f) + 1)
    return substr(l, 1, length(f)) == f && r ~ /^[0-9]+$/ && r + 0 >= w[k - 1] + 0 && r + 0 <= w[k] + 0
}
FILENAME == ARGV[1] { p[++n] = $0; next }
{ l[++m] = $0 }
END {
    for (i = j = 1; i <= n; i++) {
        if (p[i] == "...") { skip = 1; continue }
        first = j
        while (skip && j <= m && !fit(p[i], l[j])) j++
        if (j > m || !fit(p[i], l[j])) { print i, first; exit 1 }
        j++; skip = 0
    }
    if (skip || j > m) exit 0
    print n + 1, j; exit 1
}'
# The number of the first line in which $2 is other than $1.
first_line='
FILENAME == ARGV[1] { w[++n] = $0; next }
$0 != w[++m] || m > n { at = m; exit }
END { print at ? at : m + 1 }'

differ() { differs="$differs
  $ $words
  $*"; }

# Prints the lines of the file $2 about its line $3, each behind the word $1.
near() {
    awk -v word="$1" -v at="$3" 'NR >= at - 2 && NR <= at + 2 { print "    " word " " NR ": " $0 }
        END { if (NR < at) print "    " word " " at ": the end" }' "$2"
}
# Tells that $1 differs, with the lines of what was wanted ($2) and of what came ($3) about the first that differs.
differ_near() {
    at=$(awk "$first_line" "$2" "$3")
    differ "$1
$(near wanted "$2" "$at")
$(near came "$3" "$at")"
}
# The same for bytes, 16 in a line.
differ_bytes() {
    od -A d -t x1 -v "$2" >"$work/wanted_digits"
    od -A d -t x1 -v "$3" >"$work/came_digits"
    differ_near "$1" "$work/wanted_digits" "$work/came_digits"
}

# Does the command $words in the folder $1, with its text, note and status beside it. Its input is empty,
# its files have at most 32 MiB, and it has so many seconds.
perform() (
    cd "$work/$1"
    : >../status
    rest=${words#gravitar}
    set --
    while [ -n "$rest" ]; do
        rest=${rest# }
        w=${rest%% *}
        rest=${rest#"$w"}
        case $w in
            *'{'*) w=$(printf '%s\n' "$w" | awk '{
                a = index($0, "{"); z = index($0, "}"); split(substr($0, a + 1, z - a - 1), n, /\.\./)
                for (i = n[1]; i <= n[2]; i++) t = t (i == n[1] ? "" : ",") i
                print substr($0, 1, a - 1) t substr($0, z + 1) }') ;;
        esac
        set -- "$@" "$w"
    done
    does=$program ended=0
    [ "${1-}" != asm ] || does=$assembler
    ulimit -f 65536
    timeout -s KILL "$seconds" "$does" "$@" </dev/null >../text 2>../came || ended=$?
    echo $ended >../status
) 2>/dev/null

# The stores of the one name that has several, from a second run whose files of that name are a pipe.
earlier() {
    rm -rf "$work/again" && cp -R "$work/before" "$work/again"
    rm -f "$work/again/$1" && mkfifo "$work/again/$1"
    cat "$work/again/$1" >"$work/all" &
    exec 4>"$work/again/$1"
    perform again
    exec 4>&-
    wait
}

# Holds the bytes $2 of $3 against those that are wanted.
store_is() { cmp -s "$1" "$2" || differ_bytes "$3" "$1" "$2"; }

# How many lines a file has that say that this name is stored.
stores_of() { grep -c -e "^store $1\$" || true; }

# Holds the stores of a command against what is wanted: each line of `stores` is a part.
stores() {
    many=$(sed -n 's/^store //p' "$work/stores" | sort | uniq -d | head -n 1)
    count=$(stores_of "$many" <"$work/stores")
    case " $words " in *" $many "*" $many "*) many= ;; esac
    [ -z "$many" ] || earlier "$many"
    i=0 seen=0
    while read -r word rest; do
        i=$((i + 1))
        case $word in
            store)
                name=$rest store=$work/folder/$rest
                left=$(sed "1,${i}d" "$work/stores" | stores_of "$name")
                if [ "$left" -gt 0 ]; then
                    store=
                    if [ -n "$many" ]; then
                        store=$work/one size=$(($(wc -c <"$work/all") / count))
                        : >"$store"
                        [ $size -eq 0 ] || dd if="$work/all" of="$store" bs=$size skip=$seen count=1 2>/dev/null
                    fi
                    seen=$((seen + 1))
                fi
                [ -z "$store" ] || [ -f "$store" ] || { : >"$work/none"; store=$work/none; } ;;
            whole)
                [ ! -s "$work/parts/$rest" ] || [ -z "$store" ] || {
                    bytes "$work/parts/$rest" >"$work/want"
                    store_is "$work/want" "$store" "the store $name"
                } ;;
            at)
                [ -z "$store" ] || {
                    bytes "$work/parts/${rest#* }" >"$work/want"
                    dd if="$store" bs=1 skip="${rest% *}" count="$(($(wc -c <"$work/want")))" 2>/dev/null >"$work/piece"
                    store_is "$work/want" "$work/piece" "the store $name at ${rest% *}"
                } ;;
            same) [ -z "$store" ] || store_is "$work/before/$rest" "$store" "the store $name" ;;
            keep) cp "${store:-/dev/null}" "$work/folder/$rest" ;;
        esac
    done <"$work/stores"
}

# Holds the text of a command against its sum, its pattern or its lines.
text_is() {
    if [ -n "$sum" ]; then
        came=$(cksum <"$work/text")
        [ "$came" = "$sum" ] || differ "the text has the sum $came, not $sum"
        return
    fi
    ! grep -q '^@' "$work/lines" || texts
    if grep -q -e '^?' -e '^\.\.\.$' "$work/lines"; then
        at=$(awk "$fits" "$work/lines" "$work/text") || differ "the text
$(near wanted "$work/lines" "${at% *}")
$(near came "$work/text" "${at#* }")"
        return
    fi
    bytes "$work/lines" >"$work/want"
    cmp -s "$work/want" "$work/text" ||
        if grep -q '^:' "$work/lines"; then differ_bytes "the text" "$work/want" "$work/text"
        else differ_near "the text" "$work/want" "$work/text"; fi
}

# Holds the note of a command against what is wanted: a whole line with its line feed, or how it begins.
note_is() {
    case $note in
        '') : >"$work/want" ;;
        *...)
            came=$(head -n 1 "$work/came")
            case $came in "${note%...}"*) printf '%s\n' "$came" >"$work/want" ;; *) printf '%s\n' "$note" >"$work/want" ;; esac ;;
        *) printf '%s\n' "$note" >"$work/want" ;;
    esac
    cmp -s "$work/want" "$work/came" || differ_bytes "the note, which begins with $(head -n 1 "$work/came" | tr -d '\000')" "$work/want" "$work/came"
}

# Does a command, and holds what it did against what is wanted.
command_step() {
    tried=1
    rm -rf "$work/before" && cp -R "$work/folder" "$work/before"
    perform folder
    read -r came <"$work/status" || came=none
    [ "$came" = "$status" ] || differ "status $came, not $status"
    note_is
    text_is
    { ls -A "$work/before"; sed -n 's/^store //p' "$work/stores"; } | sort -u >"$work/names"
    ls -A "$work/folder" | sort | cmp -s - "$work/names" || differ "the files: $(ls -A "$work/folder" | tr '\n' ' ')"
    stores
    [ -z "$kept_text" ] || cp "$work/text" "$work/folder/$kept_text"
}

# Puts the lines of a file in the place of each line that names it.
texts() {
    while IFS= read -r l; do
        case $l in '@'*) sed 's/^/|/' "$work/before/${l#?}" ;; *) printf '%s\n' "$l" ;; esac
    done <"$work/lines" >"$work/all_lines"
    mv "$work/all_lines" "$work/lines"
}

# Does what the last step asks for, with its content; and then the row's end.
flush() {
    set -- $step
    step=
    case ${1:-} in
        '$') if [ -n "$fails" ]; then skipped=$((skipped + 1)); else command_step; fi ;;
        file) bytes "$work/lines" >"$work/folder/$2" ;;
        patch) bytes "$work/lines" | dd of="$work/folder/$2" bs=1 seek="$3" conv=notrunc 2>/dev/null ;;
        length)
            mv "$work/folder/$2" "$work/old"
            { cat "$work/old"; run_of 00 "$3"; } | dd bs=1 count="$3" of="$work/folder/$2" 2>/dev/null ;;
        copy) cp "$work/folder/$2" "$work/folder/$3" ;;
    esac
}
# Prints the line of a row, and behind it what differs.
tell() {
    if [ -z "$tap" ]; then
        printf '%s %s%s\n' "$1" "$title" "$differs"
    else
        number=$((number + 1))
        case $1 in ok) word=ok ;; *) word='not ok' ;; esac
        printf '%s %s - %s%s\n' "$word" "$number" "$(printf '%s\n' "$title" | sed 's/[\\#]/\\&/g')" "${2-}"
        [ -z "$differs" ] || printf '%s\n' "${differs#?}" | sed 's/^/# /'
    fi
}
end_row() {
    flush
    if [ -z "$title" ]; then
        return
    elif [ -n "$differs" ]; then
        failed=$((failed + 1))
        tell differs
    elif [ -n "$tried" ]; then
        passed=$((passed + 1))
        tell ok
    else
        wanted=$((wanted - 1))
        [ -z "$tap" ] || tell ok ' # SKIP it has no command that can be tried'
    fi
    title= differs= tried=
}

# A line of the suite. $into is where its content goes.
line() {
    case $1 in
        '' | '#'*) ;;
        '|'* | '\'* | :* | '?'* | '@'* | ...) printf '%s\n' "$1" >>"$into" ;;
        status\ *) status=${1#* } ;;
        note\ *) note=${1#* } ;;
        text\ *) kept_text=${1#* } ;;
        sum\ *) sum=${1#* } ;;
        fail\ *) fails=1 ;;
        out) into=$work/lines ;;
        store\ * | same\ * | keep\ * | at\ *)
            parts=$((parts + 1)) into=$work/parts/$parts
            : >"$into"
            case $1 in at\ *) echo "$1 $parts" ;; store\ *) echo "$1"; echo "whole $parts" ;; *) echo "$1" ;; esac >>"$work/stores" ;;
        with\ *)
            flush
            lines <"$work/given/${1#with }" ;;
        once) flush ;;
        *)
            flush
            step=$1 status=0 note= sum= fails= kept_text= parts=0 into=$work/lines words=${1#'$ '}
            : >"$into"
            : >"$work/stores" ;;
    esac
}
lines() { while IFS= read -r l_; do line "$l_"; done; }

[ -z "$tap" ] || echo "TAP version 13"
needed=
while IFS= read -r l_ <&3; do
    case $l_ in
        needs\ *)
            end_row
            needed=$work/given/${l_#needs }
            : >"$needed" ;;
        row\ * | given\ *)
            end_row
            title=$l_ given= needed=
            rm -rf "$work/folder" && mkdir "$work/folder"
            case $title in given\ *) given=$work/given/${title#given } && : >"$given" ;; esac ;;
        *)
            if [ -n "$needed" ]; then
                printf '%s\n' "$l_" >>"$needed"
                continue
            fi
            [ -z "$given" ] || printf '%s\n' "$l_" >>"$given"
            line "$l_" ;;
    esac
done 3<"$work/suite"
end_row
note=
[ -z "$tap" ] || { echo "1..$number"; note='# '; }
[ "$skipped" -eq 0 ] || echo "${note}left out: $skipped commands with a call that fails"
[ $((passed + failed)) -eq "$wanted" ] || stop "$((passed + failed)) of $wanted rows were done"
[ "$wanted" -gt 0 ] || stop "no command was tried"
echo "$note$passed passed, $failed failed"
[ "$failed" -eq 0 ]
