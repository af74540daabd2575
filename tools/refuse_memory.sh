#!/bin/sh
# Refuses each allocation of a built program in turn, and looks at what it does then (docs/COMMANDS.md, status 7).
#   refuse_memory.sh PROGRAM
# A library that is loaded before the C library's answers the Nth call of malloc, calloc or realloc with null, for each N from 1 up to
# the number of calls and three more. Where one was refused, the status has to be 7, the note `gravitar: no memory`, no byte of text
# written, and no file made or changed; where none was, all is as without the library. It needs sh, cc, cmp and diff.
# It prints a line for each run that differs, and then a table: calls, refused, wrong, the status with none refused, the command.
# A command has 60 seconds. The last line is `N passed, M failed`, which are runs. The status is 1 where one is wrong, and 2 where
# nothing was tried: no program or compiler, a program that makes no files, that the library isn't loaded into, or that makes no call.
set -euf
stop() { printf 'refuse_memory.sh: %s\n' "$1" >&2; exit 2; }
[ $# = 1 ] || { sed -n 's/^# *//; 3p' "$0" >&2; exit 2; }
program=$(command -v "$1") && [ -f "$program" ] && [ -x "$program" ] || stop "no program $1"
case $program in /*) ;; *) program=$PWD/$program ;; esac
for tool in cc cmp cp diff env mktemp timeout wc; do command -v "$tool" >/dev/null || stop "no $tool on the path"; done
examples=$(CDPATH= cd -- "$(dirname -- "$0")" && pwd)/../examples
work=$(mktemp -d) || exit 2
trap 'rm -rf "$work"' EXIT
trap 'exit 1' INT TERM HUP
passed=0 wrong=0

# The library: it counts the calls, refuses one, and writes their number to a file at the program's end.
source_of_it() {
    cat <<'END'
#include <errno.h>
#include <fcntl.h>
#include <stdlib.h>
#include <unistd.h>

void *__libc_malloc(size_t size);
void *__libc_calloc(size_t count, size_t size);
void *__libc_realloc(void *old, size_t size);

static long calls, refused = -1;

static int refuses(void) {
    if (refused < 0) {
        const char *word = getenv("REFUSE_CALL");
        refused = word ? atol(word) : 0;
    }
    if (++calls != refused)
        return 0;
    errno = ENOMEM;
    return 1;
}

void *malloc(size_t size) { return refuses() ? NULL : __libc_malloc(size); }
void *calloc(size_t count, size_t size) { return refuses() ? NULL : __libc_calloc(count, size); }
void *realloc(void *old, size_t size) { return refuses() ? NULL : __libc_realloc(old, size); }

__attribute__((destructor)) static void tell(void) {
    char digits[24], *at = digits + sizeof digits;
    int file = open(getenv("REFUSE_TOLD"), O_WRONLY | O_CREAT | O_TRUNC, 0666);
    long left = calls;
    *--at = '\n';
    do
        *--at = '0' + left % 10;
    while (left /= 10);
    if (file >= 0 && write(file, at, digits + sizeof digits - at) > 0)
        close(file);
}
END
}
library() { source_of_it >"$work/refuse.c" && cc -O1 -fno-builtin -shared -fPIC -o "$work/refuse.so" "$work/refuse.c"; }

# The files of all commands, in the folder `given`.
files() {
    mkdir "$work/given"
    cd "$work/given"
    cp "$examples/score/score.s" c && cp "$examples/score/score.v" v
    cp "$examples/score/first.tape" t && cp "$examples/score/blank.cells" e
    printf '        .org $9000\nstart:  .byte 2\n        .org $FFFC\n        .word start\n' >jam.s
    printf '        .org $9000\n        lda #256\n' >bad.s
    : >empty.v
    printf '5 IN0 3F\n20 XX 00\n' >bad.t
    printf 'break 9005\nwatch 0010\nstopvg\nstep 20\nregs\ngo\ngo\ndev\nmem 0000 64\ndis 9000 8\nvdis 2800 4\nclear\nuntil 9000\ngo\n' >d
    printf 'regs\nbreak 90\n' >bad.d
    limited "$program" asm c v i >/dev/null && limited "$program" asm jam.s empty.v jam >/dev/null &&
        limited "$program" run i t --until 300 --save b >/dev/null || return 1
    [ "$(cat i jam | wc -c)" -eq 86016 ] && [ "$(wc -c <b)" -eq 4356 ]
}

# The commands. The last ones end with another status without a refusal, too.
commands() {
    cat <<'END'
run i t
run i t --cuts 5,200,200,3000 --save s
run i t --state b --earom e --until 900 --timers
run i t --state b --earom e --cuts 301,302,7000 --save b --cost
run jam t --save s
show b
asm c v o
debug i t d
debug i t d --state b --earom e --timers
soak 1
pcm i t 8
frames i t
seek i t 9000,5,200,5
profile i t --state b
run i
run none t
run i bad.t
run b t
show e
asm bad.s v o
debug i t bad.d
END
}

# Does a command for 60 seconds at most: 137 is its status then.
limited() { timeout -s KILL 60 "$@" </dev/null; }

# Does a command in a fresh folder: its text, note and status stand beside that.
perform() {
    rm -rf "$work/folder"
    cp -R "$work/given" "$work/folder"
    cd "$work/folder"
    status=0
    limited "$@" >"$work/text" 2>"$work/note" || status=$?
}
refusing() {
    rm -f "$work/told"
    perform env LD_PRELOAD="$work/refuse.so" REFUSE_CALL="$1" REFUSE_TOLD="$work/told" "$program" $words
    calls=$(cat "$work/told" 2>/dev/null) || calls=
}

# Whether the last command was refused memory and nothing else; whether it did what the whole does.
is_refused() {
    [ "$status" = 7 ] && printf 'gravitar: no memory\n' | cmp -s - "$work/note" && [ ! -s "$work/text" ] &&
        diff -r "$work/given" "$work/folder" >/dev/null
}
is_whole() {
    [ "$status" = "$whole" ] && cmp -s "$work/note" "$work/whole.note" && cmp -s "$work/text" "$work/whole.text" && diff -r "$work/whole" "$work/folder" >/dev/null
}

# Refuses each call of the command $words, and prints its line of the table.
command_line() {
    perform "$program" $words
    whole=$status
    [ "$whole" -lt 124 ] || stop "status $whole without a refusal: $words"
    rm -rf "$work/whole"
    mv "$work/folder" "$work/whole"
    mv "$work/text" "$work/whole.text"
    mv "$work/note" "$work/whole.note"
    n=0 refused=0 differ=0 beyond=0 made=
    while [ $beyond -lt 4 ]; do
        refusing $n
        if [ $n = 0 ]; then
            [ -n "$calls" ] || stop "the library isn't loaded into this program: $words"
            [ "$calls" -gt 0 ] || stop "no call was counted: $words"
        fi
        if [ $n -gt 0 ] && [ "${calls:-$n}" -ge $n ]; then
            refused=$((refused + 1))
            good=is_refused
        else
            [ $n = 0 ] || [ "$calls" = "$made" ] || differ=$((differ + 1))
            beyond=$((beyond + 1)) made=$calls good=is_whole
        fi
        if $good; then
            passed=$((passed + 1))
        else
            differ=$((differ + 1))
            echo "wrong: call $n of $words: status $status, $(wc -c <"$work/text") bytes of text, $(head -c 200 "$work/note")"
        fi
        n=$((n + 1))
    done
    wrong=$((wrong + differ))
    printf '%5s %8s %6s %7s  %s\n' "${made:-died}" $refused $differ "$whole" "$words" >>"$work/table"
}

library || stop "the compiler makes no library"
(files) || stop "this program makes no files to try: $program"
commands >"$work/commands"
while read -r words <&3; do command_line; done 3<"$work/commands"
printf '%5s %8s %6s %7s  %s\n' calls refused wrong status command
cat "$work/table"
echo "$passed passed, $wrong failed"
[ $wrong -eq 0 ]
