#!/bin/sh
# Real faults of a real system, and what a built program does at each (docs/COMMANDS.md, "Files, answers, notes" and "What faults leave").
#   real_faults.sh PROGRAM [KILLS]
# KILLS is how many runs with 1,000 stores each signal kills in each way of a store (tools/killed_stores.py): 50. With 700 it is 10,500 a folder.
# A line a case: `ok` or `differs`, the case, and what came: the status, the note, how many bytes of text, and how many bytes stand under
# the names that are looked at (- where there is none). Behind `differs` stands what had to come. `skipped` is what this system doesn't
# allow: mounting, another user (setpriv), stopping at a call (strace), a pipe that doesn't wait (perl), attributes of files (chattr).
# The last line is `N passed, M failed, K skipped`. The status is 1 where one differs, and 2 where nothing was tried: no program, one that
# makes no image, a number of kills that isn't above 0.
# A command has 20 seconds. A status above 128 is a signal's: 137 SIGKILL, also where they are over, 139 SIGSEGV, 143 SIGTERM,
# 152 SIGXCPU, 153 SIGXFSZ.
set -eu
stop() { printf 'real_faults.sh: %s\n' "$1" >&2; exit 2; }
case $#:${2-1} in 1:* | 2:[1-9]*) ;; *) sed -n 's/^# *//; 3p' "$0" >&2; exit 2 ;; esac
kills=${2:-50}
case $kills in *[!0-9]*) stop "no number of kills: $kills" ;; esac
program=$(command -v "$1") && [ -f "$program" ] && [ -x "$program" ] || stop "no program $1"
case $program in /*) ;; *) program=$PWD/$program ;; esac
for tool in cmp cp head mkfifo mktemp sed seq stat timeout wc yes; do command -v "$tool" >/dev/null || stop "no $tool on the path"; done
tools=$(CDPATH= cd -- "$(dirname -- "$0")" && pwd)
examples=$tools/../examples
work=$(mktemp -d) || exit 2
trap 'umount "$work/folder/disk" 2>/dev/null || true; chattr -R -a "$work" 2>/dev/null || true; rm -rf "$work"' EXIT
trap 'exit 1' INT TERM HUP
chmod 755 "$work"
ulimit -c 0
passed=0 failed=0 skipped=0 status=0
outside='gravitar: outside fault'

# A command for 20 seconds at most.
limited() { timeout -s KILL 20 "$@"; }
usage=$(limited "$program" 2>&1 </dev/null) || true

# A fresh folder with an image, its sources, a tape to clock 10,000, one of two million clocks, cells, a board, and scripts.
fresh() {
    cd "$work"
    rm -rf folder
    mkdir folder
    cd folder
    cp "$examples/score/score.s" c && cp "$examples/score/score.v" v && cp "$examples/score/blank.cells" e
    printf '9000 END\n' >t
    printf '2000000 END\n' >long
    printf 'regs\ngo\n' >d
    : >none.d
    [ -f "$work/i" ] || {
        limited "$program" asm c v "$work/i" && limited "$program" run "$work/i" t --until 300 --save "$work/b"
    } >"$work/whole" </dev/null && [ "$(size_of "$work/i")" = 43008 ] && [ "$(size_of "$work/b")" = 4356 ] || stop "no image and board of $program"
    cp "$work/i" i && cp "$work/b" b
    : >"$work/text"
    : >"$work/note"
}

# Does a command: its text and its note stand beside the folder.
does() { status=0; limited "$program" "$@" >"$work/text" 2>"$work/note" || status=$?; }
# The same in a shell that has done $1 first, such as a limit; quietly, as a shell tells of signals.
after() {
    before=$1
    shift
    status=0
    { (exec timeout -s KILL 20 sh -c "$before"' && exec "$0" "$@"' "$program" "$@") >"$work/text" 2>"$work/note" || status=$?; } 2>/dev/null
}

size_of() { [ -e "$1" ] && wc -c <"$1" | tr -d ' ' || echo -; }
# Holds what came against what has to come: the case, the status, the note, and a pattern of sizes: text, and then each name.
holds() {
    title=$1 want_status=$2 want_note=$3 want_sizes=$4
    shift 4
    sizes="text $(size_of "$work/text")"
    for name; do sizes="$sizes, $name $(size_of "$name")"; done
    note=$(head -c 300 "$work/note")
    word=ok wanted=
    [ "$status" = "$want_status" ] && [ "$note" = "$want_note" ] || word=differs
    case $sizes in $want_sizes) ;; *) word=differs ;; esac
    if [ $word = ok ]; then
        passed=$((passed + 1))
    else
        failed=$((failed + 1)) wanted=" (wanted: status $want_status, $want_note, $want_sizes)"
    fi
    told=$(printf '%s' "$note" | tr '\n' ' ' | cut -c1-60)
    printf '%s %s: status %s, %s%s%s\n' $word "$title" "$status" "${told:+$told, }" "$(printf '%s' "$sizes" | sed 's/0\{200\}/0../')" "$wanted"
    : >"$work/text"
    : >"$work/note"
}
# The new file that a store left beside a name, under a name of its own.
left() { mv "$1".*-0.new left 2>/dev/null || true; }
# A fact of another form.
fact() { if eval "$2"; then echo "ok $1: $3"; passed=$((passed + 1)); else echo "differs $1: $3"; failed=$((failed + 1)); fi; }
skip() { echo "skipped $1"; skipped=$((skipped + 1)); }
has() { command -v "$1" >/dev/null; }

output_faults() {
    fresh
    status=0; limited "$program" run i t --save s >/dev/full 2>"$work/note" || status=$?
    holds "the output is /dev/full" 6 "$outside" "text 0, s -" s
    status=0; limited "$program" run i t --save s >&- 2>"$work/note" || status=$?
    holds "no output at all" 6 "$outside" "text 0, s -" s
    status=0; limited "$program" run i t --cuts 0 --save s >&- 2>"$work/note" || status=$?
    holds "no output, and a store in front of the first text" 6 "$outside" "text 0, s 4356" s
    status=0; limited "$program" debug i t none.d >&- 2>"$work/note" || status=$?
    holds "no output, and no text" 0 "" "text 0"
    rm -f s
    status=0; limited "$program" run i t --save s <&- >&- 2>&- || status=$?
    holds "none of the three streams" 6 "" "text 0, s -, i 43008, t 9" s i t
    { code=0; limited "$program" pcm i long 1 2>"$work/note" || code=$?; echo $code >"$work/status"; } | head -c 100 >"$work/text"
    status=$(cat "$work/status")
    holds "a pipe that closes after 100 bytes" 6 "$outside" "text 100"
    { sleep 0.3; code=0; limited "$program" run i t 2>"$work/note" || code=$?; echo $code >"$work/status"; } | :
    status=$(cat "$work/status")
    holds "a pipe that is closed" 6 "$outside" "text 0"
    has perl || { skip "a full pipe that doesn't wait"; return 0; }
    limited perl -e 'use Fcntl; pipe(R, W); fcntl(W, F_SETFL, O_NONBLOCK); if (!fork) { open(STDOUT, ">&W"); exec(@ARGV) } wait; close(W);
        open(S, ">", "../status"); print S $? >> 8; close(S); print while sysread(R, $_, 65536)' "$program" pcm i long 1 >"$work/text" 2>"$work/note" || true
    status=$(cat "$work/status")
    holds "a full pipe that doesn't wait" 6 "$outside" "text [1-9]*"
}

note_faults() {
    fresh
    status=0; limited "$program" run none t 2>&- || status=$?
    holds "no standard error, an absent file" 5 "" "text 0"
    status=0; limited "$program" run i t --until 1 >"$work/text" 2>&- || status=$?
    holds "no standard error, a good run" 0 "" "text 4"
    status=0; limited "$program" run t i 2>/dev/full || status=$?
    holds "the standard error is /dev/full, a bad file" 4 "" "text 0"
    status=0; limited "$program" run i t --save s <&- >"$work/text" 2>"$work/note" || status=$?
    holds "no standard input" 0 "" "text *, s 4356" s
}

folders() {
    fresh
    mkdir folder
    for words in "run folder t" "run i folder" "run i t --state folder" "run i t --earom folder" "debug i t folder" "show folder" "asm folder v o" "asm c folder o" "pcm folder t 8"; do
        does $words
        holds "a folder in a file's place: $words" 6 "$outside" "text 0, o -" o
    done
    does run i t --until 1 --save folder
    holds "a board stored under a folder's name" 6 "$outside" "text 4"
    does asm c v folder
    holds "an image stored under a folder's name" 6 "$outside" "text [1-9]*"
    does run i t --until 1 --save none/s
    holds "a board stored in a folder that isn't there" 6 "$outside" "text 4, none -" none
    does asm c v none/o
    holds "an image stored in a folder that isn't there" 6 "$outside" "text [1-9]*, none -" none
    does run none/i t
    holds "a file in a folder that isn't there" 5 "gravitar: none/i: absent" "text 0"
    does run i/x t
    holds "a name that leads through a file" 6 "$outside" "text 0"
    does run i t --until 1 --save t/s
    holds "a store under a name that leads through a file" 6 "$outside" "text 4, t 9" t
}

links() {
    fresh
    ln -s none dangling && ln -s loop loop && ln -s i link
    does run dangling t
    holds "a link to nothing" 5 "gravitar: dangling: absent" "text 0"
    does run loop t
    holds "a link to itself" 6 "$outside" "text 0"
    does run link t --until 1 --save dangling
    holds "a link to the image, a store through a link to nothing" 0 "" "text 4, none 4356" none
}

names() {
    fresh
    long=$(printf '%0255d' 0)
    does run "$long" t
    holds "a name of 255 bytes, absent" 5 "gravitar: $long: absent" "text 0"
    does run i t --until 1 --save "$long"
    holds "a store under a name of 255 bytes" 0 "" "text 4, $long 4356" "$long"
    does run "${long}0" t
    holds "a name of 256 bytes" 6 "$outside" "text 0"
    does run i t --until 1 --save "${long}0"
    holds "a store under a name of 256 bytes" 6 "$outside" "text 4"
    path=$(printf './%.0s' $(seq 2046))
    does run "${path}i" t --until 1
    holds "a path of 4,093 bytes" 0 "" "text 4"
    does run "$path./i" t --until 1
    holds "a path of 4,095 bytes" 0 "" "text 4"
    does run "$path././i" t
    holds "a path of 4,097 bytes" 6 "$outside" "text 0"
    for words in "run '' t" "run i ''" "run i t --save ''" "run i t --state ''" "asm c v ''" "show ''"; do
        eval "does $words"
        holds "an empty name: $words" 2 "$usage" "text 0"
    done
    cp i "$(printf '\377')"
    does run "$(printf '\377')" t
    holds "a name that isn't UTF-8, though the file is there" 2 "$usage" "text 0"
    does run "$(printf 'a\nb')" t
    holds "a name with a line feed" 5 "$(printf 'gravitar: a\nb: absent')" "text 0"
}

# The rest is done as another user where this one is root, whom permissions don't bind.
permissions() {
    fresh
    as=
    if [ "$(id -u)" = 0 ]; then
        has setpriv || { skip "permissions"; return 0; }
        as="setpriv --reuid=65534 --regid=65534 --clear-groups"
        chmod 755 .
        limited $as "$program" show b >/dev/null 2>&1 || { skip "permissions: the program can't be run by another user"; return 0; }
    fi
    cp i secret && chmod 0 secret && mkdir closed && cp i closed && chmod 0 closed && mkdir fixed && cp e fixed && chmod 444 fixed/e && chmod 555 fixed
    chmod 444 e
    status=0; limited $as "$program" run secret t >"$work/text" 2>"$work/note" || status=$?
    holds "a file that may not be read" 6 "$outside" "text 0"
    status=0; limited $as "$program" run closed/i t >"$work/text" 2>"$work/note" || status=$?
    holds "a file in a folder that may not be searched" 6 "$outside" "text 0"
    status=0; limited $as "$program" run i t --until 1 --save fixed/s >"$work/text" 2>"$work/note" || status=$?
    holds "a store in a folder that may not be written" 6 "$outside" "text 4, fixed/s -" fixed/s
    status=0; limited $as "$program" run i t --until 1 --earom e >"$work/text" 2>"$work/note" || status=$?
    holds "a store over a file that may not be written" 6 "$outside" "text 4, e 64" e
    chmod 755 closed fixed
}

# Each file at its limit and one byte longer, in 128 MiB of addresses.
limits() {
    fresh
    yes '0 P0 00' | head -n 2097151 >full.t
    printf '000 END\n' >>full.t
    for kind in i:43008 b:4356 e:64; do { cat "${kind%:*}"; printf x; } >"${kind%:*}.long"; done
    { cat full.t; printf x; } >t.long
    yes ';' | head -n 524288 >full.s
    { cat full.s; printf x; } >s.long
    yes '' | head -n 65536 >full.d
    { cat full.d; printf x; } >d.long
    less="ulimit -v 131072"
    after "$less" run i full.t --until 1; holds "a tape of 16 MiB" 0 "" "text 4"
    after "$less" run i t.long; holds "a tape of one byte more" 4 "gravitar: t.long: too long" "text 0"
    after "$less" asm full.s full.s o; holds "two sources of 1 MiB" 0 "" "text 0, o 43008" o
    after "$less" asm s.long v p; holds "a source of one byte more" 4 "gravitar: s.long: too long" "text 0, p -" p
    after "$less" asm c s.long p; holds "a generator's source of one byte more" 4 "gravitar: s.long: too long" "text 0, p -" p
    after "$less" debug i t full.d; holds "a script of 64 KiB" 0 "" "text 0"
    after "$less" debug i t d.long; holds "a script of one byte more" 4 "gravitar: d.long: too long" "text 0"
    after "$less" run i.long t; holds "an image of one byte more" 4 "gravitar: i.long: length 43009" "text 0"
    after "$less" run i t --state b.long; holds "a board of one byte more" 4 "gravitar: b.long: length 4357" "text 0"
    after "$less" run i t --earom e.long; holds "cells of one byte more" 4 "gravitar: e.long: length 65" "text 0"
    after "$less" run /dev/zero t; holds "an image without an end" 4 "gravitar: /dev/zero: length 43009" "text 0"
    after "$less" run i /dev/zero; holds "a tape without an end" 4 "gravitar: /dev/zero: too long" "text 0"
    { printf ' .word '; yes '1+' | tr -d '\n' | head -c 1048560; echo 1; } >sum.s
    after "$less" asm sum.s v p; holds "a line of a million tokens" 4 "gravitar: sum.s: line 1: out of range" "text 0, p -" p
}

# More and more memory: at first the loader finds too little; then the status is 7, or the stack can't grow, which ends it by SIGSEGV with
# nothing written; then all is there.
memory_steps() {
    fresh
    for words in "run i t --save s" "asm c v o" "debug i t d" "show b" "pcm i t 8" "frames i t" "seek i t 5,4" "profile i t"; do
        loader=0 none=0 stack=0 good=0 other=
        for limit in $(seq 2000 100 6000) 16000; do
            rm -f s o
            after "ulimit -v $limit" $words
            case $status:$(cat "$work/note") in
                7:"gravitar: no memory") none=$((none + 1)) ;;
                139:) stack=$((stack + 1)) ;;
                0:) good=$((good + 1)) ;;
                *) loader=$((loader + 1)) ;;
            esac
            [ $status = 0 ] || [ "$good:$(size_of "$work/text"):$(size_of s):$(size_of o)" = 0:0:-:- ] || other="$other $limit:$status"
        done
        fact "memory in steps of 100 KiB from 2,000 to 6,000, and 16,000: $words" '[ -z "$other" ] && [ $good -gt 0 ]' "not loaded $loader, status 7 $none, SIGSEGV $stack, done $good${other:+, else$other}"
    done
}

# Less and less stack: what ends by SIGSEGV has stored nothing; 256 KiB do for all.
stack_steps() {
    fresh
    for words in "run i t --cuts 5,9 --save s --timers" "asm c v o" "debug i t d" "show b" "soak 1" "pcm i t 8" "frames i t" "seek i t 5,4" "profile i t"; do
        least=- other= texts=
        for limit in 320 288 256 240 224 208 192 176 160 144 128; do
            rm -f s o
            after "ulimit -s $limit" $words
            case $status in
                0) least=$limit ;;
                139)
                    [ ! -s "$work/text" ] || texts="$texts $limit"
                    [ "$(echo s* o*)" = "s* o*" ] && [ $limit -lt 256 ] || other="$other $limit"
                    ;;
                *) other="$other $limit:$status" ;;
            esac
        done
        fact "a stack of 320 KiB down to 128: $words" '[ -z "$other" ]' "done down to $least, SIGSEGV below, with nothing stored${texts:+, a text at$texts}${other:+; else$other}"
    done
}

system_limits() {
    fresh
    limited "$program" run i t --save s >"$work/whole"
    unit=$({ (ulimit -f 4; exec head -c 8192 /dev/zero >big) || true; size_of big; } 2>/dev/null)
    part=$((unit / 4))
    rm -f s big
    after "ulimit -f 1" run i t --until 1 --save s; left s
    holds "a limit of a file's size, in a store" 153 "" "text 4, s -, left $part" s left
    rm -f left
    after "ulimit -f 1; trap '' XFSZ" run i t --until 1 --save s; left s
    holds "the same with SIGXFSZ ignored" 6 "$outside" "text 4, s -, left -" s left
    head -c 9000 /dev/zero >s
    after "ulimit -f 1; trap '' XFSZ" run i t --until 1 --save s; left s
    holds "the same over a longer file: it stays" 6 "$outside" "text 4, s 9000, left -" s left
    ln -s s link
    after "ulimit -f 1; trap '' XFSZ" run i t --until 1 --save link
    holds "the same in place: nothing stays behind the first part" 6 "$outside" "text 4, s $part" s
    after "ulimit -f 1; trap '' XFSZ" run i t --until 1 --save link
    holds "the same over that part: it stays" 6 "$outside" "text 4, s $part" s
    rm link
    after "ulimit -f 1" run i t --until 1 --earom e
    holds "the same over cells that are smaller" 0 "" "text 4, e 64" e
    after "ulimit -f 1" pcm i t 8
    holds "a limit of a file's size, in the text" 153 "" "text $part"
    printf '281474976710656 END\n' >endless
    after "ulimit -S -t 1" run i endless --until 281474976710656 --save t2
    holds "a limit of the processor's time" 152 "" "text *, t2 -" t2
    after "ulimit -n 4" run i t --until 1 --save s
    holds "one file at a time" 0 "" "text 4, s 4356" s
}

# Mounts a small disk in the folder, where that is allowed.
disk() { mkdir -p disk; mount -t tmpfs -o "size=$1" none disk 2>/dev/null; }
full_disks() {
    fresh
    disk 8k || { skip "a full disk"; return 0; }
    status=0; limited "$program" pcm i t 1 >disk/text 2>"$work/note" || status=$?
    holds "a full disk for the text" 6 "$outside" "text 0, disk/text 8192" disk/text
    fact "a full disk for the text" 'limited "$program" pcm i t 1 2>/dev/null | head -c 8192 | cmp -s - disk/text' "it is the first part of the whole text"
    rm -f disk/text
    head -c 4096 /dev/zero >disk/other
    does run i t --until 1 --save disk/s
    holds "a full disk for a board" 6 "$outside" "text 4, disk/s -" disk/s
    rm -f disk/*
    cp b disk/s
    does run i t --until 1 --save disk/s
    cmp -s b disk/s || : >disk/s
    holds "a board over a board, on a disk that is full with it: it stays" 6 "$outside" "text 4, disk/s 4356" disk/s
    ln -s disk/s link
    does run i t --until 1 --save link
    holds "the same in place" 0 "" "text 4, disk/s 4356" disk/s
    head -c 8192 /dev/zero >disk/s
    does run i t --until 1 --earom e --save disk/s
    holds "a board over a longer file, on a disk that is full with that: it stays" 6 "$outside" "text 4, disk/s 8192" disk/s
    cp e disk/e 2>/dev/null || true
    does run i t --until 1 --earom disk/e
    holds "cells that were cut by a full disk before" 4 "gravitar: disk/e: length 0" "text 0, disk/e 0" disk/e
    umount disk
    disk 4k
    cp e disk/e
    does asm c v disk/o
    holds "a full disk for an image" 6 "$outside" "text [1-9]*, disk/o -" disk/o
    mount -o remount,ro disk
    does run i t --until 1 --earom disk/e
    holds "a disk that is read only" 6 "$outside" "text 4, disk/e 64" disk/e
    umount disk
}

pipes() {
    fresh
    mkfifo p
    cat i >p & does run p t --until 1
    holds "a pipe as an image" 0 "" "text 4"
    { printf '90'; sleep 0.2; printf '00 E'; sleep 0.2; printf 'ND'; } >p & does run i p --until 1
    holds "a pipe as a tape, in three pieces" 0 "" "text 4"
    head -c 43000 i >p & does run p t
    holds "a pipe that ends early" 4 "gravitar: p: length 43000" "text 0"
    : >p & does run i p
    holds "a pipe with nothing, as a tape" 4 "gravitar: p: line 1: no end" "text 0"
    { cat i i >p; } 2>/dev/null & does run p t
    holds "a pipe with more than an image" 4 "gravitar: p: length 43009" "text 0"
    cat p >all & exec 4>p
    does run i t --cuts 5,9,9,20 --save p
    exec 4>&-
    wait
    holds "five boards stored in a pipe that stays open" 0 "" "text *, all 21780" all
}

# Kills in stores and readers beside them, in the folder of temporary files and in memory.
killed_stores() {
    has python3 || { skip "kills and readers"; return 0; }
    for folder in "$(dirname "$work")" /dev/shm; do
        [ -d "$folder" ] || continue
        status=0; python3 "$tools/killed_stores.py" "$program" --kills "$kills" --folder "$folder" >"$work/table" || status=$?
        sed "s/^/    /" "$work/table"
        fact "kills and readers in $folder" "[ $status = 0 ]" "the table above"
    done
}

stopped() {
    fresh
    limited "$program" soak 1 >"$work/whole"
    "$program" soak 1 >"$work/text" &
    sleep 0.01; kill -STOP $!; sleep 0.3; kill -CONT $!
    for _ in $(seq 600); do kill -0 $! 2>/dev/null && sleep 0.1 || break; done
    kill -KILL $! 2>/dev/null || true
    wait $! || true
    fact "a run that is stopped and goes on" 'cmp -s "$work/text" "$work/whole"' "the same text"
}

# Which call of its kind is the first that fits a pattern.
place_of() {
    call=$1 pattern=$2
    shift 2
    limited strace -qq -o "$work/calls" -e "trace=$call" "$program" "$@" >/dev/null || true
    grep -n -e "$pattern" "$work/calls" | head -n 1 | cut -d: -f1
}
# The calls of a store over 9,000 bytes that open, write, cut or rename, and the program killed in front of each: what stands under the name and beside it.
calls_of_a_store() {
    fresh
    has strace && strace -qq -o /dev/null true 2>/dev/null || { skip "kills and faults at a call"; return 0; }
    ln -s s link
    while read -r name call pattern sizes; do
        rm -f left && head -c 9000 /dev/zero >s
        place=$(place_of "$call" "$pattern" run i t --cuts 0,5 --save "$name")
        head -c 9000 /dev/zero >s
        status="no such call"
        [ -z "$place" ] || {
            status=0
            limited strace -qq -o /dev/null -e "inject=$call:signal=KILL:when=$place" "$program" run i t --cuts 0,5 --save "$name" >"$work/text" || status=$?
        } 2>/dev/null
        left s
        holds "a store under $name, killed in front of its $call ($pattern)" 137 "" "$sizes" s left
    done <<END
s openat "s" text 0, s 9000, left -
s openat new text 0, s 9000, left -
s write GVS text 0, s 9000, left 0
s rename new text 0, s 9000, left 4356
s exit_group . text 15, s 4356, left -
link openat link text 0, s 9000, left -
link ftruncate 4357 text 0, s 9000, left -
link write GVS text 0, s 4357, left -
link ftruncate 4356 text 0, s 4357, left -
link exit_group . text 15, s 4356, left -
END
}

# A store of cells over cells, and one under a name that no file has, whose calls the system refuses: want of room and faults of the disk
# leave the old file, or none, and are a fault; a refusal of permission is stored in place.
refused_calls() {
    fresh
    has strace && strace -qq -o /dev/null true 2>/dev/null || { skip "calls that are refused"; return 0; }
    for fault in write:ENOSPC:6 write:EDQUOT:6 write:EIO:6 openat:ENOSPC:6 openat:EDQUOT:6 openat:EIO:6 rename:ENOSPC:6 rename:EDQUOT:6 rename:EIO:6 \
        openat:EACCES:0 openat:EPERM:0 openat:EROFS:0 openat:ENAMETOOLONG:0 rename:EACCES:0 rename:EPERM:0 rename:EROFS:0 rename:EBUSY:0; do
        call=${fault%%:*} want=${fault##*:} error=${fault#*:} && error=${error%:*}
        says= made=4356
        [ "$want" = 0 ] || says=$outside made=-
        cp e cells
        place=$(place_of "$call" '\.new\|\\377' run i t --until 1 --earom cells)
        cp e cells
        refusing --earom cells
        cmp -s e cells || : >cells
        left cells
        holds "a store of cells whose $call is refused by $error" "$want" "$says" "text 4, cells 64, left -" cells left
        rm -f s
        place=$(place_of "$call" '\.new\|GVS' run i t --until 1 --save s)
        rm -f s
        refusing --save s
        left s
        holds "a board under a new name whose $call is refused by $error" "$want" "$says" "text 4, s $made, left -" s left
        rm -f left
    done
}
# A run to clock 1 with these options and the refused call.
refusing() {
    status="no such call"
    [ -n "$place" ] || return 0
    status=0
    limited strace -qq -o /dev/null -e "inject=$call:error=$error:when=$place" "$program" run i t --until 1 "$@" >"$work/text" 2>"$work/note" || status=$?
}

# What COMMANDS promises of a file that is replaced, or isn't: its permissions stay, a new file goes by the umask, nothing that stands under
# the name of the new file beside it is opened, and a file of another owner or group is written in place.
promises() {
    fresh
    for mask in 022 077; do
        for mode in 600 640 664 666; do
            head -c 9000 /dev/zero >s
            chmod $mode s
            after "umask $mask" run i t --until 1 --save s
            came=$(stat -c %a s)
            fact "permissions stay: $mode under umask $mask" '[ $status = 0 ] && [ "$came" = $mode ] && [ "$(size_of s)" = 4356 ]' "status $status, $came"
        done
    done
    for mask in 000:666 002:664 022:644 027:640 077:600; do
        rm -f s
        after "umask ${mask%:*}" run i t --until 1 --save s
        came=$(stat -c %a s) || came=none
        fact "a new file's permissions under umask ${mask%:*}" '[ $status = 0 ] && [ "$came" = ${mask#*:} ]' "status $status, $came"
    done
    # The number of the process is in the name of the new file, and stays with exec.
    for kind in "a link to nothing" "a link to a file" "a file" "a pipe"; do
        rm -f s s.* bait
        case $kind in
            "a link to nothing") put='ln -s bait "s.$$-0.new"' ;;
            "a link to a file") put='ln -s bait "s.$$-0.new"'; cp t bait ;;
            "a file") put='cp t "s.$$-0.new"' ;;
            "a pipe") put='mkfifo "s.$$-0.new"' ;;
        esac
        for way in "under a new name" "over a file"; do
            rm -f s s.*
            [ "$way" != "over a file" ] || head -c 9000 /dev/zero >s
            after "$put" run i t --until 1 --save s
            found=
            case $kind in
                "a link to nothing") [ -L s.*-0.new ] && [ ! -e bait ] || found=changed ;;
                "a link to a file") [ -L s.*-0.new ] && cmp -s t bait || found=changed ;;
                "a file") cmp -s t s.*-0.new || found=changed ;;
                "a pipe") [ -p s.*-0.new ] || found=changed ;;
            esac
            fact "$kind under the name of the new file, a store $way" \
                '[ $status = 0 ] && [ -z "$found" ] && [ -f s ] && [ ! -L s ] && [ "$(size_of s)" = 4356 ]' "status $status, $(size_of s) bytes${found:+, the other $found}"
        done
    done
    [ "$(id -u)" = 0 ] || { skip "files of another owner and group"; return 0; }
    for owner in 65534:0 0:65534 65534:65534; do
        rm -f s s.*
        head -c 9000 /dev/zero >s
        chown $owner s
        was=$(stat -c '%u:%g %i %a' s)
        does run i t --until 1 --save s
        came=$(stat -c '%u:%g %i %a' s)
        fact "a file of owner and group $owner is written in place" '[ $status = 0 ] && [ "$came" = "$was" ] && [ "$(size_of s)" = 4356 ] && [ ! -e "$(echo s.*)" ]' "status $status, $came"
    done
    chown 0:0 s
    was=$(stat -c %i s)
    does run i t --until 1 --save s
    fact "a file of the own user is replaced" '[ $status = 0 ] && [ "$(stat -c %i s)" != "$was" ]' "status $status"
}

# The output's own file as a store: the log is kept, with the board behind it, or the store is refused.
stores_in_the_output() {
    fresh
    limited "$program" run i t --cuts 100 >log
    limited "$program" run i t --cuts 100 --save /dev/stdout | cat >piped
    fact "--save /dev/stdout into a pipe" '[ "$(size_of piped)" = $(($(size_of log) + 8712)) ]' "$(size_of piped) bytes"
    for name in /dev/stdout out; do
        for how in '>' '>>' '1<>'; do
            rm -f out
            status=0; eval "limited \"\$program\" run i t --cuts 100 --save $name $how out 2>/dev/null" || status=$?
            fact "--save $name $how out" '{ [ $status = 0 ] && cmp -s piped out; } || { [ $status = 6 ] && [ -s out ] && head -c "$(size_of out)" log | cmp -s - out; }' \
                "status $status, $(size_of out) bytes"
        done
    done
}

# A folder that takes new files and gives none up.
only_appended() {
    fresh
    mkdir add && cp b add/s
    has chattr && chattr +a add 2>/dev/null || { skip "a folder that can only be appended to"; return 0; }
    does run i t --cuts 5,9 --save add/s
    count=$(ls add | grep -c '\.new$') || true
    fact "a folder that can only be appended to" '[ $status = 0 ] && [ "$(size_of add/s)" = 4356 ] && [ $count -le 3 ]' "status $status, three stores left $count files"
    chattr -a add
}

output_faults; note_faults; folders; links; names; permissions; limits; memory_steps; stack_steps; system_limits; full_disks; pipes; stopped; promises; stores_in_the_output; only_appended; calls_of_a_store; refused_calls; killed_stores
cd /
echo "$passed passed, $failed failed, $skipped skipped"
[ $failed -eq 0 ]
