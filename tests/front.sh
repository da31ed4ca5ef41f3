#!/bin/sh
# tests/front.sh: cheremysl-sheet as it is used: its words, files and streams that are missing, odd, closed, full or without end, and a proved program
# that is not there or ends badly. Its text is compared with the proved program's. The last line has the counts.
set -u
cd "$(dirname "$0")/.." || exit 2
. tools/machine.sh
. tests/checks.sh
need_compilers
need python3 python3
[ -x build/sheet ] || tools/build sheet || exit 1

# program [LINE..]: what the front runs from now on: a script of these lines, or the proved program, under the emulator if there is one
program() {
    [ $# -gt 0 ] || set -- "exec $run $PWD/build/sheet"
    rm -f "$room/proved"
    { echo '#!/bin/sh'; printf '%s\n' "$@"; } >"$room/proved"
    chmod +x "$room/proved"
}

# Linked statically where there is an emulator, it needs no library path, which the script that it runs would get as well.
emulator=${run%% *}
front() { timeout 20 $emulator "$room/cheremysl-sheet" "$@"; }
$cc -std=c99 -O2 -Wall -Wextra -Werror -pedantic -Iinclude -DPROGRAM="\"$room/proved\"" $static -o "$room/cheremysl-sheet" \
    programs/cheremysl-sheet.c || exit 1
program

# ---- the proved program's text, to the byte, with a status; from a file, from standard input, through a pipe

same() {
    $run build/sheet <"$1" >"$room/expected"
    case $(head -c 8 "$room/expected") in 'refused ') status=1 ;; *) status=0 ;; esac
    for way in 'front "$1"' 'front -- "$1"' 'front <"$1"' 'front - <"$1"' 'front -- - <"$1"' 'cat "$1" | front'; do
        eval "$way" >"$room/out" 2>"$room/err"
        check "$way of $1: status $?" [ $? = $status ]
        check "$way of $1: text" cmp -s "$room/out" "$room/expected"
        check "$way of $1: $(cat "$room/err")" [ ! -s "$room/err" ]
    done
}

# job NAME LINE..: a job file of these records
job() {
    file=$room/$1
    shift
    printf '%s\n' "$@" | examples/mkjob >"$file"
}

for size in 0 15 16 1024 1025 1040 1041 100000; do head -c $size /dev/zero >"$room/zeros $size"; done
job four '101 10 0 10' '102 0 30 20'
job five '101 10 0 10' '102 20 30 10'
job six '101 10 0 10' '101 20 30 20'
job seven '101 10 0 10' '102 10 30 20'
job twelve '101 10 0 10' '102 20 30 17'
job unnamed '101 10 0 10' '0 20 30 20'
job squares '101 10 6 0 half=4' '102 20 30 10'
job half '101 10 0 10' '102 20 30 20 half=2001'
job fifteen '101 10 6 0 half=6' '102 20 30 10'
awk 'BEGIN { for (i = 0; i < 64; i++) print 65472 + i, 1000000 - i, -1000000, 999000 + 8 * i }' | examples/mkjob >"$room/longest"
cp Makefile "$room/-x"
cp examples/J5.job "$room/a name
with a line's end"
for file in examples/*.job "$room"/z* "$room"/four "$room"/five "$room"/six "$room"/seven "$room"/twelve "$room"/fifteen "$room"/unnamed "$room"/squares "$room"/half "$room"/longest "$room/-x" "$room"/a*; do
    same "$file"
done
check "no text is longer" [ "$($run build/sheet <"$room/longest" | wc -c)" -gt 1200 ]

# ---- words

j5='101 1 10 0
102 2 20 0
103 0 60 1
total 90 1'
version=$(sed -nE 's/^.define CHEREMYSL_VERSION_(MAJOR|MINOR|PATCH) //p' include/cheremysl.h | paste -sd. -)
usage='usage: cheremysl-sheet [FILE]'
says='cheremysl-sheet: cannot'
helped() { front --help | sed -n '1p; /^--help/p; $p'; }
in_room() { (cd "$room" && front "$@"); }
ends 0 "cheremysl-sheet $version" '' front --version
ends 0 "$usage
--help prints this text, --version the version; -- ends the options.
The status is 0 for a sheet, 1 for a refused job, 2 for any other failure." '' helped
for words in -x --versio --helpful --= 'a b' '- -' '-- a b'; do ends 2 '' "$usage" front $words; done
ends 1 'refused 15 record 0' '' front "$room/fifteen"
ends 1 'refused 4 record 1' '' front "$room/half"
ends 0 '101 1 14 1
102 0 50 1
total 64 2' '' front "$room/squares"
ends 1 'refused 1 record 0' '' in_room -- -x
ends 1 'refused 1 record 0' '' in_room ./-x
ends 2 '' "$says open --help: No such file or directory" front -- --help
ends 2 '' "$says open : No such file or directory" front ''

# ---- files and streams

slowly() { { head -c 7 examples/J5.job; sleep 0.1; tail -c +8 examples/J5.job; } | front; }
named_pipe() {
    mkfifo "$room/named"
    cat examples/J5.job >"$room/named" &
    front "$room/named"
}
endless() { cat /dev/zero 2>/dev/null | front; }
empty_environment() { env -i $emulator "$room/cheremysl-sheet" examples/J5.job; }
other_environment() { PROGRAM=/bin/false CHEREMYSL_SHEET=/bin/false LIBEXECDIR=/bin front examples/J5.job; }
no_children() { env --ignore-signal=CHLD $emulator "$room/cheremysl-sheet" examples/J5.job; }
ends 0 "$j5" '' slowly
ends 0 "$j5" '' named_pipe
ends 1 'refused 1 record 0' '' front /dev/zero
ends 1 'refused 1 record 0' '' endless
ends 0 "$j5" '' empty_environment
ends 0 "$j5" '' other_environment
ends 0 "$j5" '' no_children
ends 2 '' "$says open $room/none: No such file or directory" front "$room/none"
ends 2 '' "$says open Makefile/none: Not a directory" front Makefile/none
ends 2 '' "$says read tests: Is a directory" front tests
directory_in() { front <tests; }
ends 2 '' "$says read standard input: Is a directory" directory_in

# A stream that is closed: its number must not go to a pipe, nor to the job.
closed_in() { front <&-; }
closed_in_file() { front examples/J5.job <&-; }
closed_out() { front examples/J5.job >&-; }
closed_in_out() { front examples/J5.job <&- >&-; }
closed_err() { front examples/J5.job 2>&-; }
closed_all() { front examples/J5.job <&- >&- 2>&-; }
closed_all_none() { front <&- >&- 2>&-; }
bad='Bad file descriptor'
ends 2 '' "$says read standard input: $bad" closed_in
ends 0 "$j5" '' closed_in_file
ends 2 '' "$says write standard output: $bad" closed_out
ends 2 '' "$says write standard output: $bad" closed_in_out
ends 0 "$j5" '' closed_err
ends 2 '' '' closed_all
ends 2 '' '' closed_all_none

# A disk that is full, and a pipe that nobody reads any more: its signal ends the front as it ends any program, and where that is ignored the write fails.
full() { front "$@" >/dev/full; }
broken() {
    rm -f "$room/broken"
    mkfifo "$room/broken"
    (exec 3<>"$room/broken" 4>"$room/broken" 3<&- && env "$1" $emulator "$room/cheremysl-sheet" examples/J5.job >&4)
}
ends 2 '' "$says write standard output: No space left on device" full examples/J5.job
ends 2 '' "$says write standard output: No space left on device" full /dev/null
ends 2 '' "$says write standard output: No space left on device" full --help
ends 2 '' "$says write standard output: No space left on device" full --version
ends 2 '' "$says write standard output: Broken pipe" broken --ignore-signal=PIPE
ends 141 '' '' broken --default-signal=PIPE

# ---- a proved program that is missing, cannot be run, ends badly, or prints no sheet: nothing of it is passed on

spoilt() {
    program "$2"
    ends 2 '' "$says use $room/proved: $1" front examples/J5.job
}
rm "$room/proved"
ends 2 '' "$says run $room/proved: No such file or directory" front examples/J5.job
echo 'echo total 1 1' >"$room/proved"
chmod -x "$room/proved"
ends 2 '' "$says run $room/proved: Permission denied" front examples/J5.job
spoilt 'it ended badly' 'echo total 1 1; exit 3'
spoilt 'it ended badly' 'echo refused 1 record 0; exit 1'
spoilt 'it ended badly' 'echo total 1 1; kill -KILL $$'
spoilt 'it ended badly' 'trap - PIPE; while echo total 1 1; do :; done 2>&-; exit 1'
spoilt 'no sheet' 'cat >/dev/null'
spoilt 'no sheet' 'echo 101 1 10 0'
spoilt 'no sheet' 'echo is refused 1 record 0'
program
ends 0 "$j5" '' front examples/J5.job

counts
