#!/bin/sh
# tests/draw.sh [ARCHIVE]: builds the drawing program with the archive, and shows what it refuses, how it ends if it
# cannot read or write, that the pictures in docs/ are its own, and by tests/draw.py what is on its pictures. The last
# line has the counts.
set -u
cd "$(dirname "$0")/.." || exit 2
. tools/machine.sh
. tests/checks.sh
need_compilers
need python3 python3
archive=${1:-build/libcheremysl.a}

check "cheremysl-draw.c" $cc -std=c99 -O2 -Wall -Wextra -Werror -pedantic -Iinclude $static -o "$room/cheremysl-draw" \
    programs/cheremysl-draw.c "$archive"
draw() { $run "$room/cheremysl-draw" "$@"; }
matches() { case $1 in $2) ;; *) false ;; esac; }

# says STATUS PATTERN WORD..: the program, given the words, ends with the status, writes just such text to standard
# error, and no picture
says() {
    wanted=$1 pattern=$2
    shift 2
    draw "$@" >"$room/out" 2>"$room/err"
    status=$?
    check "$* said '$(cat "$room/err")', status $status" matches "$status $(cat "$room/err")" "$wanted $pattern"
    check "$* wrote a picture" [ ! -s "$room/out" ]
}

# ---- what is refused: the number, each record with its pad, and words

made() { examples/mkjob ${2:+--$2} >"$room/$1.${2:-job}"; } # the second word: pads or ports
J5=examples/J5.job crossing=examples/crossing.job
touching='refused 9 record 2 (pad 403) and record 1 (pad 402): ?*'
for any in '' --any; do
    says 1 "cheremysl-draw: $J5: refused 3 record 0: fewer port numbers than pads (3)" $any $J5 1
    says 1 "cheremysl-draw: $J5: refused 3 record 0: fewer port numbers than pads (3)" $any $J5 1 2
    says 1 "cheremysl-draw: $J5: refused: more port numbers than pads (3)" $any $J5 1 2 0 2
    says 1 "cheremysl-draw: $J5: refused: more port numbers than pads (3)" $any $J5 $(seq 0 99)
    says 1 "cheremysl-draw: $J5: refused 8 record 1 (pad 102): ?*" $any $J5 1 3 0
    says 1 "cheremysl-draw: $J5: refused 8 record 0 (pad 101): ?*" $any $J5 65537 2 0
    says 1 "cheremysl-draw: $J5: refused 8 record 2 (pad 103): ?*" $any $J5 1 2 99999999999999999999
    says 1 'cheremysl-draw: *.c: refused 1 record 0: ?*' $any examples/audit.c
    says 1 'cheremysl-draw: *.c: refused 1 record 0: ?*' $any examples/audit.c 0 1 2
    says 1 'cheremysl-draw: /dev/null: refused 1 record 0: ?*' $any /dev/null
    echo '7 0 5 5' | made field
    says 1 'cheremysl-draw: *field.job: refused 4 record 0 (pad 7): ?*' $any "$room/field.job"
    printf '7 1 5 5\n7 2 5 5\n' | made above
    says 1 'cheremysl-draw: *above.job: refused 5 record 1 (pad 7): ?*' $any "$room/above.job"
    printf '7 1 5 5\n0 2 5 12\n' | made unnamed
    says 1 'cheremysl-draw: *unnamed.job: refused 4 record 1 (pad 0): ?*' $any "$room/unnamed.job" 0 1
    printf '7 1 5 5\n8 2 5 12\n' | made close
    says 1 'cheremysl-draw: *close.job: refused 12 record 1 (pad 8): ?*' $any "$room/close.job" 0 1
    printf '7 1 5 5\n7 2 5 13\n' | made name
    says 1 'cheremysl-draw: *name.job: refused 6 record 1 (pad 7): ?*' $any "$room/name.job" 1 0
    printf '7 1 5 5\n8 1 5 13\n' | made x
    says 1 'cheremysl-draw: *x.job: refused 7 record 1 (pad 8): ?*' $any "$room/x.job"
    printf '7 1 5 5\n8 2 5 13 half=2001\n' | made half
    says 1 'cheremysl-draw: *half.job: refused 4 record 1 (pad 8): ?*' $any "$room/half.job"
    says 1 'cheremysl-draw: *half.job: refused 4 record 1 (pad 8): ?*' $any "$room/half.job" 0 1
    printf '7 10 5 5 half=2000\n8 20 5 13\n' | made inside # one pad inside the square of the other: no sheet at all
    says 1 'cheremysl-draw: *inside.job: refused 15 record 0: On every sheet of this board ?*' $any "$room/inside.job"
done
says 1 "cheremysl-draw: $crossing: $touching" $crossing 3 1 2 0
says 1 "cheremysl-draw: $J5: refused 8 record 2 (pad 103): ?*" $J5 1 2 1
check "touching, with --any" draw --any $crossing 3 1 2 0
check "a port twice, with --any" draw $J5 1 --any 2 1

# Squares: the leader of the later record meets the square of the earlier one, or the other way round; one unit less and it does not.
printf '7 10 5 0 half=5\n8 20 30 10\n' | made met
says 1 'cheremysl-draw: *met.job: refused 9 record 1 (pad 8) and record 0 (pad 7): ?*' "$room/met.job" 0 1
check "a square that is met, with --any" draw --any "$room/met.job" 0 1
printf '7 20 30 0\n8 10 5 10 half=5\n' | made meets
says 1 'cheremysl-draw: *meets.job: refused 9 record 1 (pad 8) and record 0 (pad 7): ?*' "$room/meets.job" 1 0
check "a square that meets, with --any" draw --any "$room/meets.job" 1 0
printf '7 10 5 0 half=4\n8 20 30 10\n' | made beside
check "a leader beside a square" draw "$room/beside.job" 0 1
says 1 'cheremysl-draw: *inside.job: refused 9 record 1 (pad 8) and record 0 (pad 7): ?*' "$room/inside.job" 0 1
check "a pad in a square, with --any" draw --any "$room/inside.job" 0 1
copper=examples/copper.job
says 1 "cheremysl-draw: $copper: refused 9 record 9 (pad 310) and record 5 (pad 306): ?*" $copper $(cat examples/copper.layout)

# ---- a strip of slots: the same, of the file that is at fault, and of a port's number where a port is

row=examples/row.ports sensor=examples/sensor.pads
strip() {
    file=$1
    shift
    printf '%s\n' "$@" | made "$file" ports
}
strip far 0 8 1000001
strip falling 0 8 16 16
strip close 0 8 15
strip one 5
printf '7 1 5\n8 2 5\n' | made two pads
printf '7 1 5\n8 0 5\n' | made x pads
printf '0 1 5\n0 2 5\n' | made unnamed pads
printf '7 1 5\n7 2 5\n' | made name pads
printf '7 1 5\n8 1 5\n' | made again pads
for any in '' --any; do
    says 1 'cheremysl-draw: /dev/null: refused 1 record 0: ?*' $any --slots /dev/null $sensor
    says 1 'cheremysl-draw: *.c: refused 1 record 0: ?*' $any --slots examples/audit.c $sensor 0
    says 1 'cheremysl-draw: *.c: refused 1 record 0: ?*' $any --slots $row examples/audit.c
    says 1 'cheremysl-draw: *sheets.c: refused 1 record 0: ?*' $any --slots examples/audit.c examples/sheets.c
    says 1 "cheremysl-draw: $J5: refused 4 record 1 (pad 102): ?*" $any --slots $row $J5
    says 1 'cheremysl-draw: *far.ports: refused 4 port 2: ?*' $any --slots "$room/far.ports" "$room/two.pads"
    says 1 'cheremysl-draw: *far.ports: refused 4 port 2: ?*' $any --slots "$room/far.ports" "$room/two.pads" 0 1
    says 1 'cheremysl-draw: *x.pads: refused 4 record 1 (pad 8): ?*' $any --slots "$room/far.ports" "$room/x.pads"
    says 1 'cheremysl-draw: *unnamed.pads: refused 4 record 0 (pad 0): ?*' $any --slots "$room/far.ports" "$room/unnamed.pads"
    says 1 'cheremysl-draw: *falling.ports: refused 5 port 3: ?*' $any --slots "$room/falling.ports" "$room/name.pads"
    says 1 'cheremysl-draw: *close.ports: refused 12 port 2: ?*' $any --slots "$room/close.ports" "$room/name.pads" 0 1
    says 1 'cheremysl-draw: *name.pads: refused 6 record 1 (pad 7): ?*' $any --slots $row "$room/name.pads"
    says 1 'cheremysl-draw: *again.pads: refused 7 record 1 (pad 8): ?*' $any --slots $row "$room/again.pads" 0 1
    says 1 'cheremysl-draw: *one.ports: refused 14 record 0: ?*' $any --slots "$room/one.ports" "$room/two.pads"
    says 1 'cheremysl-draw: *one.ports: refused 14 record 0: ?*' $any --slots "$room/one.ports" "$room/two.pads" 0 0
    says 1 'cheremysl-draw: *two.pads: refused 3 record 0: fewer port numbers than pads (2)' $any --slots $row "$room/two.pads" 0
    says 1 'cheremysl-draw: *two.pads: refused: more port numbers than pads (2)' $any --slots $row "$room/two.pads" 0 1 2
    says 1 'cheremysl-draw: *two.pads: refused 8 record 1 (pad 8): ?*' $any --slots $row "$room/two.pads" 0 32
done
printf '7 10 5 half=2000\n8 20 5\n' | made inside pads
printf '7 10 5 half=2000\n8 20 5 half=2001\n' | made half pads
for any in '' --any; do
    says 1 'cheremysl-draw: *inside.pads: refused 15 record 0: ?*' $any --slots $row "$room/inside.pads"
    says 1 'cheremysl-draw: *half.pads: refused 4 record 1 (pad 8): ?*' $any --slots "$room/far.ports" "$room/half.pads"
done
says 1 'cheremysl-draw: *inside.pads: refused 9 record 1 (pad 8) and record 0 (pad 7): ?*' --slots $row "$room/inside.pads" 0 31
check "a pad in a square, on a strip, with --any" draw --any --slots $row "$room/inside.pads" 0 31
says 1 'cheremysl-draw: *two.pads: refused 8 record 1 (pad 8): ?*' --slots $row "$room/two.pads" 31 31
says 1 'cheremysl-draw: *two.pads: refused 9 record 1 (pad 8) and record 0 (pad 7): ?*' --slots $row "$room/two.pads" 2 1
check "touching on a strip, with --any" draw --any --slots $row "$room/two.pads" 2 1
check "a slot twice, with --any" draw "$room/two.pads" 31 31 --slots $row --any

# ---- the command line

usage='usage: cheremysl-draw *'
says 2 "$usage"
says 2 "$usage" --any
says 2 "cheremysl-draw: there is no option --no-such*$usage" --no-such $J5
says 2 "cheremysl-draw: there is no option -1*$usage" $J5 -1 2 0
says 2 "cheremysl-draw: 'x' is not a port number" $J5 1 x 0
says 2 "cheremysl-draw: '' is not a port number" $J5 1 '' 0
for area in '' 1,2,3 1,2,3,4,5 1,2,3,4x 1.5,2,3,4 1,2,3,999999999; do
    says 2 "cheremysl-draw: --area takes X1,Y1,X2,Y2*$usage" --area "$area" $J5
done
says 2 "cheremysl-draw: --area takes X1,Y1,X2,Y2*$usage" $J5 --area
says 2 "cheremysl-draw: --slots takes a file of port heights*$usage" $sensor --slots
says 2 "$usage" --slots $row
says 2 "cheremysl-draw: '1x' is not a port number" $J5 1x 2 0
check "--help" matches "$(draw --help)" "$usage"
check "--version" matches "$(draw --version)" 'cheremysl-draw [0-9]*.[0-9]*'

# ---- what cannot be read or written

says 2 "cheremysl-draw: cannot open $room/none: No such file or directory" "$room/none"
says 2 "cheremysl-draw: cannot read $room: Is a directory" "$room"
says 2 "cheremysl-draw: cannot open $room/none: No such file or directory" --slots "$room/none" $sensor
says 2 "cheremysl-draw: cannot read $room: Is a directory" $sensor --slots "$room"
says 2 "cheremysl-draw: cannot open --any: No such file or directory" -- --any

# unwritten WORD..: with no room for what it writes, the program says so and ends with 2
unwritten() {
    draw "$@" >/dev/full 2>"$room/err"
    check "$* with a full disk, status $?" [ $? = 2 ]
    check "$* with a full disk" [ "$(cat "$room/err")" = 'cheremysl-draw: cannot write: No space left on device' ]
}
unwritten $J5
unwritten examples/matrix.job
unwritten --help
unwritten --version
draw $J5 >&- 2>"$room/err"
check "without standard output, status $?" [ $? = 2 ]

# ---- the pictures in docs/: each line of the Makefile that makes one

sed -n 's|^	build/cheremysl-draw \(.*\) >docs/\(.*\)$|\2 \1|p' Makefile | sed 's/\$\$/$/' >"$room/pictures"
picture() { draw "$@" | cmp - "docs/$svg"; }
while read -r svg words; do
    eval "check 'picture $svg' picture $words"
done <"$room/pictures"
made_pictures=$(cut -d ' ' -f 1 "$room/pictures" | LC_ALL=C sort)
check "every picture is made" [ "$made_pictures" = "$(cd docs && ls | LC_ALL=C sort | grep '[.]svg$')" ]
svg=j5.svg
check "First's sheet" picture $J5
squares_in() { draw "$1" | grep -c '^<polygon '; }
prints 0 24 squares_in $copper
prints 1 0 squares_in examples/sequencer.job
from_input() { draw - <$J5 | sed 's/standard input/J5.job/' | cmp - docs/j5.svg; }
check "from standard input" from_input
pads_from_input() { draw --slots $row - <$sensor | sed 's/standard input/sensor.pads/' | cmp - docs/slots.svg; }
slots_from_input() { draw --slots - $sensor <$row | cmp - docs/slots.svg; }
check "pads from standard input" pads_from_input
check "slots from standard input" slots_from_input
both_from_input() { draw --slots - - <$sensor; }
prints 1 'cheremysl-draw: -: refused 1 record 0: The pads are not 1 to 64 records of 16 bytes, or the list of ports, if there is one, not 1 to 128 heights of 4 bytes.' both_from_input

# ---- what is on a picture

python3 tests/draw.py $run "$room/cheremysl-draw" >"$room/drawn" 2>&1
status=$?
sed '$d' "$room/drawn"
counts=$(sed -n '$s/^\([0-9]*\) passed, \([0-9]*\) failed$/\1 \2/p' "$room/drawn")
check "tests/draw.py, status $status: $(tail -n 1 "$room/drawn")" [ "$counts" ]
passed=$((passed + ${counts% *} + 0)) failed=$((failed + ${counts#* } + 0))

counts
