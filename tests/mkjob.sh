#!/bin/sh
# tests/mkjob.sh [MKJOB]: the example program mkjob, both ways: files and -, byte order marks, limits of fields, and
# what it says of a bad list or file. The last line has the counts.
set -u
cd "$(dirname "$0")/.." || exit 2
. tools/machine.sh
need python3 python3
. tests/checks.sh
mkjob=${1:-examples/mkjob}

# of FORMAT [WORD..]: mkjob, with the words, on what printf makes of the format
of() {
    printf "$1" >"$room/in"
    shift
    $mkjob "$@" <"$room/in"
}

# The same, and what it writes in hexadecimal, 16 bytes a line.
bytes_of() { of "$@" >"$room/out" && od -An -v -tx1 "$room/out" | sed 's/^ //'; }

# ---- from a list

odd='02 01 00 00 03 02 01 00 fe ff ff ff 07 00 00 00'
prints 0 "$odd" bytes_of '258 66051 -2 7\n'
prints 0 "$odd" bytes_of '258 66051 -2 7' -
prints 0 "$odd" bytes_of '258 66051 -2 7' - -
prints 0 "$odd" bytes_of '\t258  66051\t-2 7 \t# 1 2 3\n'
prints 0 "$odd" bytes_of '# 1 2 3 4\r\n\r\n258 66051 -2 7\r\n'
prints 0 "$odd" bytes_of '# 1 2 3 4\r258 66051 -2 7\r'
prints 0 "$odd" bytes_of '00258 0066051 -0002 000000000000000000007#'
prints 0 "$odd" bytes_of '\357\273\277258 66051 -2 7\n'
prints 0 "$odd" bytes_of '\357\273\277# \342\204\246\n258 66051 -2 7 # \303\251\n'
prints 0 "$odd" bytes_of '# a form feed \f 1 2 3 4, a line separator \342\200\2501 2 3 4\n258 66051 -2 7\n'
prints 0 '' bytes_of ''
prints 0 '' bytes_of '\357\273\277# nothing\n'
prints 0 '01 00 00 00 02 00 00 00 03 00 00 00 04 00 00 00
05 00 00 00 06 00 00 00 07 00 00 00 08 00 00 00' bytes_of '1 2 3 4\n\n5 6 7 8\n'

# ---- fields: the least and the largest number of each, and one beyond

prints 0 '00 00 00 00 00 00 00 00 00 00 00 80 00 00 00 80' bytes_of '0 0 -2147483648 -2147483648'
prints 0 'ff ff 00 00 ff ff ff ff ff ff ff 7f ff ff ff 7f' bytes_of '65535 4294967295 2147483647 2147483647'
prints 0 '00 00 00 00 00 00 00 00 00 00 00 00 00 00 00 00' bytes_of ' -0 -0 -0 -0'
prints 1 'mkjob: line 3: x 4294967296 does not fit its field (0 to 4294967295)' of '1 2 3 4\n\n1 4294967296 3 4\n'
prints 1 'mkjob: line 1: x -1 does not fit its field (0 to 4294967295)' of '1 -1 3 4\n'
prints 1 'mkjob: line 1: name 65536 does not fit its field (0 to 65535)' of '65536 2 3 4\n'
prints 1 'mkjob: line 1: name -1 does not fit its field (0 to 65535)' of ' -1 2 3 4\n'
for field in y port; do
    [ $field = y ] && line='1 2 %s 4\n' || line='1 2 3 %s\n'
    for number in -2147483649 2147483648; do
        prints 1 "mkjob: line 1: $field $number does not fit its field (-2147483648 to 2147483647)" \
            of "$(printf "$line" $number)"
    done
done
prints 1 'mkjob: line 1: x 12345678901 does not fit its field (0 to 4294967295)' of '1 12345678901 3 4'
long=$(printf '9%.0s' $(seq 5000))
prints 1 "mkjob: line 2: port -$long does not fit its field (-2147483648 to 2147483647)" of "\n1 2 3 -$long"

# ---- what is no number, and what is no record

for word in 1_000 +5 5. 5e3 0x10 - --5 5- 1,000 x; do
    prints 1 "mkjob: line 1: y '$word' is not a whole number" of "1 2 $word 4"
done
prints 1 "mkjob: line 1: x '\\u0663' is not a whole number" of '1 \331\243 3 4'
prints 1 "mkjob: line 1: y '\\u22125' is not a whole number" of '1 2 \342\210\2225 4'
prints 1 "mkjob: line 1: name '1\\xa02' is not a whole number" of '1\302\2402 2 3 4'
prints 1 "mkjob: line 2: name '\\ufeff1' is not a whole number" of '1 2 3 4\n\357\273\2771 2 3 4'
prints 1 "mkjob: line 1: 'name x y port' is 4 words, not 3" of '1 2 3 # 4\n'
prints 1 "mkjob: line 2: 'name x y port' is 4 words, not 5" of '1 2 3 4\r1 2 3 4 5\n'

# ---- other text

utf16='text; a list is UTF-8 text'
prints 1 "mkjob: standard input is UTF-16 $utf16" of '\377\3761\000 \000'
prints 1 "mkjob: standard input is UTF-16 $utf16" of '\376\377\0001\000 '
prints 1 "mkjob: standard input has zero bytes, as a job or UTF-16 text has them; a list is UTF-8 text" of '1\000 \0002\000'
prints 1 "mkjob: examples/J5.job has zero bytes, as a job or UTF-16 text has them; a list is UTF-8 text" $mkjob examples/J5.job
prints 1 'mkjob: line 2: byte 0xE9: standard input is not UTF-8 text' of '1 2 3 4 # ok\n1 2 3 4 # \351t\351\n'

# ---- back to a list, and round

back='# name        x        y     port
   258    66051       -2        7  # record 0'
job='\002\001\000\000\003\002\001\000\376\377\377\377\007\000\000\000'
prints 0 "$back" of $job --list
prints 0 "$back" of $job --list -
prints 0 "$back" of $job --list - -
prints 0 "$(echo "$back" | sed 's/  # rec/  half=513&/')" of '\002\001\001\002\003\002\001\000\376\377\377\377\007\000\000\000' --list
prints 1 'mkjob: standard input has 15 bytes, not whole records of 16' of '123456789012345' --list
printf '12345678901234567' >"$room/odd"
prints 1 "mkjob: $room/odd has 17 bytes, not whole records of 16" $mkjob --list "$room/odd"
again() { $mkjob $1 --list "$2" | $mkjob $1 - "$room/again" && cmp "$room/again" "$2"; }
check "listed and made again" again --job examples/matrix.job
check "listed and made again, with half-sides" again --job examples/copper.job

# ---- half-sides: a word with a mark at the end of a pad's line

square='02 01 14 00 03 02 01 00 fe ff ff ff 07 00 00 00'
prints 0 "$square" bytes_of '258 66051 -2 7 half=20'
prints 0 "$square
$odd" bytes_of '258 66051 -2 7\thalf=0020# 21\n258 66051 -2 7\n'
prints 0 "$odd" bytes_of '258 66051 -2 7 half=0'
prints 0 '01 00 ff ff 02 00 00 00 03 00 00 00 00 00 00 00' bytes_of '1 2 3 half=65535' --pads
prints 0 '# name        x        y
   258    66051       -2  half=20  # record 0, last field 7' of '\002\001\024\000\003\002\001\000\376\377\377\377\007\000\000\000' --list --pads
for number in -1 65536; do
    prints 1 "mkjob: line 1: half-side $number does not fit its field (0 to 65535)" of "1 2 3 4 half=$number"
done
for word in '' 2.5 +2 x half=2; do
    prints 1 "mkjob: line 1: half-side '$word' is not a whole number" of "1 2 3 4 half=$word"
done
prints 1 "mkjob: line 1: y '2147483648x' is not a whole number" of '1 2 2147483648x 4 half=x'
prints 1 "mkjob: line 1: port 'Half=2' is not a whole number" of '1 2 3 Half=2'
prints 1 "mkjob: line 1: port 'half' is not a whole number" of '1 2 3 half'
prints 1 "mkjob: line 1: y 'half=2' is not a whole number" of '1 2 half=2 4'
prints 1 "mkjob: line 1: 'name x y port' is 4 words, not 3" of '1 2 3 half=4'
prints 1 "mkjob: line 1: 'name x y port' is 4 words, not 0" of 'half=4'
prints 1 "mkjob: line 1: 'name x y port' is 4 words, not 7" of '1 2 3 4 half = 5'
prints 1 "mkjob: line 1: 'name x y port' is 4 words, not 5" of '1 2 3 4 half=5 half=6'
prints 1 "mkjob: line 1: 'name x y' is 3 words, not 4" of '1 2 3 4 half=5' --pads
prints 1 "mkjob: line 1: 'height' is 1 word, not 2" of '1 half=5' --ports
prints 1 "mkjob: line 1: height 'half=5' is not a whole number" of 'half=5' --ports

# ---- pads without ports, and ports alone

pad='02 01 00 00 03 02 01 00 fe ff ff ff 00 00 00 00'
prints 0 "$odd" bytes_of '258 66051 -2 7' --job
prints 0 "$pad" bytes_of '258 66051 -2 # 7' --pads
prints 0 "$pad
$pad" bytes_of '258 66051 -2\n\n 258 66051 -2' --pads - -
prints 0 '07 00 00 00 fe ff ff ff 00 00 00 80 ff ff ff 7f
00 00 00 00' bytes_of '7\n-2 # a slot\n-2147483648\n2147483647\n\n-0' - --ports
prints 0 '' bytes_of '# nothing' --ports
prints 1 "mkjob: line 2: 'name x y' is 3 words, not 4" of '1 2 3\n1 2 3 4\n' --pads
prints 1 "mkjob: line 2: 'height' is 1 word, not 2" of '1\n2 3\n' --ports
prints 1 "mkjob: line 1: y 2147483648 does not fit its field (-2147483648 to 2147483647)" of '1 2 2147483648' --pads
prints 1 "mkjob: line 3: height -2147483649 does not fit its field (-2147483648 to 2147483647)" of '1\n2\n-2147483649' --ports
prints 1 "mkjob: line 1: height '1,5' is not a whole number" of '1,5' --ports
prints 0 '# name        x        y
   258    66051       -2  # record 0, last field 7' of $job --list --pads
prints 0 '# height
       7  # port 0
      -2  # port 1' of '\007\000\000\000\376\377\377\377' --ports --list
prints 1 'mkjob: standard input has 6 bytes, not whole ports of 4' of '123456' --list --ports
prints 1 'mkjob: standard input has 4 bytes, not whole records of 16' of '1234' --list --pads
check "pads listed and made again" again --pads examples/sensor.pads
check "ports listed and made again" again --ports examples/row.ports

# ---- files

# Nothing is left of what was there; and a bad list leaves it alone.
two_files() { $mkjob examples/J1.txt "$room/my job" && cmp "$room/my job" examples/J1.job; }
head -c 999 /dev/zero >"$room/my job"
prints 0 '' two_files
prints 1 "mkjob: line 1: 'name x y port' is 4 words, not 1" of '1\n' - "$room/my job"
check "a file that a bad list left alone" cmp "$room/my job" examples/J1.job
list_to_file() { $mkjob --list examples/J1.job "$room/my list" && cat "$room/my list"; }
prints 0 '# name        x        y     port
   101        5        3        3  # record 0' list_to_file
prints 0 '' $mkjob - "$room/none" </dev/null

nowhere="$room/no such folder/file"
prints 1 "mkjob: cannot open $nowhere: No such file or directory" $mkjob "$nowhere"
prints 1 "mkjob: cannot open $nowhere: No such file or directory" $mkjob --list "$nowhere"
prints 1 "mkjob: cannot open $nowhere: No such file or directory" $mkjob examples/J5.txt "$nowhere"
prints 1 "mkjob: cannot open $room: Is a directory" $mkjob "$room"
prints 1 "mkjob: cannot open $room: Is a directory" $mkjob examples/J5.txt "$room"
to_full() { $mkjob "$@" >/dev/full; }
full='No space left on device'
prints 1 "mkjob: cannot write standard output: $full" to_full examples/J5.txt
prints 1 "mkjob: cannot write standard output: $full" to_full --list examples/matrix.job
prints 1 "mkjob: cannot write /dev/full: $full" $mkjob examples/J5.txt /dev/full
no_input() { $mkjob <&-; }
no_output() { $mkjob examples/J5.txt >&-; }
prints 1 'mkjob: cannot open standard input: Bad file descriptor' no_input
prints 1 'mkjob: cannot open standard output: Bad file descriptor' no_output

# ---- usage

usage=$(sed -n '/^"""/,/^"""/p' examples/mkjob | sed 's/^"""//')
prints 1 "$usage" $mkjob --lists examples/J5.job
prints 1 "$usage" $mkjob one two three
prints 1 "$usage" $mkjob --list one two three
prints 1 "$usage" $mkjob --pads --ports examples/row.txt
prints 1 "$usage" $mkjob --slots examples/row.txt

counts
