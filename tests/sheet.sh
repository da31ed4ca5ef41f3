#!/bin/sh
# tests/sheet.sh [PROGRAM]: the printing program as it is used: a job on standard input, whole, in pieces, missing, odd, oversized, without end, or
# refused. What it prints is compared with 01. The last line has the counts. RUN in the environment: an emulator to run it under.
set -u
cd "$(dirname "$0")/.." || exit 2
program=${1:-build/sheet} passed=0 failed=0

# number N: 4 bytes, lowest first, in two's complement if negative
number() {
    n=$(($1 < 0 ? $1 + 4294967296 : $1))
    printf "$(printf '\\%03o\\%03o\\%03o\\%03o' $((n % 256)) $((n / 256 % 256)) $((n / 65536 % 256)) $((n / 16777216)))"
}

# records NAME X Y PORT NAME X Y PORT ..; a name and a half-side, 2 bytes each, are one number: square NAME HALF
records() { for field; do number "$field"; done; }
square() { echo $(($1 + 65536 * $2)); }
slowly() { for field; do number "$field"; sleep 0.02; done; }
zeros() { head -c "$1" /dev/zero; }
endless() { cat /dev/zero 2>/dev/null; }
nothing() { :; }

# prints TEXT COMMAND..: on what the command writes, the program prints the text, each of whose lines ends in '/'
prints() {
    text=$1
    shift
    wrote=$("$@" | ${RUN:-} "$program" | tr '\n' /)
    if [ "$wrote" = "$text" ]; then
        passed=$((passed + 1))
    else
        failed=$((failed + 1))
        echo "FAILED: $*: $wrote"
    fi
}

prints '101 1 10 0/102 2 20 0/103 0 60 1/total 90 1/' records 101 10 10 0 102 20 20 10 103 30 30 20
prints '101 1 10 0/102 2 20 0/103 0 60 1/total 90 1/' slowly 101 10 10 0 102 20 20 10 103 30 30 20
prints '1 1 10 0/256 2 20 0/65535 0 60 1/total 90 1/' records 1 10 10 0 256 20 20 10 65535 30 30 20
prints '65535 0 3000000 1/total 3000000 1/' records 65535 1000000 -1000000 1000000
prints 'refused 1 record 0/' nothing
for size in 15 1025 1039 1040 1041 1000000; do prints 'refused 1 record 0/' zeros $size; done
prints 'refused 1 record 0/' endless
for size in 16 1024; do prints 'refused 4 record 0/' zeros $size; done
prints 'refused 4 record 1/' records 101 10 0 10 102 0 30 10
prints 'refused 4 record 1/' records 101 10 10 0 0 20 20 10 103 30 30 20
prints 'refused 4 record 0/' records 0 10 10 0 0 20 20 10 0 30 30 20
prints 'refused 4 record 2/' records 101 10 10 0 101 20 20 0 0 30 30 20
prints 'refused 4 record 1/' records 101 10 10 0 $(square 102 2001) 20 20 10 103 30 30 20
prints 'refused 4 record 0/' records $(square 101 65535) 10 10 0
prints '101 0 10 0/total 10 0/' records $(square 101 2000) 10 10 10
prints '101 0 16 1/102 1 40 1/total 56 2/' records $(square 101 3) 10 6 0 102 20 30 10
prints '101 1 14 1/102 0 50 1/total 64 2/' records $(square 101 4) 10 6 0 102 20 30 10
prints 'refused 15 record 0/' records $(square 101 6) 10 6 0 102 20 30 10
prints '101 0 15 1/102 1 40 1/total 55 2/' records $(square 101 4) 10 5 0 102 20 30 10
prints 'refused 15 record 0/' records $(square 101 5) 10 5 0 102 20 30 10
prints 'refused 15 record 0/' records $(square 101 2000) 1000 0 0 102 20 30 10
prints 'refused 7 record 1/' records $(square 101 2000) 10 6 0 102 10 30 10
prints 'refused 5 record 1/' records 101 10 0 10 102 20 30 10
prints 'refused 12 record 1/' records 101 10 0 10 102 20 30 17
prints '101 0 20 1/102 1 32 1/total 52 2/' records 101 10 0 10 102 20 30 18
prints '101 0 10 0/102 1 20 0/total 30 0/' records 101 10 -1000000 -1000000 102 20 1000000 1000000
prints 'refused 5 record 2/' records 101 10 0 10 102 20 30 17 103 30 40 17
prints 'refused 12 record 1/' records 101 10 0 10 102 20 30 17 101 30 40 30
prints 'refused 6 record 2/' records 101 10 0 10 102 20 30 20 101 30 30 30
prints 'refused 7 record 2/' records 101 10 0 10 102 20 30 20 103 20 30 30

echo "$passed passed, $failed failed"
[ $failed = 0 ] && [ $passed -gt 0 ]
