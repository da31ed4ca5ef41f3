#!/bin/sh
# tests/printed.sh [JOBS [SEED]]: the printing program as it is used (sheet.sh), and on random jobs against 01 worked out in plain Python (sheet.py).
# The last line has the counts.
set -u
cd "$(dirname "$0")/.." || exit 2
. tools/machine.sh
need_run
need python3 python3
[ -x build/sheet ] || tools/build sheet || exit 1
passed=0 failed=0

# add COMMAND..: runs it, shows what it prints, and adds up the counts of its last line
add() {
    counts=$("$@" | tee /dev/stderr | sed -n '$s/^\([0-9]*\) passed, \([0-9]*\) failed$/\1 \2/p')
    case $counts in "" | "0 "*) failed=$((failed + 1)) ;; esac
    passed=$((passed + ${counts% *} + 0)) failed=$((failed + ${counts#* } + 0))
}

add env RUN="$run" tests/sheet.sh build/sheet
add python3 tests/sheet.py "${1:-500}" "${2:-1}" $run build/sheet
echo "$passed passed, $failed failed"
[ $failed = 0 ]
