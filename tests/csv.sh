#!/bin/sh
# tests/csv.sh [ARCHIVE]: ReadCsv beside Python's csv module: what this writes is read back, and what it reads, in good texts and
# bad, is what ReadCsv reads (tests/csv.py). The last line has the counts.
#   TEXTS, SEED  in the environment: so many texts; others
set -u
cd "$(dirname "$0")/.." || exit 2
. tools/machine.sh
need_compilers
need python3 python3
archive=${1:-build/libcheremysl.a}
room=$(mktemp -d) || exit 2
trap 'rm -rf "$room"' EXIT

# Of each question the bytes of text and of room, the text and the room; of each reply the answer and the room.
cat >"$room/read.c" <<'C'
#include <cheremysl.h>
#include <stdio.h>
int main(void) {
    static uint8_t text[65536], pads[65536];
    uint32_t size[2];
    while (fread(size, 4, 2, stdin) == 2) {
        if (fread(text, 1, size[0], stdin) != size[0] || fread(pads, 1, size[1], stdin) != size[1]) return 1;
        int64_t answer = cheremysl_read_csv(text, size[0], pads, size[1]);
        fwrite(&answer, 8, 1, stdout);
        fwrite(pads, 1, size[1], stdout);
    }
    return 0;
}
C
$cc -std=c99 -O2 -Wall -Wextra -Werror -pedantic -Iinclude $static -o "$room/read" "$room/read.c" "$archive" || exit 1
python3 tests/csv.py "${TEXTS:-8000}" "${SEED:-1}" $run "$room/read"
