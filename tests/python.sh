#!/bin/sh
# tests/python.sh [WORD..]: the Python binding, examples/cheremysl.py, through the shared library, which make builds; words go to make, as archive=FILE.
# Its sentences are compared with the header's; python.py has the rest. The last line has the counts.
#   JOBS, SEED  in the environment: so many random jobs; another seed
set -u
cd "$(dirname "$0")/.." || exit 2
. tools/machine.sh
need_compilers
need "make python3" make python3
room=$(mktemp -d) || exit 2
trap 'rm -rf "$room"' EXIT

cat >"$room/texts.c" <<'END'
#include <cheremysl.h>
#include <stdio.h>
#include <string.h>
int main(void) {
    const char *unknown = cheremysl_refusal_text(-65536 * 99);
    for (int number = 1; number < 99; number++) {
        const char *text = cheremysl_refusal_text(-65536 * number);
        if (strcmp(text, unknown) != 0) printf("%d %s\n", number, text);
    }
    return 0;
}
END
$cc -std=c99 -Wall -Wextra -Werror -Iinclude $static -o "$room/texts" "$room/texts.c" && $run "$room/texts" >"$room/texts.txt" || exit 1

if [ "$run" ]; then
    echo "tests/python.sh: Python cannot load x86-64 code on this machine: the binding's texts and jobs alone are tried"
    python3 tests/python.py "$room/texts.txt"
else
    make -s shared "$@" && python3 tests/python.py "$room/texts.txt" "$PWD/build/libcheremysl.so.2" "${JOBS:-1500}" "${SEED:-1}"
fi
