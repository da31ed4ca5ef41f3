#!/bin/sh
# tests/header.sh [ARCHIVE]: the header as a user's compiler reads it: silent where all is right, under strict warnings and in
# every standard, and a warning or an error where something is not. Then tests/abi.c as optimisers make it, with the archive.
# The last line has the counts. What is missing is installed by apt-get (tools/machine.sh).
set -u
cd "$(dirname "$0")/.." || exit 2
archive=${1:-build/libcheremysl.a}
. tools/machine.sh
. tests/checks.sh
need_compilers
need clang clang
[ $# -gt 0 ] || tools/build archive || exit 1

# The compilers, by short names; an emulated machine's headers are not where clang looks for them.
gcc="$cc -x c" gxx="$cxx -x c++"
clang="clang --target=x86_64-linux-gnu ${run:+-isystem $headers} -x c" clangxx="$clang++"
include=-Iinclude

# compile FILE COMMAND..: what the compiler says of the file is in the log; silent: nothing; says TEXT: this among others;
# refuses TEXT: this, and there is no object
compile() {
    file=$1
    shift
    "$@" $include -c -o "$room/object" "$file" >"$room/log" 2>&1
}
silent() { compile "$@" && [ ! -s "$room/log" ]; }
says() {
    wanted=$1
    shift
    compile "$@"
    grep -q "$wanted" "$room/log"
}
refuses() {
    wanted=$1
    shift
    ! compile "$@" && grep -q "$wanted" "$room/log"
}

# ---- a program that uses everything, under strict warnings

cat >"$room/user.c" <<'C'
#include <cheremysl.h>

#if CHEREMYSL_VERSION_NUMBER < 2004000
#error "too old"
#endif
#if CHEREMYSL_SLOTS_WORK(CHEREMYSL_MAX_RECORDS, CHEREMYSL_MAX_SLOTS) != CHEREMYSL_MAX_SLOTS_WORK
#error "the largest work list"
#endif
#if CHEREMYSL_BUFFER(CHEREMYSL_MAX_RECORDS) != CHEREMYSL_MAX_BUFFER || CHEREMYSL_MAX_COUNT < CHEREMYSL_MAX_TABLE_TOTAL
#error "the largest buffer and count"
#endif
#if CHEREMYSL_SVG_BYTES(CHEREMYSL_MAX_RECORDS) != CHEREMYSL_MAX_SVG_BYTES
#error "the longest text"
#endif

static uint64_t work[CHEREMYSL_SLOTS_WORK(CHEREMYSL_MAX_RECORDS, CHEREMYSL_MAX_SLOTS)];

static uint64_t buffer[CHEREMYSL_BUFFER(CHEREMYSL_MAX_RECORDS)];

static size_t buffer_numbers(size_t job_bytes) {
    size_t n = job_bytes / CHEREMYSL_RECORD_BYTES;
    return CHEREMYSL_BUFFER(n);
}

static size_t numbers(size_t pad_bytes, size_t port_bytes) {
    size_t n = pad_bytes / CHEREMYSL_RECORD_BYTES, p = port_bytes / CHEREMYSL_PORT_BYTES;
    return CHEREMYSL_SLOTS_WORK(n, p);
}

int main(void) {
    uint8_t job[CHEREMYSL_MAX_JOB_BYTES] = {0}, ports[CHEREMYSL_MAX_PORT_BYTES] = {0};
    uint16_t layout[CHEREMYSL_MAX_RECORDS], page[2 * CHEREMYSL_MAX_RECORDS];
    uint32_t table[CHEREMYSL_MAX_FIGURES] = {0};
    float points[CHEREMYSL_DRAW_FLOATS];
    char lines[CHEREMYSL_SVG_BYTES(CHEREMYSL_MAX_RECORDS)];
    uint8_t list[CHEREMYSL_MAX_CSV_BYTES] = {0}, pads[CHEREMYSL_MAX_JOB_BYTES];
    const char *text = CHEREMYSL_VERSION_TEXT;
    int64_t answer = cheremysl_first(job, CHEREMYSL_RECORD_BYTES, 1, 0, layout, CHEREMYSL_MAX_RECORDS);
    if (cheremysl_is_refusal(answer)) text = cheremysl_refusal_text(answer);
    if (cheremysl_refusal_number(answer) == CHEREMYSL_NO_LAYOUT) return CHEREMYSL_MAX_HALF_SIDE;
    if (answer > CHEREMYSL_MAX_TOTAL) return cheremysl_refusal_number(answer);
    answer = cheremysl_next(job, sizeof job, CHEREMYSL_MAX_WEIGHT, 0, layout, CHEREMYSL_MAX_RECORDS);
    if (cheremysl_is_end(answer)) return cheremysl_refusal_record(answer);
    answer = cheremysl_page(job, sizeof job, 1, 0, layout, CHEREMYSL_MAX_RECORDS, page, 2 * CHEREMYSL_MAX_RECORDS);
    if (answer == CHEREMYSL_END) return cheremysl_refusal_earlier(answer);
    answer = cheremysl_count(job, sizeof job, 1, 0, buffer, CHEREMYSL_MAX_BUFFER);
    if (cheremysl_refusal_number(answer) == CHEREMYSL_TOO_MANY || answer > CHEREMYSL_MAX_COUNT) return *text;
    if (answer < 0) return cheremysl_refusal_number(answer) == CHEREMYSL_NO_BUFFER_ROOM;
    answer = cheremysl_place(job, sizeof job, 1, 0, UINT64_C(7), layout, CHEREMYSL_MAX_RECORDS, buffer, buffer_numbers(sizeof job));
    if (cheremysl_refusal_number(answer) == CHEREMYSL_PAST_COUNT) return *text;
    answer = cheremysl_measure(job, sizeof job, 1, 0, page, CHEREMYSL_MAX_RECORDS);
    if (cheremysl_refusal_number(answer) == CHEREMYSL_TOUCHING) return *text;
    if (cheremysl_refusal_number(answer) == CHEREMYSL_BAD_TABLE) return *text;
    answer = cheremysl_table_first(job, sizeof job, table, CHEREMYSL_MAX_FIGURES, layout, CHEREMYSL_MAX_RECORDS);
    if (answer > CHEREMYSL_MAX_TABLE_TOTAL) return cheremysl_refusal_number(answer);
    answer = cheremysl_table_next(job, sizeof job, table, CHEREMYSL_MAX_FIGURES, layout, CHEREMYSL_MAX_RECORDS);
    if (cheremysl_is_end(answer)) return cheremysl_refusal_record(answer);
    answer = cheremysl_table_measure(job, sizeof job, table, CHEREMYSL_MAX_FIGURES, layout, CHEREMYSL_MAX_RECORDS);
    if (cheremysl_is_refusal(answer)) return cheremysl_refusal_record(answer);
    answer = cheremysl_slots_first(job, sizeof job, ports, sizeof ports, 1, 0, layout, CHEREMYSL_MAX_RECORDS, work,
                                   CHEREMYSL_MAX_SLOTS_WORK);
    if (cheremysl_refusal_number(answer) == CHEREMYSL_TOO_FEW_PORTS) return *text;
    answer = cheremysl_slots_next(job, sizeof job, ports, sizeof ports, 1, 0, layout, CHEREMYSL_MAX_RECORDS, work,
                                  numbers(sizeof job, sizeof ports));
    if (cheremysl_refusal_number(answer) == CHEREMYSL_NO_WORK_ROOM) return *text;
    answer = cheremysl_slots_measure(job, sizeof job, ports, sizeof ports, 1, 0, layout, CHEREMYSL_MAX_RECORDS);
    if (answer > CHEREMYSL_MAX_TOTAL) return cheremysl_refusal_record(answer);
    answer = cheremysl_svg(job, sizeof job, layout, CHEREMYSL_MAX_RECORDS, lines, CHEREMYSL_MAX_SVG_BYTES);
    if (cheremysl_refusal_number(answer) == CHEREMYSL_TEXT_TOO_LONG) return *text;
    answer = cheremysl_read_csv(list, sizeof list, pads, sizeof pads);
    if (cheremysl_refusal_number(answer) == CHEREMYSL_BAD_LINE) return cheremysl_refusal_record(answer);
    if (cheremysl_refusal_number(answer) == CHEREMYSL_CSV_TOO_LONG) return *text;
    if (cheremysl_refusal_number(answer) == CHEREMYSL_NO_PAD_ROOM) return pads[0];
    answer = cheremysl_draw(job, sizeof job, 0, 0, points, CHEREMYSL_DRAW_FLOATS);
    return answer == 2 && points[0] > points[1];
}
C

strict="-O2 -Wall -Wextra -Wconversion -Wsign-conversion -pedantic -Werror -Wcast-qual -Wundef -Wshadow"
strict_c="$strict -Wstrict-prototypes -Wswitch-enum -Wc++-compat"
strict_cxx="$strict -Wold-style-cast -Wuseless-cast -Wzero-as-null-pointer-constant -Wnoexcept-type -Wswitch-enum"
# All that clang knows, but these. c++98-compat: the header is for C++11. switch-default, from clang 18 on: it asks for what
# covered-switch-default forbids, of every switch over an enum. unknown-warning-option: for clangs that have not one of them.
everything="-O2 -Weverything -Werror -Wno-unknown-warning-option -Wno-switch-default"
for form in c99 c11 c17 c2x; do
    check "$cc, $form" silent "$room/user.c" $gcc -std=$form $strict_c
    check "clang, $form" silent "$room/user.c" $clang -std=$form $everything
done
for form in c++11 c++14 c++17 c++20; do
    check "$cxx, $form" silent "$room/user.c" $gxx -std=$form $strict_cxx
    check "clang, $form" silent "$room/user.c" $clangxx -std=$form $everything -Wno-c++98-compat
done

# ---- lists: one call in a function, in C and C++, unoptimised and optimised

# call BODY: a program with the body of a function that is given a job, a layout and a table
call() {
    cat >"$room/call.c" <<C
#include <cheremysl.h>
int64_t f(const uint8_t *job, size_t bytes, const uint16_t *given, const uint32_t *table);
int64_t f(const uint8_t *job, size_t bytes, const uint16_t *given, const uint32_t *table) {
    (void)job, (void)bytes, (void)given, (void)table;
    $1
}
C
}

# quiet BODY: no warning; warned WARNING BODY: this one, from gcc, which alone knows how long a list is
levels="-O0 -O2"
quiet() {
    call "$1"
    for level in $levels; do
        check "$cc $level: $1" silent "$room/call.c" $gcc -std=c99 -Wall -Wextra $level
        check "$cxx $level: $1" silent "$room/call.c" $gxx -std=c++11 -Wall -Wextra $level
    done
    check "clang: $1" silent "$room/call.c" $clang -std=c99 -Wall -Wextra -O2
}
warned() {
    call "$2"
    for level in $levels; do
        check "$cc $level does not say $1: $2" says "\[-W$1" "$room/call.c" $gcc -std=c99 -Wall $level
        check "$cxx $level does not say $1: $2" says "\[-W$1" "$room/call.c" $gxx -std=c++11 -Wall $level
    done
}

warned stringop-overflow 'uint16_t list[4]; return cheremysl_first(job, bytes, 1, 0, list, 64);'
warned stringop-overflow 'uint16_t list[4] = {0}; return cheremysl_next(job, bytes, 1, 0, list, 64);'
warned stringop-overread 'uint16_t page[4], list[4] = {0}; return cheremysl_page(job, bytes, 1, 0, list, 5, page, 4);'
warned stringop-overflow 'uint16_t page[4]; return cheremysl_page(job, bytes, 1, 0, given, 4, page, 5);'
warned stringop-overread 'uint16_t list[4] = {0}; return cheremysl_measure(job, bytes, 1, 0, list, 64);'
warned stringop-overflow 'float points[5]; return cheremysl_draw(job, bytes, 0, 0, points, 6);'
warned stringop-overflow 'char text[75]; return cheremysl_svg(job, bytes, given, 1, text, CHEREMYSL_SVG_BYTES(1));'
warned stringop-overread 'uint16_t list[4] = {0}; char text[76]; return cheremysl_svg(job, bytes, list, 64, text, 76);'
warned stringop-overflow 'uint8_t pads[15]; return cheremysl_read_csv(job, bytes, pads, CHEREMYSL_RECORD_BYTES);'
warned stringop-overflow 'uint16_t list[4]; return cheremysl_table_first(job, bytes, table, 16, list, 64);'
warned stringop-overflow 'uint16_t list[4] = {0}; return cheremysl_table_next(job, bytes, table, 16, list, 64);'
warned stringop-overread 'uint16_t list[4] = {0}; return cheremysl_table_measure(job, bytes, table, 16, list, 64);'
warned stringop-overflow 'uint16_t list[4]; return cheremysl_slots_first(job, bytes, job, 4, 1, 0, list, 64, 0, 0);'
warned stringop-overflow 'uint16_t list[4] = {0}; return cheremysl_slots_next(job, bytes, job, 4, 1, 0, list, 64, 0, 0);'
warned stringop-overread 'uint16_t list[4] = {0}; return cheremysl_slots_measure(job, bytes, job, 4, 1, 0, list, 64);'
warned stringop-overflow 'uint64_t work[35]; return cheremysl_slots_first(job, 16, job, 4, 1, 0, 0, 0, work, CHEREMYSL_SLOTS_WORK(1, 1));'
warned stringop-overflow 'uint64_t work[35]; return cheremysl_slots_next(job, 16, job, 4, 1, 0, 0, 0, work, CHEREMYSL_SLOTS_WORK(1, 1));'
warned stringop-overflow 'uint16_t list[4]; return cheremysl_place(job, bytes, 1, 0, 0, list, 64, 0, 0);'
warned stringop-overflow 'uint64_t buffer[17]; return cheremysl_count(job, 16, 1, 0, buffer, CHEREMYSL_BUFFER(1));'
warned stringop-overflow 'uint64_t buffer[17]; return cheremysl_place(job, 16, 1, 0, 0, 0, 0, buffer, CHEREMYSL_BUFFER(1));'

warned stringop-overread 'uint8_t a[15] = {0}; uint16_t list[1]; return cheremysl_first(a, 16, 1, 0, list, 1);'
warned stringop-overread 'uint8_t a[15] = {0}; uint16_t list[1] = {0}; return cheremysl_next(a, 16, 1, 0, list, 1);'
warned stringop-overread 'uint8_t a[15] = {0}; return cheremysl_page(a, 16, 1, 0, given, 1, 0, 0);'
warned stringop-overread 'uint8_t a[15] = {0}; return cheremysl_measure(a, 16, 1, 0, given, 1);'
warned stringop-overread 'uint8_t a[15] = {0}; float points[6]; return cheremysl_draw(a, 16, 0, 0, points, 6);'
warned stringop-overread 'uint8_t a[15] = {0}; char text[76]; return cheremysl_svg(a, 16, given, 1, text, 76);'
warned stringop-overread 'uint8_t a[15] = {0}, pads[16]; return cheremysl_read_csv(a, 16, pads, 16);'
warned stringop-overread 'uint8_t a[15] = {0}; return cheremysl_count(a, 16, 1, 0, 0, 0);'
warned stringop-overread 'uint8_t a[15] = {0}; uint16_t list[1]; return cheremysl_place(a, 16, 1, 0, 0, list, 1, 0, 0);'
warned stringop-overread 'uint8_t a[15] = {0}; uint16_t list[1]; return cheremysl_table_first(a, 16, table, 1, list, 1);'
warned stringop-overread 'uint8_t a[15] = {0}; uint16_t list[1] = {0}; return cheremysl_table_next(a, 16, table, 1, list, 1);'
warned stringop-overread 'uint8_t a[15] = {0}; return cheremysl_table_measure(a, 16, table, 1, given, 1);'
for lists in 'a, 16, job, 4' 'job, 16, a, 16'; do # the pads, the ports
    warned stringop-overread "uint8_t a[15] = {0}; uint16_t list[1]; return cheremysl_slots_first($lists, 1, 0, list, 1, 0, 0);"
    warned stringop-overread "uint8_t a[15] = {0}; uint16_t list[1] = {0}; return cheremysl_slots_next($lists, 1, 0, list, 1, 0, 0);"
    warned stringop-overread "uint8_t a[15] = {0}; return cheremysl_slots_measure($lists, 1, 0, given, 1);"
done

warned stringop-overread 'uint32_t t[3] = {0}; uint16_t list[2]; return cheremysl_table_first(job, 32, t, 4, list, 2);'
warned stringop-overread 'uint32_t t[3] = {0}; uint16_t list[2] = {0}; return cheremysl_table_next(job, 32, t, 4, list, 2);'
warned stringop-overread 'uint32_t t[3] = {0}; return cheremysl_table_measure(job, 32, t, 4, given, 2);'

warned nonnull 'return cheremysl_first(job, bytes, 1, 0, 0, 1);'
warned nonnull 'return cheremysl_measure(0, 16, 1, 0, given, 1);'
warned nonnull 'return cheremysl_page(job, bytes, 1, 0, given, 1, 0, 1);'
warned nonnull 'return cheremysl_svg(job, bytes, given, 1, 0, 76);'
warned nonnull 'char text[76]; return cheremysl_svg(job, bytes, 0, 1, text, 76);'
warned nonnull 'uint8_t pads[16]; return cheremysl_read_csv(0, 1, pads, 16);'
warned nonnull 'return cheremysl_read_csv(job, bytes, 0, 16);'
warned nonnull 'return cheremysl_count(job, bytes, 1, 0, 0, 18);'
warned nonnull 'uint64_t buffer[18]; return cheremysl_place(job, bytes, 1, 0, 0, 0, 1, buffer, 18);'
warned nonnull 'uint16_t list[1]; return cheremysl_place(job, bytes, 1, 0, 0, list, 1, 0, 18);'
warned nonnull 'uint16_t list[1]; return cheremysl_table_first(job, bytes, 0, 1, list, 1);'
warned nonnull 'return cheremysl_table_measure(job, bytes, 0, 1, given, 1);'
warned nonnull 'uint16_t list[1]; return cheremysl_slots_first(job, bytes, job, 4, 1, 0, list, 1, 0, 36);'
warned nonnull 'return cheremysl_slots_measure(job, bytes, 0, 4, 1, 0, given, 1);'
quiet 'return cheremysl_first(0, 0, 1, 0, 0, 0) + cheremysl_next(0, 0, 1, 0, 0, 0) + cheremysl_measure(0, 0, 1, 0, 0, 0);'
quiet 'return cheremysl_draw(0, 0, 0, 0, 0, 0) + cheremysl_page(job, bytes, 1, 0, given, 1, 0, 0);'
quiet 'return cheremysl_svg(0, 0, 0, 0, 0, 0) + cheremysl_svg(job, bytes, given, 1, 0, 0);'
quiet 'return cheremysl_read_csv(0, 0, 0, 0) + cheremysl_read_csv(job, bytes, 0, 0);'
quiet 'return cheremysl_count(0, 0, 1, 0, 0, 0) + cheremysl_place(0, 0, 1, 0, 0, 0, 0, 0, 0);'
quiet 'return cheremysl_table_first(0, 0, 0, 0, 0, 0) + cheremysl_table_next(0, 0, 0, 0, 0, 0);'
quiet 'return cheremysl_table_measure(job, bytes, 0, 0, given, 1);'
quiet 'return cheremysl_slots_first(0, 0, 0, 0, 1, 0, 0, 0, 0, 0) + cheremysl_slots_next(0, 0, 0, 0, 1, 0, 0, 0, 0, 0);'
quiet 'return cheremysl_slots_measure(job, bytes, 0, 0, 1, 0, given, 1);'

# What a call only writes need not be filled; what it reads must, if only in part.
quiet 'uint16_t list[64]; return cheremysl_first(job, bytes, 1, 0, list, 64);'
quiet 'uint16_t page[64]; return cheremysl_page(job, bytes, 1, 0, given, 4, page, 64);'
quiet 'uint16_t list[64]; return cheremysl_table_first(job, bytes, table, 16, list, 64);'
quiet 'uint16_t list[64]; uint64_t work[36]; return cheremysl_slots_first(job, bytes, job, 4, 1, 0, list, 64, work, 36);'
quiet 'uint64_t buffer[18]; return cheremysl_count(job, bytes, 1, 0, buffer, 18);'
quiet 'uint16_t list[64]; uint64_t buffer[18]; return cheremysl_place(job, bytes, 1, 0, 0, list, 64, buffer, 18);'
quiet 'float points[6]; return cheremysl_draw(job, bytes, 0, 0, points, 6);'
quiet 'char text[76]; return cheremysl_svg(job, bytes, given, 1, text, 76);'
quiet 'uint8_t pads[16]; return cheremysl_read_csv(job, bytes, pads, 16);'
quiet 'uint16_t list[64]; char text[76]; list[0] = 0; return cheremysl_svg(job, 16, list, 64, text, 76);'
quiet 'uint16_t list[64]; list[0] = 1; list[1] = 0; return cheremysl_measure(job, 32, 1, 0, list, 64);'
quiet 'uint16_t list[64]; list[0] = 1; list[1] = 0; return cheremysl_next(job, 32, 1, 0, list, 64);'
quiet 'uint16_t list[64]; list[0] = 1; list[1] = 0; return cheremysl_table_measure(job, 32, table, 4, list, 64);'
quiet 'uint16_t list[64]; list[0] = 1; list[1] = 0; return cheremysl_table_next(job, 32, table, 4, list, 64);'
quiet 'uint16_t list[64]; list[0] = 1; list[1] = 0; return cheremysl_slots_measure(job, 32, job, 8, 1, 0, list, 64);'
quiet 'uint16_t list[64]; list[0] = 1; uint64_t work[36]; return cheremysl_slots_next(job, 16, job, 4, 1, 0, list, 64, work, 36);'
warned '\(maybe-\)*uninitialized' 'uint16_t list[64]; return cheremysl_next(job, bytes, 1, 0, list, 64);'
warned '\(maybe-\)*uninitialized' 'uint16_t list[64]; return cheremysl_measure(job, bytes, 1, 0, list, 64);'
warned '\(maybe-\)*uninitialized' 'uint16_t list[64]; return cheremysl_page(job, bytes, 1, 0, list, 64, 0, 0);'
warned '\(maybe-\)*uninitialized' 'uint16_t list[64]; return cheremysl_svg(job, bytes, list, 64, 0, 0);'
warned '\(maybe-\)*uninitialized' 'uint8_t list[64], pads[16]; return cheremysl_read_csv(list, 64, pads, 16);'
warned '\(maybe-\)*uninitialized' 'uint16_t list[64]; return cheremysl_table_next(job, bytes, table, 16, list, 64);'
warned '\(maybe-\)*uninitialized' 'uint16_t list[64]; return cheremysl_table_measure(job, bytes, table, 16, list, 64);'
warned '\(maybe-\)*uninitialized' 'uint32_t t[16]; return cheremysl_table_measure(job, bytes, t, 16, given, 4);'
warned '\(maybe-\)*uninitialized' 'uint16_t list[64]; return cheremysl_slots_next(job, bytes, job, 4, 1, 0, list, 64, 0, 0);'
warned '\(maybe-\)*uninitialized' 'uint16_t list[64]; return cheremysl_slots_measure(job, bytes, job, 4, 1, 0, list, 64);'
warned '\(maybe-\)*uninitialized' 'uint8_t heights[4]; return cheremysl_slots_measure(job, bytes, heights, 4, 1, 0, given, 1);'

# ---- an answer that nobody looks at

for ignored in 'uint16_t list[64]; cheremysl_first(job, bytes, 1, 0, list, 64)' \
    'uint16_t list[64] = {0}; cheremysl_next(job, bytes, 1, 0, list, 64)' \
    'uint16_t page[64]; cheremysl_page(job, bytes, 1, 0, given, 1, page, 64)' \
    'uint64_t buffer[18]; cheremysl_count(job, bytes, 1, 0, buffer, 18)' \
    'uint16_t list[64]; uint64_t buffer[18]; cheremysl_place(job, bytes, 1, 0, 0, list, 64, buffer, 18)' \
    'cheremysl_measure(job, bytes, 1, 0, given, 1)' \
    'float points[6]; cheremysl_draw(job, bytes, 0, 0, points, 6)' \
    'char text[76]; cheremysl_svg(job, bytes, given, 1, text, 76)' \
    'uint8_t pads[16]; cheremysl_read_csv(job, bytes, pads, 16)' \
    'uint16_t list[64]; cheremysl_table_first(job, bytes, table, 16, list, 64)' \
    'uint16_t list[64] = {0}; cheremysl_table_next(job, bytes, table, 16, list, 64)' \
    'cheremysl_table_measure(job, bytes, table, 16, given, 4)' \
    'uint16_t list[64]; cheremysl_slots_first(job, bytes, job, 4, 1, 0, list, 64, 0, 0)' \
    'uint16_t list[64] = {0}; cheremysl_slots_next(job, bytes, job, 4, 1, 0, list, 64, 0, 0)' \
    'cheremysl_slots_measure(job, bytes, job, 4, 1, 0, given, 4)'; do
    call "$ignored; return 0;"
    for compiler in "$gcc" "$gxx" "$clang" "$clangxx"; do
        check "$compiler does not say unused-result: $ignored" says '\[-Wunused-result' "$room/call.c" $compiler
    done
done

# ---- C++: no call throws

cat >"$room/throw.c" <<'C'
#include <cheremysl.h>
static_assert(noexcept(cheremysl_first(nullptr, 0, 0, 0, nullptr, 0)), "First");
static_assert(noexcept(cheremysl_next(nullptr, 0, 0, 0, nullptr, 0)), "Next");
static_assert(noexcept(cheremysl_page(nullptr, 0, 0, 0, nullptr, 0, nullptr, 0)), "Page");
static_assert(noexcept(cheremysl_count(nullptr, 0, 0, 0, nullptr, 0)), "Count");
static_assert(noexcept(cheremysl_place(nullptr, 0, 0, 0, 0, nullptr, 0, nullptr, 0)), "Place");
static_assert(noexcept(cheremysl_measure(nullptr, 0, 0, 0, nullptr, 0)), "Measure");
static_assert(noexcept(cheremysl_draw(nullptr, 0, 0, 0, nullptr, 0)), "Draw");
static_assert(noexcept(cheremysl_svg(nullptr, 0, nullptr, 0, nullptr, 0)), "Svg");
static_assert(noexcept(cheremysl_read_csv(nullptr, 0, nullptr, 0)), "ReadCsv");
static_assert(noexcept(cheremysl_table_first(nullptr, 0, nullptr, 0, nullptr, 0)), "First over a table");
static_assert(noexcept(cheremysl_table_next(nullptr, 0, nullptr, 0, nullptr, 0)), "Next over a table");
static_assert(noexcept(cheremysl_table_measure(nullptr, 0, nullptr, 0, nullptr, 0)), "Measure over a table");
static_assert(noexcept(cheremysl_slots_first(nullptr, 0, nullptr, 0, 0, 0, nullptr, 0, nullptr, 0)), "First over slots");
static_assert(noexcept(cheremysl_slots_next(nullptr, 0, nullptr, 0, 0, 0, nullptr, 0, nullptr, 0)), "Next over slots");
static_assert(noexcept(cheremysl_slots_measure(nullptr, 0, nullptr, 0, 0, 0, nullptr, 0)), "Measure over slots");
C
check "$cxx: no call throws" silent "$room/throw.c" $gxx -std=c++11
check "clang: no call throws" silent "$room/throw.c" $clangxx -std=c++11

# ---- other platforms and older languages: an error that says so, and a word against it

echo '#include <cheremysl.h>' >"$room/header.c"
elsewhere() {
    what=$1
    shift
    check "$*: no error" refuses "error.*cheremysl.* is .*$what" "$room/header.c" "$@"
    check "$*: the error stays" silent "$room/header.c" "$@" -DCHEREMYSL_ANY_PLATFORM
}
for target in i686-linux-gnu x86_64-linux-gnux32 aarch64-linux-gnu x86_64-apple-darwin x86_64-windows-gnu; do
    elsewhere x86-64 clang --target=$target -ffreestanding -fsyntax-only
done
for target in x86_64-linux-gnu x86_64-freebsd; do
    check "an error on $target" silent "$room/header.c" clang --target=$target -ffreestanding -fsyntax-only -Weverything
done
elsewhere C99 $gcc -std=gnu89
elsewhere C99 $clang -std=gnu89
elsewhere C++11 $gxx -std=c++98
elsewhere C++11 $clangxx -std=c++98

# ---- what the header leaves behind

macros() { echo "$1" | $gcc -dM -E $include - | LC_ALL=C sort; }
macros '#include <stddef.h>
#include <stdint.h>' >"$room/without"
macros '#include <cheremysl.h>' >"$room/with"
LC_ALL=C comm -13 "$room/without" "$room/with" >"$room/left"
check "macros: none" [ -s "$room/left" ]
check "macros that are not the header's own" [ "$(grep -vc '^#define CHEREMYSL_' "$room/left")" = 0 ]
check "attributes that stayed" [ "$(grep -c '__attribute__\|_cast\|CHEREMYSL_\(HAS\|CAST\|CALL\)' "$room/left")" = 0 ]

# The version is said once, in three lines that a script can read.
lines=$(sed -En 's/^#define CHEREMYSL_VERSION_(MAJOR|MINOR|PATCH) ([0-9]+)$/\2/p' include/cheremysl.h | paste -sd .)
text=$(printf '#include <cheremysl.h>\nCHEREMYSL_VERSION_TEXT\n' | $gcc -E -P $include - | tail -n 1 | tr -d '" ')
check "version $lines, text $text" [ "${lines:-none}" = "$text" ]

# A refusal without a sentence is a warning.
sed 's/CHEREMYSL_NO_WORK_ROOM = 24/&, CHEREMYSL_NEW = 25/' include/cheremysl.h >"$room/cheremysl.h"
include=-I$room
for compiler in "$gcc" "$gxx" "$clang" "$clangxx"; do
    check "$compiler: a refusal without a sentence" says 'CHEREMYSL_NEW.*\[-Wswitch' "$room/header.c" $compiler -Wall
done
include=-Iinclude

# ---- the calls behind the header, as optimisers make them

# optimised COMMAND..: tests/abi.c by this compiler, with the archive; adds its counts
optimised() {
    if silent tests/abi.c "$@" -O3 -Wall -Wextra -pedantic &&
        $cc $static -o "$room/abi" "$room/object" "$archive" >"$room/log" 2>&1; then
        $run "$room/abi" >"$room/log" 2>&1 || echo "status $?" >>"$room/log"
    fi
    counts=$(sed -n '$s/^\([0-9]*\) passed, \([0-9]*\) failed$/\1 \2/p' "$room/log")
    passed=$((passed + ${counts% *} + 0)) failed=$((failed + ${counts#* } + 0))
    check "$*: tests/abi.c at -O3" [ "${counts#* }" = 0 ]
}
optimised $gcc -std=c99
optimised $gxx -std=c++11
optimised $clang -std=c99
optimised $clangxx -std=c++11

counts
