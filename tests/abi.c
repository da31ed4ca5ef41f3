/*
 * The header alone, as C99, C11 and C++ read it: prototypes, numbers, answers taken apart, and what
 * a caller's list holds after a call that writes nothing.
 */
#include "cheremysl.h"

#include <stdio.h>
#include <string.h>

#if CHEREMYSL_VERSION_NUMBER < 2004000 || CHEREMYSL_VERSION_NUMBER >= 3000000
#error "the version is not 2.4 or a later 2"
#endif

/* These are refused by the compiler if a prototype is another. */
typedef int64_t fill(const uint8_t *, size_t, uint32_t, uint32_t, uint16_t *, size_t);
typedef int64_t read_only(const uint8_t *, size_t, uint32_t, uint32_t, const uint16_t *, size_t);
typedef int64_t fill_page(const uint8_t *, size_t, uint32_t, uint32_t, const uint16_t *, size_t,
                          uint16_t *, size_t);
typedef int64_t draw(const uint8_t *, size_t, uint32_t, uint32_t, float *, size_t);
typedef int64_t write_text(const uint8_t *, size_t, const uint16_t *, size_t, char *, size_t);
typedef int64_t read_text(const uint8_t *, size_t, uint8_t *, size_t);
typedef int64_t fill_by_table(const uint8_t *, size_t, const uint32_t *, size_t, uint16_t *,
                              size_t);
typedef int64_t read_by_table(const uint8_t *, size_t, const uint32_t *, size_t, const uint16_t *,
                              size_t);
typedef int64_t fill_on_slots(const uint8_t *, size_t, const uint8_t *, size_t, uint32_t, uint32_t,
                              uint16_t *, size_t, uint64_t *, size_t);
typedef int64_t read_on_slots(const uint8_t *, size_t, const uint8_t *, size_t, uint32_t, uint32_t,
                              const uint16_t *, size_t);

typedef int64_t count_sheets(const uint8_t *, size_t, uint32_t, uint32_t, uint64_t *, size_t);
typedef int64_t fill_at_place(const uint8_t *, size_t, uint32_t, uint32_t, uint64_t, uint16_t *,
                              size_t, uint64_t *, size_t);

static read_only *const measure_call = cheremysl_measure;
static draw *const draw_call = cheremysl_draw;
static write_text *const svg_call = cheremysl_svg;
static read_text *const read_csv_call = cheremysl_read_csv;
static read_by_table *const table_measure_call = cheremysl_table_measure;
static read_on_slots *const slots_measure_call = cheremysl_slots_measure;
#ifndef NO_SEARCH
static fill *const first_call = cheremysl_first;
static fill *const next_call = cheremysl_next;
static fill_page *const page_call = cheremysl_page;
static fill_by_table *const table_first_call = cheremysl_table_first;
static fill_by_table *const table_next_call = cheremysl_table_next;
static fill_on_slots *const slots_first_call = cheremysl_slots_first;
static fill_on_slots *const slots_next_call = cheremysl_slots_next;
static count_sheets *const count_call = cheremysl_count;
static fill_at_place *const place_call = cheremysl_place;
#endif

static int passed, failed;

static void check(int ok) { *(ok ? &passed : &failed) += 1; }

static void is_refusal(int64_t answer, int number, int record, int earlier) {
    check(cheremysl_is_refusal(answer) == 1 && cheremysl_is_end(answer) == 0);
    check(cheremysl_refusal_number(answer) == number);
    check(cheremysl_refusal_record(answer) == record);
    check(cheremysl_refusal_earlier(answer) == earlier);
}

static void is_no_refusal(int64_t answer, int end) {
    check(cheremysl_is_refusal(answer) == 0 && cheremysl_is_end(answer) == end);
    check(cheremysl_refusal_number(answer) == 0 && cheremysl_refusal_record(answer) == 0);
    check(cheremysl_refusal_earlier(answer) == 0);
    check(*cheremysl_refusal_text(answer) == 0);
}

static void answers(void) {
    is_no_refusal(0, 0);
    is_no_refusal(2, 0);
    is_no_refusal(5, 0);
    is_no_refusal(CHEREMYSL_MAX_RECORDS, 0);
    is_no_refusal(CHEREMYSL_MAX_TOTAL, 0);
    is_no_refusal(CHEREMYSL_MAX_TABLE_TOTAL, 0);
    is_no_refusal(CHEREMYSL_MAX_COUNT, 0);
    is_no_refusal(CHEREMYSL_MAX_SVG_BYTES, 0);
    is_no_refusal(CHEREMYSL_END, 1);
    for (int number = CHEREMYSL_BAD_SIZE; number <= CHEREMYSL_NO_WORK_ROOM; number++)
        for (int record = 0; record < CHEREMYSL_MAX_SLOTS; record++)
            is_refusal(-(65536 * (int64_t)number + record), number, record, 0);
    /* A line's number may be larger than a record's, and is less than the bytes of the text. */
    is_refusal(-(65536 * CHEREMYSL_BAD_LINE + CHEREMYSL_MAX_CSV_BYTES), CHEREMYSL_BAD_LINE,
               CHEREMYSL_MAX_CSV_BYTES, 0);
}

/* Refusal 9 with any two records: all that went into the number comes out of it. */
static void pairs(void) {
    int64_t nine = 65536 * CHEREMYSL_TOUCHING;
    for (int record = 0; record < CHEREMYSL_MAX_RECORDS; record++)
        for (int64_t earlier = 0; earlier < CHEREMYSL_MAX_RECORDS; earlier++)
            is_refusal(-(4294967296 * earlier + nine + record), 9, record, (int)earlier);
    is_refusal(-4295557122, 9, 2, 1);
    is_refusal(-589825, 9, 1, 0);
}

static const char *text(int number) { return cheremysl_refusal_text(-65536 * (int64_t)number); }

static int is_known(int number) {
    return number <= CHEREMYSL_NO_PAD_ROOM || number == CHEREMYSL_NO_WORK_ROOM;
}

/* A sentence, and not one that a smaller number has, if that or this is known. */
static void is_sentence(int number) {
    const char *sentence = text(number);
    size_t length = strlen(sentence);
    check(length > 0 && *sentence >= 'A' && *sentence <= 'Z' && sentence[length - 1] == '.');
    for (int other = 1; other < number; other++)
        check((strcmp(sentence, text(other)) != 0) == (is_known(number) || is_known(other)));
}

/* All that are unknown share one. */
static void texts(void) {
    int unknown = CHEREMYSL_NO_PAD_ROOM + 1;
    for (int number = CHEREMYSL_BAD_SIZE; number <= CHEREMYSL_NO_WORK_ROOM + 1; number++)
        is_sentence(number);
    check(strcmp(text(25), text(unknown)) == 0 && strcmp(text(65535), text(unknown)) == 0);
    check(strcmp(cheremysl_refusal_text(-2), text(unknown)) == 0);
    check(strcmp(cheremysl_refusal_text(-4295557122), text(CHEREMYSL_TOUCHING)) == 0);
}

static void calls(void) {
    is_refusal(measure_call(NULL, 0, 0, 0, NULL, 0), CHEREMYSL_BAD_SIZE, 0, 0);
    is_refusal(draw_call(NULL, 0, 0, 0, NULL, 0), CHEREMYSL_BAD_SIZE, 0, 0);
    is_refusal(svg_call(NULL, 0, NULL, 0, NULL, 0), CHEREMYSL_BAD_SIZE, 0, 0);
    is_refusal(read_csv_call(NULL, 0, NULL, 0), CHEREMYSL_BAD_LINE, 1, 0);
    is_refusal(table_measure_call(NULL, 0, NULL, 0, NULL, 0), CHEREMYSL_BAD_SIZE, 0, 0);
    is_refusal(slots_measure_call(NULL, 0, NULL, 0, 0, 0, NULL, 0), CHEREMYSL_BAD_SIZE, 0, 0);
#ifndef NO_SEARCH
    is_refusal(first_call(NULL, 0, 0, 0, NULL, 0), CHEREMYSL_BAD_SIZE, 0, 0);
    is_refusal(next_call(NULL, 0, 0, 0, NULL, 0), CHEREMYSL_BAD_SIZE, 0, 0);
    is_refusal(page_call(NULL, 0, 0, 0, NULL, 0, NULL, 0), CHEREMYSL_BAD_SIZE, 0, 0);
    is_refusal(table_first_call(NULL, 0, NULL, 0, NULL, 0), CHEREMYSL_BAD_SIZE, 0, 0);
    is_refusal(table_next_call(NULL, 0, NULL, 0, NULL, 0), CHEREMYSL_BAD_SIZE, 0, 0);
    is_refusal(slots_first_call(NULL, 0, NULL, 0, 0, 0, NULL, 0, NULL, 0), CHEREMYSL_BAD_SIZE, 0,
               0);
    is_refusal(slots_next_call(NULL, 0, NULL, 0, 0, 0, NULL, 0, NULL, 0), CHEREMYSL_BAD_SIZE, 0, 0);
    is_refusal(count_call(NULL, 0, 0, 0, NULL, 0), CHEREMYSL_BAD_SIZE, 0, 0);
    is_refusal(place_call(NULL, 0, 0, 0, 0, NULL, 0, NULL, 0), CHEREMYSL_BAD_SIZE, 0, 0);
#endif
}

static void limits(void) {
    check(CHEREMYSL_MAX_JOB_BYTES == CHEREMYSL_RECORD_BYTES * CHEREMYSL_MAX_RECORDS);
    check(CHEREMYSL_MAX_TOTAL ==
          (int64_t)CHEREMYSL_MAX_RECORDS * CHEREMYSL_MAX_WEIGHT *
              (CHEREMYSL_MAX_X + 2 * CHEREMYSL_MAX_HEIGHT + 1));
    check(CHEREMYSL_MAX_FIGURES == CHEREMYSL_MAX_RECORDS * CHEREMYSL_MAX_RECORDS);
    check(CHEREMYSL_MAX_TABLE_TOTAL == (int64_t)CHEREMYSL_MAX_RECORDS * UINT32_MAX);
    check(CHEREMYSL_TOUCHING == 9 && CHEREMYSL_DRAW_FLOATS == 6 && CHEREMYSL_BAD_TABLE == 13);
    check(CHEREMYSL_PORT_TOO_CLOSE == 12 && CHEREMYSL_MIN_RISE == 8);
    check(CHEREMYSL_TOO_FEW_PORTS == 14 && CHEREMYSL_NO_WORK_ROOM == 24);
    check(CHEREMYSL_NO_LAYOUT == 15 && CHEREMYSL_MAX_HALF_SIDE == 2000);
    check(CHEREMYSL_MAX_PORT_BYTES == CHEREMYSL_PORT_BYTES * CHEREMYSL_MAX_SLOTS);
    check(CHEREMYSL_MAX_SLOTS_WORK ==
          CHEREMYSL_SLOTS_WORK(CHEREMYSL_MAX_RECORDS, CHEREMYSL_MAX_SLOTS));
    check(CHEREMYSL_SLOTS_WORK(3, 5) == 392 && CHEREMYSL_SLOTS_WORK(1 + 2, 2 + 3) == 392);
    check(CHEREMYSL_TOO_MANY == 16 && CHEREMYSL_PAST_COUNT == 17 && CHEREMYSL_NO_BUFFER_ROOM == 18);
    check(CHEREMYSL_MAX_BUFFER == CHEREMYSL_BUFFER(CHEREMYSL_MAX_RECORDS));
    check(CHEREMYSL_BUFFER(3) == 50 && CHEREMYSL_BUFFER(1 + 2) == 50);
    check(CHEREMYSL_MAX_COUNT / 1000000000 == 1000000000 && CHEREMYSL_MAX_COUNT % 1000000000 == 0);
    check(CHEREMYSL_TEXT_TOO_LONG == 19);
    check(CHEREMYSL_MAX_SVG_BYTES == CHEREMYSL_SVG_BYTES(CHEREMYSL_MAX_RECORDS));
    check(CHEREMYSL_SVG_BYTES(3) == 228 && CHEREMYSL_SVG_BYTES(1 + 2) == 228);
    check(CHEREMYSL_CSV_TOO_LONG == 20 && CHEREMYSL_BAD_LINE == 21 && CHEREMYSL_NO_PAD_ROOM == 22);
    check(CHEREMYSL_MAX_CSV_BYTES == 16384);
}

static void version(void) {
    char numbers[32];
    snprintf(numbers, sizeof numbers, "%d.%d.%d", CHEREMYSL_VERSION_MAJOR, CHEREMYSL_VERSION_MINOR,
             CHEREMYSL_VERSION_PATCH);
    check(strcmp(numbers, CHEREMYSL_VERSION_TEXT) == 0);
    check(CHEREMYSL_VERSION_NUMBER / 1000000 == CHEREMYSL_VERSION_MAJOR);
    check(CHEREMYSL_VERSION_NUMBER / 1000 % 1000 == CHEREMYSL_VERSION_MINOR);
    check(CHEREMYSL_VERSION_NUMBER % 1000 == CHEREMYSL_VERSION_PATCH);
}

/*
 * The header tells the compiler which lists are written and not read: what a caller wrote before
 * must be there still after a refusal, and after the part that a call replaces. Each call is by its
 * name, in sight of the caller's list, so that an optimiser may use what it is told.
 */
enum { LENT = 8 };

static const uint8_t one_pad[CHEREMYSL_RECORD_BYTES] = {1, 0, 0, 0, 5}; /* straight, total 5 */
static const float own_floats[LENT] = {-1, -2, -3, -4, -5, -6, -7, -8};
static const uint32_t one_figure[1] = {UINT32_MAX};

/* On a job that is accepted NULL with 0 is a table without figures, which is refused first .. */
static void no_table(void) {
    size_t bytes = sizeof one_pad;
    is_refusal(table_measure_call(one_pad, bytes, NULL, 0, NULL, 0), CHEREMYSL_BAD_TABLE, 0, 0);
#ifndef NO_SEARCH
    is_refusal(table_first_call(one_pad, bytes, NULL, 0, NULL, 0), CHEREMYSL_BAD_TABLE, 0, 0);
    is_refusal(table_next_call(one_pad, bytes, NULL, 0, NULL, 0), CHEREMYSL_BAD_TABLE, 0, 0);
#endif
}

/* .. or a list without room; and a page without room is filled. */
static void no_room(void) {
    size_t bytes = sizeof one_pad;
    is_refusal(measure_call(one_pad, bytes, 1, 0, NULL, 0), CHEREMYSL_NO_ROOM, 0, 0);
    is_refusal(draw_call(one_pad, bytes, 0, 0, NULL, 0), CHEREMYSL_NO_ROOM, 0, 0);
    is_refusal(table_measure_call(one_pad, bytes, one_figure, 1, NULL, 0), CHEREMYSL_NO_ROOM, 0, 0);
#ifndef NO_SEARCH
    static const uint16_t layout[1] = {0};
    is_refusal(first_call(one_pad, bytes, 1, 0, NULL, 0), CHEREMYSL_NO_ROOM, 0, 0);
    is_refusal(next_call(one_pad, bytes, 1, 0, NULL, 0), CHEREMYSL_NO_ROOM, 0, 0);
    is_refusal(page_call(one_pad, bytes, 1, 0, NULL, 0, NULL, 0), CHEREMYSL_NO_ROOM, 0, 0);
    check(page_call(one_pad, bytes, 1, 0, layout, 1, NULL, 0) == 0);
    is_refusal(table_first_call(one_pad, bytes, one_figure, 1, NULL, 0), CHEREMYSL_NO_ROOM, 0, 0);
    is_refusal(table_next_call(one_pad, bytes, one_figure, 1, NULL, 0), CHEREMYSL_NO_ROOM, 0, 0);
#endif
}

static const uint8_t two_ports[2 * CHEREMYSL_PORT_BYTES] = {0, 0, 0, 0, 8, 0, 0, 0};
enum { PAD = sizeof one_pad, PORTS = sizeof two_ports, WORK = 64 }; /* numbers for one pad */
enum { BUFFER = CHEREMYSL_BUFFER(1) };                              /* the same of a buffer */

/* Each list in its turn: no ports, no room, no work list. */
static void no_list(void) {
    uint16_t layout[1] = {0};
    is_refusal(slots_measure_call(one_pad, PAD, NULL, 0, 1, 0, layout, 1), CHEREMYSL_BAD_SIZE, 0,
               0);
    is_refusal(slots_measure_call(one_pad, PAD, two_ports, PORTS, 1, 0, NULL, 0), CHEREMYSL_NO_ROOM,
               0, 0);
#ifndef NO_SEARCH
    fill_on_slots *const searches[2] = {slots_first_call, slots_next_call};
    uint64_t work[WORK] = {0};
    for (int k = 0; k < 2; k++) {
        is_refusal(searches[k](NULL, 0, two_ports, PORTS, 1, 0, layout, 1, work, WORK),
                   CHEREMYSL_BAD_SIZE, 0, 0);
        is_refusal(searches[k](one_pad, PAD, NULL, 0, 1, 0, layout, 1, work, WORK),
                   CHEREMYSL_BAD_SIZE, 0, 0);
        is_refusal(searches[k](one_pad, PAD, two_ports, PORTS, 1, 0, NULL, 0, work, WORK),
                   CHEREMYSL_NO_ROOM, 0, 0);
        is_refusal(searches[k](one_pad, PAD, two_ports, PORTS, 1, 0, layout, 1, NULL, 0),
                   CHEREMYSL_NO_WORK_ROOM, 0, 0);
    }
#endif
}

#ifndef NO_SEARCH
/* No buffer is one that is too short, whatever the place; no layout comes before it. */
static void no_buffer(void) {
    uint16_t layout[1] = {0};
    uint64_t buffer[BUFFER] = {0};
    is_refusal(count_call(one_pad, PAD, 1, 0, NULL, 0), CHEREMYSL_NO_BUFFER_ROOM, 0, 0);
    is_refusal(place_call(one_pad, PAD, 1, 0, 0, layout, 1, NULL, 0), CHEREMYSL_NO_BUFFER_ROOM, 0,
               0);
    is_refusal(place_call(one_pad, PAD, 1, 0, 1, layout, 1, NULL, 0), CHEREMYSL_NO_BUFFER_ROOM, 0,
               0);
    is_refusal(place_call(one_pad, PAD, 1, 0, 0, NULL, 0, NULL, 0), CHEREMYSL_NO_ROOM, 0, 0);
    is_refusal(place_call(one_pad, PAD, 1, 0, 1, layout, 1, buffer, BUFFER), CHEREMYSL_PAST_COUNT,
               0, 0);
    is_refusal(place_call(NULL, 0, 1, 0, 0, layout, 1, buffer, BUFFER), CHEREMYSL_BAD_SIZE, 0, 0);
}
#endif

static const char one_line[] = "<polyline points=\"1.25,0 0,0\"/>\n";
enum { LINE = sizeof one_line - 1, TEXT = LINE + 8 };

/* No layout, then no room for a text, with a pointer and without. */
static void no_text(void) {
    uint16_t layout[1] = {0};
    char text[1] = {'x'};
    is_refusal(svg_call(one_pad, PAD, NULL, 0, text, 1), CHEREMYSL_NO_ROOM, 0, 0);
    is_refusal(svg_call(one_pad, PAD, layout, 1, NULL, 0), CHEREMYSL_TEXT_TOO_LONG, 0, 0);
    is_refusal(svg_call(one_pad, PAD, layout, 1, text, 0), CHEREMYSL_TEXT_TOO_LONG, 0, 0);
    is_refusal(svg_call(NULL, 0, layout, 1, text, 1), CHEREMYSL_BAD_SIZE, 0, 0);
    check(text[0] == 'x');
}

/* So many bytes lent: a line, or nothing; what stood after it stays. */
static void svg_keeps(size_t bytes, int64_t wanted) {
    char text[TEXT];
    uint16_t layout[LENT];
    size_t written = wanted > 0 ? LINE : 0;
    layout[0] = 0;
    memset(text, 'x', sizeof text);
    check(cheremysl_svg(one_pad, PAD, layout, LENT, text, bytes) == wanted);
    check(memcmp(text, one_line, written) == 0);
    for (size_t i = written; i < TEXT; i++) check(text[i] == 'x');
}

/* The pad of one_pad. */
static const uint8_t one_list[] = "name,x,y\r\n1,5,0\r\n";
enum { LIST = sizeof one_list - 1, HEADING = sizeof "name,x,y" - 1, ROOM = PAD + 8 };

/* So many bytes of the list, and so many lent: a record, or nothing; what stood after it stays. */
static void read_csv_keeps(size_t text_bytes, size_t pad_bytes, int64_t wanted) {
    uint8_t pads[ROOM];
    size_t written = wanted > 0 ? PAD : 0;
    memset(pads, 'x', sizeof pads);
    check(cheremysl_read_csv(one_list, text_bytes, pads, pad_bytes) == wanted);
    check(memcmp(pads, one_pad, written) == 0);
    for (size_t i = written; i < ROOM; i++) check(pads[i] == 'x');
}

static void rooms(void) {
    read_csv_keeps(LIST, ROOM, 1);
    read_csv_keeps(LIST, PAD, 1);
    read_csv_keeps(LIST - 2, PAD, 1);
    read_csv_keeps(LIST - 3, ROOM, -(65536 * CHEREMYSL_BAD_LINE + 2));
    read_csv_keeps(LIST, PAD - 1, -65536 * CHEREMYSL_NO_PAD_ROOM);
    read_csv_keeps(HEADING, ROOM, -65536 * CHEREMYSL_BAD_SIZE);
    read_csv_keeps(HEADING - 1, ROOM, -(65536 * CHEREMYSL_BAD_LINE + 1));
}

/* No text, then no pads in it, then no room for one, with a pointer and without. */
static void no_pads(void) {
    uint8_t pads[1] = {'x'};
    is_refusal(read_csv_call(NULL, 0, pads, 1), CHEREMYSL_BAD_LINE, 1, 0);
    is_refusal(read_csv_call(one_list, HEADING, NULL, 0), CHEREMYSL_BAD_SIZE, 0, 0);
    is_refusal(read_csv_call(one_list, LIST, NULL, 0), CHEREMYSL_NO_PAD_ROOM, 0, 0);
    is_refusal(read_csv_call(one_list, LIST, pads, 0), CHEREMYSL_NO_PAD_ROOM, 0, 0);
    check(pads[0] == 'x');
}

/* A layout that was filled in part: entries from n on are not looked at. */
static void measures(void) {
    uint16_t layout[LENT];
    layout[0] = 0;
    check(cheremysl_measure(one_pad, sizeof one_pad, 1, 0, layout, LENT) == 5);
    check(cheremysl_table_measure(one_pad, sizeof one_pad, one_figure, 1, layout, LENT) ==
          UINT32_MAX);
    check(cheremysl_slots_measure(one_pad, PAD, two_ports, PORTS, 1, 0, layout, LENT) == 5);
    layout[0] = 1;
    check(cheremysl_slots_measure(one_pad, PAD, two_ports, PORTS, 1, 0, layout, LENT) == 13);
}

static void draw_keeps(size_t job_bytes, int64_t wanted, int from) {
    float points[LENT];
    memcpy(points, own_floats, sizeof own_floats);
    check(cheremysl_draw(one_pad, job_bytes, 0, 0, points, LENT) == wanted);
    for (int i = from; i < LENT; i++) check(points[i] == own_floats[i]);
}

#ifndef NO_SEARCH
static const uint16_t own[LENT] = {1000, 1001, 1002, 1003, 1004, 1005, 1006, 1007};

static void check_own(const uint16_t *list, int from) {
    for (int i = from; i < LENT; i++) check(list[i] == own[i]);
}

static void first_keeps(size_t job_bytes, int64_t wanted, int from) {
    uint16_t layout[LENT];
    memcpy(layout, own, sizeof own);
    check(cheremysl_first(one_pad, job_bytes, 1, 0, layout, LENT) == wanted);
    check_own(layout, from);
}

static void table_first_keeps(size_t job_bytes, size_t figures, int64_t wanted, int from) {
    uint16_t layout[LENT];
    memcpy(layout, own, sizeof own);
    check(cheremysl_table_first(one_pad, job_bytes, one_figure, figures, layout, LENT) == wanted);
    check_own(layout, from);
}

/* Over weights and over a table. */
static void next_keeps(uint16_t port, int64_t wanted) {
    uint16_t layout[LENT];
    memcpy(layout, own, sizeof own);
    layout[0] = port;
    check(cheremysl_next(one_pad, sizeof one_pad, 1, 0, layout, LENT) == wanted);
    check(layout[0] == port);
    check_own(layout, 1);
    check(cheremysl_table_next(one_pad, sizeof one_pad, one_figure, 1, layout, LENT) == wanted);
    check(layout[0] == port && one_figure[0] == UINT32_MAX);
    check_own(layout, 1);
}

/* So many numbers lent: the layout, and the work list where it must keep what it holds. */
static void slots_keep(size_t numbers, int64_t wanted, int from) {
    uint16_t layout[LENT];
    uint64_t work[WORK];
    memcpy(layout, own, sizeof own);
    for (int i = 0; i < WORK; i++) work[i] = 7000 + (uint64_t)i;
    check(wanted ==
          cheremysl_slots_first(one_pad, PAD, two_ports, PORTS, 1, 0, layout, LENT, work, numbers));
    check_own(layout, from);
    for (int i = 0; i < WORK && wanted < 0; i++) check(work[i] == 7000 + (uint64_t)i);
}

/* First's layout, of which there is no next; another; one that is no port's number. */
static void slots_next_keeps(uint16_t port, int64_t wanted) {
    uint16_t layout[LENT];
    uint64_t work[WORK];
    memcpy(layout, own, sizeof own);
    layout[0] = port;
    check(wanted ==
          cheremysl_slots_next(one_pad, PAD, two_ports, PORTS, 1, 0, layout, LENT, work, WORK));
    check(layout[0] == port);
    check_own(layout, 1);
}

static void fill_buffer(uint64_t *buffer) {
    for (int i = 0; i < BUFFER; i++) buffer[i] = 8000 + (uint64_t)i;
}

static void check_buffer(const uint64_t *buffer) {
    for (int i = 0; i < BUFFER; i++) check(buffer[i] == 8000 + (uint64_t)i);
}

/* So many numbers lent: a refusal but 17 keeps them. */
static void count_keeps(size_t job_bytes, size_t numbers, int64_t wanted) {
    uint64_t buffer[BUFFER];
    fill_buffer(buffer);
    check(cheremysl_count(one_pad, job_bytes, 1, 0, buffer, numbers) == wanted);
    if (wanted < 0) check_buffer(buffer);
}

static void place_keeps(uint64_t place, size_t numbers, int64_t wanted, int from) {
    uint16_t layout[LENT];
    uint64_t buffer[BUFFER];
    memcpy(layout, own, sizeof own);
    fill_buffer(buffer);
    check(cheremysl_place(one_pad, PAD, 1, 0, place, layout, LENT, buffer, numbers) == wanted);
    check_own(layout, from);
    if (numbers < BUFFER) check_buffer(buffer);
}

static void page_keeps(uint16_t port, int64_t wanted) {
    uint16_t page[LENT];
    memcpy(page, own, sizeof own);
    check(cheremysl_page(one_pad, sizeof one_pad, 1, 0, &port, 1, page, LENT) == wanted);
    check_own(page, 0);
}

/* Pads (5, 0) and (6, 1), the first with a square around the second; ports 0 and 8, or apart. */
static const uint8_t in_square[2 * CHEREMYSL_RECORD_BYTES] = {
    1, 0, 1, 0, 5, 0, 0, 0, 0, 0, 0, 0, 0, 0, 0, 0, 2, 0, 0, 0, 6, 0, 0, 0, 1, 0, 0, 0, 8};

/* No layout: each First keeps the list, and so does Place. */
static void none_keeps(void) {
    static const uint32_t figures[4] = {1, 2, 3, 4};
    int64_t none = -65536 * CHEREMYSL_NO_LAYOUT;
    uint8_t pads[sizeof in_square];
    uint16_t layout[LENT];
    enum { NUMBERS = CHEREMYSL_SLOTS_WORK(2, 2) };
    uint64_t work[NUMBERS];
    memcpy(pads, in_square, sizeof pads);
    memcpy(layout, own, sizeof own);
    pads[CHEREMYSL_RECORD_BYTES + 12] = 0;
    check(cheremysl_first(in_square, sizeof in_square, 1, 0, layout, LENT) == none);
    check(cheremysl_table_first(in_square, sizeof in_square, figures, 4, layout, LENT) == none);
    check(none == cheremysl_slots_first(pads, sizeof pads, two_ports, PORTS, 1, 0, layout, LENT,
                                        work, NUMBERS));
    check(cheremysl_count(in_square, sizeof in_square, 1, 0, work, NUMBERS) == none);
    check(none == cheremysl_place(in_square, sizeof in_square, 1, 0, 0, layout, LENT, work,
                                  NUMBERS));
    check_own(layout, 0);
}
#endif

static void lists(void) {
    int64_t bad_size = -65536 * CHEREMYSL_BAD_SIZE;
    draw_keeps(sizeof one_pad, 2, 4);
    draw_keeps(0, bad_size, 0);
    svg_keeps(TEXT, LINE);
    svg_keeps(LINE, LINE);
    svg_keeps(LINE - 1, -65536 * CHEREMYSL_TEXT_TOO_LONG);
    svg_keeps(0, -65536 * CHEREMYSL_TEXT_TOO_LONG);
#ifndef NO_SEARCH
    int64_t bad_entry = -65536 * CHEREMYSL_BAD_ENTRY;
    first_keeps(sizeof one_pad, 5, 1);
    first_keeps(0, bad_size, 0);
    table_first_keeps(sizeof one_pad, 1, UINT32_MAX, 1);
    table_first_keeps(0, 1, bad_size, 0);
    table_first_keeps(sizeof one_pad, 0, -65536 * CHEREMYSL_BAD_TABLE, 0);
    next_keeps(0, CHEREMYSL_END);
    next_keeps(1, bad_entry);
    page_keeps(0, 0);
    page_keeps(1, bad_entry);
    none_keeps();
    slots_keep(WORK, 5, 1);
    slots_keep(WORK - 1, -65536 * CHEREMYSL_NO_WORK_ROOM, 0);
    slots_next_keeps(0, CHEREMYSL_END);
    slots_next_keeps(1, -65536 * CHEREMYSL_NOT_BEST);
    slots_next_keeps(2, bad_entry);
    count_keeps(PAD, BUFFER, 1);
    count_keeps(PAD, BUFFER - 1, -65536 * CHEREMYSL_NO_BUFFER_ROOM);
    count_keeps(0, BUFFER, bad_size);
    place_keeps(0, BUFFER, 5, 1);
    place_keeps(0, BUFFER - 1, -65536 * CHEREMYSL_NO_BUFFER_ROOM, 0);
    place_keeps(1, BUFFER, -65536 * CHEREMYSL_PAST_COUNT, 0);
#endif
}

int main(void) {
    answers();
    pairs();
    texts();
    calls();
    no_table();
    no_room();
    no_list();
    no_text();
    no_pads();
#ifndef NO_SEARCH
    no_buffer();
#endif
    limits();
    version();
    measures();
    lists();
    rooms();
    printf("%d passed, %d failed\n", passed, failed);
    return failed != 0;
}
