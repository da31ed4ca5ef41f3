/*
 * bench.c: the library beside the plain C program, on the same jobs.
 *
 *   bench same TRIALS SEED  both on random jobs and texts, sound and spoilt: fails if an answer, a list, a page or a text
 *                           differs
 *   bench count             each call on each board at 8, 16, 32 and 64 pads, on those with squares at 32 and 64, and on
 *                           slots at some sizes, by the library and then by plain C, marked for the emulator, which
 *                           counts instructions; Count and Place by the library, and then its First. Prints CALL BOARD
 *                           SIZE ANSWER; the size is the number of pads, or PADSxPORTS. ReadCsv on some texts
 */
#define _POSIX_C_SOURCE 200112L /* getppid */

#include "../tests/boards.h"
#include "cheremysl.h"
#include "measured.h"
#include "plain.h"

#include <inttypes.h>
#include <stdbool.h>
#include <stdio.h>
#include <stdlib.h>
#include <string.h>
#include <unistd.h>

#define ENTRIES (CHEREMYSL_MAX_RECORDS + 2) /* two that must keep what they hold */
#define LAYOUTS 20                          /* on a page that is measured */
#define PAGE_ENTRIES (LAYOUTS * CHEREMYSL_MAX_RECORDS)

static uint8_t job[CHEREMYSL_MAX_JOB_BYTES], ports[CHEREMYSL_MAX_PORT_BYTES];
static size_t bytes, port_bytes, figures, entries = ENTRIES, page_entries, numbers;
static uint32_t length_weight, bend_weight, table[CHEREMYSL_MAX_FIGURES + 1]; /* one too many is lent too */
static struct {
    uint16_t page[PAGE_ENTRIES];
    char text[CHEREMYSL_MAX_SVG_BYTES];
} lent;
static size_t text_bytes = CHEREMYSL_MAX_SVG_BYTES; /* for Svg's text, or for ReadCsv's pads */
static struct csv csv;
static uint64_t work[CHEREMYSL_MAX_SLOTS_WORK]; /* holds what the last call left there; a buffer for Count and Place */
static uint64_t place;

/* ---- the calls, by either program ---- */

/* A call by a table directly after that by weights: the emulator's plugin tells what the two have in common. */
enum {
    FIRST, TABLE_FIRST, SLOTS_FIRST, NEXT, TABLE_NEXT, SLOTS_NEXT, PAGE, MEASURE, TABLE_MEASURE, SLOTS_MEASURE, SVG,
    CALLS, READ_CSV = CALLS, /* which has no board */
    ALL_CALLS
};

typedef int64_t call_of(uint16_t *layout);

#define BY_BOTH(call, ...) \
    static int64_t our_##call(uint16_t *layout) { return cheremysl_##call(job, bytes, __VA_ARGS__); } \
    static int64_t plain_##call(uint16_t *layout) { return c_##call(job, bytes, __VA_ARGS__); }

BY_BOTH(first, length_weight, bend_weight, layout, entries)
BY_BOTH(table_first, table, figures, layout, entries)
BY_BOTH(next, length_weight, bend_weight, layout, entries)
BY_BOTH(table_next, table, figures, layout, entries)
BY_BOTH(page, length_weight, bend_weight, layout, entries, lent.page, page_entries)
BY_BOTH(measure, length_weight, bend_weight, layout, entries)
BY_BOTH(table_measure, table, figures, layout, entries)
BY_BOTH(slots_first, ports, port_bytes, length_weight, bend_weight, layout, entries, work, numbers)
BY_BOTH(slots_next, ports, port_bytes, length_weight, bend_weight, layout, entries, work, numbers)
BY_BOTH(slots_measure, ports, port_bytes, length_weight, bend_weight, layout, entries)
BY_BOTH(svg, layout, entries, lent.text, text_bytes)

static int64_t our_read(uint16_t *layout) {
    (void)layout;
    return cheremysl_read_csv(csv.text, csv.bytes, (uint8_t *)lent.text, text_bytes);
}
static int64_t plain_read(uint16_t *layout) {
    (void)layout;
    return c_read_csv(csv.text, csv.bytes, (uint8_t *)lent.text, text_bytes);
}

static const struct {
    const char *name;
    call_of *ours, *plain;
} by[ALL_CALLS] = {{"First", our_first, plain_first},
               {"Table-First", our_table_first, plain_table_first},
               {"Slots-First", our_slots_first, plain_slots_first},
               {"Next", our_next, plain_next},
               {"Table-Next", our_table_next, plain_table_next},
               {"Slots-Next", our_slots_next, plain_slots_next},
               {"Page", our_page, plain_page},
               {"Measure", our_measure, plain_measure},
               {"Table-Measure", our_table_measure, plain_table_measure},
               {"Slots-Measure", our_slots_measure, plain_slots_measure},
               {"Svg", our_svg, plain_svg},
               {"Read-Csv", our_read, plain_read}};

/* Place gives the sheet in the middle of all. */
static int64_t our_count(uint16_t *layout) {
    (void)layout;
    return cheremysl_count(job, bytes, length_weight, bend_weight, work, numbers);
}
static int64_t our_place(uint16_t *layout) {
    return cheremysl_place(job, bytes, length_weight, bend_weight, place, layout, entries, work, numbers);
}

static bool on_slots(int call) { return call == SLOTS_FIRST || call == SLOTS_NEXT || call == SLOTS_MEASURE; }

/* Every second mark ends a stretch, whose instructions the emulator's plugin prints (insns.c); a dozen are the caller's. */
static void mark(void) { (void)getppid(); }

/* Asks with a page that holds other numbers than any layout, a text of other bytes than any line's, and keeps a copy of what they then hold. */
static int64_t ask(call_of *call, uint16_t *layout, void *copy) {
    for (size_t k = 0; k < PAGE_ENTRIES; k++) lent.page[k] = (uint16_t)(1000 + k);
    memset(lent.text, '*', sizeof lent.text);
    mark();
    int64_t answer = call(layout);
    mark();
    memcpy(copy, &lent, sizeof lent);
    return answer;
}

/* Does both, from the same lists; the layout is then the library's. */
static int64_t both(int call, uint16_t *layout) {
    static unsigned char our_copy[sizeof lent], their_copy[sizeof lent];
    uint16_t theirs[ENTRIES];
    memcpy(theirs, layout, sizeof theirs);
    int64_t answer = ask(by[call].ours, layout, our_copy);
    int64_t expected = ask(by[call].plain, theirs, their_copy);
    bool agree = memcmp(layout, theirs, sizeof theirs) == 0 && memcmp(our_copy, their_copy, sizeof lent) == 0;
    if (answer == expected && agree) return answer;
    printf("%s, %zu bytes: library %" PRId64 ", plain C %" PRId64 ", %s\n", by[call].name, bytes, answer, expected,
           agree ? "lists agree" : "lists differ");
    exit(1);
}

/* ---- counting ---- */

static void take_board(enum measured kind, int n) {
    struct given g = make_measured(kind, n);
    memcpy(job, g.job, sizeof job);
    memcpy(table, g.table, sizeof g.table);
    bytes = g.bytes, figures = g.figures, length_weight = g.length_weight, bend_weight = 0;
    page_entries = LAYOUTS * (size_t)n;
}

static void take_slots(enum measured kind, int n, int p) {
    struct on_slots g = make_measured_slots(kind, n, p);
    memcpy(job, g.pads, sizeof job);
    memcpy(ports, g.ports, sizeof ports);
    bytes = g.pad_bytes, port_bytes = g.port_bytes, length_weight = g.length_weight, bend_weight = 0;
    numbers = CHEREMYSL_SLOTS_WORK((size_t)n, (size_t)p);
}

/* The calls of either form on the board taken. Next and Page go on from First's sheet; Measure measures it, Svg writes it. */
static void count_calls(bool slots, int last, const char *board, const char *size) {
    uint16_t start[ENTRIES] = {0};
    for (int call = 0; call <= last; call++) {
        uint16_t layout[ENTRIES];
        if (on_slots(call) != slots) continue;
        memcpy(layout, start, sizeof layout);
        int64_t answer = both(call, layout);
        if (call == FIRST || call == SLOTS_FIRST) memcpy(start, layout, sizeof start);
        printf("%s %s %s %" PRId64 "\n", by[call].name, board, size, answer);
        if (cheremysl_is_refusal(answer)) exit(1);
    }
}

/* Count or Place, and then First, on the board taken; 16 is an answer too. */
static int64_t beside_first(const char *name, call_of *call, const char *board, int n) {
    static unsigned char copy[sizeof lent];
    uint16_t layout[ENTRIES] = {0}, first[ENTRIES] = {0};
    int64_t answer = ask(call, layout, copy), total = ask(our_first, first, copy);
    bool sheet = answer == total || call == our_count;
    printf("%s %s %d %" PRId64 "\n", name, board, n, answer);
    if (total < 0 || (answer >= 0 ? !sheet : cheremysl_refusal_number(answer) != CHEREMYSL_TOO_MANY)) exit(1);
    return answer;
}

static void count_places(enum measured kind, int n) {
    take_board(kind, n);
    numbers = CHEREMYSL_BUFFER((size_t)n);
    int64_t count = beside_first("Count", our_count, measured_names[kind], n);
    place = count > 0 ? (uint64_t)count / 2 : 0;
    beside_first("Place", our_place, measured_names[kind], n);
}

static void count_board(enum measured kind, int n, int last) {
    char size[32];
    snprintf(size, sizeof size, "%d", n);
    take_board(kind, n);
    count_calls(false, last, measured_names[kind], size);
}

static void count_slots(enum measured kind, int n, int p, int last) {
    char size[32];
    snprintf(size, sizeof size, "%dx%d", n, p);
    take_slots(kind, n, p);
    count_calls(true, last, measured_names[kind], size);
}

/* Four boards at two sizes; then First alone on one of them: more pads, more ports, as many of each. */
static void count_all_slots(void) {
    static const enum measured kinds[] = {RANDOM, EVEN_SPREAD, MIDDLE, AT_PORTS};
    for (int k = 0; k < 4; k++) count_slots(kinds[k], 32, 64, SLOTS_MEASURE);
    for (int k = 0; k < 4; k++) count_slots(kinds[k], 64, 128, SLOTS_MEASURE);
    for (int n = 8; n < 64; n *= 2) count_slots(RANDOM, n, 128, SLOTS_FIRST);
    for (int p = 32; p < 128; p *= 2) count_slots(RANDOM, 16, p, SLOTS_FIRST);
    for (int n = 8; n <= 64; n *= 2) count_slots(RANDOM, n, n, SLOTS_FIRST);
}

/* After the same boards without squares; tall has not been counted by then. */
static void count_squares(int n) {
    count_board(TALL, n, FIRST);
    for (int kind = RANDOM_SQUARES; kind <= TALL_SQUARES; kind++) count_board((enum measured)kind, n, CALLS - 1);
    for (int kind = RANDOM_SQUARES; kind <= EVEN_SQUARES; kind++) count_slots((enum measured)kind, n, 2 * n, SLOTS_MEASURE);
}

static void count_text(enum text kind, int n) {
    uint16_t layout[ENTRIES] = {0};
    make_measured_text(&csv, kind, n);
    int64_t answer = both(READ_CSV, layout);
    printf("%s %s %d %" PRId64 "\n", by[READ_CSV].name, text_names[kind], n, answer);
    if (answer != (kind == LONG ? -4 * 65536 : kind == LINES ? -65536 : n)) exit(1);
}

static void count_texts(void) {
    for (int kind = UNQUOTED; kind <= LONG; kind++) {
        count_text((enum text)kind, 8);
        count_text((enum text)kind, CHEREMYSL_MAX_RECORDS);
    }
    count_text(LINES, MOST_LINES);
}

static int count_all(void) {
    for (int kind = 0; kind < KINDS; kind++)
        for (int n = 8; n <= CHEREMYSL_MAX_RECORDS; n *= 2) count_board((enum measured)kind, n, CALLS - 1);
    count_all_slots();
    for (int n = 32; n <= CHEREMYSL_MAX_RECORDS; n *= 2) count_squares(n);
    for (int kind = 0; kind < ALL_KINDS; kind++)
        for (int n = 32; n <= CHEREMYSL_MAX_RECORDS && kind != AT_PORTS && kind != TALL; n *= 2)
            count_places((enum measured)kind, n);
    count_texts();
    return 0;
}

/* ---- trials ---- */

/* Spoils what stands apart on slots: the ports, their number, or that of the work list. */
static void spoil_slots(size_t n) {
    size_t p = port_bytes / 4 + (port_bytes < 4), q = below((uint32_t)p); /* one at least is there */
    struct plan plan = plan_of_slots(job, n, ports, p);
    switch (below(6)) {
    case 0: put_height(ports, q, below(2) ? 1000001 : -1000001); break;
    case 1: put_height(ports, q, get_height(&plan, q - (q > 0)) + 6 + below(4)); break;
    case 2: put_height(ports, q, get_height(&plan, below((uint32_t)p))); break;
    case 3: port_bytes = 4 * below((uint32_t)n); break;
    case 4: port_bytes += 1 + below(3); break;
    default: numbers = below((uint32_t)numbers + 1); break;
    }
}

/* Spoils one field of a record of a sound job, or the byte count, a weight, the number of figures or that of entries. */
static void spoil(size_t n) {
    size_t i = below((uint32_t)n), j = below((uint32_t)n);
    switch (below(12)) {
    case 0: put_half(job, i, below(2) ? 2001 + below(63535) : below(12)); break;
    case 1: put_x(job, i, below(2) ? 0 : 1000001); break;
    case 2: put_y(job, i, below(2) ? 1000001 : -1000001); break;
    case 3: put_port(job, i, below(2) ? 1000001 : -1000001); break;
    case 4: put_port(job, i, get_port(job, j)); break;
    case 5: put_name(job, i, below(2) ? get_name(job, j) : 0); break;
    case 6: put_x(job, i, get_x(job, j)); break;
    case 7: entries = n - 1; break;
    case 8: bytes = below(2) ? bytes + 1 + below(15) : 0; break;
    case 9: put_port(job, i, get_port(job, i - (i > 0)) + 6 + below(4)); break;
    case 10: figures = below(3) ? n * n - 1 : below(2) ? n * n + 1 : n; break;
    default: *(below(2) ? &length_weight : &bend_weight) = 1001; break;
    }
}

static long calls, steps, refused[CHEREMYSL_NO_WORK_ROOM + 1];

/* A job is laid out by weights, by a table, or by weights on slots: FIRST + way, and so on. */
enum { BY_WEIGHTS, BY_TABLE, ON_SLOTS };

static int64_t tried(int call, uint16_t *layout) {
    int64_t answer = both(call, layout);
    calls++;
    refused[cheremysl_refusal_number(answer)]++;
    return answer;
}

/* From 0 on or up to the largest; the fewer to choose from, the more sheets are best. */
static void random_table(size_t count) {
    static const uint32_t choices[] = {1, 2, 3, 50, 1000000, UINT32_MAX};
    uint32_t some = choices[below(6)], up = below(2);
    for (size_t k = 0; k < count; k++) table[k] = up ? UINT32_MAX - below(some) : below(some);
}

static void random_pads(size_t n, int way) {
    enum board kind = (enum board)below(BOARDS);
    size_t p = n + below(6);
    bytes = CHEREMYSL_RECORD_BYTES * n;
    port_bytes = CHEREMYSL_PORT_BYTES * p;
    numbers = CHEREMYSL_SLOTS_WORK(n, p);
    struct plan plan = way == ON_SLOTS ? plan_of_slots(job, n, ports, p) : plan_of_job(job, n);
    if (way == ON_SLOTS)
        make_slots(job, n, ports, p, kind);
    else
        make_board(job, n, kind);
    any_squares(job, &plan);
}

/* Any job, one in three spoilt, once or twice; what the lists hold; how much of a page and of a text is lent. */
static void random_job(size_t n, uint16_t *layout, int way) {
    for (int i = 0; i < ENTRIES; i++) layout[i] = (uint16_t)below(65536);
    random_pads(n, way);
    figures = n * n;
    random_table(figures);
    entries = ENTRIES;
    page_entries = n * below(below(4) ? 4 : LAYOUTS) + below((uint32_t)n + 1);
    text_bytes = below(4) ? CHEREMYSL_SVG_BYTES(n) : below((uint32_t)CHEREMYSL_SVG_BYTES(n));
    any_weights(&length_weight, &bend_weight);
    for (uint32_t k = below(3) ? 0 : 1 + below(2); k > 0; k--) {
        if (way == ON_SLOTS && below(2))
            spoil_slots(n);
        else
            spoil(n);
    }
}

/* Any sheet, most of them not best; then one with a false entry, or two swapped. */
static void other_sheets(size_t n, uint16_t *layout, int way) {
    size_t i = below((uint32_t)n), j = below((uint32_t)n), p = way == ON_SLOTS ? port_bytes / 4 : n;
    struct plan plan = way == ON_SLOTS ? plan_of_slots(job, n, ports, p) : plan_of_job(job, n);
    for (int spoilt = 0; spoilt < 2; spoilt++) {
        any_untouching(&plan, layout);
        uint16_t kept = layout[i];
        if (spoilt) layout[i] = below(2) ? layout[j] : (uint16_t)p;
        if (spoilt && below(3) && i != j) layout[i] = layout[j], layout[j] = kept;
        tried(MEASURE + way, layout);
        if (way == BY_WEIGHTS) tried(SVG, layout);
        if (way == BY_WEIGHTS) tried(PAGE, layout);
        tried(NEXT + way, layout);
    }
}

static void trial(size_t n, int way) {
    uint16_t layout[ENTRIES];
    random_job(n, layout, way);
    bool accepted = tried(FIRST + way, layout) >= 0;
    tried(MEASURE + way, layout);
    if (way == BY_WEIGHTS) tried(SVG, layout);
    if (way == BY_WEIGHTS) tried(PAGE, layout);
    for (int k = 0; k < 5 && tried(NEXT + way, layout) >= 0; k++) steps++;
    if (accepted) other_sheets(n, layout, way);
}

/* Any text, damaged or not; room for its pads, or less. */
static void text_trial(void) {
    uint16_t layout[ENTRIES] = {0};
    size_t n = 1 + below(below(2) ? 5 : CHEREMYSL_MAX_RECORDS);
    any_csv(&csv, job, n);
    for (uint32_t k = below(3); k > 0; k--) damage_csv(&csv);
    text_bytes = below(16) ? CHEREMYSL_MAX_JOB_BYTES : below((uint32_t)(CHEREMYSL_RECORD_BYTES * n + 1));
    tried(READ_CSV, layout);
}

/* Few pads on slots: a search takes time that grows with the cube of their number. */
static void any_trial(int t) {
    static const int ways[] = {BY_WEIGHTS, BY_WEIGHTS, BY_TABLE, ON_SLOTS};
    int way = ways[below(4)];
    trial(1 + below(t % 8 != 0 ? 12 : way == ON_SLOTS ? 24 : 64), way);
}

static int same(int trials, int seed) {
    seed_random((uint64_t)seed);
    for (int t = 0; t < trials; t++) any_trial(t), text_trial();
    printf("%ld calls, %ld steps of Next, refusals", calls, steps);
    for (int r = 1; r <= CHEREMYSL_NO_WORK_ROOM; r++)
        if (refused[r] > 0) printf(" %d: %ld", r, refused[r]);
    printf("\n");
    return 0;
}

int main(int count, char **words) {
    if (count == 4 && strcmp(words[1], "same") == 0) return same(atoi(words[2]), atoi(words[3]));
    if (count == 2 && strcmp(words[1], "count") == 0) return count_all();
    fprintf(stderr, "usage: bench same TRIALS SEED | bench count\n");
    return 2;
}
