/*
 * times.c: how long the calls take on this machine, in microseconds, and how many sheets a second are listed by pages
 * of several sizes. Prints two tables in Markdown.
 *
 * A time is a median of many stretches, each of as many calls as take 50 microseconds, with job and lists in the cache.
 * All is timed several times over, and the smallest times count: other programs on the machine only make them longer. Of
 * the six boards the smallest and the largest are printed. Boards, tables and starting sheets are those of bench.c.
 */
#define _POSIX_C_SOURCE 199309L /* clock_gettime */

#include "cheremysl.h"
#include "measured.h"

#include <stdio.h>
#include <stdlib.h>
#include <string.h>
#include <time.h>

#define ROUNDS 15      /* over everything */
#define STRETCHES 41   /* that a median is of */
#define SHORTEST 50e-6 /* seconds of a stretch */
#define LISTING 0.1    /* seconds of a listing */
#define LARGEST 10000  /* layouts on a page */
#define ENTRIES CHEREMYSL_MAX_RECORDS

enum { CALLS = 13, SIZES = 4, LISTINGS = 2, PAGES = 4 };

static struct given on;
static size_t pads;
static uint16_t start[ENTRIES], layout[ENTRIES], page[LARGEST * ENTRIES];
static uint64_t amid, buffer[CHEREMYSL_MAX_BUFFER]; /* the place in the middle of all sheets */
static struct csv csv, long_csv; /* the pads of random as text, and with long numbers */
static volatile int64_t answer; /* of the last call */

/* ---- the calls: Next and Page go on from First's sheet, Measure measures it, Svg writes it, Draw draws a leader ---- */

static void first(void) { answer = cheremysl_first(on.job, on.bytes, on.length_weight, 0, layout, pads); }
static void next(void) {
    memcpy(layout, start, sizeof layout);
    answer = cheremysl_next(on.job, on.bytes, on.length_weight, 0, layout, pads);
}
static void page_of_20(void) {
    answer = cheremysl_page(on.job, on.bytes, on.length_weight, 0, start, pads, page, 20 * pads);
}
static void count(void) {
    answer = cheremysl_count(on.job, on.bytes, on.length_weight, 0, buffer, CHEREMYSL_BUFFER(pads));
}
static void place(void) {
    answer = cheremysl_place(on.job, on.bytes, on.length_weight, 0, amid, layout, pads, buffer, CHEREMYSL_BUFFER(pads));
}
static void measure(void) { answer = cheremysl_measure(on.job, on.bytes, on.length_weight, 0, start, pads); }
static void table_first(void) {
    answer = cheremysl_table_first(on.job, on.bytes, on.table, on.figures, layout, pads);
}
static void table_next(void) {
    memcpy(layout, start, sizeof layout);
    answer = cheremysl_table_next(on.job, on.bytes, on.table, on.figures, layout, pads);
}
static void table_measure(void) {
    answer = cheremysl_table_measure(on.job, on.bytes, on.table, on.figures, start, pads);
}
static void svg(void) {
    static char text[CHEREMYSL_MAX_SVG_BYTES];
    answer = cheremysl_svg(on.job, on.bytes, start, pads, text, sizeof text);
}
static void read_text(const struct csv *csv) {
    static uint8_t room[CHEREMYSL_MAX_JOB_BYTES];
    answer = cheremysl_read_csv(csv->text, csv->bytes, room, sizeof room);
}
static void read_csv(void) { read_text(&csv); }
static void read_long(void) { read_text(&long_csv); }
static void draw(void) {
    float points[CHEREMYSL_DRAW_FLOATS];
    answer = cheremysl_draw(on.job, on.bytes, 0, start[0], points, CHEREMYSL_DRAW_FLOATS);
}

static const struct {
    const char *name;
    void (*call)(void);
} calls[CALLS] = {{"First", first},
                  {"Next", next},
                  {"Page of 20", page_of_20},
                  {"Count", count},
                  {"Place, amid them", place},
                  {"Measure", measure},
                  {"Table First", table_first},
                  {"Table Next", table_next},
                  {"Table Measure", table_measure},
                  {"Svg", svg},
                  {"Draw, one leader", draw},
                  {"ReadCsv", read_csv},
                  {"ReadCsv, 16,384 bytes", read_long}};

static void take_board(int kind, int n) {
    on = make_measured((enum measured)kind, n);
    pads = (size_t)n;
    first();
    memcpy(start, layout, sizeof start);
    count();
    make_measured_text(&csv, UNQUOTED, n);
    make_measured_text(&long_csv, LONG, n);
    amid = answer > 0 ? (uint64_t)answer / 2 : 0; /* too many to have places are refused, after the counting */
}

/* ---- times ---- */

/* Of this process alone: other programs on the machine disturb it little. */
static double seconds(void) {
    struct timespec t;
    clock_gettime(CLOCK_PROCESS_CPUTIME_ID, &t);
    return (double)t.tv_sec + 1e-9 * (double)t.tv_nsec;
}

static double stretch(void (*call)(void), int many) {
    double begun = seconds();
    for (int k = 0; k < many; k++) call();
    return seconds() - begun;
}

static int by_size(const void *a, const void *b) {
    double x = *(const double *)a, y = *(const double *)b;
    return (x > y) - (x < y);
}

/* Of one call, in microseconds. */
static double median(void (*call)(void)) {
    double took[STRETCHES];
    int many = 1;
    while (stretch(call, many) < SHORTEST) many *= 2;
    for (int k = 0; k < STRETCHES; k++) took[k] = 1e6 * stretch(call, many) / many;
    qsort(took, STRETCHES, sizeof *took, by_size);
    return took[STRETCHES / 2];
}

/* Sheets a second, from First's on, for a while: none of these boards comes to its end by then. */
static double listed(size_t on_page) {
    double begun = seconds(), took = 0, sheets = 0;
    memcpy(layout, start, sizeof layout);
    while (took < LISTING) {
        int64_t wrote = cheremysl_page(on.job, on.bytes, on.length_weight, 0, layout, pads, page, on_page * pads);
        if (wrote < (int64_t)on_page) exit(1);
        memcpy(layout, page + (size_t)(wrote - 1) * pads, pads * sizeof *layout);
        sheets += (double)wrote;
        took = seconds() - begun;
    }
    return sheets / took;
}

/* ---- the tables ---- */

static const int sizes[SIZES] = {8, 16, 32, 64};
static double times[CALLS][SIZES][KINDS];

static const enum measured many_sheets[LISTINGS] = {TIES, MIDDLE};
static const size_t on_page[PAGES] = {1, 20, 1000, LARGEST};
static double rates[LISTINGS][PAGES];

static double smaller(double a, double b) { return a < b ? a : b; }
static double larger(double a, double b) { return a > b ? a : b; }

/* The smallest so far; 0: none yet. */
static void keep_smallest(double *time, double now) { *time = *time == 0 ? now : smaller(*time, now); }

static void time_board(int size, int kind) {
    take_board(kind, sizes[size]);
    for (int c = 0; c < CALLS; c++) keep_smallest(&times[c][size][kind], median(calls[c].call));
}

static void time_listing(int which) {
    take_board(many_sheets[which], CHEREMYSL_MAX_RECORDS);
    for (int p = 0; p < PAGES; p++) rates[which][p] = larger(rates[which][p], listed(on_page[p]));
}

static void one_round(void) {
    for (int k = 0; k < SIZES * KINDS; k++) time_board(k / KINDS, k % KINDS);
    for (int which = 0; which < LISTINGS; which++) time_listing(which);
}

/* As many figures as say something: 0.42, 4.2, 42; 4,200. */
static void print_figure(const char *before, double value) {
    long whole = (long)(value + 0.5);
    if (whole < 1000)
        printf("%s%.*f", before, value < 1 ? 2 : value < 10 ? 1 : 0, value);
    else
        printf("%s%ld,%03ld", before, whole / 1000, whole % 1000);
}

static void print_range(const double *of) {
    double least = of[0], most = of[0];
    for (int kind = 1; kind < KINDS; kind++) least = smaller(least, of[kind]), most = larger(most, of[kind]);
    print_figure(" ", least);
    print_figure(" to ", most);
    printf(" |");
}

static void print_call(int c) {
    printf("| %s |", calls[c].name);
    for (int size = 0; size < SIZES; size++) print_range(times[c][size]);
    printf("\n");
}

static void print_listing(int which) {
    printf("| *%s*, 64 pads |", measured_names[many_sheets[which]]);
    for (int p = 0; p < PAGES; p++) print_figure(" ", rates[which][p] / 1000), printf(" |");
    printf("\n");
}

int main(void) {
    for (int k = 0; k < ROUNDS; k++) one_round();
    printf("| microseconds | 8 pads | 16 pads | 32 pads | 64 pads |\n|---|---|---|---|---|\n");
    for (int c = 0; c < CALLS; c++) print_call(c);
    printf("\n| thousand sheets a second, on pages of | 1 | 20 | 1,000 | 10,000 |\n|---|---|---|---|---|\n");
    for (int which = 0; which < LISTINGS; which++) print_listing(which);
    return 0;
}
