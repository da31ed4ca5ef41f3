/*
 * browser SVG POINTS [SEED]: Svg's texts of boards of 1 to 64 pads, each in a group of its own in
 * one file of SVG, as they are; and, a line for each leader, the bits of Draw's floats, what a
 * program that reads the file must find.
 */
#include <inttypes.h>
#include <stdio.h>
#include <stdlib.h>
#include <string.h>

#include "boards.h"
#include "cheremysl.h"

#define PADS CHEREMYSL_MAX_RECORDS
#define ROUNDS 3 /* boards of each number of pads */

static FILE *svg, *points;

static FILE *opened(const char *name) {
    FILE *file = fopen(name, "w");
    if (file != NULL) return file;
    perror(name);
    exit(2);
}

static void need(bool ok, const char *what) {
    if (ok) return;
    fprintf(stderr, "browser: %s\n", what);
    exit(1);
}

static void expect_points(const uint8_t *job, size_t n, uint32_t record, uint16_t port) {
    float at[CHEREMYSL_DRAW_FLOATS];
    int64_t count = cheremysl_draw(job, 16 * n, record, port, at, CHEREMYSL_DRAW_FLOATS);
    need(count > 0, "Draw refuses");
    for (int k = 0; k < 2 * count; k++) {
        uint32_t bits;
        memcpy(&bits, at + k, sizeof bits);
        fprintf(points, "%s%08" PRIx32, k == 0 ? "" : " ", bits);
    }
    fputc('\n', points);
}

static void put_sheet(const uint8_t *job, size_t n, const uint16_t *layout) {
    char text[CHEREMYSL_MAX_SVG_BYTES];
    int64_t bytes = cheremysl_svg(job, 16 * n, layout, n, text, sizeof text);
    need(bytes > 0, "Svg refuses");
    fputs("<g>\n", svg);
    fwrite(text, 1, (size_t)bytes, svg);
    fputs("</g>\n", svg);
    for (uint32_t i = 0; i < n; i++) expect_points(job, n, i, layout[i]);
}

static void put_board(size_t n, enum board kind) {
    uint8_t job[CHEREMYSL_MAX_JOB_BYTES];
    uint16_t layout[PADS];
    make_board(job, n, kind);
    struct plan plan = plan_of_job(job, n);
    need(any_untouching(&plan, layout), "no layout");
    put_sheet(job, n, layout);
}

/* Ports from a height on, in steps, every third pad level with its port; x down from a number. */
static void put_range(int64_t from, int64_t step, int64_t x) {
    uint8_t job[CHEREMYSL_MAX_JOB_BYTES];
    uint16_t layout[PADS];
    for (int i = 0; i < PADS; i++) {
        int64_t port = from + step * i;
        put_record(job, (size_t)i, 1 + i, x - i, i % 3 == 0 ? port : port + 1, port);
        layout[i] = (uint16_t)i;
    }
    put_sheet(job, PADS, layout);
}

int main(int argc, char **argv) {
    if (argc < 3) return 2;
    svg = opened(argv[1]);
    points = opened(argv[2]);
    seed_random(argc > 3 ? strtoull(argv[3], NULL, 10) : 1);
    fputs("<svg xmlns=\"http://www.w3.org/2000/svg\">\n", svg);
    for (size_t k = 0; k < ROUNDS * PADS; k++) put_board(1 + k % PADS, (enum board)(k % BOARDS));
    put_range(-1000000, 8, 64);
    put_range(1000000 - 8 * (PADS - 1), 8, 1000000);
    put_range(-32 * 31249, 31249, 999999);
    put_range(-8 * 32 - 1, 9, 100003);
    fputs("</svg>\n", svg);
    return fclose(svg) != 0 || fclose(points) != 0;
}
