#include "measured.h"

#include "../tests/boards.h"

#include <stdbool.h>
#include <stdlib.h>
#include <string.h>

const char *const measured_names[ALL_KINDS] = {"random", "even",           "middle",       "ties",         "right", "above", "level",
                                               "tall",   "random-squares", "even-squares", "tall-squares", "free",
                                               "free-even", "free-mixed", "free-worst"};

enum measured points_of(enum measured kind) {
    return kind == RANDOM_SQUARES ? RANDOM : kind == EVEN_SQUARES ? EVEN_SPREAD : kind == TALL_SQUARES ? TALL : kind;
}

/* On these every step goes over all pads but the rightmost. */
static bool at_the_right(enum measured kind) { return kind == RIGHT || kind == ABOVE_ALL; }

/* On these every untouching sheet is best. */
static bool unweighted(enum measured kind) { return kind == MIDDLE || kind >= FREE; }

/*
 * In which gap each pad of free-worst lies, from right to left: as many ports lie below it. Found by annealing over a model
 * of what Count costs beside First; of five boards that it came to, from as many starts, the one that counted most.
 */
static const int worst_gaps[64] = {0,  0,  0,  0,  23, 33, 5,  17, 21, 44, 24, 61, 59, 49, 47, 22, 25, 20, 18, 43, 42, 7,
                                   23, 45, 57, 55, 3,  39, 50, 14, 37, 15, 6,  41, 13, 36, 63, 27, 28, 16, 19, 29, 53, 9,
                                   54, 10, 51, 31, 60, 46, 32, 56, 8,  34, 62, 4,  35, 48, 30, 26, 11, 58, 38, 40};

/* Of pad i of n beside p ports. */
static int64_t height(enum measured kind, int n, int p, int i) {
    if (at_the_right(kind) && i < n / 4 * 2 && i < 10) kind = TIES;
    switch (kind) {
    case RANDOM:
    case FREE: return below((uint32_t)(10 * p));
    case EVEN_SPREAD:
    case FREE_EVEN: return 10 * (i * p / n) + 5;
    case FREE_MIXED: return 10 * i - 5;
    case FREE_WORST: return 10 * (worst_gaps[i] * n / 64) - 5;
    case MIDDLE: return 5 * p - 5;
    case AT_PORTS: return 10 * below((uint32_t)p);
    case RIGHT: return 10 * i - 2;
    case ABOVE_ALL: return 10 * n;
    case TALL: return i < n / 2 ? 10 * i + 5 : 5 * (n / 2 - 1);
    default: return 10 * (i / 2 * 2) + 5;
    }
}

/* In random order from right to left, or the lower the further right: that leaves the widest strips. */
static void place(enum measured kind, int n, int *x) {
    for (int i = 0; i < n; i++) {
        int k = (int)below((uint32_t)i + 1);
        if (k < i) x[i] = x[k];
        x[k] = 10 * (i + 1);
    }
    for (int i = 0; i < n && (at_the_right(kind) || kind == FREE_WORST); i++) x[i] = 10 * (n - i);
}

/* On tall: from the middle of the first half's ports to just above the last of them. */
static int tall_half(int n) { return 5 * (n / 2 - 1) + 4; }

/* The second half of tall, so far apart and so far right that no square is in a hand's way or in that of the first half. */
static void place_tall(int n, int *x) {
    for (int i = n / 2; i < n; i++) x[i] = 10 * n + (i - n / 2 + 1) * (tall_half(n) + 1);
    for (int i = 0; i < n / 2; i++) x[i] = 10 * (i + 1);
}

/* The lower the further right, but for pairs that change places: of 400 such boards one of the costliest to count. */
static void place_mixed(int n, int *x) {
    int pad[64];
    seed_random(79);
    for (int i = 0; i < n; i++) pad[i] = i;
    for (uint32_t k = below(120); k > 0; k--) {
        uint32_t i = below((uint32_t)n), j = below((uint32_t)n);
        int kept = pad[i];
        pad[i] = pad[j];
        pad[j] = kept;
    }
    for (int i = 0; i < n; i++) x[pad[i]] = 10 * (n - i);
}

static void put_squares(enum measured kind, uint8_t *pads, const struct plan *plan) {
    int n = (int)plan->n;
    if (kind == RANDOM_SQUARES) give_squares(pads, plan, FITTED);
    for (int i = 0; i < n && kind == EVEN_SQUARES; i++) put_half(pads, (size_t)i, 2 + i % 3);
    for (int i = n / 2; i < n && kind == TALL_SQUARES; i++) put_half(pads, (size_t)i, tall_half(n));
}

static void place_pads(enum measured kind, int n, int *x) {
    seed_random((uint64_t)(100 * (int)kind + n));
    if (kind == TALL)
        place_tall(n, x);
    else if (kind == FREE_MIXED)
        place_mixed(n, x);
    else
        place(kind, n, x);
}

struct given make_measured(enum measured kind, int n) {
    struct given g = {{0}, 16 * (size_t)n, !unweighted(kind), {0}, (size_t)(n * n)};
    struct plan plan = plan_of_job(g.job, (size_t)n);
    enum measured points = points_of(kind);
    int x[64];
    place_pads(points, n, x);
    for (int i = 0; i < n; i++) {
        int y = (int)height(points, n, n, i);
        put_record(g.job, (size_t)i, 101 + i, x[i], y, 10 * i);
        for (int q = 0; q < n; q++) g.table[n * i + q] = g.length_weight * (uint32_t)(x[i] + abs(y - 10 * q));
    }
    put_squares(kind, g.job, &plan);
    return g;
}

struct on_slots make_measured_slots(enum measured kind, int n, int p) {
    struct on_slots g = {{0}, 16 * (size_t)n, {0}, 4 * (size_t)p, kind != MIDDLE};
    struct plan plan = plan_of_slots(g.pads, (size_t)n, g.ports, (size_t)p);
    enum measured points = points_of(kind);
    int x[64];
    place_pads(points, n, x);
    for (int i = 0; i < n; i++) put_record(g.pads, (size_t)i, 101 + i, x[i], height(points, n, p, i), 0);
    for (int q = 0; q < p; q++) put_height(g.ports, (size_t)q, 10 * q);
    put_squares(kind, g.pads, &plan);
    return g;
}

/* ---- texts ---- */

const char *const text_names[TEXTS] = {"unquoted", "quoted", "long", "lines"};

/* Each of n pads gets its share of what the text may still have. */
static void lengthen_numbers(struct csv *csv, int n) {
    uint8_t digits[CSV_LIMIT];
    memset(digits, '7', sizeof digits);
    for (size_t at = 0; n > 0; n--) {
        size_t share = (CSV_LIMIT - csv->bytes) / (size_t)n;
        while (csv->text[at++] != '\n') continue;
        while (csv->text[at++] != ',') continue;
        splice(csv, at, 0, digits, share);
        at += share;
    }
}

void make_measured_text(struct csv *csv, enum text kind, int n) {
    struct given g = make_measured(RANDOM, kind == LINES ? 1 : n);
    csv->bytes = 0;
    add_pads(csv, g.job, kind == LINES ? 0 : (size_t)n);
    if (kind == QUOTED) quote_some(csv, 1);
    if (kind == LONG) lengthen_numbers(csv, n);
    for (int k = 0; k < n && kind == LINES; k++) add_word(csv, "1,1,1\r\n");
}
