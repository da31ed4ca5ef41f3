/*
 * touching [COUNT [SEED]]: which pair refusal 9 names, in Measure, Next and Page, over weights and
 * over tables, and at times on slots some of which stay free: the smallest record that touches an
 * earlier one, with the smallest that it touches, by its leader or by a square.
 * Boards whose touching pairs are known; every pair of 64 records, by leaders, and by the square of
 * either, which reaches the other's leader or ends one unit from it; every board of up to three
 * pads, and every layout of some larger ones, with leaders and squares tried point by point; a
 * small square with every pad and port around it, and what First makes of that; random boards
 * against the plain account.
 */
#include <stdio.h>
#include <stdlib.h>
#include <string.h>

#include "boards.h"
#include "cheremysl.h"
#include "questions.h"
#include "trial.h"

#define PADS CHEREMYSL_MAX_RECORDS
#define SMALL 8   /* at random, every pair of so many records must come .. */
#define ENOUGH 10 /* .. from this COUNT on */

/* ---- leaders, point by point ---- */

static bool between(int64_t m, int64_t a, int64_t b) {
    return (a <= m && m <= b) || (b <= m && m <= a);
}

static bool on_leader(const uint8_t *job, size_t i, size_t q, int64_t x, int64_t y) {
    int64_t height = get_port(job, q);
    bool on_hand = x == get_x(job, i) && between(y, get_y(job, i), height);
    bool on_arm = y == height && between(x, 0, get_x(job, i));
    return on_hand || on_arm;
}

static bool in_square(const uint8_t *job, size_t i, int64_t x, int64_t y) {
    int64_t half = get_half(job, i), right = x - get_x(job, i), above = y - get_y(job, i);
    return -half <= right && right <= half && -half <= above && above <= half;
}

/* Is any point of the leader of record i on the leader of record j, or in its square? */
static bool comes_to(const uint8_t *job, size_t i, size_t p, size_t j, size_t q) {
    int64_t y = get_y(job, i), port = get_port(job, p), top = y > port ? y : port;
    for (int64_t x = 0; x <= get_x(job, i); x++)
        for (int64_t h = y < port ? y : port; h <= top; h++)
            if (on_leader(job, i, p, x, h) &&
                (on_leader(job, j, q, x, h) || in_square(job, j, x, h)))
                return true;
    return false;
}

static bool touch_by_points(const uint8_t *job, size_t i, size_t p, size_t j, size_t q) {
    return comes_to(job, i, p, j, q) || comes_to(job, j, q, i, p);
}

static bool touch(const struct question *q, size_t i, size_t j) {
    const uint16_t *layout = q->list.layout;
    return touch_by_points(q->job, i, layout[i], j, layout[j]);
}

/* The plain account's touching is the same. */
static void plain_points(void) {
    uint8_t job[16 * 3];
    struct given g = {.job = job, .job_bytes = sizeof job};
    struct plan plan = plan_of_job(job, 3);
    for (int k = 0; k < 600; k++) {
        size_t p = below(3), q = (p + 1 + below(2)) % 3;
        make_board(job, 3, below(2) ? CLOSE : LEVEL);
        if (below(2)) give_squares(job, &plan, below(2) ? GRAZED : SMALL);
        check(plain_touch(&g, 0, p, 1, q) == touch_by_points(job, 0, p, 1, q), NULL, "touching");
    }
}

/* ---- what is asked ---- */

/* Two records, the later first; record 0 is no later one: {0, 0} is no pair. */
struct pair {
    int record, earlier;
};

/* The first touching pair: earlier records in order, and a smaller later one wins. */
static struct pair first_pair(const struct question *q) {
    struct pair first = {0, 0};
    for (int j = 0; j < (int)records_of(q); j++)
        for (int i = j + 1; i < (int)records_of(q); i++)
            if ((first.record == 0 || i < first.record) && touch(q, (size_t)i, (size_t)j)) {
                first.record = i;
                first.earlier = j;
            }
    return first;
}

/* The job with its ports apart, and others, which stay free, below and above them. */
static struct question on_strip(const struct question *q) {
    struct question apart = by_slots(q);
    size_t n = records_of(q), under = below(4), over = below(4);
    int64_t low = port_of(q, 0), high = port_of(q, n - 1);
    if (low - 8 * (int64_t)under < -CHEREMYSL_MAX_HEIGHT) under = 0;
    if (high + 8 * (int64_t)over > CHEREMYSL_MAX_HEIGHT) over = 0;
    apart.port_bytes = 4 * (under + n + over);
    for (size_t k = 0; k < under; k++) set_port(&apart, k, low - 8 * (int64_t)(under - k));
    for (size_t k = 0; k < n; k++) set_port(&apart, under + k, port_of(q, k));
    for (size_t k = 0; k < over; k++) set_port(&apart, under + n + k, high + 8 * (int64_t)(k + 1));
    for (size_t i = 0; i < n; i++) apart.list.layout[i] += (uint16_t)under;
    lend_work(&apart, 0);
    return apart;
}

/* The slots calls name the pair too. */
static bool names_on_slots(struct question q, int64_t answer) {
    q.call = MEASURE;
    struct question apart = on_strip(&q);
    bool ok = check(plain_reply(&apart).answer == answer, &apart, "or another pair on slots");
    ok &= expect(&apart, keeps(&apart, answer));
    apart.call = SLOTS_NEXT;
    return ok && (SLOTS_NEXT >= CALLS || expect(&apart, keeps(&apart, answer)));
}

/* Every call that is given a layout names the pair; Page also with room for none. */
static bool names(struct question *q, struct pair pair) {
    static uint32_t table[TABLE_ROOM];
    int64_t answer = refused_pair(pair.record, pair.earlier);
    lend_table(q, table, EQUAL);
    q->call = MEASURE;
    bool ok = check(plain_reply(q).answer == answer, q, "the plain account names another pair");
    if (below(4) == 0) ok &= names_on_slots(*q, answer);
    for (; q->call < CALLS; q->call++) {
        if (!takes_layout(q->call) || takes_slots(q->call)) continue;
        lend_page(q, 2 * records_of(q) + 1);
        if (q->call == SVG) lend_text(q, below(2) ? TEXT_ROOM : 0);
        ok &= expect(q, keeps(q, answer));
        q->page_entries = 0;
        ok &= q->call != PAGE || expect(q, keeps(q, answer));
    }
    return ok;
}

static void begin_question(struct question *q, size_t n) {
    memset(q, 0, sizeof *q);
    q->call = MEASURE;
    q->job_bytes = 16 * n;
    q->count = n + below(3);
    for (size_t k = 0; k < LIST_ROOM; k++) q->list.layout[k] = (uint16_t)below(65536);
    any_weights(&q->a, &q->b);
}

static void swap_entries(struct question *q, size_t i, size_t j) {
    uint16_t *layout = q->list.layout, kept = layout[i];
    layout[i] = layout[j];
    layout[j] = kept;
}

/* ---- boards whose touching pairs are known: all of them, the one to be named first ---- */

static const struct known {
    size_t n;
    int64_t x[4], y[4], port[4];
    uint16_t layout[4];
    struct pair touching[4];
} boards[] = {
    {2, {10, 20}, {0, 30}, {10, 20}, {1, 0}, {{1, 0}}},
    {3, {10, 20, 30}, {10, 20, 30}, {0, 10, 20}, {1, 0, 2}, {{2, 1}}},
    {3, {10, 20, 30}, {10, 20, 30}, {0, 10, 20}, {0, 2, 1}, {{2, 0}}},
    {3, {10, 20, 30}, {10, 20, 30}, {0, 10, 20}, {2, 0, 1}, {{2, 0}, {2, 1}}},
    {3, {10, 20, 30}, {10, 20, 30}, {0, 10, 20}, {0, 1, 2}, {{1, 0}, {2, 1}}},
    {4, {60, 110, 160, 210}, {95, 71, 40, 20}, {20, 45, 70, 95}, {3, 1, 2, 0}, {{2, 1}}},
    {4, {30, 10, 20, 40}, {0, 10, 20, 30}, {0, 10, 20, 30}, {3, 2, 1, 0}, {{2, 1}, {3, 0}}},
    {4, {20, 30, 40, 10}, {0, 10, 20, 30}, {0, 10, 20, 30}, {0, 2, 3, 1}, {{3, 1}, {3, 2}}},
};

static bool listed(const struct known *b, size_t i, size_t j) {
    for (const struct pair *p = b->touching; p->record > 0; p++)
        if (p->record == (int)i && p->earlier == (int)j) return true;
    return false;
}

static void known_board(const struct known *b) {
    static struct question q;
    begin_question(&q, b->n);
    for (size_t i = 0; i < b->n; i++)
        put_record(q.job, i, 101 + (int64_t)i, b->x[i], b->y[i], b->port[i]);
    memcpy(q.list.layout, b->layout, b->n * sizeof *b->layout);
    for (size_t i = 0; i < b->n; i++)
        for (size_t j = 0; j < i; j++)
            check(touch(&q, i, j) == listed(b, i, j), &q, "other pairs touch");
    names(&q, b->touching[0]);
}

/* ---- 64 records: straight leaders, their pads from left to right or from right to left .. ---- */

static void straight(struct question *q, bool rising) {
    begin_question(q, PADS);
    for (size_t i = 0; i < PADS; i++) {
        int64_t x = 2 + (int64_t)(rising ? i : PADS - 1 - i), height = 10 * (int64_t)i;
        put_record(q->job, i, 101 + (int64_t)i, x, height, height);
        q->list.layout[i] = (uint16_t)i;
    }
}

/* .. two of which swap ports, far to the right: they touch and no others .. */
static void cross(struct question *q, size_t a, size_t b, int64_t x) {
    put_x(q->job, a, x);
    put_x(q->job, b, x + 1);
    swap_entries(q, a, b);
}

static void alone(size_t a, size_t b) {
    static struct question q;
    straight(&q, true);
    cross(&q, a, b, 100);
    names(&q, (struct pair){(int)b, (int)a});
}

/* .. or those from a on go one port up, and b, left of them, down to port a: it touches all .. */
static void touches_many(size_t a, size_t b) {
    static struct question q;
    straight(&q, true);
    for (size_t k = a; k < b; k++) swap_entries(&q, k, k + 1);
    put_x(q.job, b, 1);
    names(&q, (struct pair){(int)b, (int)a});
}

/* .. or those up to b go one port down, and a, left of them, up to port b: all touch it. */
static void touched_by_many(size_t a, size_t b) {
    static struct question q;
    straight(&q, false);
    for (size_t k = b; k > a; k--) swap_entries(&q, k, k - 1);
    put_x(q.job, a, 1);
    names(&q, (struct pair){(int)a + 1, (int)a});
}

static void every_pair(void) {
    for (size_t b = 1; b < PADS; b++)
        for (size_t a = 0; a < b; a++) {
            alone(a, b);
            touches_many(a, b);
            touched_by_many(a, b);
        }
}

/*
 * The square of one pad, far to the right, and the leader of another beside it: its hand, which
 * begins level with the square, perhaps at its corner, is so far from it. No others touch.
 */
static void graze(struct question *q, size_t square, size_t leader, int64_t x, int64_t off) {
    int64_t half = 1 + below(9), level = (int64_t)below(2 * (uint32_t)half + 1) - half;
    if (below(3) == 0) level = leader > square ? half : -half; /* and away: a corner is shared */
    put_x(q->job, square, x);
    put_half(q->job, square, half);
    put_x(q->job, leader, x + half + off);
    put_y(q->job, leader, 10 * (int64_t)square + level);
}

static bool has_total(struct question *q, enum call call);

/* Either record's square reaches the other's leader; or ends one unit from it. */
static void grazed(size_t square, size_t leader) {
    static struct question q;
    size_t later = square > leader ? square : leader;
    struct pair pair = {(int)later, (int)(square + leader - later)};
    straight(&q, below(2));
    graze(&q, square, leader, 100, 0);
    q.call = MEASURE;
    if (below(3) == 0)
        names(&q, pair);
    else
        expect(&q, keeps(&q, refused_pair(pair.record, pair.earlier)));
    straight(&q, below(2));
    graze(&q, square, leader, 100, 1);
    has_total(&q, MEASURE);
}

static void every_square(void) {
    for (size_t k = 0; k < PADS * PADS; k++)
        if (k / PADS != k % PADS) grazed(k / PADS, k % PADS);
}

/* By their leaders, or by the square of one of them. */
static void meet(struct question *q, size_t a, size_t b, int64_t x) {
    uint32_t way = below(4);
    if (way > 1)
        cross(q, a, b, x);
    else
        graze(q, way ? a : b, way ? b : a, x, 0);
}

/* Two pairs, one inside the other or one above the other: the one that is first complete. */
static void two_pairs(void) {
    static struct question q;
    size_t d = 3 + below(PADS - 3), c = 2 + below((uint32_t)d - 2), b = 1 + below((uint32_t)c - 1);
    size_t a = below((uint32_t)b);
    straight(&q, below(2));
    meet(&q, a, d, 200);
    meet(&q, b, c, 100);
    names(&q, (struct pair){(int)c, (int)b});
    straight(&q, below(2));
    meet(&q, a, b, 100);
    meet(&q, c, d, 200);
    names(&q, (struct pair){(int)b, (int)a});
}

/* ---- small boards, by points ---- */

static bool has_total(struct question *q, enum call call) {
    q->call = call;
    struct given g = given_of(q);
    return expect(q, keeps(q, plain_total(&g, q->list.layout)));
}

static bool has_text(struct question *q) {
    q->call = SVG;
    lend_text(q, any_text_room(q));
    return expect(q, plain_reply(q));
}

/* By points: the pair is named, or Measure has the total, of weights and of figures, Svg a text. */
static bool judged(struct question *q) {
    static uint32_t table[TABLE_ROOM];
    struct pair pair = first_pair(q);
    if (pair.record > 0) return names(q, pair);
    lend_table(q, table, ANY_FIGURES);
    return has_text(q) && has_total(q, MEASURE) && has_total(q, TABLE_MEASURE);
}

static size_t orders_of(size_t n) { return n < 2 ? 1 : n * orders_of(n - 1); }

/* Order number k of 0 to n - 1. */
static void put_order(uint16_t *list, size_t n, size_t k) {
    for (size_t i = 0; i < n; i++) {
        size_t at = k % (i + 1);
        k /= i + 1;
        list[i] = list[at];
        list[at] = (uint16_t)i;
    }
}

/*
 * Ports 8 apart, pads at x = 1 to n in some order, each at a port's height, half way, or beyond.
 * Only the order of pads and ports from bottom to top tells who touches: these are all cases.
 */
static void put_pads(struct question *q, size_t n, size_t order, size_t heights) {
    uint16_t x[PADS];
    begin_question(q, n);
    put_order(x, n, order);
    for (size_t i = 0; i < n; i++, heights /= 2 * n + 1) {
        int64_t y = 4 * (int64_t)(heights % (2 * n + 1)) - 4;
        put_record(q->job, i, 101 + (int64_t)i, 1 + x[i], y, 8 * (int64_t)i);
    }
}

static size_t heights_of(size_t n) {
    size_t heights = 1;
    for (size_t i = 0; i < n; i++) heights *= 2 * n + 1;
    return heights;
}

static bool every_layout(struct question *q) {
    size_t n = records_of(q);
    for (size_t k = 0; k < orders_of(n); k++) {
        put_order(q->list.layout, n, k);
        if (!judged(q)) return false;
    }
    return true;
}

static void every_board(size_t n) {
    static struct question q;
    for (size_t k = 0; k < orders_of(n) * heights_of(n); k++) {
        put_pads(&q, n, k % orders_of(n), k / orders_of(n));
        if (!every_layout(&q)) return;
    }
}

/* Perhaps further apart, with squares. */
static void some_board(size_t n) {
    static struct question q;
    put_pads(&q, n, below((uint32_t)orders_of(n)), below((uint32_t)heights_of(n)));
    for (size_t i = 0, apart = 1 + below(6); i < n && apart > 1; i++) {
        put_x(q.job, i, (int64_t)apart * get_x(q.job, i));
        put_half(q.job, i, below(2) ? 0 : below(5));
    }
    every_layout(&q);
}

/* ---- a small square, and a pad and a port around it ---- */

/* First, weights 0, 0, by points: the earlier of the two layouts, of those that do not touch. */
static int64_t first_by_points(struct question *q) {
    uint16_t *layout = q->list.layout, found[2] = {UINT16_MAX, UINT16_MAX};
    for (uint16_t k = 0; k < 2; k++) {
        layout[0] = k;
        layout[1] = 1 - k;
        if (!touch(q, 1, 0) && (found[0] > 1 || plain_before(q->job, 2, layout, found)))
            memcpy(found, layout, sizeof found);
    }
    memcpy(layout, found, sizeof found);
    return found[0] > 1 ? refused(15, 0) : 0;
}

static long around_tried, around_met, around_none;

/* First's answer and list, by points; now and then every call that gives the first layout. */
static bool first_is(struct question q) {
    static uint32_t table[TABLE_ROOM];
    struct question found = q, first = q;
    int64_t answer = first_by_points(&found);
    around_none += answer < 0;
    q.call = first.call = FIRST;
    q.a = q.b = first.a = first.b = 0;
    struct reply r = answer < 0 ? keeps(&q, answer) : gives(&q, answer, found.list.layout);
    bool ok = call_library(&first) == answer;
    ok &= memcmp(&first.list, &r.list, sizeof r.list) == 0;
    if (!check(ok, &q, "First by points") || around_tried % 16 != 0) return ok;
    struct question tabled = by_table(&q, table), apart = by_slots(&q);
    return expect(&q, r) && expect(&tabled, r) && expect(&apart, r);
}

/* A pad with a square; another at (x, y); the ports, of which that one's is at a height. */
struct around {
    int64_t centre, half, x, y, height;
};

/* The square's pad is of either record, at height 0, and its port is above the other's or below. */
static void put_around(struct question *q, struct around at, size_t square, bool above) {
    size_t other = 1 - square;
    int64_t port[2] = {at.height - (above ? 0 : 8), at.height + (above ? 8 : 0)};
    begin_question(q, 2);
    put_record(q->job, square, 101, at.centre, 0, 0);
    put_record(q->job, other, 102, at.x, at.y, 0);
    put_half(q->job, square, at.half);
    for (size_t k = 0; k < 2; k++) put_port(q->job, k, port[k]);
    q->list.layout[square] = above;
    q->list.layout[other] = !above;
}

/* Measure's answer, by points, and First's; now and then every other call too. */
static bool is_judged(struct question *q) {
    struct pair pair = first_pair(q);
    struct given g = given_of(q);
    int64_t total = plain_total(&g, q->list.layout);
    q->call = MEASURE;
    bool ok = check(call_library(q) == (pair.record ? refused_pair(1, 0) : total), q, "by points");
    around_tried++;
    around_met += pair.record;
    if (FIRST < CALLS) ok &= first_is(*q);
    return ok && (around_tried % 16 != 0 || judged(q));
}

/* Pads and arms from two units beyond one side of the square to two beyond the other. */
static bool every_around(struct around at) {
    static struct question q;
    int64_t far = at.half + 2, left = at.centre - far < 1 ? 1 : at.centre - far;
    for (at.x = left; at.x <= at.centre + far; at.x++)
        for (at.y = -far; at.y <= far && at.x != at.centre; at.y++)
            for (at.height = -far; at.height <= far; at.height++)
                for (size_t way = 0; way < 4; way++) {
                    put_around(&q, at, way % 2, way / 2);
                    if (!is_judged(&q)) return false;
                }
    return true;
}

/* Half-sides from 0 on, the square beyond the label edge, at it, and off it. */
static void around_squares(int64_t most) {
    for (int64_t half = 0; half <= most; half++)
        for (int64_t centre = 1; centre <= half + 2; centre++)
            if (!every_around((struct around){centre, half, 0, 0, 0})) return;
    printf("%ld pads around a square, %ld touch; %ld without a layout\n", around_tried, around_met,
           around_none);
    check(FIRST >= CALLS || around_none > 0, NULL, "a square was never in every leader's way");
}

/* ---- random boards ---- */

static long came[PADS][PADS]; /* by record and earlier record */

/* Of a pair that touches: by the square of the later record alone, by that of the earlier alone. */
static long by_later, by_earlier;

static void count_pair(const struct question *q, struct pair pair) {
    struct given g = given_of(q);
    size_t i = (size_t)pair.record, j = (size_t)pair.earlier, p = g.layout[i], r = g.layout[j];
    bool leaders = plain_cross(&g, i, p, j, r), later = plain_meet(&g, j, r, i);
    bool earlier = plain_meet(&g, i, p, j);
    came[pair.record][pair.earlier]++;
    by_later += later && !earlier && !leaders;
    by_earlier += earlier && !later && !leaders;
}

/* A layout whose leaders do not touch, in which some entries are then perhaps swapped. */
static void random_board(size_t n) {
    static struct question q;
    begin_question(&q, n);
    make_board(q.job, n, below(BOARDS));
    struct plan plan = plan_of(&q);
    any_untouching(&plan, q.list.layout);
    any_squares(q.job, &plan);
    struct given g = given_of(&q);
    for (uint32_t swaps = plain_no_squares(&g) + below(2); swaps > 0; swaps--)
        swap_entries(&q, below((uint32_t)n), below((uint32_t)n));
    int64_t answer = plain_reply(&q).answer;
    if (!cheremysl_is_refusal(answer)) return;
    struct pair pair = {cheremysl_refusal_record(answer), cheremysl_refusal_earlier(answer)};
    count_pair(&q, pair);
    names(&q, pair);
}

static void report(bool enough) {
    long pairs = 0, with_0 = 0, with_another = 0;
    for (int i = 1; i < PADS; i++)
        for (int j = 0; j < i; j++) {
            pairs += came[i][j] > 0;
            *(j == 0 ? &with_0 : &with_another) += came[i][j];
            check(came[i][j] > 0 || i >= SMALL || !enough, NULL, "a pair that never came");
        }
    printf("at random %ld with record 0 and %ld with another: %ld different pairs\n", with_0,
           with_another, pairs);
    printf("%ld by the square of the later record alone, %ld by that of the earlier\n", by_later,
           by_earlier);
    check(!enough || (by_later > 0 && by_earlier > 0), NULL, "a square that never came");
}

int main(int argc, char **argv) {
    long count = argc > 1 ? atol(argv[1]) : 100;
    seed_random(argc > 2 ? strtoull(argv[2], NULL, 10) : 1);
    begin();
    plain_points();
    for (size_t k = 0; k < sizeof boards / sizeof *boards; k++) known_board(boards + k);
    every_pair();
    every_square();
    for (long k = 0; k < 10 * count; k++) two_pairs();
    around_squares(count < ENOUGH ? 1 : count < 100 ? 2 : 3);
    for (size_t n = 1; n <= 3; n++) every_board(n);
    for (long k = 0; k < count; k++) some_board(4 + below(2));
    for (long k = 0; k < 200 * count; k++) random_board(SMALL);
    for (long k = 0; k < 100 * count; k++) random_board(2 + below(PADS - 1));
    report(count >= ENOUGH);
    return done();
}
