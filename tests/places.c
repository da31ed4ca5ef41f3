/*
 * places [COUNT [SEED]]: Count, and Place at every place of jobs of up to seven pads, with squares
 * and without, beside the whole run of First and Next and beside the list of every best layout
 * among all assignments. On up to 64 pads some places: beside the layouts by their place
 * (ranked.h), beside Next from the place before, in order, and with a page from there.
 *
 * Boards whose layouts are counted on paper: powers of two, binomials, and 10^18 with one less and
 * one more, between which 16 begins. Boards of few best layouts on which a part that none of them
 * has would have more than 10^18.
 *
 * What the buffer holds makes no difference: numbers of other jobs, of other weights, of a job that
 * differs in one field, and its own with any one of them changed.
 */
#include <stdio.h>
#include <stdlib.h>
#include <string.h>

#include "boards.h"
#include "cheremysl.h"
#include "questions.h"
#include "ranked.h"
#include "trial.h"

#define PADS CHEREMYSL_MAX_RECORDS
#define LIMIT ((uint64_t)CHEREMYSL_MAX_COUNT)
#define TWO_TO_63 ((uint64_t)1 << 63)

static long places_asked, sheets_run;
static long squared, none;                /* small jobs with squares; those without a layout */
static long counted, plentiful, most_few; /* large ones with places, without; the most places */

/* ---- questions ---- */

/* The same job and weights asked of Count or Place, with a buffer of just enough numbers. */
static struct question turned(const struct question *q, enum call call, uint64_t place) {
    struct question t = *q;
    t.call = call;
    t.place = place;
    lend_work(&t, 0);
    return t;
}

static bool counts_to(const struct question *q, int64_t answer) {
    struct question c = turned(q, COUNT, 0);
    return expect(&c, keeps(&c, answer));
}

static bool stands_at(const struct question *q, uint64_t place, int64_t total,
                      const uint16_t *layout) {
    struct question p = turned(q, PLACE, place);
    places_asked++;
    return expect(&p, gives(&p, total, layout));
}

static bool no_place(const struct question *q, uint64_t place, int number) {
    struct question p = turned(q, PLACE, place);
    return expect(&p, keeps(&p, refused(number, 0)));
}

static uint64_t any_number(void) { return (uint64_t)any_bits() << 32 | any_bits(); }

/* Fewer numbers than are needed, whatever the place: both refuse with this. */
static bool short_buffer(const struct question *q, int number) {
    struct question asked[2] = {turned(q, COUNT, 0), turned(q, PLACE, below(2) ? 0 : UINT64_MAX)};
    size_t enough = asked[0].numbers, fewer[] = {enough - 1, records_of(q) - 1, 0};
    bool ok = true;
    for (size_t k = 0; k < 6 && ok; k++) {
        struct question *s = &asked[k % 2];
        s->numbers = fewer[k / 2];
        ok = expect(s, keeps(s, refused(number, 0)));
    }
    return ok;
}

/* Count and every Place refuse; with a short buffer 15 comes first, and 16 does not. */
static bool have_no_places(const struct question *q, int number) {
    return counts_to(q, refused(number, 0)) && no_place(q, 0, number) &&
           no_place(q, any_number(), number) && no_place(q, UINT64_MAX, number) &&
           short_buffer(q, number == 16 ? 18 : number);
}

/* A weight too large: before all that is about buffer, count and place; so is a short list. */
static bool refused_before(struct question q) {
    q.b = 1001;
    bool ok = have_no_places(&q, 2);
    q.b = 0;
    struct question p = turned(&q, PLACE, UINT64_MAX);
    p.count = records_of(&q) - 1;
    ok = ok && expect(&p, keeps(&p, refused(3, 0)));
    p.numbers = 0;
    return ok && expect(&p, keeps(&p, refused(3, 0)));
}

/* At the count, after it, and where fewer bits or a sign would tell of an earlier place. */
static bool past_the_last(const struct question *q, uint64_t count) {
    const uint64_t past[] = {count, count + 1, 2 * count, count - 1 + ((uint64_t)1 << 32),
                             TWO_TO_63, TWO_TO_63 + count - 1, UINT64_MAX};
    for (size_t k = 0; k < sizeof past / sizeof *past; k++)
        if (!no_place(q, past[k], 17)) return false;
    return true;
}

/* A list of any length, with any numbers in it. */
static void any_list(struct question *q) {
    size_t n = records_of(q);
    q->count = n + below((uint32_t)(LIST_ROOM - n) + 1);
    for (size_t k = 0; k < LIST_ROOM; k++) q->list.layout[k] = (uint16_t)below(65536);
}

static void any_job(struct question *q, size_t n, enum board kind, enum squares squares) {
    memset(q, 0, sizeof *q);
    q->call = FIRST;
    q->job_bytes = 16 * n;
    make_board(q->job, n, kind);
    struct plan plan = plan_of(q);
    give_squares(q->job, &plan, squares);
    any_weights(&q->a, &q->b);
    any_list(q);
}

/* ---- jobs of up to seven pads: every place ---- */

/* First, Next, .., end give these sheets. */
static bool run_is(struct question q, const struct sheets *all) {
    size_t n = records_of(&q), found = 0;
    bool same = true;
    for (q.call = FIRST; same && call_library(&q) >= 0; q.call = NEXT, found++)
        same = found < all->found &&
               memcmp(q.list.layout, all->sheet[found].port, n * sizeof *q.list.layout) == 0;
    sheets_run += (long)found;
    return check(same && found == all->found, &q, "First and Next give other sheets");
}

static void small_job(size_t n, enum board kind, enum squares squares) {
    static struct question q;
    static struct sheets all;
    any_job(&q, n, kind, squares);
    struct given g = given_of(&q);
    plain_sheets(&g, &all);
    squared += !plain_no_squares(&g);
    none += all.found == 0;
    if (!run_is(q, &all) || !refused_before(q)) return;
    if (all.found == 0) {
        have_no_places(&q, 15);
        return;
    }
    if (!counts_to(&q, (int64_t)all.found) || !short_buffer(&q, 18)) return;
    for (size_t k = 0; k < all.found; k++)
        if (!stands_at(&q, k, all.total, all.sheet[k].port)) return;
    past_the_last(&q, all.found);
}

/* ---- jobs of up to 64 pads: some places ---- */

/* What the library puts at a place. */
static struct question at_place(const struct question *q, uint64_t place, int64_t *total) {
    struct question p = turned(q, PLACE, place);
    *total = call_library(&p);
    return p;
}

static bool same_sheet(const struct question *a, const struct question *b) {
    size_t bytes = records_of(a) * sizeof *a->list.layout;
    return memcmp(a->list.layout, b->list.layout, bytes) == 0;
}

/* Next from a place gives what stands at the next one. */
static bool steps_on(const struct question *q, uint64_t place) {
    int64_t total, later_total;
    struct question p = at_place(q, place, &total), later = at_place(q, place + 1, &later_total);
    p.call = NEXT;
    bool same = call_library(&p) == later_total && total == later_total && same_sheet(&p, &later);
    return check(same, q, "Next gives another sheet than the next place");
}

static bool in_order(const struct question *q, uint64_t place, uint64_t later) {
    int64_t total;
    struct question p = at_place(q, place, &total), l = at_place(q, later, &total);
    bool rises = plain_before(q->job, records_of(q), p.list.layout, l.list.layout);
    return check(rises == (place < later), q, "places in another order");
}

/* A page from a place holds what stands at those that follow. */
static bool pages_on(const struct question *q, uint64_t place, uint64_t count) {
    int64_t total;
    size_t n = records_of(q), layouts = PAGE_ROOM / n < 5 ? PAGE_ROOM / n : 5;
    struct question p = at_place(q, place, &total);
    p.call = PAGE;
    lend_page(&p, layouts * n);
    uint64_t follow = count - place - 1, written = follow < layouts ? follow : layouts;
    bool same = call_library(&p) == (int64_t)written;
    for (uint64_t k = 0; same && k < written; k++) {
        struct question l = at_place(q, place + 1 + k, &total);
        same = memcmp(p.page + k * n, l.list.layout, n * sizeof *p.page) == 0;
    }
    return check(same, q, "a page from a place has other sheets");
}

static bool ranked_at(const struct question *q, uint64_t place) {
    uint16_t layout[PADS];
    ranked_sheet(place, layout);
    return stands_at(q, place, ranked_total(), layout);
}

/* Count; the first place, the last, any, and those just past the last. */
static void some_places(const struct question *q, int some) {
    struct given g = given_of(q);
    rank_job(&g);
    uint64_t count = ranked_count();
    *(count > LIMIT ? &plentiful : &counted) += 1;
    if (count == 0 || count > LIMIT) {
        have_no_places(q, count == 0 ? 15 : 16);
        return;
    }
    if ((long)count > most_few) most_few = (long)count;
    if (!counts_to(q, (int64_t)count) || !ranked_at(q, 0) || !ranked_at(q, count - 1)) return;
    if (!short_buffer(q, 18) || !past_the_last(q, count)) return;
    for (int k = 0; k < some && count > 1; k++) {
        uint64_t place = any_number() % count, other = any_number() % count;
        if (!ranked_at(q, place) || !in_order(q, place, other) || !pages_on(q, place, count))
            return;
        if (!steps_on(q, place + 1 < count ? place : place - 1)) return;
    }
}

static void large_job(size_t n) {
    static struct question q;
    any_job(&q, n, below(BOARDS), below(2) ? POINTS : below(2) ? FITTED : SMALL);
    if (below(3) == 0) q.a = q.b = 0;
    some_places(&q, 2);
}

/* A run of 2 to the pairs sheets, each of which stands at its place. */
static void whole_run(size_t n, size_t pairs) {
    static struct question q;
    uint64_t found = 0;
    int64_t total;
    bool same = true;
    any_job(&q, n, STRAIGHT, POINTS);
    make_tied(q.job, n, pairs);
    q.a = 1;
    q.b = 0;
    for (q.call = FIRST; same && call_library(&q) >= 0; q.call = NEXT, found++) {
        struct question p = at_place(&q, found, &total);
        same = total >= 0 && same_sheet(&p, &q);
    }
    sheets_run += (long)found;
    check(same && found == (uint64_t)1 << pairs, &q, "a place of a long run");
    counts_to(&q, (int64_t)found);
}

/* ---- boards counted on paper ---- */

static void any_order(size_t *record, size_t n) {
    for (size_t i = 0; i < n; i++) {
        size_t k = below((uint32_t)i + 1);
        record[i] = record[k];
        record[k] = i;
    }
}

/*
 * Pads from right to left, each by how many ports are below it, in records of any order. None is
 * level with a port: without a length weight every untouching layout is best.
 */
static void lay_pads(struct question *q, size_t n, const uint8_t *under) {
    size_t record[PADS];
    memset(q, 0, sizeof *q);
    q->call = FIRST;
    q->job_bytes = 16 * n;
    q->b = below(2) ? below(1001) : 0;
    any_order(record, n);
    for (size_t t = 0; t < n; t++) {
        int64_t i = (int64_t)record[t], x = 10 * (int64_t)(n - t);
        put_record(q->job, record[t], 101 + i, x, 10 * under[t] - 5, 10 * i);
    }
    any_list(q);
}

/* The count is this, or too large. */
static void is_count(const struct question *q, uint64_t count) {
    struct given g = given_of(q);
    rank_job(&g);
    bool same = ranked_count() == (count < RANKED_MOST ? count : RANKED_MOST);
    check(same, q, "the layouts by their place are not so many");
    some_places(q, 1);
}

/* Each pad just below its port, the lower the further right, or the other way round: 2^(n - 1). */
static void powers(size_t n) {
    static struct question q;
    uint8_t under[PADS];
    for (int turned_round = 0; turned_round < 2; turned_round++) {
        for (size_t t = 0; t < n; t++) under[t] = (uint8_t)(turned_round ? n - t : t);
        lay_pads(&q, n, under);
        is_count(&q, (uint64_t)1 << (n - 1));
    }
}

static uint64_t binomial(size_t n, size_t k) {
    uint64_t row[PADS + 1] = {1};
    for (size_t m = 1; m <= n; m++)
        for (size_t j = m; j > 0; j--) row[j] += row[j - 1];
    return row[k];
}

/* All pads in one gap with k ports below: any k of them go down, with any weights. */
static void binomials(size_t n, size_t k) {
    static struct question q;
    uint8_t under[PADS];
    memset(under, (int)k, sizeof under);
    lay_pads(&q, n, under);
    any_weights(&q.a, &q.b);
    is_count(&q, binomial(n, k));
}

/*
 * 10^9 layouts of 32 pads. Below every port are more pads than ports: no other pad fits in below
 * them, and none of these above. So turned over, on top of itself, it makes 10^18.
 */
static const uint8_t billion[32] = {0,  12, 4, 6, 17, 18, 3, 21, 13, 24, 25, 6,  15, 7,  28, 2,
                                    1,  27, 6, 19, 13, 5, 22, 26, 31, 14, 24, 28, 19, 11, 12, 9};

/* The two halves in any order from right to left, each in its own. */
static void exactly_the_limit(void) {
    static struct question q;
    uint8_t under[PADS];
    size_t low = 0, high = 0;
    lay_pads(&q, 32, billion);
    is_count(&q, 1000000000);
    while (low + high < PADS) {
        bool upper = low == 32 || (high < 32 && below(2));
        under[low + high] = (uint8_t)(upper ? PADS - billion[high] : billion[low]);
        *(upper ? &high : &low) += 1;
    }
    lay_pads(&q, PADS, under);
    is_count(&q, LIMIT);
    counts_to(&q, CHEREMYSL_MAX_COUNT);
}

/* Of so many pads from the right at most so many go down, or up; ANY: as many as there are. */
#define ANY (-1)
struct bound {
    int pads, down, up;
};

/*
 * 64 pads between the lower ports and the upper ones. The square of the pad that comes after those
 * reaches the next lower port, or the next upper one, and all that are nearer.
 */
static void lay_bounds(struct question *q, int lower, const struct bound *bounds, size_t many) {
    uint8_t under[PADS];
    size_t order[PADS];
    memset(under, lower, sizeof under);
    lay_pads(q, PADS, under);
    left_to_right(q->job, PADS, order);
    for (size_t i = 0; i < PADS; i++) {
        put_x(q->job, order[i], 2000 * (int64_t)(i + 1));
        put_y(q->job, order[i], 500);
        if ((int)i >= lower) put_port(q->job, i, 1000 + 10 * (int64_t)i);
    }
    for (size_t k = 0; k < many; k++) {
        size_t pad = order[PADS - 1 - bounds[k].pads];
        int bottom = bounds[k].down == ANY ? 395 : 10 * bounds[k].down - 5;
        int top = bounds[k].up == ANY ? 605 : 1005 + 10 * (PADS - 1 - bounds[k].up);
        put_y(q->job, pad, (bottom + top) / 2);
        put_half(q->job, pad, (top - bottom) / 2);
    }
}

static const struct bound one_less[] = {
    {21, 19, 20}, {28, 23, ANY}, {30, ANY, 21}, {32, 24, ANY}, {35, 25, ANY},
    {37, ANY, 24}, {38, 26, ANY}, {40, 27, 25}, {48, ANY, 29}, {54, ANY, 34}};
static const struct bound one_more[] = {
    {16, ANY, 13}, {20, ANY, 14}, {22, 21, ANY}, {25, 22, ANY}, {28, ANY, 15}, {32, 26, ANY},
    {33, ANY, 19}, {35, 27, ANY}, {40, 28, ANY}, {46, ANY, 29}, {51, ANY, 33}};

static void beside_the_limit(void) {
    static struct question q;
    lay_bounds(&q, 28, one_less, sizeof one_less / sizeof *one_less);
    is_count(&q, LIMIT - 1);
    lay_bounds(&q, 30, one_more, sizeof one_more / sizeof *one_more);
    is_count(&q, LIMIT + 1);
    have_no_places(&q, 16);
}

/* Any bounds, mostly of about as many as there are layouts for. */
static void any_bounds(void) {
    static struct question q;
    struct bound bounds[4];
    int lower = 27 + (int)below(11), pads = 8;
    for (size_t k = 0; k < 4; k++) {
        pads += 1 + (int)below(11);
        int down = pads * lower / PADS + 1 + (int)below(6), up = pads - down + 2 + (int)below(10);
        bounds[k].pads = pads;
        bounds[k].down = below(2) ? down : ANY;
        bounds[k].up = below(2) ? up : ANY;
    }
    lay_bounds(&q, lower, bounds, below(5));
    some_places(&q, 1);
}

/* Little is changed on the board of a power: often about as many layouts, often far fewer. */
static void near_powers(size_t n) {
    static struct question q;
    uint8_t under[PADS];
    bool turned_round = below(2);
    for (size_t t = 0; t < n; t++) under[t] = (uint8_t)(turned_round ? n - t : t);
    for (uint32_t times = below(6); times > 0; times--) {
        size_t one = below((uint32_t)n), other = below((uint32_t)n);
        uint8_t kept = under[one];
        under[one] = below(2) ? under[other] : (uint8_t)below((uint32_t)n + 1);
        if (below(2)) under[other] = kept;
    }
    lay_pads(&q, n, under);
    if (below(4) == 0) any_weights(&q.a, &q.b);
    some_places(&q, 1);
}

/*
 * The rightmost pad is level with the last port: led there it saves a bend, and the others have one
 * layout below it. Led to the first port it would leave them 2^(n - 2) above it.
 */
static void unused_part(size_t n) {
    static struct question q;
    uint8_t under[PADS] = {0};
    size_t order[PADS];
    for (size_t t = 1; t < n; t++) under[t] = (uint8_t)t;
    lay_pads(&q, n, under);
    left_to_right(q.job, n, order);
    put_y(q.job, order[n - 1], get_port(q.job, n - 1));
    q.b = 1 + below(1000);
    is_count(&q, 1);
    counts_to(&q, 1);
    q.b = 0;
    is_count(&q, (uint64_t)1 << (n - 1));
}

/* ---- what the buffer holds ---- */

#define JOBS 5
static uint64_t buffers[JOBS][CHEREMYSL_MAX_BUFFER];

/* What Count or Place replies over a copy of a buffer. */
static struct reply over(const struct question *q, const uint64_t *buffer) {
    static uint64_t copy[CHEREMYSL_MAX_BUFFER];
    struct reply r = keeps(q, 0);
    memcpy(copy, buffer, q->numbers * sizeof *copy);
    r.answer = q->call == COUNT
                   ? cheremysl_count(q->job, q->job_bytes, q->a, q->b, copy, q->numbers)
                   : cheremysl_place(q->job, q->job_bytes, q->a, q->b, q->place, r.list.layout,
                                     q->count, copy, q->numbers);
    return r;
}

static bool replies_alike(const struct reply *a, const struct reply *b) {
    return a->answer == b->answer && memcmp(&a->list, &b->list, sizeof a->list) == 0;
}

/* Count, and Place here, the same over a buffer as over zeros. */
static bool untrusted(const struct question *q, uint64_t place, const uint64_t *buffer) {
    static const uint64_t zeros[CHEREMYSL_MAX_BUFFER];
    struct question asked[2] = {turned(q, COUNT, 0), turned(q, PLACE, place)};
    for (int k = 0; k < 2; k++) {
        struct reply fresh = over(&asked[k], zeros), r = over(&asked[k], buffer);
        if (!check(replies_alike(&fresh, &r), &asked[k], "what the buffer holds is trusted"))
            return false;
    }
    return true;
}

/* What Count and then Place leave of a job; zeros if it is refused. */
static void fill_buffer(const struct question *q, uint64_t *buffer) {
    struct question c = turned(q, COUNT, 0);
    uint16_t layout[PADS];
    memset(buffer, 0, c.numbers * sizeof *buffer);
    int64_t count = cheremysl_count(c.job, c.job_bytes, c.a, c.b, buffer, c.numbers);
    if (count <= 0) return;
    int64_t total = cheremysl_place(c.job, c.job_bytes, c.a, c.b, (uint64_t)count - 1, layout, PADS,
                                    buffer, c.numbers);
    check(total >= 0, q, "the last place is refused");
}

/* Another weight, height, half-side or port, or two x changed about: another job. */
static void change_little(struct question *q) {
    size_t n = records_of(q), i = below((uint32_t)n), j = below((uint32_t)n);
    int64_t x = get_x(q->job, i);
    switch (below(6)) {
    case 0: q->a = (q->a + 1) % 3; break;
    case 1: q->b = (q->b + 1) % 3; break;
    case 2: put_y(q->job, i, get_y(q->job, i) + (below(2) ? 1 : -1)); break;
    case 3: put_half(q->job, i, get_half(q->job, i) + 1); break;
    case 4: put_port(q->job, n - 1, get_port(q->job, n - 1) + 1); break;
    default:
        put_x(q->job, i, get_x(q->job, j));
        put_x(q->job, j, x);
    }
}

/* Jobs of as many pads, the last ones hardly different, each over what the others left. */
static void of_others(size_t n, bool free) {
    static struct question q[JOBS];
    for (size_t k = 0; k < JOBS; k++) {
        if (k < 2) any_job(&q[k], n, below(2) ? GAP : below(BOARDS), below(2) ? POINTS : FITTED);
        if (k < 2 && free) q[k].a = q[k].b = 0;
        if (k >= 2) q[k] = q[k - 1];
        if (k >= 2) change_little(&q[k]);
        fill_buffer(&q[k], buffers[k]);
    }
    for (size_t k = 0; k < JOBS * JOBS; k++)
        if (!untrusted(&q[k / JOBS], below(4), buffers[k % JOBS])) return;
}

/* Each number in its turn another than the one that was left there. */
static void one_number_changed(size_t n) {
    static struct question q;
    any_job(&q, n, GAP, POINTS);
    q.a = q.b = 0;
    fill_buffer(&q, buffers[0]);
    for (size_t k = 0; k < CHEREMYSL_BUFFER(n); k++) {
        uint64_t kept = buffers[0][k];
        const uint64_t others[] = {kept + 1, kept - 1, 0, UINT64_MAX, any_number()};
        for (size_t m = 0; m < sizeof others / sizeof *others; m++) {
            buffers[0][k] = others[m];
            if (!untrusted(&q, below(4), buffers[0])) return;
        }
        buffers[0][k] = kept;
    }
}

/* Every number the same, or any. */
static void garbage(size_t n) {
    static struct question q;
    static const uint64_t fillings[] = {1, 2, UINT64_MAX, TWO_TO_63, 1000000000000000000};
    any_job(&q, n, GAP, POINTS);
    q.a = q.b = 0;
    for (size_t m = 0; m < 8; m++) {
        for (size_t k = 0; k < CHEREMYSL_BUFFER(n); k++)
            buffers[0][k] = m < 5 ? fillings[m] : m < 7 ? below(3) : any_number();
        if (!untrusted(&q, below(4), buffers[0])) return;
    }
}

int main(int argc, char **argv) {
    long count = argc > 1 ? atol(argv[1]) : 200;
    seed_random(argc > 2 ? strtoull(argv[2], NULL, 10) : 1);
    begin();
    for (long k = 0; k < 20 * count; k++)
        small_job(1 + below(k % 8 ? 5 : 7), (enum board)(k % BOARDS), (enum squares)(k % SQUARES));
    for (long k = 0; k < count; k++) large_job(k % 4 ? 8 + below(30) : PADS);
    for (size_t n = 20; n <= PADS; n += 22) whole_run(n, 7);
    for (size_t n = 1; n <= PADS; n++) powers(n);
    for (size_t k = 0; k <= PADS; k++) binomials(PADS, k);
    for (size_t n = 60; n < PADS; n++) binomials(n, n / 2);
    exactly_the_limit();
    beside_the_limit();
    for (long k = 0; k < count / 4; k++) any_bounds();
    for (long k = 0; k < count; k++) near_powers(k % 2 ? PADS : 2 + below(PADS - 1));
    for (size_t n = 2; n <= PADS; n += 1 + n / 3) unused_part(n);
    unused_part(PADS);
    for (long k = 0; k < count; k++) of_others(k % 8 ? 1 + below(8) : 8 + below(57), k % 2);
    for (size_t n = 1; n <= 6; n++) one_number_changed(n);
    for (size_t n = 1; n <= PADS; n += 1 + n / 4) garbage(n);
    printf("%ld places asked for, %ld sheets of runs\n", places_asked, sheets_run);
    printf("small jobs: %ld with squares, %ld without a layout\n", squared, none);
    printf("large jobs: %ld counted, the largest count %ld; %ld with too many\n", counted, most_few,
           plentiful);
    check(count < 100 || (none > 0 && none < squared), NULL, "no such squares");
    check(plentiful > 0 && most_few == CHEREMYSL_MAX_COUNT, NULL, "the limit was not reached");
    return done();
}
