/*
 * large [COUNT [SEED]]: First, Next and Page on jobs of 8 to 64 pads, over weights and over tables,
 * and First and Next on up to 128 slots; half of the jobs have squares.
 *
 * Up to 12 pads, or 8 slots, the whole run is compared with a list of all layouts without a
 * touching pair, made from left to right: the leftmost pad has every other arm to its right, so
 * none of these may end from its own height to its port; nor may those further right do so for the
 * next pad; and so on; and none takes a port from which its leader meets a square. That this gives
 * them all is tried against the plain account on up to seven ports, and so is that the best layouts
 * by their place (ranked.h) are these.
 *
 * Beyond, First gives the layout at place 0, or 15 if there is none, and Next from some place that
 * at the next, or the end. On jobs of the first form also: each sheet is measured, the run rises
 * and keeps its total, no sheet found at random has a smaller one, and with bend weight 0 the total
 * is that of pads and ports joined in order of height, than which no assignment is shorter; among
 * squares it may be more. A page has what as many calls of Next give.
 *
 * Over the table of weighted lengths and bends, and on as many slots as pads, the run is that over
 * the weights; over one figure everywhere it is that over weights 0, 0; and it stays the same where
 * all figures are multiplied, or those of one pad or of one port grow alike. A layout in which each
 * pad has less than with any other port is the only sheet.
 */
#include <stdio.h>
#include <stdlib.h>
#include <string.h>

#include "boards.h"
#include "cheremysl.h"
#include "questions.h"
#include "ranked.h"
#include "trial.h"

#define LISTED_PADS 12
#define LISTED_SLOTS 8
#define MOST_SHEETS 2048
#define STEPS 60
#define EITHER_END 25 /* of a long list, so many sheets from the first and from the last */

static long runs_ended, steps_taken, pairs_ended, places_tried, places_free;
static long squared, none, longer; /* jobs with squares; without a layout; longer than points */

static enum call any_call(void) {
    static const enum call calls[] = {FIRST, FIRST, TABLE_FIRST, SLOTS_FIRST};
    return calls[below(4)];
}

static int64_t total_of(const struct question *q, const uint16_t *layout) {
    struct given g = given_of(q);
    return plain_total(&g, layout);
}

/* ---- jobs of up to 12 pads: the whole list ---- */

struct listing {
    struct plan plan;
    size_t order[LISTED_PADS], found;
    uint16_t layout[LISTED_PADS], sheet[MOST_SHEETS][LISTED_PADS];
    int64_t least;
};

static void keep_if_best(const struct question *q, struct listing *l) {
    int64_t total = total_of(q, l->layout);
    size_t n = records_of(q), k;
    if (l->found == 0 || total < l->least) {
        l->found = 0;
        l->least = total;
    }
    if (total > l->least) return;
    for (k = l->found++; k > 0 && plain_before(q->job, n, l->layout, l->sheet[k - 1]); k--)
        memcpy(l->sheet[k], l->sheet[k - 1], sizeof l->layout);
    memcpy(l->sheet[k], l->layout, sizeof l->layout);
}

static void list_from(const struct question *q, struct listing *l, size_t place,
                      const uint8_t *shut) {
    uint16_t choice[MOST_PORTS];
    uint8_t then_shut[MOST_PORTS];
    if (place == l->plan.n) {
        keep_if_best(q, l);
        return;
    }
    size_t pad = l->order[place];
    int64_t y = get_y(q->job, pad);
    size_t count = choices_at(&l->plan, shut, y, l->plan.n - place - 1, choice);
    for (size_t k = 0; k < count; k++) {
        if (meets_square(&l->plan, pad, choice[k])) continue;
        l->layout[pad] = choice[k];
        memcpy(then_shut, shut, l->plan.p);
        shut_ports(&l->plan, then_shut, y, choice[k]);
        list_from(q, l, place + 1, then_shut);
    }
}

static void list_all(const struct question *q, struct listing *l) {
    uint8_t shut[MOST_PORTS] = {0};
    memset(l, 0, sizeof *l);
    l->plan = plan_of(q);
    left_to_right(q->job, records_of(q), l->order);
    list_from(q, l, 0, shut);
}

/* A page from sheet k, which the question holds. */
static bool page_of_list(struct question q, const struct listing *l, size_t k) {
    q.call = PAGE;
    lend_page(&q, any_room(records_of(&q)));
    return expect(&q, fills(&q, l->sheet[k] + LISTED_PADS, LISTED_PADS, l->found - k - 1));
}

static void whole_list(void) {
    static struct question q;
    static struct listing l;
    enum call call = any_call();
    size_t n = call == SLOTS_FIRST ? 4 + below(3) : 8 + below(5);
    sound_job_of(&q, call, n, LISTED_SLOTS - below(LISTED_SLOTS - 6));
    list_all(&q, &l);
    if (l.found == 0) {
        expect(&q, keeps(&q, refused(15, 0)));
        return;
    }
    for (size_t k = 0; k < l.found; k++) {
        bool paged = call == FIRST && (below(4) == 0 || k + 1 == l.found);
        struct reply expected = gives(&q, l.least, l.sheet[k]);
        bool left_out = call == SLOTS_FIRST && k > EITHER_END && k + EITHER_END < l.found;
        if (!left_out && !expect(&q, expected)) return;
        q.list = expected.list;
        turn_to(&q, NEXT);
        if (paged && !page_of_list(q, &l, k)) return;
    }
    expect(&q, keeps(&q, -1));
    expect(&q, keeps(&q, -1));
    runs_ended++;
}

static bool ranks_alike(const struct question *q, const struct sheets *all) {
    uint16_t layout[PLAIN_PORTS];
    struct given g = given_of(q);
    rank_job(&g);
    bool same = ranked_count() == all->found;
    same &= all->found == 0 || ranked_total() == all->total;
    for (size_t k = 0; same && k < all->found; k++) {
        ranked_sheet(k, layout);
        same = memcmp(layout, all->sheet[k].port, records_of(q) * sizeof *layout) == 0;
    }
    return same;
}

/* The list above, and the layouts by their place, against the plain account's list. */
static void list_agrees(size_t n) {
    static struct question q;
    static struct listing l;
    static struct sheets all;
    sound_job(&q, n, PLAIN_PORTS);
    list_all(&q, &l);
    struct given g = given_of(&q);
    plain_sheets(&g, &all);
    bool same = l.found == all.found && (l.found == 0 || l.least == all.total);
    for (size_t k = 0; same && k < l.found; k++)
        same = memcmp(l.sheet[k], all.sheet[k].port, n * sizeof(uint16_t)) == 0;
    check(same, &q, "the list from left to right is another");
    check(ranks_alike(&q, &all), &q, "the layouts by their place are others");
}

/* ---- layouts by their place, on up to 64 pads and 128 slots ---- */

static uint64_t any_place(uint64_t count) {
    return ((uint64_t)any_bits() << 32 | any_bits()) % count;
}

/* Next from a place, whose layout the question then holds. */
static bool step_from(struct question *q, uint64_t place) {
    uint16_t layout[64];
    ranked_sheet(place, q->list.layout);
    turn_to(q, NEXT);
    places_tried++;
    if (place + 1 == ranked_count() && place + 1 < RANKED_MOST) return expect(q, keeps(q, -1));
    ranked_sheet(place + 1, layout);
    return expect(q, gives(q, ranked_total(), layout));
}

/* Of a best layout by weights without bends, for points the least; among squares not less. */
static void check_length(const struct question *q, int64_t total) {
    struct given g = given_of(q);
    struct plan plan = plan_of(q);
    int64_t least = q->a * least_length(&plan);
    if (g.by_table || q->b != 0) return;
    check(total == least || (total > least && !plain_no_squares(&g)), q, "not the least length");
    longer += total > least;
}

/* First; then Next from the first places, the last ones, and any. */
static void some_places(struct question *q, size_t some) {
    uint16_t layout[64];
    struct given g = given_of(q);
    struct plan plan = plan_of(q);
    rank_job(&g);
    uint64_t count = ranked_count();
    squared += !plain_no_squares(&g);
    none += count == 0;
    if (count == 0) {
        expect(q, keeps(q, refused(15, 0)));
        return;
    }
    ranked_sheet(0, layout);
    if (!expect(q, gives(q, ranked_total(), layout))) return;
    check_length(q, ranked_total());
    for (size_t k = 0; k < some && k < count; k++) {
        bool any = step_from(q, any_place(count - (count == RANKED_MOST)));
        if (!any || !step_from(q, k) || (count < RANKED_MOST && !step_from(q, count - 1 - k)))
            return;
    }
    places_free += plan.p > plan.n;
}

static void no_better(const struct question *q, int64_t total);

/* Squares that leave a layout: on the largest boards others seldom do. */
static void fit_squares(struct question *q) {
    struct plan plan = plan_of(q);
    give_squares(q->job, &plan, POINTS);
    give_squares(q->job, &plan, FITTED);
}

static void ranked_job(enum call call, size_t n, size_t p, size_t some) {
    static struct question q;
    sound_job_of(&q, call, n, p);
    if (n == 64 && below(2)) fit_squares(&q);
    if (call == SLOTS_FIRST && below(4) == 0) q.a = q.b = 0;
    some_places(&q, some);
    int64_t total = ranked_total();
    for (size_t k = 0; k < some; k++) no_better(&q, total);
}

/* ---- jobs of up to 64 pads ---- */

static void measured(const struct question *q, int64_t total) {
    struct question m = *q;
    turn_to(&m, MEASURE);
    check(plain_reply(&m).answer == total, q, "the total is another, or leaders touch");
    expect(&m, keeps(&m, total));
}

/* A layout without a touching pair, at random; where trials find none, by its place among all. */
static bool find_untouching(const struct question *q, uint16_t *layout) {
    struct given all = given_of(q);
    struct plan plan = plan_of(q);
    if (any_untouching(&plan, layout)) return true;
    all.by_table = false;
    all.length_weight = all.bend_weight = 0;
    rank_job(&all);
    uint64_t count = ranked_count();
    if (count > 0) ranked_sheet(any_place(count - (count == RANKED_MOST)), layout);
    return count > 0;
}

/* A layout found at random: it is not better; Next and Page say so if it is worse. */
static void no_better(const struct question *q, int64_t total) {
    struct question other = *q;
    turn_to(&other, NEXT);
    if (!find_untouching(q, other.list.layout)) return;
    lend_page(&other, any_room(records_of(q)));
    int64_t found = total_of(&other, other.list.layout);
    check(found >= total, &other, "a smaller total than First's");
    if (found == total) return;
    expect(&other, keeps(&other, refused(10, 0)));
    if (other.call != NEXT) return;
    other.call = PAGE;
    expect(&other, keeps(&other, refused(10, 0)));
}

/* First, then Next for some steps; true if the end came. */
static bool follow(struct question *q, long steps, long *sheets) {
    turn_to(q, FIRST);
    struct reply r = ask(q, AT_END);
    int64_t total = r.answer;
    if (!check(total >= 0, q, "First refused")) return false;
    check_length(q, total);
    for (*sheets = 1;; ++*sheets) {
        if (!expect(q, r)) return false; /* the same wherever the lists stand */
        check(memcmp(q->list.layout + records_of(q), r.list.layout + records_of(q),
                     (LIST_ROOM - records_of(q)) * sizeof(uint16_t)) == 0, q, "entries from n on");
        q->list = r.list;
        turn_to(q, NEXT);
        measured(q, total);
        if (*sheets > steps) return false;
        r = ask(q, *sheets % 2 ? AT_START : AT_END);
        if (r.answer == -1) break;
        steps_taken++;
        if (!check(r.answer == total, q, "Next's total is another")) return false;
        bool rises = plain_before(q->job, records_of(q), q->list.layout, r.list.layout);
        if (!check(rises, q, "Next does not rise")) return false;
    }
    expect(q, keeps(q, -1));
    runs_ended++;
    return true;
}

static void large_job(size_t n) {
    static struct question q;
    long sheets;
    sound_job_of(&q, below(3) ? FIRST : TABLE_FIRST, n, n);
    if (!find_untouching(&q, q.list.layout)) {
        expect(&q, keeps(&q, refused(15, 0)));
        return;
    }
    follow(&q, STEPS, &sheets);
    turn_to(&q, MEASURE);
    int64_t total = ask(&q, AT_END).answer;
    for (int k = 0; k < 10; k++) no_better(&q, total);
    if (takes_table(q.call)) return;
    q.call = PAGE;
    lend_page(&q, any_room(n));
    expect(&q, stepped(&q));
}

/* Over weights 1, 0; or over their table. */
static void counted_run(size_t n, size_t pairs, bool tabled) {
    static struct question q;
    static uint32_t table[TABLE_ROOM];
    long sheets = 0, expected = 1L << pairs;
    sound_job_of(&q, FIRST, n, n);
    make_tied(q.job, n, pairs);
    q.a = 1;
    q.b = 0;
    if (tabled) q = by_table(&q, table);
    check(follow(&q, expected, &sheets), &q, "the run should end");
    check(sheets == expected, &q, "the run has another number of sheets");
}

/* ---- two runs with the same sheets ---- */

/* For some steps; each total of the other run is so many times the one's, and so much more. */
static void same_runs(struct question one, struct question other, int some, int64_t times,
                      int64_t more) {
    turn_to(&one, FIRST);
    turn_to(&other, FIRST);
    for (int steps = 0; steps <= some; steps++) {
        int64_t answer = call_library(&one), wanted = answer < 0 ? answer : times * answer + more;
        bool same = call_library(&other) == wanted;
        same &= memcmp(&one.list, &other.list, sizeof one.list) == 0;
        pairs_ended += answer == -1;
        if (!check(same, &other, "another run") || answer < 0) return;
        turn_to(&one, NEXT);
        turn_to(&other, NEXT);
    }
}

/* Over weights, their table, and as many slots: the run, and Measure of layouts that may touch. */
static void weighed_runs(size_t n, int slots_steps) {
    static struct question q;
    static uint32_t table[TABLE_ROOM];
    sound_job_of(&q, FIRST, n, n);
    same_runs(q, by_table(&q, table), STEPS, 1, 0);
    same_runs(q, by_slots(&q), slots_steps, 1, 0);
    q.call = MEASURE;
    struct plan plan = plan_of(&q);
    any_untouching(&plan, q.list.layout);
    alike(&q);
    uint16_t *at = q.list.layout + below((uint32_t)n), kept = *at;
    *at = q.list.layout[0];
    q.list.layout[0] = kept;
    alike(&q);
}

/* One figure everywhere: every untouching layout is best, as with weights 0, 0. */
static void equal_runs(size_t n, enum figures kind) {
    static struct question q;
    sound_job_of(&q, TABLE_FIRST, n, n);
    lend_table(&q, q.table, kind);
    int64_t total = (int64_t)n * q.table[0];
    struct question one = q;
    one.call = FIRST;
    one.a = one.b = 0;
    same_runs(one, q, STEPS, 1, total);
    if (find_untouching(&q, q.list.layout)) measured(&q, total);
    if (n == 64 && kind == HIGHEST)
        check(total == CHEREMYSL_MAX_TABLE_TOTAL, &q, "not the largest total");
}

/* All figures times a number, and so much more for each pad and for each port. */
static void shifted_runs(size_t n) {
    static struct question q, shifted;
    static uint32_t table[TABLE_ROOM];
    uint32_t times = 1 + below(1000000), pad_more = 0, port_more[64];
    int64_t more = 0;
    sound_job_of(&q, TABLE_FIRST, n, n);
    for (size_t k = 0; k < n * n; k++) q.table[k] %= 1000;
    shifted = q;
    shifted.table = table;
    for (size_t port = 0; port < n; port++) more += port_more[port] = below(1000000000);
    for (size_t k = 0; k < n * n; k++) {
        if (k % n == 0) more += pad_more = below(1000000000);
        table[k] = times * q.table[k] + pad_more + port_more[k % n];
    }
    same_runs(q, shifted, STEPS, times, more);
}

/* A layout in which each pad has less than with any other port: the only sheet. */
static void planted_run(size_t n) {
    static struct question q;
    uint16_t layout[64];
    int64_t total = 0;
    sound_job_of(&q, TABLE_FIRST, n, n);
    for (size_t k = 0; k < n * n; k++) q.table[k] += q.table[k] == 0;
    if (!find_untouching(&q, layout)) return;
    plant(q.table, n, layout);
    for (size_t i = 0; i < n; i++) total += q.table[n * i + layout[i]] /= 2;
    struct reply expected = gives(&q, total, layout);
    if (!expect(&q, expected)) return;
    q.list = expected.list;
    turn_to(&q, NEXT);
    expect(&q, keeps(&q, -1));
    no_better(&q, total);
}

static size_t any_size(long k) { return k % 4 == 0 ? 64 : 8 + below(57); }

/* Also few pads on as many slots as there can be; as many pads; and as many without free slots. */
static void any_ranked_job(long k) {
    enum call call = any_call();
    size_t n = 1 + below(call == SLOTS_FIRST ? 20 : 30);
    ranked_job(call, n, n + below(20), 2);
    if (k % 5 == 0) ranked_job(below(2) ? FIRST : TABLE_FIRST, 64, 64, 2);
    if (k % 5 == 0) ranked_job(SLOTS_FIRST, 1 + below(4), MOST_PORTS - below(2), 1);
    if (k % 50 == 0) ranked_job(SLOTS_FIRST, 64, MOST_PORTS, 1);
}

int main(int argc, char **argv) {
    long count = argc > 1 ? atol(argv[1]) : 100;
    seed_random(argc > 2 ? strtoull(argv[2], NULL, 10) : 1);
    begin();
    for (long k = 0; k < 10 * count; k++) list_agrees(1 + below(6));
    for (long k = 0; k < 10 * count; k++) whole_list();
    for (long k = 0; k < count; k++) any_ranked_job(k);
    for (long k = 0; k < count; k++) large_job(any_size(k));
    for (size_t pairs = 0; pairs <= 7; pairs++) counted_run(64, pairs, false);
    for (size_t pairs = 1; pairs <= 7; pairs += 2) counted_run(64, pairs, true);
    for (long k = 0; k < count; k++) {
        weighed_runs(any_size(k), k % 4 ? 1 : 0);
        equal_runs(any_size(k), EQUAL + (enum figures)(k % 3));
        shifted_runs(any_size(k));
        planted_run(any_size(k));
    }
    equal_runs(64, HIGHEST);
    check(runs_ended > 0 && pairs_ended > 0 && places_free > 0, NULL, "no run ended");
    printf("%ld jobs, %ld steps, %ld runs to the end, and %ld with another run beside\n",
           26 * count + 13, steps_taken, runs_ended, pairs_ended);
    printf("%ld places, on %ld jobs with free slots\n", places_tried, places_free);
    printf("%ld jobs of these with squares, %ld without a layout; bend weight 0: %ld longer than "
           "points\n", squared, none, longer);
    check(count < 100 || (none > 0 && none < squared && longer > 0), NULL, "no such squares");
    return done();
}
