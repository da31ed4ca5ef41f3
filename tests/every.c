/*
 * every [COUNT [SEED]]: First, Next, .., end on jobs of up to seven pads, over weights, with a page
 * from each sheet, over a table, or on up to seven slots, against the list of every best layout
 * among all assignments. Random and degenerate boards, pads with squares and without, tables of
 * every kind; now and then with a port too close to the one before, for which every call refuses
 * the job. Where the squares leave no layout, every First gives 15, and Next and Page give 8 or 9
 * for every list. For bend weight 0, First's total on each board of points against the least of all
 * assignments, touching or not. Over the table of weighted lengths and bends, and on as many slots
 * as pads, every reply is that over weights.
 */
#include <stdio.h>
#include <stdlib.h>

#include "boards.h"
#include "questions.h"
#include "trial.h"

static long sheets_listed, most_sheets, crossed, dearer, tables_dearer, tables_tied, weighed;
static long slots_listed, slots_free; /* runs on slots, and those on more slots than pads */
static long squared, longer; /* jobs with squares, and those with more length than points */
static long none[3];         /* without a layout: over weights, over a table, on slots */

/* ---- a complete run ---- */

/* A page from sheet k of the list, which the question holds. */
static bool page_from(struct question *q, const struct sheets *all, size_t k) {
    q->call = PAGE;
    lend_page(q, any_room(records_of(q)));
    return expect(q, fills(q, all->sheet[k].port + PLAIN_PORTS, PLAIN_PORTS, all->found - k - 1));
}

/* Over a table and on slots there are no pages. Without a layout there is no run. */
static bool run(struct question *q, const struct sheets *all) {
    turn_to(q, FIRST);
    if (all->found == 0) return expect(q, keeps(q, refused(15, 0)));
    for (size_t k = 0; k < all->found; k++) {
        struct reply expected = gives(q, all->total, all->sheet[k].port);
        if (!expect(q, expected)) return false;
        q->list = expected.list;
        bool paged = q->call == FIRST || q->call == NEXT;
        if (paged && !page_from(q, all, k)) return false;
        turn_to(q, NEXT);
    }
    return expect(q, keeps(q, -1)) && expect(q, keeps(q, -1));
}

/*
 * The run again, over the table of the weights and on as many slots; and Measure of a layout, best
 * or not.
 */
static bool run_alike(struct question q, const struct sheets *all) {
    static uint32_t table[TABLE_ROOM];
    struct plan plan = plan_of(&q);
    struct question tabled = by_table(&q, table), apart = by_slots(&q);
    weighed++;
    q.call = MEASURE;
    any_untouching(&plan, q.list.layout);
    return run(&tabled, all) && run(&apart, all) && alike(&q);
}

/* Over weights, and over the table; over the table of the weights, and on slots, as over these. */
static void from_this(struct question *q) {
    for (q->call = MEASURE; q->call < CALLS; q->call++) {
        if (!takes_layout(q->call) || takes_slots(q->call)) continue;
        if (q->call == SVG) lend_text(q, any_text_room(q));
        expect(q, plain_reply(q));
        if (q->call == MEASURE || q->call == NEXT) alike(q);
    }
}

/* On slots: from a best sheet the one that comes after it, which the list has. */
static void from_this_on_slots(struct question *q, const struct sheets *all) {
    q->call = SLOTS_MEASURE;
    struct reply measured = plain_reply(q), r = measured;
    size_t k = 0;
    expect(q, measured);
    q->call = SLOTS_NEXT;
    while (k < all->found &&
           !plain_before(q->job, records_of(q), q->list.layout, all->sheet[k].port))
        k++;
    if (measured.answer >= 0)
        r = measured.answer > all->total ? keeps(q, refused(10, 0))
            : k < all->found             ? gives(q, all->total, all->sheet[k].port)
                                         : keeps(q, -1);
    expect(q, r);
}

/*
 * From every assignment: a later sheet, a page, the end, the total, or the refusal it deserves. To
 * few slots also with ports that stand twice, and one that is not there.
 */
static void from_each(struct question *q, const struct sheets *all, size_t i) {
    bool slots = takes_slots(q->call), any = slots && records_of(q) <= 2;
    enum call call = q->call;
    if (i == records_of(q)) {
        if (slots)
            from_this_on_slots(q, all);
        else
            from_this(q);
        q->call = call;
        return;
    }
    for (uint16_t port = 0; port < ports_of(q) + any; port++) {
        q->list.layout[i] = port;
        bool fresh = true;
        for (size_t j = 0; j < i; j++) fresh &= q->list.layout[j] != port;
        if (fresh || any) from_each(q, all, i + 1);
    }
}

static size_t any_size(void) {
    static const size_t likely[] = {1, 2, 2, 3, 3, 3, 3, 4, 4, 4, 4, 4, 5, 5, 5, 5, 5, 6, 6, 7};
    return likely[below(20)];
}

/* The job with one port less than 8 above the one before: every call of its form refuses. */
static void too_close(struct question q) {
    bool slots = takes_slots(q.call);
    size_t i = 1 + below((uint32_t)ports_of(&q) - 1);
    set_port(&q, i, port_of(&q, i - 1) + 1 + below(7));
    q.count = LIST_ROOM;
    for (q.call = MEASURE; q.call < CALLS; q.call++)
        if (takes_slots(q.call) == slots) expect(&q, keeps(&q, refused(12, (int)i)));
}

/* Of n pads to p ports. */
static size_t assignments(size_t n, size_t p) { return n == 0 ? 1 : p * assignments(n - 1, p - 1); }

/*
 * For bend weight 0 First's total is the least of all assignments, touching or not; among squares
 * it may be more.
 */
static void least_of_all(struct question q) {
    static struct sheets all;
    q.call = takes_slots(q.call) ? SLOTS_FIRST : FIRST;
    q.a = below(4) ? 1 + below(1000) : below(2);
    q.b = 0;
    struct given g = given_of(&q);
    struct plan plan = plan_of(&q);
    bool points = plain_no_squares(&g);
    plain_sheets(&g, &all);
    if (points) check(all.found > 0 && all.total == all.least, &q, "not the least of all");
    if (all.found > 0) expect(&q, gives(&q, all.total, all.sheet[0].port));
    check(all.tried == assignments(plan.n, plan.p), &q, "not every assignment was tried");
    check(all.least == q.a * least_length(&plan), &q, "another least length");
    crossed += q.a > 0 && points && all.crossed;
    longer += all.found > 0 && all.total > all.least;
}

static void count_sheets(const struct question *q, const struct sheets *all) {
    bool tabled = takes_table(q->call);
    struct given g = given_of(q);
    bool points = plain_no_squares(&g);
    check(!points || all->found > 0, q, "no best layout");
    check(tabled || !points || q->b != 0 || all->total == all->least, q,
          "not the least of all assignments");
    squared += !points;
    none[tabled ? 1 : takes_slots(q->call) ? 2 : 0] += all->found == 0;
    *(tabled ? &tables_dearer : &dearer) += points && all->total > all->least;
    tables_tied += tabled && all->found > 1;
    slots_listed += takes_slots(q->call);
    slots_free += ports_of(q) > records_of(q);
    sheets_listed += (long)all->found;
    if ((long)all->found > most_sheets) most_sheets = (long)all->found;
}

static void one_job(void) {
    static struct question q;
    static struct sheets all;
    sound_job(&q, any_size(), PLAIN_PORTS);
    if (ports_of(&q) > 1 && below(8) == 0) too_close(q);
    least_of_all(q);
    struct given g = given_of(&q);
    plain_sheets(&g, &all);
    count_sheets(&q, &all);
    if (q.call == FIRST && below(4) == 0 && !run_alike(q, &all)) return;
    if (run(&q, &all) && records_of(&q) <= 4 && below(takes_slots(q.call) ? 8 : 4) == 0)
        from_each(&q, &all, 0);
}

int main(int argc, char **argv) {
    long count = argc > 1 ? atol(argv[1]) : 20000;
    seed_random(argc > 2 ? strtoull(argv[2], NULL, 10) : 1);
    begin();
    for (long k = 0; k < count; k++) one_job();
    printf("%ld jobs, %ld sheets listed, at most %ld of one job\n", count, sheets_listed,
           most_sheets);
    printf("bend weight 0: the least of all; in %ld jobs with a length weight touching leaders "
           "have it too\n", crossed);
    printf("with a bend weight: in %ld jobs touching leaders have a smaller total\n", dearer);
    printf("over tables: in %ld jobs they have; %ld jobs with several sheets; %ld runs as over "
           "weights\n", tables_dearer, tables_tied, weighed);
    printf("on slots: %ld jobs, %ld of them with free ones\n", slots_listed, slots_free);
    printf("with squares: %ld jobs, no layout in %ld over weights, %ld over tables, %ld on slots; "
           "bend weight 0: in %ld more than the least of all\n", squared, none[0], none[1], none[2],
           longer);
    check(count < 1000 || (crossed > 0 && dearer > 0), NULL, "no touching leaders were weighed");
    check(count < 1000 || (tables_dearer > 0 && tables_tied > 0 && weighed > 0), NULL,
          "no such tables");
    check(count < 1000 || slots_free > 0, NULL, "no slots were free");
    check(count < 1000 || (none[0] > 0 && none[1] > 0 && none[2] > 0 && longer > 0), NULL,
          "no squares were in the way");
    return done();
}
