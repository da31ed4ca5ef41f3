/*
 * pages [COUNT [SEED]]: Page beside as many calls of Next, and beside the list of every best
 * layout. Every room on small jobs, any room on jobs of up to 64 pads, many of both with squares,
 * whole runs joined from pages, damaged questions, and a page that is far too large.
 */
#include <stdio.h>
#include <stdlib.h>
#include <string.h>

#include "boards.h"
#include "cheremysl.h"
#include "questions.h"
#include "trial.h"

#define PADS CHEREMYSL_MAX_RECORDS
#define MOST_SHEETS 2048 /* as many as 12 pads can have */
#define LARGE 131075     /* entries of the page that is too large; 3 if only 16 bits counted */

static long sheets_joined, squared, none; /* jobs with squares; those without a layout */

/* ---- runs ---- */

/* Every best layout of a job, in order. */
struct run {
    size_t found;
    uint16_t sheet[MOST_SHEETS + 1][PADS];
};

/* By First and Next, to the end. */
static void find_run(struct question q, struct run *run) {
    size_t n = records_of(&q);
    run->found = 0;
    q.call = FIRST;
    while (call_library(&q) >= 0) {
        q.call = NEXT;
        if (!check(run->found < MOST_SHEETS, &q, "a run that is too long")) exit(done());
        memcpy(run->sheet[run->found++], q.list.layout, n * sizeof *q.list.layout);
    }
}

/* The plain account lists the same. */
static void run_is_listed(const struct question *q, const struct run *run) {
    static struct sheets all;
    struct given g = given_of(q);
    plain_sheets(&g, &all);
    bool same = run->found == all.found;
    for (size_t k = 0; same && k < run->found; k++)
        same = memcmp(run->sheet[k], all.sheet[k].port, records_of(q) * sizeof(uint16_t)) == 0;
    check(same, q, "the run is another");
}

static void give_sheet(struct question *q, const struct run *run, size_t k) {
    memcpy(q->list.layout, run->sheet[k], records_of(q) * sizeof(uint16_t));
}

/* What a page from sheet k must be. */
static struct reply page_after(const struct question *q, const struct run *run, size_t k) {
    return fills(q, run->sheet[k + 1], PADS, run->found - k - 1);
}

/* ---- questions ---- */

/* A list of any length, with any numbers behind the layout, many of them port numbers. */
static void any_list(struct question *q) {
    size_t n = records_of(q);
    q->count = n + below((uint32_t)(LIST_ROOM - n) + 1);
    for (size_t k = 0; k < LIST_ROOM; k++)
        q->list.layout[k] = (uint16_t)below(below(2) ? 65536 : (uint32_t)n);
}

static void any_job(struct question *q, size_t n, enum board kind) {
    memset(q, 0, sizeof *q);
    q->call = PAGE;
    q->job_bytes = 16 * n;
    make_board(q->job, n, kind);
    any_weights(&q->a, &q->b);
    if (below(4) == 0) q->a = q->b = 0;
    any_list(q);
}

/* The same, perhaps with squares. */
static void any_squared_job(struct question *q, size_t n, enum board kind) {
    any_job(q, n, kind);
    struct plan plan = plan_of(q);
    any_squares(q->job, &plan);
    struct given g = given_of(q);
    squared += !plain_no_squares(&g);
}

/* Weights 1, 0, and 2 to the pairs best layouts. */
static void tied_job(struct question *q, size_t n, size_t pairs) {
    any_job(q, n, STRAIGHT);
    make_tied(q->job, n, pairs);
    q->a = 1;
    q->b = 0;
}

/* ---- rooms ---- */

/* Room for so many layouts, and every remainder, from sheet k; then on the page as it is left. */
static bool rooms_for(struct question *q, const struct run *run, size_t k, size_t layouts) {
    size_t n = records_of(q);
    bool ok = true;
    give_sheet(q, run, k);
    for (size_t r = 0; ok && r < n; r++) {
        lend_page(q, n * layouts + r);
        struct reply expected = page_after(q, run, k);
        ok = expect(q, expected);
        memcpy(q->page, expected.page, sizeof q->page);
        ok = ok && expect(q, expected);
    }
    return ok;
}

/* Every room up to beyond the end, from every sheet; of many, from the first, the last and some. */
static void every_room(struct question *q, const struct run *run) {
    for (size_t k = 0; k < run->found; k++) {
        size_t rest = run->found - k - 1;
        if (k > 0 && rest % (1 + run->found / 16) != 0) continue;
        for (size_t layouts = 0; layouts <= rest + 1; layouts++)
            if (!rooms_for(q, run, k, layouts)) return;
        expect(q, stepped(q));
    }
}

/* Room for none, one, two, all that follow, and one more, on jobs with a few best layouts. */
static void some_rooms(size_t n, size_t pairs) {
    static struct question q;
    static struct run run;
    tied_job(&q, n, pairs);
    find_run(q, &run);
    check(run.found == (size_t)1 << pairs, &q, "another number of sheets");
    for (size_t k = 0; k < run.found; k += 1 + run.found / 2) {
        size_t rest = run.found - k - 1;
        for (size_t layouts = 0; layouts <= 2; layouts++) rooms_for(&q, &run, k, layouts);
        rooms_for(&q, &run, k, rest);
        rooms_for(&q, &run, k, rest + 1);
    }
    rooms_for(&q, &run, run.found - 1, 1);
}

/* Whatever stands behind the layout, and however much of it, the page is the same. */
static void entries_behind(void) {
    static struct question q;
    static struct run run;
    size_t n = 2 + below(63);
    tied_job(&q, n, n < 6 ? n / 2 : 3);
    find_run(q, &run);
    for (size_t k = 0; k < 4; k++) {
        size_t from = below((uint32_t)run.found);
        for (size_t count = n; count <= LIST_ROOM; count += 1 + k * below(5)) {
            any_list(&q);
            q.count = count;
            give_sheet(&q, &run, from);
            lend_page(&q, any_room(n));
            if (!expect(&q, page_after(&q, &run, from))) return;
        }
    }
}

/* ---- pages that are joined ---- */

/* The last layout on the page becomes the given one. */
static void go_on(struct question *q, const struct reply *r) {
    size_t n = records_of(q), last = n * (size_t)(r->answer - 1);
    if (r->answer > 0) memcpy(q->list.layout, r->page + last, n * sizeof *r->page);
}

/* Pages of one size, each from the last layout of the page before: no sheet is lost or repeated. */
static bool join_pages(struct question *q, const struct run *run, size_t layouts, enum side side) {
    size_t n = records_of(q), joined = 1;
    struct reply r;
    give_sheet(q, run, 0);
    lend_page(q, n * layouts + below((uint32_t)n));
    do {
        r = ask(q, side);
        bool fits = r.answer >= 0 && (size_t)r.answer <= layouts;
        if (!check(fits && joined + (size_t)r.answer <= run->found, q, "too many")) return false;
        for (size_t k = 0; k < (size_t)r.answer; k++)
            if (memcmp(r.page + n * k, run->sheet[joined++], n * sizeof *r.page) != 0)
                return check(false, q, "a sheet is lost or repeated");
        go_on(q, &r);
    } while ((size_t)r.answer == layouts);
    sheets_joined += (long)joined;
    return check(joined == run->found, q, "the end came early");
}

/* Pages of every size that can be lent, up to more than there are sheets. */
static void every_size(struct question *q, const struct run *run) {
    size_t most = (PAGE_ROOM + 1) / records_of(q) - 1;
    if (most > run->found) most = run->found;
    for (size_t layouts = 1; layouts <= most; layouts++)
        if (!join_pages(q, run, layouts, layouts % SIDES)) return;
}

/* ---- jobs ---- */

/* No layout: Page refuses whatever it is given, with 9 or before, as Next does, never with 15. */
static void no_run(struct question *q) {
    struct plan plan = plan_of(q);
    none++;
    for (int k = 0; k < 4; k++) {
        lend_page(q, any_room(records_of(q)));
        struct reply r = stepped(q);
        int number = cheremysl_refusal_number(r.answer);
        check(number == 8 || number == 9, q, "8 or 9 should come");
        expect(q, r);
        any_untouching(&plan, q->list.layout);
    }
}

static void small_job(size_t n, enum board kind) {
    static struct question q;
    static struct run run;
    any_squared_job(&q, n, kind);
    find_run(q, &run);
    run_is_listed(&q, &run);
    every_room(&q, &run);
    every_size(&q, &run);
    if (run.found == 0) no_run(&q);
}

/* Some steps from First's sheet, a page of any room, then the next from the last layout on it. */
static void large_job(size_t n, enum board kind) {
    static struct question q;
    any_squared_job(&q, n, kind);
    struct given g = given_of(&q);
    q.call = FIRST;
    int64_t answer = call_library(&q);
    check(answer >= 0 || (answer == refused(15, 0) && !plain_no_squares(&g)), &q, "First refused");
    q.call = NEXT;
    for (uint32_t steps = below(10); steps > 0; steps--) call_library(&q);
    q.call = PAGE;
    if (answer < 0) no_run(&q);
    for (int k = 0; k < 3; k++) {
        lend_page(&q, any_room(n));
        struct reply r = stepped(&q);
        if (!expect(&q, r)) return;
        go_on(&q, &r);
    }
}

/* 2 to the pairs sheets, joined. */
static void joined_job(size_t n, size_t pairs) {
    static struct question q;
    static struct run run;
    tied_job(&q, n, pairs);
    find_run(q, &run);
    every_size(&q, &run);
}

/* ---- a page that is far too large ---- */

static void large_page(struct question q, enum side side) {
    static struct guarded memory;
    static struct run run;
    static uint16_t expected[LARGE], page[LARGE];
    size_t n = records_of(&q);
    if (memory.size == 0) memory = guard_memory(true, sizeof *page, sizeof page);
    find_run(q, &run);
    give_sheet(&q, &run, 0);
    for (size_t k = 0; k < LARGE; k++) expected[k] = (uint16_t)below(65536);
    uint16_t *lent = guard_put(&memory, side, expected, sizeof expected);
    int64_t answer = cheremysl_page(q.job, q.job_bytes, q.a, q.b, q.list.layout, q.count, lent,
                                    LARGE);
    for (size_t k = 1; k < run.found; k++)
        memcpy(expected + n * (k - 1), run.sheet[k], n * sizeof *expected);
    bool ok = answer == (int64_t)run.found - 1 && guard_get(&memory, side, page, sizeof page);
    check(ok && memcmp(page, expected, sizeof page) == 0, &q, "a page that is too large");
}

static void large_pages(void) {
    static struct question q;
    for (enum side side = 0; side < SIDES; side++) {
        any_job(&q, 1, LEVEL); /* one sheet */
        large_page(q, side);
        any_job(&q, 12, ONE_HEIGHT);
        q.a = q.b = 0; /* hundreds */
        large_page(q, side);
        tied_job(&q, PADS, 11); /* 2,047 that follow: the page is nearly full */
        large_page(q, side);
    }
}

/* ---- damaged questions ---- */

static long came[2][OUTCOMES]; /* with room for none, for some */

static void damaged(void) {
    static struct question q;
    sound_question(&q, PAGE);
    for (uint32_t times = below(4); times > 0; times--) damage(&q);
    struct reply r = stepped(&q);
    came[q.page_entries >= records_of(&q)][outcome_of(r.answer)]++;
    expect(&q, r);
}

int main(int argc, char **argv) {
    long count = argc > 1 ? atol(argv[1]) : 200;
    seed_random(argc > 2 ? strtoull(argv[2], NULL, 10) : 1);
    begin();
    for (long k = 0; k < count; k++) small_job(1 + (size_t)(k % 7), (enum board)(k % BOARDS));
    for (long k = 0; k < count; k++) large_job(k % 4 ? 1 + below(PADS) : PADS, below(BOARDS));
    for (size_t n = 1; n <= PADS; n += 1 + n / 2) some_rooms(n, n < 8 ? n / 2 : 3);
    some_rooms(PADS, 4);
    for (size_t n = 14; n <= PADS; n += 10) joined_job(n, 1 + below(7));
    for (int k = 0; k < 10; k++) entries_behind();
    large_pages();
    for (long k = 0; k < 300 * count; k++) damaged();
    report_refusals("room for none:", PAGE, came[0]);
    report_refusals("room for some:", PAGE, came[1]);
    printf("%ld sheets joined from pages\n", sheets_joined);
    printf("%ld jobs with squares, %ld of them without a layout\n", squared, none);
    check(count < 100 || (none > 0 && none < squared), NULL, "no such squares");
    return done();
}
