/*
 * fuzz [COUNT [SEED]]: bytes are read as a question, any bytes; the library's reply is held to the
 * plain account, and where that has too many assignments to try, to what every reply must be.
 *
 * With LIBFUZZER the bytes come from clang's fuzzer. Else they are made here: at random, or from
 * inputs that brought something new, with a few bytes changed.
 */
#include <stdio.h>
#include <stdlib.h>
#include <string.h>

#include "boards.h"
#include "ranked.h"
#include "trial.h"

/* ---- from bytes to a question ---- */

struct bytes {
    const uint8_t *at, *end;
};

/* The next bytes as a number below k; zeros follow the last byte. */
static uint32_t take(struct bytes *b, uint64_t k) {
    uint64_t value = 0;
    for (uint64_t range = 1; range < k; range *= 256)
        value = 256 * value + (b->at < b->end ? *b->at++ : 0);
    return (uint32_t)(value % k);
}

static uint32_t take_bits(struct bytes *b) { return take(b, (uint64_t)UINT32_MAX + 1); }

/* How many lines a text to be read has after its first. */
static size_t lines_of(const struct question *q) {
    size_t lines = 0;
    for (size_t k = 0; k + 1 < q->csv->bytes; k++) lines += q->csv->text[k] == '\n';
    return lines;
}

/*
 * How many pads and, where they stand apart, how many ports: few that can all be tried, or more; a
 * search on very many takes too long, and so does counting all layouts.
 */
static void take_counts(struct bytes *b, struct question *q) {
    static const size_t small[] = {1, 2, 3, 3, 4, 4, 5, 6};
    bool few = take(b, 8) > 0, apart = takes_slots(q->call);
    size_t some = takes_work(q->call) ? 8 : takes_buffer(q->call) ? 20 : 64;
    size_t n = few ? small[take(b, 8)] : 1 + take(b, some);
    size_t most = few ? PLAIN_PORTS : takes_work(q->call) ? 12 : MOST_PORTS;
    q->job_bytes = 16 * n;
    if (apart) q->port_bytes = 4 * (n + take(b, most - n + 1));
}

/* None, or each of any size, or as large as they can be beside the leaders of some layout. */
static void take_squares(struct bytes *b, struct question *q, int64_t scale) {
    uint32_t kind = take(b, 8);
    struct plan plan = plan_of(q);
    for (size_t i = 0; i < plan.n && kind >= 3; i++) {
        int64_t half = scale * take(b, 7);
        put_half(q->job, i, half < MOST_HALF ? half : MOST_HALF);
    }
    if (kind >= 5) give_squares(q->job, &plan, kind < 7 ? FITTED : GRAZED);
}

/* An accepted job, unless the scale puts a height too far out, or the squares leave no layout. */
static void take_job(struct bytes *b, struct question *q) {
    static const int64_t scales[] = {1, 1, 1, 1, 2, 250, 1500, 15625};
    take_counts(b, q);
    size_t n = records_of(q), p = ports_of(q);
    int64_t scale = scales[take(b, 8)], port[MOST_PORTS] = {-(int64_t)take(b, 65)};
    for (size_t i = 1; i < p; i++) port[i] = port[i - 1] + 8 + take(b, 3);
    for (size_t i = 0; i < n; i++) {
        int64_t x = 64 * take(b, 256) + i + 1;
        bool close = take(b, 2);
        int64_t y = close ? port[take(b, p)] - 1 + take(b, 3) : port[0] - 2 + take(b, 9 * p + 4);
        put_record(q->job, i, 101 + (int64_t)i, x, scale * y, 0);
    }
    for (size_t i = 0; i < p; i++) set_port(q, i, scale * port[i]);
    take_squares(b, q, scale);
    if (takes_work(q->call) || takes_buffer(q->call)) lend_work(q, take(b, 3));
}

/* A job with too many sheets to have places. */
static void take_plenty(struct question *q) {
    make_plentiful(q->job);
    q->job_bytes = 16 * 64;
    q->count = 64;
    lend_work(q, 0);
}

/* One that there may be, one of so many bits, or any. */
static uint64_t take_place(struct bytes *b) {
    uint32_t kind = take(b, 8);
    uint64_t bits = kind < 6 ? take(b, kind < 4 ? 3 : 256) : (uint64_t)take_bits(b) << 32;
    return kind < 6 ? bits : (bits | take_bits(b)) >> take(b, 64);
}

/* ---- texts of comma-separated values ---- */

/* Mostly a number that is not on another line; else one of few, or badly written, or far out. */
static void take_value(struct bytes *b, struct csv *csv, uint32_t line) {
    static const char *const words[] = {
        "0",  "-1", "00", "-0", "65535",   "65536",         "1000000",              "1000001",
        "1 ", "+1", "",   "x",  "\"7\"", "\"8\"\"\"", "99999999999999999999", "-1000001"};
    char number[12];
    uint32_t kind = take(b, 128), last = take(b, 9);
    snprintf(number, sizeof number, "%u", kind < 80 ? 10 * (line + 1) + last : 1 + last);
    add_word(csv, kind < 112 ? number : words[kind - 112]);
}

/* The header, and so many lines of three values; a last CR LF or none. */
static void take_lines(struct bytes *b, struct csv *csv) {
    static const char *const headers[] = {"name,x,y\r\n", "\"name\",x,y\r\n",
                                          "name,x,\"y\"\r\n", "name,x\r\n"};
    uint32_t n = take(b, 8) ? take(b, 6) : take(b, 70);
    add_word(csv, headers[take(b, 32) ? take(b, 3) : 3]);
    for (uint32_t k = 0; k < n; k++) {
        for (int field = 0; field < 3; field++) {
            if (field > 0) add_word(csv, ",");
            take_value(b, csv, k);
        }
        add_word(csv, "\r\n");
    }
    if (take(b, 2) && csv->bytes > 2) csv->bytes -= 2;
}

/* A byte changed or put in; a piece left out, or put in again, perhaps many times. */
static void take_damage(struct bytes *b, struct csv *csv) {
    size_t at = take(b, csv->bytes + 1), some = take(b, csv->bytes - at + 1);
    uint8_t byte = (uint8_t)take(b, 256);
    switch (take(b, 6)) {
    case 0: splice(csv, at, at < csv->bytes, &byte, 1); break;
    case 1: splice(csv, at, 0, &byte, 1); break;
    case 2: splice(csv, at, some, NULL, 0); break;
    case 3: splice(csv, csv->bytes, 0, csv->text + at, some); break;
    case 4: splice(csv, at, 0, csv->text + at, some); break;
    default:
        for (uint32_t k = 0; k < byte; k++) splice(csv, at, 0, csv->text + at, some % 100);
    }
}

/* Room for the lines that there are, or a byte more or less; now and then any room. */
static void take_csv(struct bytes *b, struct question *q) {
    static struct csv csv;
    csv.bytes = 0;
    take_lines(b, &csv);
    q->csv = &csv;
    for (uint32_t times = take(b, 8); times > 4; times--) take_damage(b, &csv);
    size_t lines = lines_of(q), kind = take(b, 8), room = 16 * (lines < 64 ? lines : 64);
    lend_text(q, kind < 6 ? room : kind == 6 ? room - (room > 0) : take(b, TEXT_ROOM + 1));
}

static uint32_t take_weight(struct bytes *b) {
    static const uint32_t weights[] = {0, 0, 1, 1, 2, 3, 999, 1000};
    return weights[take(b, 8)];
}

/* A few bytes a figure on small boards; on others they choose the kind of table. */
static void take_table(struct bytes *b, struct question *q) {
    static const uint32_t likely[] = {0, 1, 2, 3, 1000, 1u << 31, UINT32_MAX - 1, UINT32_MAX};
    static uint32_t table[TABLE_ROOM];
    size_t n = records_of(q), kind = take(b, FIGURES + 3);
    lend_table(q, table, kind < FIGURES ? (enum figures)kind : ANY_FIGURES);
    for (size_t k = 0; k < n * n && n <= 6 && kind >= FIGURES; k++)
        table[k] = kind == FIGURES ? take_bits(b) : likely[take(b, 8)];
}

/* First's layout, or one that some calls of Next lead to; any if there is none. */
static void best_layout(struct question *q, uint32_t steps) {
    struct plan plan = plan_of(q);
    any_untouching(&plan, q->list.layout);
#ifndef NO_SEARCH
    struct question search = *q;
    turn_to(&search, FIRST);
    call_library(&search);
    for (turn_to(&search, NEXT); steps > 0; steps--) call_library(&search);
    q->list = search.list;
#else
    (void)steps;
#endif
}

/* Each entry another port. */
static void any_order(struct bytes *b, struct question *q) {
    uint16_t port[MOST_PORTS];
    for (size_t i = 0; i < ports_of(q); i++) {
        size_t k = take(b, i + 1);
        port[i] = port[k];
        port[k] = (uint16_t)i;
    }
    memcpy(q->list.layout, port, records_of(q) * sizeof *port);
}

static void take_layout(struct bytes *b, struct question *q) {
    struct plan plan = plan_of(q);
    switch (take(b, 4)) {
    case 0: any_order(b, q); break;
    case 1: any_untouching(&plan, q->list.layout); break;
    default: best_layout(q, take(b, 4));
    }
}

/* Room for some layouts, exactly or with a remainder; now and then any room. From few bytes. */
static void take_page(struct bytes *b, struct question *q) {
    size_t n = records_of(q), kind = take(b, 256), rest = kind & 8 ? 1 + kind / 16 : 0;
    lend_page(q, kind < 248 ? n * (kind % 8) + rest : take(b, PAGE_ROOM + 1));
}

/* Room for just the text, or for some bytes more or less; now and then any room. */
static void take_text(struct bytes *b, struct question *q) {
    size_t length = text_length(q), most = TEXT_ROOM - 2, kind = take(b, 16);
    if (length > most) length = most; /* only of fields that are refused */
    lend_text(q, kind < 12 ? length + kind / 4 : take(b, TEXT_ROOM + 1));
    if (kind == 3) q->text_bytes -= length > 0;
}

/* Another figure, or another length: any, one that is close, or the right one in its last bits. */
static void damage_table(struct bytes *b, struct question *q) {
    size_t right = q->figures;
    switch (take(b, 4)) {
    case 0: q->figures = take(b, TABLE_ROOM + 1); break;
    case 1: q->figures = right + 1 - 2 * (right > 0 && take(b, 2)); break;
    case 2: q->figures = right + ((size_t)1 << take(b, 64)); break;
    default: q->table[take(b, right % TABLE_ROOM + 1)] = take_bits(b);
    }
}

/* The numbers, or the table or the text that a call has in their place. */
static void damage_numbers(struct bytes *b, struct question *q, uint32_t *number) {
    if (takes_table(q->call))
        damage_table(b, q);
    else if (q->call == SVG)
        take_text(b, q);
    else
        *number = take_bits(b);
}

/* A work list, or a buffer, shorter by any, or by up to 2. */
static void damage_work(struct bytes *b, struct question *q) {
    size_t less = take(b, take(b, 2) ? 3 : q->numbers + 1);
    q->numbers -= less < q->numbers ? less : q->numbers;
}

/* Pads or ports of another length, or another height; or what the call works in. */
static void damage_sizes(struct bytes *b, struct question *q) {
    size_t p = ports_of(q);
    bool any = take(b, 4) > 0;
    switch (any && takes_slots(q->call) ? 1 + take(b, 4) : any && takes_buffer(q->call) ? 4 : 0) {
    case 0: q->job_bytes = take(b, JOB_ROOM + 1); break;
    case 1: q->port_bytes = take(b, PORTS_ROOM + 1); break;
    case 2: q->port_bytes = 4 * take(b, records_of(q) + 1); break;
    case 3: put_number(q->ports + 4 * take(b, p + (p == 0)), 4, take_bits(b)); break;
    default: damage_work(b, q);
    }
}

/* The last of a record's fields is the port, wherever that stands. */
static void copy_field(struct question *q, size_t to, size_t from, size_t field) {
    if (field == 12)
        set_port(q, to, port_of(q, from));
    else
        memcpy(q->job + 16 * to + field, q->job + 16 * from + field, 4);
}

static void damage(struct bytes *b, struct question *q) {
    static const int64_t limits[] = {0,        1,        1000000,   1000001,
                                     -1000000, -1000001, INT32_MAX, INT32_MIN};
    size_t n = records_of(q) + (records_of(q) == 0);
    size_t i = take(b, n), j = take(b, n), field = 4 * take(b, 4), early = field / 8 * 4;
    static const int64_t halves[] = {0, 1, 2, 4, 9, MOST_HALF, MOST_HALF + 1, 65535};
    uint16_t *list = q->list.layout, kept = list[i];
    switch (take(b, 13)) {
    case 0: q->job[take(b, JOB_ROOM)] = (uint8_t)take(b, 256); break;
    case 1: damage_sizes(b, q); break;
    case 2: q->count = take(b, take(b, 2) ? n + 1 : LIST_ROOM + 1); break;
    case 3: damage_numbers(b, q, &q->a); break;
    case 4: damage_numbers(b, q, &q->b); break;
    case 5: list[i] = (uint16_t)take_bits(b); break;
    case 6: q->a = q->call == DRAW ? (uint32_t)j : 1001; break;
    case 7: put_number(q->job + 16 * i + field, 4, limits[take(b, 8)]); break;
    case 8: copy_field(q, i, j, field); break;
    case 9: set_port(q, i, port_of(q, i - (i > 0)) + 6 + take(b, 4)); break;
    case 10: memcpy(q->job + 16 * i + early, q->job + 16 * j + early, 4); break; /* name or x */
    case 11: put_half(q->job, i, halves[take(b, 8)]); break;
    default:
        list[i] = list[j];
        list[j] = kept;
    }
}

/* What the bytes leave open is drawn at random, but the same for the same bytes. */
static void seed_by(const uint8_t *data, size_t size) {
    uint64_t hash = 14695981039346656037u;
    for (size_t k = 0; k < size; k++) hash = (hash ^ data[k]) * 1099511628211u;
    seed_random(hash);
}

static void question_of(const uint8_t *data, size_t size, struct question *q) {
    struct bytes b = {data, data + size};
    seed_by(data, size);
    memset(q, 0, sizeof *q);
    for (size_t k = 0; k < 2 * LIST_ROOM; k++)
        put_number((uint8_t *)&q->list + 2 * k, 2, below(65536));
    q->call = take(&b, CALLS);
    if (q->call == READ_CSV) {
        take_csv(&b, q);
        return;
    }
    take_job(&b, q);
    q->count = (q->call == DRAW ? 6 : records_of(q)) + take(&b, 3);
    q->a = q->call == DRAW ? take(&b, records_of(q)) : take_weight(&b);
    q->b = q->call == DRAW ? take(&b, records_of(q)) : take_weight(&b);
    if (takes_table(q->call)) take_table(&b, q);
    if (takes_layout(q->call)) take_layout(&b, q);
    if (q->call == PAGE) take_page(&b, q);
    if (q->call == SVG) take_text(&b, q);
    if (q->call == PLACE) q->place = take_place(&b);
    if (takes_buffer(q->call) && take(&b, 32) == 31) take_plenty(q);
    uint32_t times = take(&b, 8);
    for (; times > 4; times--) damage(&b, q);
}

/* ---- replies that are too many to try: jobs of more than PLAIN_PORTS ports, not counted ---- */

static int64_t measured(const struct question *q, const union list *list) {
    struct question m = *q;
    turn_to(&m, MEASURE);
    m.list = *list;
    return plain_reply(&m).answer;
}

/* An untouching layout of this total, and the entries from n on kept. */
static bool is_sheet(const struct question *q, const struct reply *r, int64_t total) {
    size_t n = records_of(q), rest = (LIST_ROOM - n) * sizeof(uint16_t);
    return r->answer == total && measured(q, &r->list) == total &&
           memcmp(r->list.layout + n, q->list.layout + n, rest) == 0;
}

static bool before(const struct question *q, const union list *a, const union list *b) {
    return plain_before(q->job, records_of(q), a->layout, b->layout);
}

/*
 * A layout found at random is not better than First's, nor as good and before it; nor is it as good
 * and passed over by Next, whose question held a best layout. There is none where First found none.
 */
static bool passed_over(const struct reply *first, const struct question *next,
                        const struct reply *reply) {
    union list found = next->list;
    struct plan plan = plan_of(next);
    any_untouching(&plan, found.layout);
    int64_t total = measured(next, &found), least = first->answer;
    if (total < 0 || (least >= 0 && total > least)) return false;
    if (least < 0 || total < least || before(next, &found, &first->list)) return true;
    bool earlier = reply->answer == -1 || before(next, &found, &reply->list);
    return reply->answer >= -1 && before(next, &next->list, &found) && earlier;
}

/* An untouching layout, for bend weight 0 and points of the least length; or 15: there is none. */
static bool is_first(const struct question *first, const struct reply *f) {
    struct given g = given_of(first);
    struct plan plan = plan_of(first);
    if (f->answer == refused(15, 0)) {
        rank_job(&g);
        return ranked_count() == 0;
    }
    bool length = !g.by_table && first->b == 0;
    int64_t least = length ? first->a * least_length(&plan) : 0;
    bool points = length && plain_no_squares(&g);
    return is_sheet(first, f, f->answer) && (points ? f->answer == least : f->answer >= least);
}

/* First's sheet; Next of the question's layout, or of a random one if it asks First; and Page. */
static bool large_sheet(const struct question *q) {
    struct plan plan = plan_of(q);
    struct question first = *q, next = *q;
    turn_to(&first, FIRST);
    turn_to(&next, NEXT);
    if (q->call == first.call) any_untouching(&plan, next.list.layout);
    struct reply f = ask(&first, AT_END), r = ask(&next, AT_START);
    int64_t given = measured(&next, &next.list);
    bool ok = is_first(&first, &f) && (f.answer >= 0 || given < 0);
    if (given < 0)
        r = keeps(&next, given);
    else if (given != f.answer)
        r = keeps(&next, refused(10, 0));
    else if (r.answer == -1)
        r = keeps(&next, -1);
    else
        ok &= is_sheet(&next, &r, f.answer) && before(q, &next.list, &r.list);
    for (int k = 0; k < 8; k++) ok &= !passed_over(&f, &next, &r);
    return check(ok, q, "not a best sheet") && expect(&first, f) && expect(&next, r) &&
           (q->call != PAGE || expect(q, stepped(q)));
}

/* ---- the trial ---- */

/* What the question came to; -1 if the library failed. */
static int outcome(const uint8_t *data, size_t size, struct question *q) {
    question_of(data, size, q);
    struct reply r = plain_reply(q);
    if (r.answer == PLAIN_UNKNOWN) return large_sheet(q) ? 0 : -1;
    if (!expect(q, r)) return -1;
    return outcome_of(r.answer);
}

#ifdef LIBFUZZER

static void at_exit(void) { done(); }

int LLVMFuzzerInitialize(int *argc, char ***argv) {
    (void)argc;
    (void)argv;
    return atexit(at_exit);
}

int LLVMFuzzerTestOneInput(const uint8_t *data, size_t size) {
    static struct question q;
    if (outcome(data, size, &q) >= 0) return 0;
    fflush(stdout); /* the failure, as check printed it */
    abort();
}

#else

#define SIZE 400                        /* the longest input */
#define SIZES (8 + JOB_ROOM / 128 + 1)  /* classes of numbers of records */
#define KEPT (CALLS * OUTCOMES * SIZES) /* one input for each kind of outcome */
#define ENOUGH (15000 * CALLS)          /* inputs for every refusal to have come */

struct input {
    uint8_t data[SIZE];
    size_t size;
};

static struct input kept[KEPT];
static size_t kept_count;
static long came[CALLS][OUTCOMES]; /* how often each outcome came */

/* Keeps an input if no other had its call, its outcome and about its number of records. */
static void keep_if_new(const struct input *in, const struct question *q, int what) {
    static bool seen[CALLS][OUTCOMES][SIZES];
    size_t n = q->call == READ_CSV ? lines_of(q) : records_of(q), most = JOB_ROOM / 16;
    if (n > most) n = most;
    bool *mark = &seen[q->call][what][n < 8 ? n : 8 + n / 8];
    came[q->call][what]++;
    if (!*mark) kept[kept_count++] = *in;
    *mark = true;
}

static void random_input(struct input *in) {
    in->size = below(below(2) ? 40 : SIZE + 1);
    for (size_t k = 0; k < in->size; k++) in->data[k] = (uint8_t)below(256);
}

static void mutate(struct input *in) {
    const struct input *other = &kept[below((uint32_t)kept_count)];
    size_t at = below((uint32_t)in->size + 1), from = below((uint32_t)other->size + 1);
    switch (below(6)) {
    case 0: in->data[at % SIZE] = (uint8_t)below(256); break;
    case 1: in->data[at % SIZE] ^= (uint8_t)(1u << below(8)); break;
    case 2: in->data[at % SIZE] += (uint8_t)(below(9) - 4); break;
    case 3: in->size = at; break;
    case 4: in->size = at + below((uint32_t)(SIZE - at) + 1); break;
    default: /* its beginning, and the end of another */
        in->size = at + other->size - from < SIZE ? at + other->size - from : SIZE;
        memcpy(in->data + at, other->data + from, in->size - at);
    }
}

static void next_input(struct input *in, uint64_t seed) {
    seed_random(seed);
    if (kept_count == 0 || below(8) == 0) {
        random_input(in);
        return;
    }
    *in = kept[below((uint32_t)kept_count)];
    for (uint32_t times = 1 + below(4); times > 0; times--) mutate(in);
}

static void report(long count) {
    for (int call = 0; call < CALLS; call++) {
        const long *of = came[call];
        bool another = of[OTHER_PAIR] > 0 || !takes_layout(call);
        printf("%-12s %ld accepted, %ld ends, 9 with record 0: %ld, with another: %ld, 15: %ld\n",
               call_names[call], of[0], of[ENDS], of[9], of[OTHER_PAIR], of[15]);
        check(count < ENOUGH || another, NULL, "9 never named another earlier record than 0");
        for (const int *number = refusals_of[call]; *number != 0; number++)
            check(count < ENOUGH || of[*number] > 0, NULL, "a refusal that never came");
    }
    printf("%ld inputs, %zu of them kept\n", count, kept_count);
}

int main(int argc, char **argv) {
    static struct input in;
    static struct question q;
    long count = argc > 1 ? atol(argv[1]) : 200000;
    uint64_t seed = argc > 2 ? strtoull(argv[2], NULL, 10) : 1;
    begin();
    for (long k = 0; k < count; k++) {
        next_input(&in, (seed << 32) + (uint64_t)k);
        int what = outcome(in.data, in.size, &q);
        if (what >= 0) keep_if_new(&in, &q, what);
    }
    report(count);
    return done();
}

#endif
