/*
 * Every refusal of every call that has a job, at every record and in every way; every pair of
 * refusals that one input can deserve, wherever both stand; and all of them at once, mended one by
 * one. ReadCsv's are in csv.c. Each time nothing is written, and Page refuses alike with room for
 * some and with room for none. Name 0 at every record of up to 64, alone, twice and beside every
 * other fault of a field. Squares that are too large, at every record, and squares that leave no
 * layout, for 1 to 64 pads. Tables of other lengths than the right one, for 1 to 64 pads, and of
 * lengths that no memory has. Work lists of just enough numbers and of one too few, for up to 64
 * pads and 128 ports; buffers so for 1 to 64 pads. Every other refusal on a board with too many
 * sheets: 16 comes after all but 17. Texts of one byte more than there is room for, for 1 to 64
 * pads.
 */
#include <stdio.h>
#include <string.h>

#include "boards.h"
#include "questions.h"
#include "trial.h"

#define N 6
#define P 7 /* ports, where they stand apart */
#define WAYS 13 /* at most, to deserve one refusal */
#define LENGTHS 8

/*
 * Records 0 to 3 are straight; 4 and 5 are a pair that can be led both ways without touching, one
 * way longer than the other. The layout is best: pad i to port i. The table has the lengths. Ports
 * that stay free are far above.
 */
static struct question good(enum call call) {
    static const int64_t x[N] = {30, 10, 40, 20, 50, 60}, y[N] = {0, 10, 20, 30, 45, 90};
    static uint32_t table[TABLE_ROOM];
    struct question q;
    memset(&q, 0, sizeof q);
    q.call = call;
    q.job_bytes = 16 * N;
    q.count = N + 2;
    q.port_bytes = 4 * P;
    for (size_t i = 0; i < N; i++) put_record(q.job, i, 101 + (int64_t)i, x[i], y[i], 0);
    for (size_t i = 0; i < ports_of(&q); i++)
        set_port(&q, i, 10 * (int64_t)i + (i < N ? 0 : 100000));
    if (takes_work(call) || takes_buffer(call)) lend_work(&q, 0);
    memset(&q.list, 0xC3, sizeof q.list);
    lend_page(&q, 2 * N + 1);
    lend_text(&q, TEXT_ROOM);
    if (call == DRAW) {
        q.a = 4;
        q.b = 5;
        return q;
    }
    q.a = 1;
    if (takes_table(call)) lend_weights(&q, table, 1, 0);
    for (size_t i = 0; i < LIST_ROOM; i++) q.list.layout[i] = (uint16_t)i;
    return q;
}

/* Gives record i a name or an x that stood in the record before, or in the first. */
static size_t copied_from(size_t i, int way) { return way % 2 == 0 ? 0 : i - 1; }

static void swap_entries(struct question *q, size_t i, size_t j) {
    uint16_t kept = q->list.layout[i];
    q->list.layout[i] = q->list.layout[j];
    q->list.layout[j] = kept;
}

/* The earlier record whose leader record i's will touch. */
static size_t touched_by(size_t i, int way) { return way == 0 ? i - 1 : 0; }

/* The last two ways are of pads whose ports stand apart; a port may have no record. */
static bool bad_field(struct question *q, size_t i, int way) {
    if (way == 0) put_half(q->job, i, 2001);
    if (way == 1) put_x(q->job, i, 0);
    if (way == 2) put_x(q->job, i, 1000001);
    if (way == 3) put_y(q->job, i, -1000001);
    if (way == 4) put_y(q->job, i, 1000001);
    if (way == 5) set_port(q, i, i == 0 ? -1000001 : 1000001);
    if (way == 6) put_name(q->job, i, 0);
    if (way == 7) put_half(q->job, i, 65535);
    if (way == 8) put_half(q->job, i, 2048);
    if (way >= 9) put_port(q->job, i, way == 9 ? 1 : -16777216);
    return way < (takes_slots(q->call) ? 11 : 9) && (i < records_of(q) || way == 5);
}

/*
 * Squares that leave no layout: one on whose side the last pad lies, or amid; one that reaches
 * straight leaders, for which there is no other way; those in the way of every arm; all of them. On
 * slots a port is free, which is of no use.
 */
static bool bad_squares(struct question *q, int way) {
    if (way == 0) put_half(q->job, 4, 45);
    if (way == 1) put_half(q->job, 4, 2000);
    if (way == 2) put_half(q->job, 1, 10);
    if (way == 3) put_half(q->job, 3, 1999);
    if (way == 4) put_half(q->job, 5, 60);
    if (way == 5)
        for (size_t i = 0; i < records_of(q) && i < N; i++) put_half(q->job, i, 11);
    return way < 6;
}

/* Of the job; then, if there is one, of the list of ports. */
static bool bad_size(struct question *q, int way) {
    static const size_t sizes[7] = {16 * N + 1, 16 * N + 15, 0, 1040, 1025, 16 * N - 1, 16 * N + 4};
    static const size_t port_sizes[6] = {4 * P + 1, 4 * P + 3, 0, 516, 513, 4 * P - 1};
    if (way >= 7)
        q->port_bytes = port_sizes[way - 7];
    else
        q->job_bytes = sizes[way];
    return way < 7 || takes_slots(q->call);
}

/* A work list of one number too few, or far fewer. */
static void short_work(struct question *q, int way) {
    size_t p2 = (P + 2) * (P + 2), enough = 2 * (N + 1) * p2;
    size_t others[LENGTHS] = {enough - 1, 0, 1, enough / 2, 2 * N * p2, enough - p2,
                              2 * (N + 1) * (P + 1) * (P + 1), enough - 2};
    q->numbers = others[way];
}

/* The same of a buffer. */
static void short_buffer(struct question *q, int way) {
    size_t n2 = (N + 2) * (N + 2), enough = 2 * n2;
    size_t others[LENGTHS] = {enough - 1, 0, 1, n2, 2 * (N + 1) * (N + 1), 2 * N * N, enough - 2,
                              (N + 1) * (N + 2)};
    q->numbers = others[way];
}

/* A place past the only best layout. */
static void late_place(struct question *q, int way) {
    static const uint64_t places[LENGTHS] = {
        1, 2, 255, 65536, (uint64_t)1 << 32, INT64_MAX, (uint64_t)1 << 63, UINT64_MAX};
    q->place = places[way];
}

/* A text of one byte more than there is room for, or far more: of the lines that there can be. */
static void short_text(struct question *q, int way) {
    size_t length = text_length(q), less = length - (length > 0);
    size_t others[LENGTHS] = {less, 0, less / 2, less / 3, less - less / 4, less - (less > 0),
                              less < 36 ? less : 36, less < 76 ? less : 76};
    q->text_bytes = others[way];
}

/* Those of the whole input name record 0. */
static bool is_whole(int number) {
    return number <= 3 || number == 10 || number == 11 || number == 13 || number >= 14;
}

/* Ports stand in records, or there are more of them. */
static bool is_there(const struct question *q, int number, size_t i) {
    bool of_port = number == 4 || number == 5 || number == 12;
    bool needs_earlier = number >= 5 && number != 8;
    if (is_whole(number)) return i == 0;
    return i < (of_port ? ports_of(q) : records_of(q)) && (i > 0 || !needs_earlier);
}

/*
 * Makes the question deserve a refusal, at record i if it names one, in one of several ways.
 * False if there is no such record or way.
 */
static bool spoil(struct question *q, int number, size_t i, int way) {
    static const int64_t weights[2] = {1001, UINT32_MAX};
    static const size_t tables[LENGTHS] = {
        N * N - 1, N * N + 1, 0, N, (N + 1) * (N + 1), 64 * 64, N * P, P * P};
    if (!is_there(q, number, i)) return false;
    switch (number) {
    case 1: return bad_size(q, way);
    case 2: *(way % 2 ? &q->a : &q->b) = (uint32_t)weights[way / 2 % 2]; return way < 4;
    case 3: q->count = (size_t)way; return way < N;
    case 4: return bad_field(q, i, way);
    case 5: set_port(q, i, port_of(q, i - 1) - way); return way < 2;
    case 6: put_name(q->job, i, get_name(q->job, copied_from(i, way))); return way < 2;
    case 7: put_x(q->job, i, get_x(q->job, copied_from(i, way))); return way < 2;
    case 8:
        if (way < 2) q->list.layout[i] = way ? 65535 : (uint16_t)ports_of(q);
        if (way >= 2 && i > 0) q->list.layout[i] = q->list.layout[copied_from(i, way)];
        return way < (i > 0 ? 4 : 2);
    case 9: swap_entries(q, touched_by(i, way), i); return i < 4 && way < (i == 2 ? 2 : 1);
    case 10: swap_entries(q, 4, 5); return way == 0;
    case 11: *(way % 2 ? &q->a : &q->b) = way < 2 ? N : UINT32_MAX; return way < 4;
    case 12: set_port(q, i, port_of(q, i - 1) + (way ? 1 : 7)); return way < 2;
    case 13: q->figures = tables[way % LENGTHS]; return way < LENGTHS;
    case 14: q->port_bytes = 4 * (size_t)(N - 1 - way); return way < N - 1;
    case 15: return bad_squares(q, way);
    case 17: late_place(q, way % LENGTHS); return way < LENGTHS;
    case 18: short_buffer(q, way % LENGTHS); return way < LENGTHS;
    case 19: short_text(q, way % LENGTHS); return way < LENGTHS;
    case 24: short_work(q, way % LENGTHS); return way < LENGTHS;
    default: return false;
    }
}

/* 9 names the first earlier record as well, every other refusal none. */
static void is_refused(struct question q, int number, int record) {
    int64_t answer = refused(number, record);
    if (number == 9) answer = refused_pair(record, earlier_of(&q, record));
    expect(&q, keeps(&q, answer));
    if (q.call != PAGE) return;
    q.page_entries = 0;
    expect(&q, keeps(&q, answer));
}

/* Each refusal alone. */
static void alone(enum call call, int number) {
    for (size_t i = 0; i < P; i++)
        for (int way = 0; way < WAYS; way++) {
            struct question q = good(call);
            if (!spoil(&q, number, i, way)) continue;
            check(fault_of(&q, number) == (int)i, &q, "the plain account finds another record");
            if (number == 9)
                check(earlier_of(&q, (int)i) == (int)touched_by(i, way), &q, "or another pair");
            is_refused(q, number, (int)i);
        }
}

/* A question that deserves one refusal made to deserve another, which is checked later. */
static long spoilt_more(const struct question *spoilt, int one, int other) {
    long deserved = 0;
    for (int k = 0; k < P * WAYS; k++) {
        size_t i = (size_t)(k % P);
        if (!is_there(spoilt, other, i)) continue;
        struct question q = *spoilt;
        if (!spoil(&q, other, i, k / P)) continue;
        if (fault_of(&q, one) < 0 || fault_of(&q, other) < 0) continue;
        deserved++;
        is_refused(q, one, fault_of(&q, one));
    }
    return deserved;
}

/* Two refusals, the first checked before the other; how many inputs deserved both. */
static long both(enum call call, int one, int other) {
    long deserved = 0;
    struct question sound = good(call);
    for (int k = 0; k < P * WAYS; k++) {
        size_t i = (size_t)(k % P);
        struct question q = sound;
        if (!is_there(&q, one, i) || !spoil(&q, one, i, k / P)) continue;
        deserved += spoilt_more(&q, one, other);
    }
    return deserved;
}

/*
 * 10 is of a layout that has all its ports and no touching pair, and with it its total. 16 is of
 * more pads than these.
 */
static bool exclude_each_other(int one, int other) {
    bool no_layout = one == 3 || one == 8 || one == 9 || one == 13 || one == 14;
    return (other == 10 && no_layout) || one == 16 || other == 16;
}

static void pairs(enum call call) {
    for (const int *one = refusals_of[call]; *one != 0; one++)
        for (const int *other = one + 1; *other != 0; other++) {
            long deserved = both(call, *one, *other);
            check((deserved > 0) != exclude_each_other(*one, *other), NULL,
                  "no input deserved both");
        }
}

/* 8 or 9 beside a layout whose total is not the least: 8 and 9 come first. */
static void longer_and_wrong(enum call call) {
    struct question q = good(call);
    swap_entries(&q, 4, 5);
    swap_entries(&q, 2, 3);
    is_refused(q, 9, 3);
    q.list.layout[1] = q.list.layout[0];
    is_refused(q, 8, 1);
}

/* Earlier checks at later records, as far as can be: a 12 at record 3 would mend the 5 at 4. */
static size_t record_for(int number) {
    static const size_t records[PLAIN_REFUSALS] = {0, 0, 0, 0, 5, 4, 3, 2, 1, 3, 0, 0, 5};
    return records[number];
}

/* All refusals deserved at once, but for 16, then mended in order. */
static void mended_one_by_one(enum call call) {
    for (const int *unmended = refusals_of[call]; *unmended != 0; unmended++) {
        struct question q = good(call);
        if (*unmended == 16) continue;
        for (const int *number = unmended; *number != 0; number++)
            spoil(&q, *number, record_for(*number), 0);
        is_refused(q, *unmended, (int)record_for(*unmended));
    }
}

/* 4 of the last pad comes before that of the first port, and 4 of the last port before 5. */
static void pads_and_then_ports(enum call call) {
    struct question q = good(call);
    set_port(&q, 1, 0);
    set_port(&q, P - 1, 1000001);
    is_refused(q, 4, P - 1);
    set_port(&q, 0, -1000001);
    is_refused(q, 4, 0);
    put_y(q.job, N - 1, 1000001);
    is_refused(q, 4, N - 1);
}

/* Straight leaders of n pads to the first of p ports, or of n where these stand in the records. */
static struct question straight(enum call call, size_t n, size_t p) {
    struct question q = good(call);
    q.job_bytes = 16 * n;
    q.port_bytes = 4 * p;
    if (call == DRAW)
        q.a = q.b = 0;
    else
        q.count = n;
    for (size_t i = 0; i < n; i++)
        put_record(q.job, i, 101 + (int64_t)i, 1 + (int64_t)i, 10 * (int64_t)i, 0);
    for (size_t i = 0; i < ports_of(&q); i++) set_port(&q, i, 10 * (int64_t)i);
    if (takes_table(call)) lend_table(&q, q.table, ZEROS);
    if (takes_work(call) || takes_buffer(call)) lend_work(&q, 0);
    return q;
}

/* ---- names of 0 ---- */

/* 4 is of the first record with a field at fault, whichever it is; then of ports that stand apart. */
static void beside_fields(const struct question *unnamed, size_t i, size_t j) {
    for (int way = 0; way < WAYS; way++) {
        struct question q = *unnamed;
        bool pad = way != 5 || !takes_slots(q.call);
        if (bad_field(&q, j, way)) is_refused(q, 4, (int)(pad && j < i ? j : i));
    }
}

/* A name of 0 that stands twice is no name that stands twice; and 5, 12, 6 and 7 come after 4. */
static void beside_rules(const struct question *unnamed, size_t i, size_t j) {
    static const int later[] = {5, 12, 6, 7};
    for (size_t k = 0; k < 4; k++) {
        struct question q = *unnamed;
        if (i == j && later[k] == 6) continue; /* which would give it a name */
        if (spoil(&q, later[k], j, 0)) is_refused(q, 4, (int)i);
    }
}

static void without_name(enum call call, size_t n, size_t i) {
    struct question q = straight(call, n, n);
    put_name(q.job, i, 0);
    for (size_t j = 0; j < n; j++) {
        beside_fields(&q, i, j);
        beside_rules(&q, i, j);
    }
    put_name(q.job, i, i + 1 == n ? 65535 : 1);
    check(ask(&q, AT_END).answer >= -1, &q, "any other name passes");
}

/* 64 records: one without a name; then all, which get theirs one by one. */
static void names_of_0(enum call call) {
    struct question q = straight(call, 64, 64), unnamed = q;
    for (size_t n = 1; n <= 5; n++)
        for (size_t i = 0; i < n; i++) without_name(call, n, i);
    for (size_t i = 0; i < 64; i++) put_name(unnamed.job, i, 0);
    for (size_t i = 0; i < 64; i++) {
        put_name(q.job, i, 0);
        is_refused(q, 4, (int)i);
        put_name(q.job, i, 101 + (int64_t)i);
        is_refused(unnamed, 4, (int)i);
        put_name(unnamed.job, i, 101 + (int64_t)i);
    }
}

/* ---- squares ---- */

/* As the name of 0: beside every other fault of a record, at every record. */
static void too_large(enum call call, size_t n, size_t i) {
    struct question q = straight(call, n, n);
    put_half(q.job, i, 2001 + below(63535));
    for (size_t j = 0; j < n; j++) {
        beside_fields(&q, i, j);
        beside_rules(&q, i, j);
    }
}

/* Straight leaders 10 apart: half-sides of 9 pass, one of 10 reaches a neighbour's leader. */
static void just_too_large(enum call call, size_t n, size_t i) {
    struct question q = straight(call, n, n);
    for (size_t k = 0; k < n; k++) put_half(q.job, k, 9);
    check(ask(&q, AT_END).answer >= -1, &q, "these squares pass");
    put_half(q.job, i, 10);
    int record = i > 0 ? (int)i : 1;
    if (n == 1 || call == DRAW)
        check(ask(&q, AT_END).answer >= -1, &q, "this square passes");
    else if (gives_first(call) || takes_buffer(call))
        is_refused(q, 15, 0);
    else
        expect(&q, keeps(&q, refused_pair(record, record - 1)));
}

/* At every record of up to five, and at some of 64; where slots are searched, of 24. */
static void squares(enum call call) {
    for (size_t n = 1; n <= 5; n++)
        for (size_t i = 0; i < n; i++) {
            too_large(call, n, i);
            just_too_large(call, n, i);
        }
    size_t most = takes_work(call) ? 24 : 64;
    for (size_t i = 0; i < most; i += 1 + i / 4) just_too_large(call, most, i);
    just_too_large(call, most, most - 1);
}

/* ---- tables of another length ---- */

/* All is right but the length, which must be n times n. */
static void table_of(enum call call, size_t n, size_t figures) {
    struct question q = straight(call, n, n);
    q.figures = figures;
    if (figures != n * n)
        is_refused(q, 13, 0);
    else
        check(ask(&q, AT_END).answer == (call == TABLE_NEXT ? -1 : 0), &q, "this should pass");
}

/* Those beside the right one, other squares, and all that are the right one in fewer bits. */
static void table_lengths(enum call call, size_t n) {
    size_t right = n * n, others[] = {right, right - 1, right + 1, 0, 1, n, 2 * n, right - n,
                                      right + n, (n - 1) * (n - 1), (n + 1) * (n + 1), 64 * 64,
                                      65 * 65, 2 * right, 4 * right};
    for (size_t k = 0; k < sizeof others / sizeof *others; k++) table_of(call, n, others[k]);
    for (int bit = 7; bit < 64; bit++) table_of(call, n, right + ((size_t)1 << bit));
}

/*
 * Lengths that no memory has. The header wants every figure that is lent to be there; these are
 * not, with NULL as with a pointer. What the archive does: the length alone decides, and nothing is
 * read, so 13 is the answer.
 */
static void endless_tables(enum call call) {
    static const size_t counts[] = {SIZE_MAX, SIZE_MAX / 2, SIZE_MAX / 4, SIZE_MAX - N * N + 1,
                                    (size_t)1 << 32, (size_t)1 << 62, (size_t)1 << 63};
    for (size_t k = 0; k < sizeof counts / sizeof *counts; k++) {
        table_of(call, N, counts[k]);
        table_of(call, N, counts[k] + N * N);
        table_of(call, 1, counts[k]);
        table_of(call, 64, counts[k]);
    }
}

/* ---- work lists of another length ---- */

/* Fewer numbers are refused before the pads are looked at; just enough are not. */
static void work_lengths(enum call call, size_t n, size_t p) {
    struct question q = straight(call, n, p);
    size_t enough = q.numbers, layer = (p + 2) * (p + 2);
    size_t fewer[] = {enough - 1, 0, enough / 2, enough - layer, enough - 2 * layer,
                      2 * (n + 1) * (p + 1) * (p + 2)};
    put_x(q.job, n - 1, 0);
    is_refused(q, 4, (int)n - 1);
    for (size_t k = 0; k < sizeof fewer / sizeof *fewer; k++) {
        q.numbers = fewer[k];
        is_refused(q, 24, 0);
    }
}

/* Lengths that no memory has, as below: they are enough, and a refusal writes nothing. */
static void endless_work(enum call call) {
    struct question q = straight(call, N, P);
    put_x(q.job, 0, 0);
    for (int bit = 24; bit < 64; bit++) {
        q.numbers = (size_t)1 << bit;
        is_refused(q, 4, 0);
    }
    q.numbers = SIZE_MAX;
    is_refused(q, 4, 0);
}

static void works(enum call call) {
    static const size_t some[] = {1, 2, 3, 7, 16, 31, 63, 64, 65, 100, 127, 128};
    for (size_t k = 0; k < sizeof some / sizeof *some; k++)
        for (size_t n = 1; n <= 64 && n <= some[k]; n += 1 + n / 2) work_lengths(call, n, some[k]);
    for (size_t n = 60; n <= 64; n++) work_lengths(call, n, 128);
    endless_work(call);
    for (size_t n = 1; n <= 12; n += 1 + n / 2) {
        struct question q = straight(call, n, n + n % 3);
        check(ask(&q, AT_END).answer >= -1, &q, "just enough numbers");
    }
}

/* ---- buffers of another length ---- */

/* Just enough numbers pass, fewer do not, whatever the place; 15 comes first. */
static void buffer_lengths(enum call call, size_t n) {
    struct question q = straight(call, n, n);
    size_t enough = q.numbers, fewer[] = {enough - 1, 0, enough / 2, 2 * (n + 1) * (n + 1),
                                          2 * (n + 1) * (n + 2), enough - n - 2};
    check(ask(&q, AT_END).answer >= 0, &q, "just enough numbers");
    for (size_t k = 0; k < sizeof fewer / sizeof *fewer; k++) {
        q.numbers = fewer[k];
        q.place = k % 2 ? UINT64_MAX : 0;
        is_refused(q, 18, 0);
    }
    put_half(q.job, 0, 10);
    if (n > 1) is_refused(q, 15, 0);
}

static void buffers(enum call call) {
    for (size_t n = 1; n <= 64; n++) buffer_lengths(call, n);
    endless_work(call);
}

/* ---- texts that do not fit ---- */

/* Just enough bytes pass, one less does not; without any, 9 comes first. */
static void text_lengths(size_t n) {
    struct question q = straight(SVG, n, n);
    lend_text(&q, text_length(&q));
    check(ask(&q, AT_END).answer == (int64_t)q.text_bytes, &q, "just enough bytes");
    q.text_bytes--;
    is_refused(q, 19, 0);
    q.text_bytes = 0;
    is_refused(q, 19, 0);
    put_half(q.job, 0, 10);
    if (n > 1) is_refused(q, 9, 1);
}

/* ---- too many sheets ---- */

static struct question plentiful(enum call call) {
    struct question q = straight(call, 64, 64);
    plentiful_job(&q);
    any_weights(&q.a, &q.b);
    return q;
}

/* Every other refusal but 17 comes before 16. */
static void beside_sixteen(enum call call, int number, size_t i) {
    for (int way = 0; way < WAYS; way++) {
        struct question q = plentiful(call);
        if (!is_there(&q, number, i) || !spoil(&q, number, i, way)) continue;
        int found = number == 15 || number == 17 ? 0 : fault_of(&q, number);
        check(found >= 0, &q, "the plain account finds no record");
        is_refused(q, number == 17 ? 16 : number, found);
    }
}

/* All refusals at once, then mended in order. */
static void sixteen_mended(enum call call) {
    for (const int *unmended = refusals_of[call]; *unmended != 0; unmended++) {
        struct question q = plentiful(call);
        for (const int *number = unmended; *number != 0; number++)
            spoil(&q, *number, record_for(*number), 0);
        is_refused(q, *unmended == 17 ? 16 : *unmended, (int)record_for(*unmended));
    }
}

static void too_many(enum call call) {
    static const size_t records[] = {0, 1, 5, 32, 63};
    for (const int *number = refusals_of[call]; *number != 0; number++)
        for (size_t k = 0; k < sizeof records / sizeof *records; k++)
            beside_sixteen(call, *number, records[k]);
    for (int k = 0; k < 20; k++) is_refused(plentiful(call), 16, 0);
    sixteen_mended(call);
}

/* Nothing at all: NULL with 0 for every list. */
static void nothing(enum call call) {
    struct question q;
    memset(&q, 0, sizeof q);
    q.call = call;
    is_refused(q, 1, 0);
}

int main(void) {
    begin();
    for (enum call call = MEASURE; call < CALLS; call++) {
        nothing(call);
        for (const int *number = refusals_of[call]; *number != 0; number++) alone(call, *number);
        pairs(call);
        if (takes_layout(call)) longer_and_wrong(call);
        mended_one_by_one(call);
        if (takes_slots(call)) pads_and_then_ports(call);
        names_of_0(call);
        squares(call);
        if (takes_work(call)) works(call);
        if (takes_buffer(call)) buffers(call);
        if (takes_buffer(call)) too_many(call);
        for (size_t n = 1; n <= 64 && call == SVG; n++) text_lengths(n);
        if (!takes_table(call)) continue;
        for (size_t n = 1; n <= 64; n++) table_lengths(call, n);
        endless_tables(call);
    }
    return done();
}
