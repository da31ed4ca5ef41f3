#include "questions.h"

#include <stdio.h>
#include <string.h>

#include "boards.h"

/* A random record or port; any one's place in the buffer is there even if the job is shorter. */
static size_t any_record(const struct question *q) {
    return below((uint32_t)records_of(q) + (records_of(q) == 0));
}

static size_t any_port(const struct question *q) {
    return below((uint32_t)ports_of(q) + (ports_of(q) == 0));
}

/* ---- questions that are accepted, or touch, or have no layout ---- */

static void any_layout(const struct question *q, uint16_t *layout) {
    uint16_t port[MOST_PORTS];
    size_t n = records_of(q), p = ports_of(q);
    struct plan plan = plan_of(q);
    if (below(4)) {
        any_untouching(&plan, layout);
        return;
    }
    for (size_t i = 0; i < p; i++) {
        size_t k = below((uint32_t)i + 1);
        port[i] = port[k];
        port[k] = (uint16_t)i;
    }
    memcpy(layout, port, n * sizeof *layout);
}

/* A best layout: the first, or one some steps on; any if there is none. */
static void best_layout(const struct question *q, uint16_t *layout) {
    struct given g = given_of(q);
    g.layout = layout;
    if (plain_first(&g, layout) < 0) any_layout(q, layout);
    for (uint32_t steps = below(4); steps > 0; steps--) plain_next(&g, layout);
}

size_t any_room(size_t n) {
    return n * below(below(4) ? 4 : 21) + (below(2) ? below((uint32_t)n) : 0);
}

size_t any_text_room(const struct question *q) {
    size_t length = text_length(q), enough = length < TEXT_ROOM ? length : TEXT_ROOM;
    size_t rest = TEXT_ROOM - enough;
    return enough + (below(2) ? 0 : below(2) ? below(4) : below((uint32_t)rest + 1));
}

/* Makes a job, and lends work: n pads, perhaps with squares, and, if they stand apart, p ports. */
static void any_pads(struct question *q, size_t n, size_t p) {
    enum board kind = below(4) ? below(BOARDS) : GAP;
    q->job_bytes = 16 * n;
    if (takes_slots(q->call)) {
        q->port_bytes = 4 * p;
        make_slots(q->job, n, q->ports, p, kind);
    } else {
        make_board(q->job, n, kind);
    }
    if (takes_work(q->call) || takes_buffer(q->call)) lend_work(q, below(2) ? 0 : below(4));
    struct plan plan = plan_of(q);
    any_squares(q->job, &plan);
}

/*
 * A search on slots takes time that grows with n times p cubed: large ones are not for here. Nor
 * are many large ones for those that the plain account counts.
 */
static size_t any_count(enum call call) {
    size_t some = takes_work(call) ? 10 : takes_buffer(call) && below(16) ? 12 : 64;
    return 1 + below(below(3) ? 5 : (uint32_t)some);
}

void plentiful_job(struct question *q) {
    q->job_bytes = 16 * 64;
    q->count = 64 + below(2);
    make_plentiful(q->job);
    lend_work(q, below(2));
}

static uint64_t any_number(void) { return ((uint64_t)any_bits() << 32 | any_bits()) >> below(64); }

/* The number of best layouts, if they can have places. */
static uint64_t counted(const struct question *q) {
    struct question c = *q;
    c.call = COUNT;
    int64_t count = plain_reply(&c).answer;
    return count > 0 ? (uint64_t)count : 1;
}

uint64_t likely_place(const struct question *q) {
    switch (below(8)) {
    case 0: return counted(q) - 1;
    case 1: return counted(q) + below(2);
    case 2: return below(4) ? any_number() : UINT64_MAX;
    case 3: return counted(q) - 1 + ((uint64_t)1 << (8 + below(56)));
    case 4: return below(3);
    default: return any_number() % counted(q);
    }
}

/* Of few pads the plain account finds a best layout, which takes it long on many ports. */
static size_t any_ports(enum call call, size_t n) {
    size_t most = takes_work(call) ? n + 4 : MOST_PORTS;
    if (n <= 5) most = takes_best(call) && n > 3 ? 6 : PLAIN_PORTS;
    return n + below((uint32_t)(most - n) + 1);
}

/* Just enough room for n pads, or some more. */
static void lend_pads(struct question *q, size_t n) {
    lend_text(q, 16 * n + (below(2) ? 0 : below(2) ? below(17) : below(TEXT_ROOM - 16 * 64)));
}

static void sound_text(struct question *q) {
    static struct csv csv;
    uint8_t pads[16 * 64];
    size_t n = 1 + below(below(3) ? 5 : 64);
    any_csv(&csv, pads, n);
    q->csv = &csv;
    lend_pads(q, n);
}

void sound_question(struct question *q, enum call call) {
    static uint32_t table[TABLE_ROOM];
    size_t n = any_count(call);
    memset(q, 0, sizeof *q);
    q->call = call;
    if (call == READ_CSV) {
        sound_text(q);
        return;
    }
    for (size_t k = 0; k < JOB_ROOM; k++) q->job[k] = (uint8_t)below(256);
    for (size_t k = 0; k < PORTS_ROOM; k++) q->ports[k] = (uint8_t)below(256);
    for (size_t k = 0; k < LIST_ROOM; k++) {
        uint32_t bits = any_bits();
        memcpy(q->list.points + k, &bits, sizeof bits);
    }
    any_pads(q, n, any_ports(call, n));
    q->count = (q->call == DRAW ? 6 : n) + below(4);
    any_weights(&q->a, &q->b);
    if (q->call == DRAW) {
        q->a = below((uint32_t)n);
        q->b = below((uint32_t)n);
    }
    if (takes_table(call)) lend_table(q, table, below(FIGURES));
    if (takes_best(call) && n <= 5 && below(2))
        best_layout(q, q->list.layout);
    else if (takes_layout(call))
        any_layout(q, q->list.layout);
    if (call == PAGE) lend_page(q, any_room(n));
    if (call == SVG) lend_text(q, any_text_room(q));
    if (takes_buffer(call) && below(64) == 0) plentiful_job(q);
    if (call == PLACE) q->place = likely_place(q);
}

void sound_job_of(struct question *q, enum call call, size_t n, size_t p) {
    static uint32_t table[TABLE_ROOM];
    q->call = call;
    any_pads(q, n, p);
    q->count = n + below(3);
    any_weights(&q->a, &q->b);
    if (!takes_slots(call)) lend_table(q, table, below(FIGURES));
    uint32_t noise = below(2) ? 65536 : 8;
    for (size_t k = 0; k < LIST_ROOM; k++) q->list.layout[k] = (uint16_t)below(noise);
    lend_page(q, any_room(n));
}

/* One in eight on slots: there are many more layouts to try. */
void sound_job(struct question *q, size_t n, size_t most) {
    enum call call = below(8) == 0 ? SLOTS_FIRST : below(3) ? FIRST : TABLE_FIRST;
    sound_job_of(q, call, n, n + below((uint32_t)(most - n) + 1));
}

/* ---- damage ---- */

static int64_t far_out(void) {
    static const int64_t values[] = {1000001, -1000001, INT32_MAX, INT32_MIN, 1 << 24};
    return below(4) ? values[below(5)] : (int64_t)any_bits();
}

/* Another number of ports, which may be too few. */
static void damage_ports(struct question *q) {
    static const size_t sizes[] = {0, 3, 5, 511, 513, 516, PORTS_ROOM};
    if (below(2))
        q->port_bytes = 4 * below((uint32_t)records_of(q) + 1);
    else
        q->port_bytes = below(2) ? sizes[below(7)] : below(PORTS_ROOM + 1);
}

static void damage_size(struct question *q) {
    static const size_t sizes[] = {0, 15, 17, 1023, 1025, 1040, JOB_ROOM};
    if (takes_slots(q->call) && below(3))
        damage_ports(q);
    else
        q->job_bytes = below(2) ? sizes[below(7)] : below(JOB_ROOM + 1);
}

/* Of a square that is too large, or only another; some with the right one in their last bits. */
static int64_t other_half(const struct question *q, size_t i) {
    switch (below(4)) {
    case 0: return MOST_HALF + below(2);
    case 1: return get_half(q->job, i) + (below(2) ? 1 : 1u << (8 + below(8)));
    case 2: return below(12);
    default: return below(2) ? 1u << below(16) : below(65536);
    }
}

static void damage_field(struct question *q) {
    size_t i = any_record(q);
    switch (below(9)) {
    case 0: put_half(q->job, i, other_half(q, i)); break;
    case 1: put_x(q->job, i, below(2) ? 0 : far_out()); break;
    case 2: put_y(q->job, i, far_out()); break;
    case 3: put_port(q->job, i, far_out()); break;
    case 4: q->job[16 * i + below(16)] = (uint8_t)below(256); break;
    case 5: q->job[16 * i + below(16)] ^= (uint8_t)(1 << below(8)); break;
    case 6: set_port(q, any_port(q), far_out()); break;
    case 7: put_name(q->job, i, 0); break;
    default: put_number(q->job + 16 * i, 4, any_bits());
    }
}

static void damage_against_another(struct question *q) {
    size_t i = any_record(q), j = any_record(q), one = any_port(q), other = any_port(q);
    int64_t port = port_of(q, one);
    switch (below(6)) {
    case 0: put_name(q->job, i, get_name(q->job, j)); break;
    case 1: put_x(q->job, i, get_x(q->job, j)); break;
    case 2: set_port(q, one, port_of(q, other) - below(2)); break;
    case 3: put_y(q->job, i, port); break;
    case 4: set_port(q, one, port_of(q, one - (one > 0)) + 6 + below(4)); break;
    default:
        set_port(q, one, port_of(q, other));
        set_port(q, other, port);
    }
}

static void damage_entries(struct question *q) {
    size_t i = any_record(q), j = any_record(q);
    uint16_t *list = q->list.layout, kept = list[i];
    if (q->call == DRAW) return;
    switch (below(4)) {
    case 0: list[i] = (uint16_t)(ports_of(q) + below(2)); break;
    case 1: list[i] = (uint16_t)any_bits(); break;
    case 2: list[i] = list[j]; break;
    default:
        list[i] = list[j];
        list[j] = kept;
    }
}

/* Another figure, or another length; far too long a table has the right one in its last bits. */
static void damage_table(struct question *q) {
    size_t n = records_of(q), right = n * n;
    switch (below(7)) {
    case 0: q->figures = right - (right > 0); break;
    case 1: q->figures = right + 1; break;
    case 2: q->figures = below(2) ? n : (n + 1) * (n + 1); break;
    case 3: q->figures = below(TABLE_ROOM + 1); break;
    case 4: q->figures = right + ((size_t)1 << (16 + below(48))); break;
    default: q->table[below((uint32_t)right + (right == 0))] = below(2) ? any_bits() : below(3);
    }
}

/* A work list, or a buffer: one number too few, any length up to that, just enough, more. */
static void damage_work(struct question *q) {
    lend_work(q, 0);
    size_t enough = q->numbers, others[] = {enough - 1, 0, below((uint32_t)enough), enough};
    q->numbers = below(5) ? others[below(4)] : enough + below(9);
}

/* One byte too few for its text, just enough, or any number. */
static void damage_text(struct question *q) {
    size_t length = text_length(q), enough = length < TEXT_ROOM ? length : TEXT_ROOM;
    size_t others[] = {enough - (enough > 0), enough, 0, below((uint32_t)enough + 1)};
    q->text_bytes = below(5) ? others[below(4)] : below(TEXT_ROOM + 1);
}

/*
 * The numbers, or the table or the text that a call has in their place; or what it works in; or the
 * place.
 */
static void damage_numbers(struct question *q) {
    if (q->call == SVG) {
        damage_text(q);
        return;
    }
    if (takes_table(q->call)) {
        damage_table(q);
        return;
    }
    if ((takes_work(q->call) || takes_buffer(q->call)) && below(2)) {
        damage_work(q);
        return;
    }
    if (q->call == PLACE && below(2)) {
        q->place = any_number();
        return;
    }
    uint32_t *number = below(2) ? &q->a : &q->b;
    uint32_t least = q->call == DRAW ? (uint32_t)records_of(q) : 1001;
    *number = below(2) ? least : below(2) ? UINT32_MAX : any_bits();
}

/* One byte too few for its pads, or any number. */
static void damage_room(struct question *q) {
    size_t less = q->text_bytes / 16 * 16;
    q->text_bytes = less == 0 || below(4) == 0 ? below(TEXT_ROOM + 1) : below(2) ? less - 1 : less;
}

static void damage_read(struct question *q) {
    if (below(8) == 0)
        damage_room(q);
    else
        damage_csv(q->csv);
}

void damage(struct question *q) {
    if (q->call == READ_CSV) {
        damage_read(q);
        return;
    }
    switch (below(12)) {
    case 0: damage_size(q); break;
    case 1: q->count = below((uint32_t)q->count + 1); break;
    case 2: damage_numbers(q); break;
    case 3:
    case 4:
    case 5: damage_field(q); break;
    case 6:
    case 7:
    case 8: damage_against_another(q); break;
    default: damage_entries(q);
    }
}

/* ---- the report ---- */

void report_refusals(const char *title, enum call call, const long *came) {
    printf("%-12s %ld accepted, refused", title, came[0] + came[ENDS]);
    for (const int *number = refusals_of[call]; *number != 0; number++) {
        printf(" %d: %ld", *number, came[*number]);
        check(came[*number] > 0, NULL, "a refusal that never came");
        if (*number == 9) {
            printf(" with record 0 and %ld with another", came[OTHER_PAIR]);
            check(came[OTHER_PAIR] > 0, NULL, "9 never named another earlier record than 0");
        }
        printf(number[1] ? "," : "\n");
    }
}
