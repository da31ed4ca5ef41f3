#define _DEFAULT_SOURCE
#include "trial.h"

#include <inttypes.h>
#include <signal.h>
#include <stdio.h>
#include <stdlib.h>
#include <string.h>
#include <unistd.h>

#include "boards.h"
#include "cheremysl.h"
#include "ranked.h"

#define FAILURES_SHOWN 5

const int *const refusals_of[] = {
    [MEASURE] = measure_checks, [TABLE_MEASURE] = table_measure_checks,
    [FIRST] = first_checks,     [TABLE_FIRST] = table_first_checks,
    [NEXT] = next_checks,       [TABLE_NEXT] = table_next_checks,
    [PAGE] = next_checks,       [SLOTS_MEASURE] = slots_measure_checks,
    [DRAW] = draw_checks,       [SLOTS_FIRST] = slots_first_checks,
    [SLOTS_NEXT] = slots_next_checks, [COUNT] = count_checks,
    [PLACE] = place_checks,     [SVG] = svg_checks,
    [READ_CSV] = csv_checks,
};
const char *const call_names[] = {
    [MEASURE] = "Measure", [TABLE_MEASURE] = "TableMeasure", [SLOTS_MEASURE] = "SlotsMeasure",
    [FIRST] = "First",     [TABLE_FIRST] = "TableFirst",     [SLOTS_FIRST] = "SlotsFirst",
    [NEXT] = "Next",       [TABLE_NEXT] = "TableNext",       [SLOTS_NEXT] = "SlotsNext",
    [PAGE] = "Page",       [DRAW] = "Draw",                  [COUNT] = "Count",
    [PLACE] = "Place",     [SVG] = "Svg",                    [READ_CSV] = "ReadCsv",
};

/* ---- counting ---- */

static long passed, failed;
static const struct question *asked; /* for the report of a crash */

static void show_entries(const uint16_t *list, size_t count) {
    for (size_t k = 0; k < count; k++) printf(" %u", (unsigned)list[k]);
    printf("\n");
}

static void show_floats(const float *list, size_t count) {
    for (size_t k = 0; k < count; k++) {
        uint32_t bits;
        memcpy(&bits, list + k, sizeof bits);
        printf(" %08" PRIx32, bits);
    }
    printf("\n");
}

/* Bytes that are in no text as they are: a caller's own. */
static void show_text(const char *text, size_t bytes) {
    printf("  text of %zu:\n", bytes);
    for (size_t k = 0; k < bytes; k++) {
        bool usual = text[k] == '\n' || (text[k] >= ' ' && text[k] <= '~');
        printf(usual ? "%c" : "\\%02x", (unsigned char)text[k]);
    }
    printf("\n");
}

static bool fills_text(enum call call) { return call == SVG || call == READ_CSV; }

static void show_lists(const struct question *q, const union list *list, const uint16_t *page,
                       const char *text) {
    if (q->call == COUNT) {
        printf("no list\n");
        return;
    }
    printf("list of %zu:", q->count);
    if (q->call == DRAW)
        show_floats(list->points, q->count);
    else
        show_entries(list->layout, q->count);
    if (fills_text(q->call)) show_text(text, q->text_bytes);
    if (q->call != PAGE) return;
    printf("  page of %zu:", q->page_entries);
    show_entries(page, q->page_entries);
}

static void show_table(const struct question *q) {
    size_t n = records_of(q);
    printf("table of %zu:", q->figures);
    for (size_t k = 0; k < q->figures && q->figures <= TABLE_ROOM; k++)
        printf("%s%" PRIu32, k == 0 || k % (n + (n == 0)) == 0 ? "\n    " : " ", q->table[k]);
    printf("\n  ");
}

static void show_bytes(const char *what, const uint8_t *bytes, size_t count) {
    printf("%s of %zu bytes:", what, count);
    for (size_t k = 0; k < count; k++)
        printf("%s%02x", k % 16 == 0 ? "\n    " : k % 4 == 0 ? " " : "", (unsigned)bytes[k]);
    printf("\n  ");
}

static const char *content_name(void);

static void show(const struct question *q) {
    printf("  %s, numbers %" PRIu32 " %" PRIu32 ", ", call_names[q->call], q->a, q->b);
    show_bytes("job", q->job, q->job_bytes);
    if (q->call == READ_CSV) show_text((const char *)q->csv->text, q->csv->bytes);
    if (takes_table(q->call)) show_table(q);
    if (takes_slots(q->call)) show_bytes("ports", q->ports, q->port_bytes);
    if (takes_work(q->call)) printf("work list of %zu, %s, ", q->numbers, content_name());
    if (takes_buffer(q->call)) printf("buffer of %zu, %s, ", q->numbers, content_name());
    if (q->call == PLACE) printf("place %" PRIu64 ", ", q->place);
    show_lists(q, &q->list, q->page, q->text);
}

bool check(bool ok, const struct question *q, const char *what) {
    if (ok) {
        passed++;
        return true;
    }
    if (failed++ < FAILURES_SHOWN) {
        printf("FAILED: %s\n", what);
        if (q != NULL) show(q);
    }
    return false;
}

int done(void) {
    printf("%ld passed, %ld failed\n", passed, failed);
    return failed != 0;
}

static void crashed(int number) {
    printf("CRASHED: signal %d\n", number);
    if (asked != NULL) show(asked);
    printf("%ld passed, %ld failed\n", passed, failed + 1);
    fflush(stdout);
    _exit(1);
}

void begin(void) {
    signal(SIGSEGV, crashed);
    signal(SIGBUS, crashed);
}

/* ---- questions ---- */

/* Measure, First and Next: by weights, by a table, on slots. */
static const enum call families[3][3] = {{MEASURE, FIRST, NEXT},
                                         {TABLE_MEASURE, TABLE_FIRST, TABLE_NEXT},
                                         {SLOTS_MEASURE, SLOTS_FIRST, SLOTS_NEXT}};

/* Which of the three it is; 3 if none. */
static int kind_of(enum call call) {
    for (int k = 0; k < 9; k++)
        if (families[k / 3][k % 3] == call) return k % 3;
    return 3;
}

static bool measures(enum call call) { return kind_of(call) == 0; }

bool gives_first(enum call call) { return kind_of(call) == 1; }
bool can_end(enum call call) { return kind_of(call) == 2; }
bool takes_best(enum call call) { return can_end(call) || call == PAGE; }
bool takes_layout(enum call call) { return measures(call) || takes_best(call) || call == SVG; }

static bool in_family(int family, enum call call) {
    int kind = kind_of(call);
    return kind < 3 && families[family][kind] == call;
}

bool takes_table(enum call call) { return in_family(1, call); }
bool takes_slots(enum call call) { return in_family(2, call); }
bool takes_work(enum call call) { return takes_slots(call) && !measures(call); }
bool takes_buffer(enum call call) { return call == COUNT || call == PLACE; }

bool takes_weights(enum call call) {
    return call != DRAW && !fills_text(call) && !takes_table(call);
}

static enum call turned(enum call call, int family) {
    int kind = kind_of(call);
    if (kind == 3) abort();
    return families[family][kind];
}

void turn_to(struct question *q, enum call call) {
    q->call = turned(call, takes_table(q->call) ? 1 : takes_slots(q->call) ? 2 : 0);
}

static size_t lend_figures(struct question *q, uint32_t *table) {
    size_t n = records_of(q);
    q->table = table;
    q->figures = n * n;
    return n;
}

void lend_table(struct question *q, uint32_t *table, enum figures kind) {
    make_table(table, q->job, lend_figures(q, table), kind);
}

void lend_weights(struct question *q, uint32_t *table, uint32_t length_weight,
                  uint32_t bend_weight) {
    weigh(table, q->job, lend_figures(q, table), length_weight, bend_weight);
}

struct question by_table(const struct question *q, uint32_t *table) {
    struct question tabled = *q;
    tabled.call = turned(q->call, 1);
    lend_weights(&tabled, table, q->a, q->b);
    return tabled;
}

void lend_work(struct question *q, size_t more) {
    size_t n = records_of(q), p = ports_of(q);
    size_t rows = takes_buffer(q->call) ? n + 2 : (n + 1) * (p + 2);
    q->numbers = 2 * rows * (p + 2) + more;
}

struct question by_slots(const struct question *q) {
    struct question apart = *q;
    apart.call = turned(q->call, 2);
    apart.port_bytes = 4 * records_of(q);
    for (size_t i = 0; i < records_of(q); i++) {
        set_port(&apart, i, port_of(q, i));
        put_port(apart.job, i, 0);
    }
    lend_work(&apart, 0);
    return apart;
}

void lend_page(struct question *q, size_t entries) {
    size_t from = below(65536);
    q->page_entries = entries;
    for (size_t k = 0; k < PAGE_ROOM; k++) q->page[k] = (uint16_t)(from + 40503 * k);
}

void lend_text(struct question *q, size_t bytes) {
    size_t from = below(256);
    q->text_bytes = bytes;
    for (size_t k = 0; k < TEXT_ROOM; k++) q->text[k] = (char)(uint8_t)(from + 157 * k);
}

size_t text_length(const struct question *q) {
    static char text[PLAIN_TEXT];
    struct given g = given_of(q);
    return plain_text(&g, text);
}

size_t records_of(const struct question *q) { return q->job_bytes / 16; }

size_t ports_of(const struct question *q) {
    return takes_slots(q->call) ? q->port_bytes / 4 : records_of(q);
}

struct plan plan_of(const struct question *q) {
    size_t n = records_of(q);
    return takes_slots(q->call) ? plan_of_slots(q->job, n, q->ports, ports_of(q))
                                : plan_of_job(q->job, n);
}

int64_t port_of(const struct question *q, size_t i) {
    struct plan plan = plan_of(q);
    return get_height(&plan, i);
}

void set_port(struct question *q, size_t i, int64_t height) {
    if (takes_slots(q->call))
        put_height(q->ports, i, height);
    else
        put_port(q->job, i, height);
}

struct given given_of(const struct question *q) {
    bool draw = q->call == DRAW, by_table = takes_table(q->call);
    struct given g = {.job = q->job, .job_bytes = q->job_bytes, .layout = q->list.layout,
                      .entries = q->count, .floats = q->count, .draw = draw,
                      .table = q->table, .figures = q->figures, .by_table = by_table,
                      .ports = q->ports, .port_bytes = q->port_bytes, .numbers = q->numbers,
                      .slots = takes_slots(q->call), .place = q->place,
                      .text_bytes = q->text_bytes};
    if (draw) {
        g.record = q->a;
        g.port = q->b;
    } else if (takes_weights(q->call)) {
        g.length_weight = q->a;
        g.bend_weight = q->b;
    }
    return g;
}

/* ---- replies ---- */

int64_t refused(int number, int record) { return -(65536 * (int64_t)number + record); }
int64_t refused_pair(int record, int earlier) { return refused(9, record) - 4294967296 * earlier; }

int outcome_of(int64_t answer) {
    if (cheremysl_is_end(answer)) return ENDS;
    return cheremysl_refusal_earlier(answer) > 0 ? OTHER_PAIR : cheremysl_refusal_number(answer);
}

struct reply keeps(const struct question *q, int64_t answer) {
    struct reply r;
    r.answer = answer;
    r.list = q->list;
    memcpy(r.page, q->page, sizeof r.page);
    memcpy(r.text, q->text, sizeof r.text);
    return r;
}

struct reply gives(const struct question *q, int64_t answer, const uint16_t *layout) {
    struct reply r = keeps(q, answer);
    memcpy(r.list.layout, layout, records_of(q) * sizeof *layout);
    return r;
}

struct reply fills(const struct question *q, const uint16_t *layouts, size_t apart, size_t count) {
    struct reply r = keeps(q, 0);
    size_t n = records_of(q);
    for (size_t at = 0; (size_t)r.answer < count && at + n <= q->page_entries; at += n, r.answer++)
        memcpy(r.page + at, layouts + apart * (size_t)r.answer, n * sizeof *r.page);
    return r;
}

struct reply stepped(const struct question *q) {
    struct question step = *q;
    struct reply r = keeps(q, 0);
    size_t n = records_of(q), at = 0;
    int64_t answer;
    step.call = NEXT;
    for (; (answer = call_library(&step)) >= 0 && at + n <= q->page_entries; at += n, r.answer++)
        memcpy(r.page + at, step.list.layout, n * sizeof *r.page);
    if (answer < -1) r.answer = answer;
    return r;
}

/* Count's or Place's where all trials before 15 were passed. */
static struct reply ranked_reply(const struct question *q, const struct given *g) {
    struct reply r = keeps(q, 0);
    rank_job(g);
    uint64_t count = ranked_count();
    bool place = q->call == PLACE;
    if (count == 0) return keeps(q, refused(15, 0));
    if (plain_fault(g, 18) >= 0) return keeps(q, refused(18, 0));
    if (count > PLAIN_LIMIT) return keeps(q, refused(16, 0));
    if (place && q->place >= count) return keeps(q, refused(17, 0));
    r.answer = place ? ranked_total() : (int64_t)count;
    if (place) ranked_sheet(q->place, r.list.layout);
    return r;
}

struct reply plain_reply(const struct question *q) {
    struct reply r = keeps(q, 0);
    struct given g = given_of(q);
    if (measures(q->call)) r.answer = plain_measure(&g);
    if (q->call == DRAW) r.answer = plain_draw(&g, r.list.points);
    if (gives_first(q->call)) r.answer = plain_first(&g, r.list.layout);
    if (can_end(q->call)) r.answer = plain_next(&g, r.list.layout);
    if (q->call == PAGE) r.answer = plain_page(&g, r.page, q->page_entries);
    if (q->call == COUNT) r.answer = plain_count(&g);
    if (q->call == PLACE) r.answer = plain_place(&g, r.list.layout);
    if (q->call == SVG) r.answer = plain_svg(&g, r.text);
    if (q->call == READ_CSV)
        r.answer = plain_read_csv(q->csv, (uint8_t *)r.text, q->text_bytes);
    bool unknown = takes_buffer(q->call) && r.answer == PLAIN_UNKNOWN;
    return unknown ? ranked_reply(q, &g) : r;
}

int fault_of(const struct question *q, int number) {
    struct given g = given_of(q);
    return plain_fault(&g, number);
}

int earlier_of(const struct question *q, int record) {
    struct given g = given_of(q);
    return plain_earlier(&g, (size_t)record);
}

/* Count has no list. */
static size_t bytes_of(const struct question *q) {
    if (q->call == COUNT) return 0;
    return q->count * (q->call == DRAW ? sizeof(float) : sizeof(uint16_t));
}

/* Other calls have no page. */
static size_t page_bytes_of(const struct question *q) {
    return q->call == PAGE ? q->page_entries * sizeof *q->page : 0;
}

static size_t text_bytes_of(const struct question *q) {
    return fills_text(q->call) ? q->text_bytes : 0;
}

/* More figures than there is room for are lent with no memory behind them. */
static size_t table_bytes_of(const struct question *q) {
    return q->figures <= TABLE_ROOM ? q->figures * sizeof *q->table : 0;
}

/* ---- the work list, and the buffer ---- */

/* What it holds when it is lent: in turn, what the last call left, zeros, ones, any numbers. */
enum content { LEFT, ALL_ZEROS, ALL_ONES, ANY_NUMBERS, CONTENTS };
static enum content content;
static uint64_t held[WORK_ROOM], after[WORK_ROOM]; /* when it is lent; when a call refused */

static const char *content_name(void) {
    static const char *const names[] = {"as a call left it", "zeros", "ones", "any numbers"};
    return names[content];
}

static uint64_t any_number(void) {
    uint64_t bits = (uint64_t)any_bits() << 32 | any_bits();
    return bits >> below(64);
}

/* From some number on they come again. */
static void change_held(size_t bytes) {
    size_t again = 61;
    content = (content + 1) % CONTENTS;
    if (content == ALL_ZEROS) memset(held, 0, bytes);
    if (content == ALL_ONES) memset(held, 255, bytes);
    if (content != ANY_NUMBERS) return;
    for (size_t k = 0; k < bytes / sizeof *held; k++)
        held[k] = k < again ? any_number() : held[k - again];
}

/* Sizes of memory for it, each twice the one before. */
#define SMALL_WORK ((size_t)4400) /* bytes; the largest has room for WORK_ROOM numbers */
#define WORK_SIZES 13

static bool takes_numbers(enum call call) { return takes_work(call) || takes_buffer(call); }

/* More numbers than there is room for are lent with no memory behind them. */
static size_t work_bytes_of(const struct question *q) {
    return takes_numbers(q->call) && q->numbers <= WORK_ROOM ? q->numbers * sizeof *held : 0;
}

/* ---- asking the library ---- */

/* A question's job and lists, wherever they stand. */
struct lent {
    const uint8_t *job, *ports, *csv;
    const uint32_t *table;
    void *list;
    uint16_t *page;
    uint64_t *work;
    char *text;
};

static int64_t call_over(const struct question *q, struct lent at) {
    size_t bytes = q->job_bytes, figures = q->figures, count = q->count;
    switch (q->call) {
    case READ_CSV:
        return cheremysl_read_csv(at.csv, q->csv->bytes, (uint8_t *)at.text, q->text_bytes);
    case MEASURE: return cheremysl_measure(at.job, bytes, q->a, q->b, at.list, count);
    case DRAW: return cheremysl_draw(at.job, bytes, q->a, q->b, at.list, count);
    case SVG: return cheremysl_svg(at.job, bytes, at.list, count, at.text, q->text_bytes);
    case TABLE_MEASURE:
        return cheremysl_table_measure(at.job, bytes, at.table, figures, at.list, count);
    case SLOTS_MEASURE:
        return cheremysl_slots_measure(at.job, bytes, at.ports, q->port_bytes, q->a, q->b, at.list,
                                       count);
#ifndef NO_SEARCH
    case FIRST: return cheremysl_first(at.job, bytes, q->a, q->b, at.list, count);
    case NEXT: return cheremysl_next(at.job, bytes, q->a, q->b, at.list, count);
    case PAGE:
        return cheremysl_page(at.job, bytes, q->a, q->b, at.list, count, at.page, q->page_entries);
    case TABLE_FIRST:
        return cheremysl_table_first(at.job, bytes, at.table, figures, at.list, count);
    case TABLE_NEXT:
        return cheremysl_table_next(at.job, bytes, at.table, figures, at.list, count);
    case SLOTS_FIRST:
        return cheremysl_slots_first(at.job, bytes, at.ports, q->port_bytes, q->a, q->b, at.list,
                                     count, at.work, q->numbers);
    case SLOTS_NEXT:
        return cheremysl_slots_next(at.job, bytes, at.ports, q->port_bytes, q->a, q->b, at.list,
                                    count, at.work, q->numbers);
    case COUNT: return cheremysl_count(at.job, bytes, q->a, q->b, at.work, q->numbers);
    case PLACE:
        return cheremysl_place(at.job, bytes, q->a, q->b, q->place, at.list, count, at.work,
                               q->numbers);
#endif
    default: abort();
    }
}

int64_t call_library(struct question *q) {
    const uint8_t *csv = q->call == READ_CSV ? q->csv->text : NULL;
    struct lent own = {q->job, q->ports, csv, q->table, &q->list, q->page, held, q->text};
    return call_over(q, own);
}

/*
 * Job, or what ReadCsv reads; then ports or table if it takes them, weights, place, layout, page,
 * work list or text.
 */
void put_arguments(struct question *q, uint64_t *arguments) {
    bool tabled = takes_table(q->call), apart = takes_slots(q->call), reads = q->call == READ_CSV;
    bool works = apart || takes_buffer(q->call);
    *arguments++ = reads ? (uintptr_t)q->csv->text : (uintptr_t)q->job;
    *arguments++ = reads ? q->csv->bytes : q->job_bytes;
    if (tabled || apart) {
        *arguments++ = tabled ? (uintptr_t)q->table : (uintptr_t)q->ports;
        *arguments++ = tabled ? q->figures : q->port_bytes;
    }
    if (takes_weights(q->call) || q->call == DRAW) {
        *arguments++ = q->a;
        *arguments++ = q->b;
    }
    if (q->call == PLACE) *arguments++ = q->place;
    if (q->call != COUNT && !reads) {
        *arguments++ = (uintptr_t)&q->list;
        *arguments++ = q->count;
    }
    if (fills_text(q->call)) {
        *arguments++ = (uintptr_t)q->text;
        *arguments++ = q->text_bytes;
        return;
    }
    *arguments++ = works ? (uintptr_t)held : (uintptr_t)q->page;
    *arguments++ = works ? q->numbers : q->page_entries;
}

/* Can the call answer so? A refusal is one of its own; 9, and no other, names an earlier record. */
static bool can_answer(enum call call, int64_t answer) {
    int number = cheremysl_refusal_number(answer), record = cheremysl_refusal_record(answer);
    const int *own = refusals_of[call];
    if (answer >= -1) return answer >= 0 || can_end(call);
    while (*own != 0 && *own != number) own++;
    if (number != 9) return *own != 0 && answer == refused(number, record);
    int earlier = cheremysl_refusal_earlier(answer);
    return *own != 0 && earlier < record && answer == refused_pair(record, earlier);
}

static struct guarded jobs, ports, csvs, tables, read_only, writable, pages, texts;
static struct guarded works[WORK_SIZES], unwritable; /* for work lists */

static void need_memory(void) {
    if (jobs.size != 0) return;
    jobs = guard_memory(false, 1, JOB_ROOM);
    ports = guard_memory(false, 1, PORTS_ROOM);
    csvs = guard_memory(false, 1, sizeof((struct csv *)NULL)->text);
    tables = guard_memory(false, sizeof(uint32_t), TABLE_ROOM * sizeof(uint32_t));
    read_only = guard_memory(false, sizeof(uint16_t), LIST_ROOM * sizeof(uint16_t));
    writable = guard_memory(true, sizeof(float), sizeof(union list));
    pages = guard_memory(true, sizeof(uint16_t), PAGE_ROOM * sizeof(uint16_t));
    texts = guard_memory(true, 1, TEXT_ROOM);
    unwritable = guard_memory(false, sizeof(uint64_t), WORK_ROOM * sizeof(uint64_t));
}

static struct guarded *memory_of(enum call call) {
    return measures(call) || call == PAGE || call == SVG ? &read_only : &writable;
}

/* Memory of about the list's size: what stands around a list is looked at too. */
static struct guarded *work_memory(size_t bytes) {
    int k = 0;
    while (SMALL_WORK << k < bytes) k++;
    if (works[k].size == 0) works[k] = guard_memory(true, sizeof(uint64_t), SMALL_WORK << k);
    return &works[k];
}

/* A large list that must not be written is lent where that can not be, whatever it holds. */
static uint64_t *lend_held(const struct question *q, enum side side, bool spared) {
    size_t bytes = work_bytes_of(q);
    if (q->numbers > WORK_ROOM) return guard_at(&unwritable, AT_END, 0);
    if (spared) return guard_at(&unwritable, side, bytes);
    change_held(bytes);
    return guard_put(work_memory(bytes), side, held, bytes);
}

static struct lent lend(const struct question *q, enum side side, bool spared) {
    struct lent at = {NULL, NULL, NULL, NULL, NULL, NULL, NULL, NULL};
    need_memory();
    at.job = guard_put(&jobs, side, q->job, q->job_bytes);
    at.list = guard_put(memory_of(q->call), side, &q->list, bytes_of(q));
    if (takes_table(q->call)) at.table = guard_put(&tables, side, q->table, table_bytes_of(q));
    if (takes_slots(q->call)) at.ports = guard_put(&ports, side, q->ports, q->port_bytes);
    if (takes_numbers(q->call)) at.work = lend_held(q, side, spared);
    if (q->call == PAGE) at.page = guard_put(&pages, side, q->page, page_bytes_of(q));
    if (fills_text(q->call)) at.text = guard_put(&texts, side, q->text, text_bytes_of(q));
    if (q->call == READ_CSV) at.csv = guard_put(&csvs, side, q->csv->text, q->csv->bytes);
    return at;
}

/* False if what the library may only read is another than it was. */
static bool kept(struct guarded *memory, enum side side, const void *list, size_t bytes) {
    static uint8_t now[TABLE_ROOM * sizeof(uint32_t)];
    return guard_get(memory, side, now, bytes) && (bytes == 0 || memcmp(now, list, bytes) == 0);
}

/* A refusal but 10 or 15, and of a buffer but 16 or 17. */
static bool spares_work(enum call call, int64_t answer) {
    int number = cheremysl_refusal_number(answer);
    if (takes_buffer(call)) return number != 0 && number != 16 && number != 17;
    return number != 0 && number != 10 && number != 15;
}

/* False if such a refusal changed the work list, or anything was written beside it. */
static bool kept_work(const struct question *q, enum side side, int64_t answer) {
    size_t bytes = work_bytes_of(q);
    bool spares = spares_work(q->call, answer);
    if (q->numbers > WORK_ROOM) return true;
    if (!guard_get(work_memory(bytes), side, spares ? after : held, bytes)) return false;
    return !spares || memcmp(after, held, bytes) == 0;
}

static void check_kept(const struct question *q, enum side side) {
    if (!kept(&jobs, side, q->job, q->job_bytes)) check(false, q, "the job was changed");
    if (takes_table(q->call) && !kept(&tables, side, q->table, table_bytes_of(q)))
        check(false, q, "the table was changed");
    if (takes_slots(q->call) && !kept(&ports, side, q->ports, q->port_bytes))
        check(false, q, "the ports were changed");
    if (q->call == READ_CSV && !kept(&csvs, side, q->csv->text, q->csv->bytes))
        check(false, q, "the text was changed");
}

/* Spared: a work list that can not be written. */
static struct reply ask_sparing(const struct question *q, enum side side, bool spared) {
    struct reply r = keeps(q, 0);
    struct lent at = lend(q, side, spared);
    asked = q;
    r.answer = call_over(q, at);
    asked = NULL;
    if (!guard_get(memory_of(q->call), side, &r.list, bytes_of(q)) ||
        (q->call == PAGE && !guard_get(&pages, side, r.page, page_bytes_of(q))) ||
        (fills_text(q->call) && !guard_get(&texts, side, r.text, text_bytes_of(q))))
        check(false, q, "written beside the list");
    check_kept(q, side);
    if (takes_numbers(q->call) && !spared && !kept_work(q, side, r.answer))
        check(false, q, "the work list or the buffer was changed, or something beside it");
    if (!can_answer(q->call, r.answer)) check(false, q, "an answer that the call does not have");
    return r;
}

struct reply ask(const struct question *q, enum side side) { return ask_sparing(q, side, false); }

static bool same(const struct question *q, const struct reply *r, const struct reply *expected) {
    if (r->answer == expected->answer && memcmp(&r->list, &expected->list, bytes_of(q)) == 0 &&
        memcmp(r->page, expected->page, page_bytes_of(q)) == 0 &&
        memcmp(r->text, expected->text, text_bytes_of(q)) == 0)
        return true;
    if (failed < FAILURES_SHOWN) {
        printf("expected %" PRId64 ", ", expected->answer);
        show_lists(q, &expected->list, expected->page, expected->text);
        printf("answered %" PRId64 ", ", r->answer);
        show_lists(q, &r->list, r->page, r->text);
    }
    return false;
}

bool expect(const struct question *q, struct reply expected) {
    bool ok = true, large = work_bytes_of(q) > 8 * SMALL_WORK;
    for (enum side side = AT_END; side < SIDES; side++) {
        struct reply r = ask_sparing(q, side, large && spares_work(q->call, expected.answer));
        ok &= same(q, &r, &expected);
    }
    return check(ok, q, "another reply");
}

bool alike(const struct question *q) {
    static uint32_t table[TABLE_ROOM];
    struct question tabled = by_table(q, table), apart = by_slots(q);
    struct reply r = ask(q, AT_END);
    bool ok = expect(&tabled, r);
    return expect(&apart, r) && ok;
}
