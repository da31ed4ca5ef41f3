/*
 * svg [COUNT [SEED]]: Svg's text beside another writer, libc's, and beside Draw, read back.
 * Every number that a text can have, in every place that it can have, and numbers beyond these;
 * boards of 1 to 64 pads of every kind, best sheets and others, squares among them; rooms of no
 * byte, of one too few, just enough and more, the largest text among them, and rooms of more than
 * 32 bits; each byte of a job and each entry of a layout changed, where Svg refuses what Measure
 * refuses with weights 0, 0. With a COUNT below 300 about a tenth of the numbers are tried.
 */
#include <stdio.h>
#include <stdlib.h>
#include <string.h>

#include "boards.h"
#include "cheremysl.h"
#include "questions.h"
#include "trial.h"

#define PADS CHEREMYSL_MAX_RECORDS
#define MOST CHEREMYSL_MAX_HEIGHT /* up and down; x goes as far */
#define LONGEST 76                /* bytes of a line */

static long texts_read, straight_lines, bent_lines, best_sheets, other_sheets;
static size_t longest_text;

/* ---- the other writer ---- */

/*
 * Heights and x are whole numbers of up to 1,000,000 job units, quarters of a canvas unit: these
 * 2,000,001 are all numbers that a text can have. Each as libc writes it with two places, without
 * the zeros at its end.
 */
static char numbers[2 * MOST + 1][12];

static void write_number(char *to, int quarters) {
    size_t end = (size_t)sprintf(to, "%.2f", quarters / 4.0);
    while (to[end - 1] == '0') end--;
    if (to[end - 1] == '.') end--;
    to[end] = 0;
}

static void write_numbers(void) {
    for (int v = -MOST; v <= MOST; v++) write_number(numbers[v + MOST], v);
    check(strcmp(numbers[MOST], "0") == 0 && strcmp(numbers[MOST - 1], "-0.25") == 0, NULL, "libc");
}

static char *put_word(char *to, const char *word) {
    size_t bytes = strlen(word);
    memcpy(to, word, bytes);
    return to + bytes;
}

/* y grows downward. */
static char *put_point(char *to, const char *before, int64_t x, int64_t y) {
    to = put_word(put_word(to, before), numbers[MOST + x]);
    return put_word(put_word(to, ","), numbers[MOST - y]);
}

static char *put_line(char *to, const struct question *q, size_t i) {
    int64_t x = get_x(q->job, i), y = get_y(q->job, i), port = port_of(q, q->list.layout[i]);
    to = put_point(to, "<polyline points=\"", x, y);
    if (y != port) to = put_point(to, " ", x, port);
    return put_word(put_point(to, " ", 0, port), "\"/>\n");
}

/* The text of an accepted job and layout; how many bytes. */
static size_t write_text(const struct question *q, char *text) {
    char *to = text;
    for (size_t i = 0; i < records_of(q); i++) to = put_line(to, q, i);
    return (size_t)(to - text);
}

/* ---- replies ---- */

/* Measure's refusal with weights 0, 0; or 19; or the text. */
static struct reply written(const struct question *q) {
    static struct question m;
    m = *q;
    m.call = MEASURE;
    m.a = m.b = 0;
    int64_t answer = call_library(&m);
    if (answer < 0) return keeps(q, answer);
    char text[PADS * LONGEST];
    size_t bytes = write_text(q, text);
    if (bytes > q->text_bytes) return keeps(q, refused(19, 0));
    struct reply r = keeps(q, (int64_t)bytes);
    memcpy(r.text, text, bytes);
    return r;
}

/* ---- reading back ---- */

/* Digits, the first no zero unless it is alone; after a point some more, the last no zero; no -0. */
static bool is_written_well(const char *at, const char *end) {
    bool minus = *at == '-';
    const char *first = at + minus, *last = first;
    while (last < end && *last >= '0' && *last <= '9') last++;
    if (last == first || (*first == '0' && last > first + 1)) return false;
    if (last == end) return !(minus && *first == '0');
    if (*last != '.' || last + 1 == end || end[-1] == '0') return false;
    for (last++; last < end; last++)
        if (*last < '0' || *last > '9') return false;
    return true;
}

/* Passes over a word that must be here. */
static bool pass_word(const char **at, const char *word) {
    size_t bytes = strlen(word);
    bool here = strncmp(*at, word, bytes) == 0;
    *at += here ? bytes : 0;
    return here;
}

/* Passes over a number, and holds it to a float, bit by bit. */
static bool pass_number(const char **at, float wanted) {
    char *end;
    float number = strtof(*at, &end);
    bool ok = is_written_well(*at, end) && memcmp(&number, &wanted, sizeof number) == 0;
    *at = end;
    return ok;
}

/* Passes over a line: Draw's points, and no others. */
static bool pass_line(const char **at, const struct question *q, uint32_t i) {
    float points[CHEREMYSL_DRAW_FLOATS];
    int64_t count = cheremysl_draw(q->job, q->job_bytes, i, q->list.layout[i], points,
                                   CHEREMYSL_DRAW_FLOATS);
    bool ok = pass_word(at, "<polyline points=\"");
    for (int64_t k = 0; ok && k < count; k++)
        ok = (k == 0 || pass_word(at, " ")) && pass_number(at, points[2 * k]) &&
             pass_word(at, ",") && pass_number(at, points[2 * k + 1]);
    *(count == 2 ? &straight_lines : &bent_lines) += 1;
    return ok && pass_word(at, "\"/>\n");
}

static void read_back(const struct question *q, const struct reply *r) {
    char text[TEXT_ROOM + 1];
    const char *at = text;
    bool ok = true;
    memcpy(text, r->text, (size_t)r->answer);
    text[r->answer] = 0;
    for (uint32_t i = 0; ok && i < records_of(q); i++) ok = pass_line(&at, q, i);
    check(ok && at == text + r->answer, q, "read back it is another");
    check((size_t)r->answer <= LONGEST * records_of(q), q, "a text that is too long");
    if ((size_t)r->answer > longest_text) longest_text = (size_t)r->answer;
    texts_read++;
}

/* ---- rooms ---- */

/* None, one byte too few, just enough, one more, for every sheet enough, all: with any content. */
static void in_rooms(struct question *q) {
    lend_text(q, CHEREMYSL_MAX_SVG_BYTES);
    struct reply r = written(q);
    check(r.answer >= 0, q, "this should pass");
    if (r.answer < 0) return;
    read_back(q, &r);
    size_t bytes = (size_t)r.answer;
    size_t rooms[] = {0, bytes - 1, bytes, bytes + 1, CHEREMYSL_MAX_SVG_BYTES, TEXT_ROOM};
    for (size_t k = 0; k < sizeof rooms / sizeof *rooms; k++) {
        lend_text(q, rooms[k]);
        if (!expect(q, written(q))) return;
    }
}

/* ---- every number ---- */

/*
 * The heights from one on, 8 apart, as ports of one job: each pad at its port's height or so far
 * above it, which touches no other leader. x goes on from job to job.
 */
static bool heights_from(int from, int above) {
    static struct question q;
    static int64_t x;
    char text[PADS * LONGEST], expected[PADS * LONGEST];
    size_t n = 0;
    for (int h = from; h <= MOST && n < PADS; h += 8, x++, n++) {
        put_record(q.job, n, 1 + (int64_t)n, 1 + x % MOST, h + above <= MOST ? h + above : h, h);
        q.list.layout[n] = (uint16_t)n;
    }
    q.job_bytes = 16 * n;
    size_t bytes = write_text(&q, expected);
    int64_t answer = cheremysl_svg(q.job, q.job_bytes, q.list.layout, n, text, bytes);
    return check(answer == (int64_t)bytes && memcmp(text, expected, bytes) == 0, &q,
                 "a number is written otherwise");
}

/* Every height as that of a port and of a pad, straight and bent, and with these every x. */
static void every_number(int blocks) {
    int block = 8 * PADS, left = 0;
    for (int from = -MOST; from <= MOST; from += block, left = left > 0 ? left - 1 : blocks - 1)
        for (int k = 0; k < 16 && left == 0; k++)
            if (from + k / 2 <= MOST && !heights_from(from + k / 2, k % 2)) return;
}

/*
 * Every quarter number up to four times as far out as a sheet goes, as a pad's height on a board of
 * its own: written like the other writer's, or beyond the largest height refused by 4.
 */
static void every_quarter(int step) {
    static struct question q;
    char text[LONGEST], expected[LONGEST];
    for (int v = -4000004; v <= 4000004; v += step) {
        bool inside = v >= -MOST && v <= MOST;
        put_record(q.job, 0, 1, 1, v, 0);
        q.job_bytes = 16;
        int64_t bytes = inside ? (int64_t)write_text(&q, expected) : refused(4, 0);
        int64_t answer = cheremysl_svg(q.job, 16, q.list.layout, 1, text, sizeof text);
        bool ok = answer == bytes && (!inside || memcmp(text, expected, (size_t)bytes) == 0);
        if (!ok) {
            check(false, &q, "a quarter number is written otherwise");
            return;
        }
    }
    check(true, NULL, "every quarter number");
}

/* ---- boards ---- */

static void any_sheet(struct question *q, size_t n, enum board kind) {
    memset(q, 0, sizeof *q);
    q->call = SVG;
    q->job_bytes = 16 * n;
    q->count = n + below(3);
    make_board(q->job, n, kind);
    for (size_t k = 0; k < LIST_ROOM; k++) q->list.layout[k] = (uint16_t)below(65536);
    struct plan plan = plan_of(q);
    any_squares(q->job, &plan);
}

/* First's sheet, and some that follow. */
static void best_ones(struct question *q) {
    static struct question step;
    step = *q;
    any_weights(&step.a, &step.b);
    step.call = FIRST;
    if (FIRST >= CALLS || call_library(&step) < 0) return;
    for (int k = 0; k < 3; k++) {
        q->list = step.list;
        in_rooms(q);
        best_sheets++;
        step.call = NEXT;
        if (call_library(&step) < 0) break;
    }
}

static void one_board(size_t n, enum board kind) {
    static struct question q;
    any_sheet(&q, n, kind);
    struct plan plan = plan_of(&q);
    best_ones(&q);
    for (int k = 0; k < 3; k++) {
        if (!any_untouching(&plan, q.list.layout)) continue;
        in_rooms(&q);
        other_sheets++;
    }
}

/* ---- the largest text ---- */

/* Each line has 76 bytes: x and heights odd, far out, on the canvas all heights below 0. */
static void largest(size_t n) {
    static struct question q;
    any_sheet(&q, n, STRAIGHT);
    for (size_t i = 0; i < n; i++) {
        int64_t port = 999000 + 8 * (int64_t)i + 1;
        put_record(q.job, i, 1 + (int64_t)i, MOST - 1 - 2 * (int64_t)i, port - 2, port);
        q.list.layout[i] = (uint16_t)i;
    }
    in_rooms(&q);
    lend_text(&q, CHEREMYSL_SVG_BYTES(n) - 1);
    expect(&q, keeps(&q, refused(19, 0)));
    lend_text(&q, CHEREMYSL_SVG_BYTES(n));
    struct reply r = written(&q);
    check(r.answer == LONGEST * (int64_t)n, &q, "not the largest text");
    expect(&q, r);
}

/* ---- rooms of more than 32 bits ---- */

static void wide_rooms(void) {
    static struct question q;
    static const uint64_t wide[] = {0x7FFFFFFF, 0x80000000, 0xFFFFFFFF, 0x100000000, 0x100000001};
    char *memory = guard_wide();
    if (!check(memory != NULL, NULL, "4 GiB of addresses")) return;
    any_sheet(&q, 3, STRAIGHT);
    for (size_t i = 0; i < 3; i++) put_half(q.job, i, 0);
    lend_text(&q, TEXT_ROOM);
    struct plan plan = plan_of(&q);
    any_untouching(&plan, q.list.layout);
    struct reply r = written(&q);
    check(r.answer > 0, &q, "points have a sheet");
    for (size_t k = 0; k < sizeof wide / sizeof *wide; k++) {
        memcpy(memory, q.text, sizeof q.text);
        int64_t answer = cheremysl_svg(q.job, q.job_bytes, q.list.layout, q.count, memory, wide[k]);
        check(answer == r.answer && memcmp(memory, r.text, sizeof r.text) == 0, &q, "a wide room");
    }
}

/* ---- refusals, beside Measure's ---- */

static long came[OUTCOMES];

static void refused_alike(const struct question *q) {
    struct reply r = written(q);
    came[outcome_of(r.answer)]++;
    expect(q, r);
}

/* Each byte of the job with each of its bits changed, and as 0, 127, 128 and 255. */
static void each_byte(const struct question *sound) {
    static const uint8_t others[] = {0, 127, 128, 255};
    static struct question q;
    for (size_t k = 0; k < 12 * sound->job_bytes; k++) {
        q = *sound;
        uint8_t *byte = q.job + k / 12;
        *byte = k % 12 < 8 ? *byte ^ (uint8_t)(1 << k % 12) : others[k % 12 - 8];
        refused_alike(&q);
    }
}

/* Each entry of the layout with each port's number, and the first that is none; each length. */
static void each_entry(const struct question *sound) {
    static struct question q;
    size_t n = records_of(sound);
    q = *sound;
    for (size_t k = 0; k < n * (n + 1); k++) {
        q.list = sound->list;
        q.list.layout[k / (n + 1)] = (uint16_t)(k % (n + 1));
        refused_alike(&q);
    }
    q.list = sound->list;
    for (q.count = 0; q.count <= n; q.count++) refused_alike(&q);
    q.count = n;
    for (q.job_bytes = 0; q.job_bytes <= 16 * n; q.job_bytes++) refused_alike(&q);
}

static void changed(size_t n) {
    static struct question q;
    any_sheet(&q, n, below(BOARDS));
    struct plan plan = plan_of(&q);
    if (!any_untouching(&plan, q.list.layout)) return;
    lend_text(&q, any_text_room(&q));
    each_byte(&q);
    each_entry(&q);
}

static void damaged(void) {
    static struct question q;
    sound_question(&q, SVG);
    for (uint32_t times = below(4); times > 0; times--) damage(&q);
    refused_alike(&q);
}

int main(int argc, char **argv) {
    long count = argc > 1 ? atol(argv[1]) : 300;
    seed_random(argc > 2 ? strtoull(argv[2], NULL, 10) : 1);
    begin();
    write_numbers();
    every_number(count < 300 ? 10 : 1);
    every_quarter(count < 300 ? 11 : 1);
    for (size_t n = 1; n <= PADS; n++) one_board(n, (enum board)(n % BOARDS));
    for (long k = 0; k < count; k++) one_board(1 + below(PADS), (enum board)(k % BOARDS));
    for (size_t n = 1; n <= PADS; n++) largest(n);
    wide_rooms();
    for (long k = 0; k < count / 10; k++) changed(1 + (size_t)k % 5);
    for (long k = 0; k < 100 * count; k++) damaged();
    report_refusals("Svg", SVG, came);
    printf("%ld texts read back, %ld lines straight, %ld bent; %ld sheets best, %ld others\n",
           texts_read, straight_lines, bent_lines, best_sheets, other_sheets);
    check(longest_text == CHEREMYSL_MAX_SVG_BYTES, NULL, "another largest text");
    check(straight_lines > 0 && bent_lines > 0 && other_sheets > 0, NULL, "no such sheets");
    check(best_sheets > 0 || FIRST >= CALLS, NULL, "no best sheets");
    return done();
}
