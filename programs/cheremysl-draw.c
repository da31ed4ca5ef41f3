/*
 * cheremysl-draw [--any] [--area X1,Y1,X2,Y2] [--slots HEIGHTS] JOB [PORT..] >SVG: draws a sheet:
 * the label edge with port numbers and names, the pads as dots with their names, on their squares
 * where they have a half-side, and the leaders. Without ports it is First's sheet. With heights the
 * job has pads alone, and its ports are these: a strip of slots, of which some may stay free. An
 * area of the board is shaded.
 * The status is 0 if it was drawn, 1 if job or sheet is refused, 2 if it cannot be read or written.
 *
 * There is one scale for x and y, but what would come too close to be told apart is pushed on, to
 * the right or down, with all that follows. The sides of squares are pushed with the rest. So the
 * order of the heights of pads, ports and sides, and that of the x of pads and sides, stay what
 * they are, equal ones stay equal, and these orders alone decide what touches: the picture shows no
 * touching that is not there, hides none, and has room for every line, dot, name and label. An
 * area's sides are pushed on with what lies before them, so they too keep their places in these
 * orders. A polyline's data-points are those of Svg's text as they are, its points the same places
 * in pixels.
 */
#include <inttypes.h>

#include "../examples/given-sheet.h"
#include "command.h"

/* All in pixels. */
#define FONT 11.0
#define LETTER 7.2      /* the width of a digit and of most letters, in the widest usual face */
#define LINE 1.2        /* the width of a leader */
#define DOT 3.0         /* the radius of a pad's dot */
#define APART 8.0       /* least distance of two heights and of two hands; a name fits in between */
#define SIDE 5.0        /* least distance of a square's side from a line or another side */
#define LABELS 13.0     /* least distance of two ports */
#define AROUND 16.0     /* left free at the picture's borders, and between edge and pads */
#define NAME_LETTERS 40 /* letters of the file's name that are shown */

#define PORT_FIELD (CHEREMYSL_RECORD_BYTES - CHEREMYSL_PORT_BYTES) /* where a record has its port */

static char program[] = "cheremysl-draw";
static const char usage[] =
    "usage: cheremysl-draw [--any] [--area X1,Y1,X2,Y2] [--slots HEIGHTS] JOB [PORT..] >SVG\n"
    "Draws a sheet: a job file, - for standard input, and then each pad's port number. Without\n"
    "port numbers it is the earliest sheet of least length on which no leader meets another\n"
    "one or another pad.\n"
    "  --any      draws a sheet on which they do, or with a port given twice, too\n"
    "  --area     shades the rectangle with these corners, in the job's units\n"
    "  --slots    takes the port heights from a file of their own; the job has pads alone\n"
    "  --help     prints this\n"
    "  --version  prints the version\n";

/* A side of a pad's square: its x or height on the canvas, and the pixels that it is pushed on. */
struct side {
    double at, push;
};

struct square {
    struct side left, top, right, bottom;
};

/* One leader as Svg writes it: 2 or 3 points, the pad's first, the port's last. */
struct leader {
    size_t record, port;
    int name, half, points;
    char text[CHEREMYSL_SVG_BYTES(1) + 1]; /* its points as they stand there .. */
    float at[CHEREMYSL_DRAW_FLOATS];       /* .. and their numbers */
    double right, down;   /* pixels that its pad is pushed on */
    struct square square; /* the pad's; of half-side 0 it is not drawn, and all 0 */
};

struct port {
    float at;
    double down;
    int used; /* so many ports below it have leaders; FREE if it has none itself */
};

#define FREE (-1)

/* An area of the board, on the canvas. */
struct area {
    int given;
    double left, top, right, bottom;
};

struct options {
    int any;
    const char *slots; /* the file of port heights, if they stand apart from the job */
    struct area area;
};

/* A sheet and where the picture has it: the height y stands at pixel top + scale * y + its push. */
struct picture {
    struct given_sheet s;
    size_t n, slots; /* pads, ports */
    struct leader leaders[CHEREMYSL_MAX_RECORDS];
    struct port ports[CHEREMYSL_MAX_SLOTS];
    int64_t length, bends;
    int64_t fault; /* Measure's refusal, if the sheet is drawn all the same */
    double scale, left, top, width, height;
    double edge; /* where the label edge begins, below the heading */
    int pushed;
    struct area area;
};

static double larger(double a, double b) { return a > b ? a : b; }
static double smaller(double a, double b) { return a < b ? a : b; }

/* ---- the sheet: read, judged, led by Svg ---- */

static size_t pads_in(const struct given_sheet *s) { return s->job_bytes / CHEREMYSL_RECORD_BYTES; }
static size_t ports_in(const struct given_sheet *s) {
    return s->slots ? s->port_bytes / CHEREMYSL_PORT_BYTES : pads_in(s);
}

static int64_t first(struct given_sheet *s) {
    static uint64_t work[CHEREMYSL_MAX_SLOTS_WORK];
    if (!s->slots)
        return cheremysl_first(s->job, s->job_bytes, 1, 0, s->layout, CHEREMYSL_MAX_RECORDS);
    return cheremysl_slots_first(s->job, s->job_bytes, s->ports, s->port_bytes, 1, 0, s->layout,
                                 CHEREMYSL_MAX_RECORDS, work, CHEREMYSL_MAX_SLOTS_WORK);
}

static int64_t measure(const struct given_sheet *s) {
    if (!s->slots)
        return cheremysl_measure(s->job, s->job_bytes, 1, 0, s->layout, s->entries);
    return cheremysl_slots_measure(s->job, s->job_bytes, s->ports, s->port_bytes, 1, 0, s->layout,
                                   s->entries);
}

/* The first entry that is no port's number, as refusal 8; 0 if there is none. */
static int64_t missing_port(const struct given_sheet *s) {
    for (size_t i = 0; i < s->entries; i++)
        if (s->layout[i] >= ports_in(s))
            return -(int64_t)(65536 * CHEREMYSL_BAD_ENTRY + i);
    return 0;
}

/* What stays refused with --any, of what Measure refuses. */
static int64_t refused_still(const struct given_sheet *s, int64_t fault) {
    switch (cheremysl_refusal_number(fault)) {
    case CHEREMYSL_TOUCHING: return 0;
    case CHEREMYSL_BAD_ENTRY: return missing_port(s);
    default: return fault;
    }
}

/* Is the list of ports at fault? Then the refusal goes away with a list that is in order. */
static int blames_ports(const struct given_sheet *s, int64_t answer) {
    int number = cheremysl_refusal_number(answer);
    uint8_t ports[CHEREMYSL_MAX_PORT_BYTES] = {0};
    uint16_t layout[CHEREMYSL_MAX_RECORDS] = {0};
    for (size_t q = 0; q < CHEREMYSL_MAX_SLOTS; q++) {
        ports[CHEREMYSL_PORT_BYTES * q] = (uint8_t)(CHEREMYSL_MIN_RISE * q % 256);
        ports[CHEREMYSL_PORT_BYTES * q + 1] = (uint8_t)(CHEREMYSL_MIN_RISE * q / 256);
    }
    return s->slots && number != CHEREMYSL_BAD_ENTRY && number != CHEREMYSL_TOUCHING &&
           number != CHEREMYSL_NO_LAYOUT &&
           cheremysl_slots_measure(s->job, s->job_bytes, ports, sizeof ports, 1, 0, layout,
                                   CHEREMYSL_MAX_RECORDS) != answer;
}

/* The others speak of no record and of no port. */
static int names_one(int number) {
    return (number >= CHEREMYSL_BAD_FIELD && number <= CHEREMYSL_TOUCHING) ||
           number == CHEREMYSL_PORT_TOO_CLOSE;
}

static void say_record(const struct given_sheet *s, int record, int number) {
    fprintf(stderr, " record %d", record);
    if (names_one(number)) fprintf(stderr, " (pad %d)", pad_name(s, (size_t)record));
}

static void end_refused(const struct given_sheet *s, const char *file, const char *slots,
                        int64_t answer) {
    int number = cheremysl_refusal_number(answer), record = cheremysl_refusal_record(answer);
    int ports = blames_ports(s, answer);
    fprintf(stderr, "%s: %s: refused %d", program, ports ? slots : file, number);
    if (ports && names_one(number))
        fprintf(stderr, " port %d", record);
    else
        say_record(s, record, number);
    if (number == CHEREMYSL_TOUCHING) {
        fprintf(stderr, " and");
        say_record(s, cheremysl_refusal_earlier(answer), number);
    }
    fprintf(stderr, ": %s\n", cheremysl_refusal_text(answer));
    exit(1);
}

static void end_other_length(const char *file, size_t entries, size_t pads) {
    const char *how = entries < pads ? "refused 3 record 0: fewer" : "refused: more";
    fprintf(stderr, "%s: %s: %s port numbers than pads (%d)\n", program, file, how, (int)pads);
    exit(1);
}

/* Ends the program unless the sheet can be drawn; the answer is what Measure says of it. */
static int64_t judge(struct given_sheet *s, const char *file, const struct options *o) {
    size_t pads = pads_in(s);
    if (s->entries == 0) {
        int64_t answer = first(s);
        if (cheremysl_is_refusal(answer)) end_refused(s, file, o->slots, answer);
        s->entries = pads;
    }
    int64_t answer = measure(s), refusal = o->any ? refused_still(s, answer) : answer;
    if (s->entries != pads && cheremysl_refusal_number(refusal) != CHEREMYSL_BAD_SIZE)
        end_other_length(file, s->entries, pads);
    if (cheremysl_is_refusal(refusal)) end_refused(s, file, o->slots, refusal);
    return answer;
}

/* What of a leader's pad lies right of the label edge, where all leaders end. */
static struct square square_of(const struct leader *l) {
    double x = l->at[0], y = l->at[1], half = l->half / 4.0;
    if (l->half == 0) return (struct square){.left = {0, 0}};
    return (struct square){{larger(0, x - half), 0}, {y - half, 0}, {x + half, 0}, {y + half, 0}};
}

/* Keeps what stands between the quotes of a line of so many bytes. */
static void keep_points(struct leader *l, const char *text, size_t bytes) {
    const char *from = (const char *)memchr(text, '"', bytes) + 1;
    size_t left = bytes - (size_t)(from - text);
    const char *to = memchr(from, '"', left);
    memcpy(l->text, from, (size_t)(to - from));
}

/* The numbers, each a float exactly; a comma or a blank stands between two. */
static void read_points(struct leader *l) {
    int numbers = 0;
    for (char *at = l->text; *at != 0; at += *at == ',' || *at == ' ')
        l->at[numbers++] = strtof(at, &at);
    l->points = numbers / 2;
}

/*
 * Svg takes jobs of the first form: pad and port height make one of a single record, which touches
 * nothing and is never refused, since the job was judged.
 */
static void lead(struct leader *l, const uint8_t *pad, const uint8_t *height) {
    static const uint16_t layout[1] = {0};
    uint8_t one[CHEREMYSL_RECORD_BYTES];
    char text[CHEREMYSL_SVG_BYTES(1)];
    memcpy(one, pad, PORT_FIELD);
    memcpy(one + PORT_FIELD, height, CHEREMYSL_PORT_BYTES);
    int64_t bytes = cheremysl_svg(one, sizeof one, layout, 1, text, sizeof text);
    keep_points(l, text, (size_t)bytes);
    read_points(l);
}

static struct leader leader_of(const struct given_sheet *s, size_t record, size_t port) {
    struct leader l = {.record = record, .port = port, .name = pad_name(s, record)};
    const uint8_t *height = s->slots ? s->ports + CHEREMYSL_PORT_BYTES * port
                                     : s->job + CHEREMYSL_RECORD_BYTES * port + PORT_FIELD;
    lead(&l, s->job + CHEREMYSL_RECORD_BYTES * record, height);
    l.half = pad_half(s, record);
    l.square = square_of(&l);
    return l;
}

static float port_height(const struct leader *l) { return l->at[2 * l->points - 1]; }
static int bends_of(const struct leader *l) { return l->points - 2; }

/* Exact: the numbers are quarters of whole ones. */
static int64_t length_of(const struct leader *l) {
    double hand = (double)l->at[1] - (double)port_height(l);
    return (int64_t)(4 * (l->at[0] + (hand < 0 ? -hand : hand)));
}

static void find_ports(struct picture *p) {
    p->slots = ports_in(&p->s);
    for (size_t q = 0; q < p->slots; q++) {
        struct leader any = leader_of(&p->s, 0, q);
        p->ports[q] = (struct port){port_height(&any), 0, FREE};
    }
}

static void lead_pads(struct picture *p) {
    int used = 0;
    p->n = p->s.entries;
    for (size_t i = 0; i < p->n; i++) {
        p->leaders[i] = leader_of(&p->s, i, p->s.layout[i]);
        p->ports[p->s.layout[i]].used = 0;
        p->length += length_of(p->leaders + i);
        p->bends += bends_of(p->leaders + i);
    }
    for (size_t q = 0; q < p->slots; q++)
        if (p->ports[q].used != FREE) p->ports[q].used = used++;
}

/* ---- places: the heights first, then the pads' x ---- */

static double height_of(const struct picture *p, double at, double down) {
    return p->top + p->scale * at + down;
}
static double pad_y(const struct picture *p, const struct leader *l) {
    return height_of(p, l->at[1], l->down);
}
static double port_y(const struct picture *p, size_t port) {
    return height_of(p, p->ports[port].at, p->ports[port].down);
}
static double x_of(const struct picture *p, double at, double right) {
    return p->left + p->scale * at + right;
}
static double pad_x(const struct picture *p, const struct leader *l) {
    return x_of(p, l->at[0], l->right);
}

/* The scale by which the board's longer side has a length that grows with the number of ports. */
static void choose_scale(struct picture *p) {
    double right = 0, top = p->ports[p->slots - 1].at, bottom = p->ports[0].at;
    for (size_t i = 0; i < p->n; i++) {
        const struct leader *l = p->leaders + i;
        double half = l->half / 4.0;
        right = larger(right, l->at[0] + half);
        top = smaller(top, l->at[1] - half);
        bottom = larger(bottom, l->at[1] + half);
    }
    p->scale = (200 + 12 * (double)p->slots) / larger(right, bottom - top);
    p->top = -p->scale * top;
}

/* The height of a side, a pad or a port. */
struct height {
    double at;
    enum { OF_SIDE, OF_PAD, OF_PORT } of;
    double *down;
};

/* From the top down; at one height first what asks for most room, as all are pushed as it is. */
static int by_height(const void *one, const void *other) {
    const struct height *a = one, *b = other;
    return a->at != b->at ? (a->at > b->at) - (a->at < b->at) : (int)b->of - (int)a->of;
}

static void push_down(struct picture *p, const struct height *heights, size_t count) {
    double down = 0, above = -SIDE, line = -APART, label = -LABELS;
    for (size_t k = 0; k < count; k++) {
        double y = height_of(p, heights[k].at, down), least = y;
        int other = k > 0 && heights[k].at > heights[k - 1].at;
        if (other) least = larger(least, above + SIDE);
        if (other && heights[k].of != OF_SIDE) least = larger(least, line + APART);
        if (heights[k].of == OF_PORT) least = larger(least, label + LABELS);
        down += least - y;
        *heights[k].down = down;
        above = height_of(p, heights[k].at, down);
        if (heights[k].of != OF_SIDE) line = above;
        if (heights[k].of == OF_PORT) label = above;
    }
    p->pushed = p->pushed || down > 0;
    p->height = above;
}

static void place_heights(struct picture *p) {
    struct height heights[CHEREMYSL_MAX_SLOTS + 3 * CHEREMYSL_MAX_RECORDS];
    size_t count = 0;
    for (size_t q = 0; q < p->slots; q++)
        heights[count++] = (struct height){p->ports[q].at, OF_PORT, &p->ports[q].down};
    for (size_t i = 0; i < p->n; i++) {
        struct leader *l = p->leaders + i;
        struct side *top = &l->square.top, *bottom = &l->square.bottom;
        heights[count++] = (struct height){l->at[1], OF_PAD, &l->down};
        if (l->half == 0) continue;
        heights[count++] = (struct height){top->at, OF_SIDE, &top->push};
        heights[count++] = (struct height){bottom->at, OF_SIDE, &bottom->push};
    }
    qsort(heights, count, sizeof *heights, by_height);
    push_down(p, heights, count);
}

static double name_width(const struct leader *l) {
    char digits[16];
    return LETTER * snprintf(digits, sizeof digits, "%d", l->name);
}

/* The pixels from a pad to its name: beside its dot, or its square if that has no room for it. */
static double name_offset(const struct picture *p, const struct leader *l) {
    double half = p->scale * l->half / 4.0, inside = 2 * DOT + name_width(l) + DOT;
    return l->half == 0 || half > inside ? 2 * DOT : larger(half, SIDE) + DOT;
}

/* The pixels from a pad to the end of its name. */
static double name_room(const struct picture *p, const struct leader *l) {
    return name_offset(p, l) + name_width(l);
}

/* Would b's hand, dot or name meet the name of a, pad b being a little to the right of pad a? */
static int meets_name(const struct picture *p, const struct leader *a, const struct leader *b) {
    double name = pad_y(p, a), pad = pad_y(p, b), port = port_y(p, b->port);
    return smaller(pad, port) - FONT < name && name < larger(pad, port) + FONT;
}

/* Does b's square reach over the height of the name of a? */
static int covers_name(const struct picture *p, const struct leader *a, const struct leader *b) {
    const struct square *s = &b->square;
    double name = pad_y(p, a);
    return height_of(p, s->top.at, s->top.push) <= name &&
           name <= height_of(p, s->bottom.at, s->bottom.push);
}

/* The x of a pad, or of a side of its square. */
struct across {
    double at;
    enum { LEFT, CENTRE, RIGHT } of;
    const struct leader *pad;
    double *right;
};

static int by_x(const void *one, const void *other) {
    const struct across *a = one, *b = other;
    return (a->at > b->at) - (a->at < b->at);
}

/* The pixels that b keeps from a, which is left of it or, with none, at the same x. */
static double room_between(const struct picture *p, const struct across *a,
                           const struct across *b) {
    int both = a->of == CENTRE && b->of == CENTRE;
    int named = (both && meets_name(p, a->pad, b->pad)) ||
                (a->of == CENTRE && b->of == LEFT && covers_name(p, a->pad, b->pad));
    double room = named ? name_room(p, a->pad) + 2 * DOT : 0;
    return a->at == b->at ? 0 : larger(room, both ? APART : SIDE);
}

/* The least pixel for number k, with those left of it in their places. */
static double least_x(const struct picture *p, const struct across *order, size_t k) {
    double least = p->left + (order[k].of == CENTRE ? AROUND : SIDE);
    for (size_t i = 0; i < k; i++)
        least = larger(least, x_of(p, order[i].at, *order[i].right) +
                                  room_between(p, order + i, order + k));
    return least;
}

/* The same for all that have its x, so that they stay in one place. */
static double least_together(const struct picture *p, const struct across *order, size_t count,
                             size_t k) {
    double least = 0;
    for (size_t j = k; j < count && order[j].at == order[k].at; j++)
        least = larger(least, least_x(p, order, j));
    return least;
}

static void push_right(struct picture *p, const struct across *order, size_t count) {
    double right = 0;
    for (size_t k = 0; k < count; k++) {
        double x = x_of(p, order[k].at, right), name = 0;
        right += larger(0, least_together(p, order, count, k) - x);
        *order[k].right = right;
        if (order[k].of == CENTRE) name = name_room(p, order[k].pad);
        p->width = larger(p->width, x_of(p, order[k].at, right) + name);
    }
    p->pushed = p->pushed || right > 0;
}

/* A square that reaches past the label edge ends there: that side stays with the edge. */
static void place_pads(struct picture *p) {
    struct across order[3 * CHEREMYSL_MAX_RECORDS];
    size_t count = 0;
    for (size_t i = 0; i < p->n; i++) {
        struct leader *l = p->leaders + i;
        struct side *left = &l->square.left, *right = &l->square.right;
        order[count++] = (struct across){l->at[0], CENTRE, l, &l->right};
        if (l->half == 0) continue;
        order[count++] = (struct across){right->at, RIGHT, l, &right->push};
        if (left->at > 0) order[count++] = (struct across){left->at, LEFT, l, &left->push};
    }
    qsort(order, count, sizeof *order, by_x);
    push_right(p, order, count);
}

/* A push, or that of something that lies no further on than the place, if it is larger. */
static double pushed_on(double push, double at, struct side seen) {
    return seen.at <= at ? larger(push, seen.push) : push;
}

/* Where a height stands that need not be of the sheet: pushed as the last one above it. */
static double any_y(const struct picture *p, double at) {
    double down = 0;
    for (size_t i = 0; i < p->n; i++) {
        const struct leader *l = p->leaders + i;
        down = pushed_on(down, at, (struct side){l->at[1], l->down});
        down = pushed_on(down, at, l->square.top);
        down = pushed_on(down, at, l->square.bottom);
    }
    for (size_t q = 0; q < p->slots; q++)
        down = pushed_on(down, at, (struct side){p->ports[q].at, p->ports[q].down});
    return height_of(p, at, down);
}

/* Where an x stands that need not be of the sheet. */
static double any_x(const struct picture *p, double at) {
    double right = 0;
    for (size_t i = 0; i < p->n; i++) {
        const struct leader *l = p->leaders + i;
        right = pushed_on(right, at, (struct side){l->at[0], l->right});
        right = pushed_on(right, at, l->square.left);
        right = pushed_on(right, at, l->square.right);
    }
    return x_of(p, at, right);
}

/* ---- texts ---- */

/* The bytes of the letter that begins here if XML may have it, UTF-8 and no control; else 0. */
static int letter_bytes(const unsigned char *at) {
    static const uint32_t least[] = {0, 0x20, 0xa0, 0x800, 0x10000}; /* for so many bytes */
    int bytes = *at < 0x80   ? 1
                : *at < 0xc0 ? 0
                : *at < 0xe0 ? 2
                : *at < 0xf0 ? 3
                : *at < 0xf8 ? 4
                             : 0;
    uint32_t letter = bytes > 1 ? *at & (0x7fU >> bytes) : *at;
    for (int k = 1; k < bytes; k++) {
        if ((at[k] & 0xc0) != 0x80) return 0;
        letter = letter << 6 | (at[k] & 0x3f);
    }
    int other = letter < least[bytes] || letter == 0x7f || (letter & ~0x7ffU) == 0xd800 ||
                (letter & ~1U) == 0xfffe || letter > 0x10ffff;
    return other ? 0 : bytes;
}

/* A file's name as it may stand in XML: what is no letter becomes U+FFFD. */
struct shown_name {
    char text[NAME_LETTERS * 5 + 8];
    size_t letters;
};

static const char *escaped(char letter) {
    return letter == '&' ? "&amp;" : letter == '<' ? "&lt;" : letter == '>' ? "&gt;" : NULL;
}

static struct shown_name show_name(const char *file) {
    struct shown_name shown = {"", 0};
    const char *slash = strrchr(file, '/'), *at = slash != NULL ? slash + 1 : file;
    char *to = shown.text;
    for (; *at != 0 && shown.letters < NAME_LETTERS; shown.letters++) {
        int bytes = letter_bytes((const unsigned char *)at);
        const char *written = bytes == 0 ? "\xef\xbf\xbd" : escaped(*at);
        to += written != NULL ? sprintf(to, "%s", written) : sprintf(to, "%.*s", bytes, at);
        at += bytes > 0 ? bytes : 1;
    }
    if (*at != 0) strcpy(to, "\xe2\x80\xa6"); /* cut: three points follow */
    return shown;
}

/* A port's label: its number, and the names of the pads led there. */
struct label {
    char text[6 * CHEREMYSL_MAX_RECORDS + 8];
    int letters;
};

static struct label label_of(const struct picture *p, size_t port) {
    struct label label = {"", 0};
    const char *before = ": ";
    label.letters = sprintf(label.text, "%d", (int)port);
    for (size_t i = 0; i < p->n; i++) {
        if (p->leaders[i].port != port) continue;
        label.letters += sprintf(label.text + label.letters, "%s%d", before, p->leaders[i].name);
        before = " ";
    }
    return label;
}

static void place_edge(struct picture *p) {
    double letters = strlen("port: pad");
    for (size_t q = 0; q < p->slots; q++) letters = larger(letters, label_of(p, q).letters);
    p->left = AROUND + LETTER * letters + 2 * DOT;
}

/* The lines above the board. */
struct heading {
    char lines[3][sizeof(struct shown_name) + 64];
    int count;
    double width;
};

/* The line just written ends; beside letters of the usual width it has some that may be wide. */
static void end_line(struct heading *h, int letters, size_t wide) {
    h->width = larger(h->width, LETTER * letters + FONT * (double)wide);
    h->count++;
}

static void head_total(struct heading *h, const struct picture *p, const char *file) {
    struct shown_name name = show_name(strcmp(file, "-") == 0 ? "standard input" : file);
    char total[64];
    int letters = sprintf(total, ": length %" PRId64 ", bends %" PRId64, p->length, p->bends);
    sprintf(h->lines[0], "%s%s", name.text, total);
    end_line(h, letters, name.letters);
}

static void head_fault(struct heading *h, int64_t fault) {
    char *line = h->lines[h->count];
    int number = cheremysl_refusal_number(fault), record = cheremysl_refusal_record(fault);
    if (number == 0) return;
    int letters = sprintf(line, "refused %d record %d", number, record);
    if (number == CHEREMYSL_TOUCHING)
        letters += sprintf(line + letters, " and record %d", cheremysl_refusal_earlier(fault));
    end_line(h, letters, 0);
}

static struct heading heading_of(const struct picture *p, const char *file) {
    struct heading h = {{""}, 0, 0};
    head_total(&h, p, file);
    if (p->pushed)
        end_line(&h, sprintf(h.lines[1], "not to scale: close lines are drawn apart"), 0);
    head_fault(&h, p->fault);
    return h;
}

/* ---- the picture ---- */

/* Neighbouring arms have different colours. */
static const char *const colours[] = {"black", "#0060b0", "#b84000", "#007850"};

static const char *colour_of(const struct picture *p, size_t port) {
    int used = p->ports[port].used;
    return used == FREE ? "gray" : colours[used % 4];
}

/* Room for the heading, a line for the labels' own heading, and the borders. */
static void place_heading(struct picture *p, const struct heading *h) {
    double room = AROUND + LABELS * (h->count + 2);
    p->edge = room - 1.2 * LABELS;
    p->top += room;
    p->height += room + AROUND;
    p->width = larger(p->width, AROUND + h->width) + AROUND;
}

/* What of the area lies on the board's part of the picture. */
static void draw_area(const struct picture *p, const struct area *a) {
    double left = larger(any_x(p, a->left), p->left), top = larger(any_y(p, a->top), p->edge);
    double right = smaller(any_x(p, a->right), p->width);
    double bottom = smaller(any_y(p, a->bottom), p->height - AROUND / 2);
    if (!a->given || right < left || bottom < top) return;
    printf("<rect id=\"area\" x=\"%.6g\" y=\"%.6g\" width=\"%.6g\" height=\"%.6g\" "
           "fill=\"#ffdf80\"/>\n", left, top, right - left, bottom - top);
}

/* Corner by corner, so that a side has just the number of a line at its place. */
static void draw_square(const struct picture *p, const struct leader *l) {
    const struct square *s = &l->square;
    double left = x_of(p, s->left.at, s->left.push), right = x_of(p, s->right.at, s->right.push);
    double top = height_of(p, s->top.at, s->top.push);
    double bottom = height_of(p, s->bottom.at, s->bottom.push);
    printf("<polygon id=\"square-%d\" points=\"%.6g,%.6g %.6g,%.6g %.6g,%.6g %.6g,%.6g\">\n",
           (int)l->record, left, top, right, top, right, bottom, left, bottom);
    printf("<title>pad %d (record %d): half-side %d</title>\n</polygon>\n", l->name,
           (int)l->record, l->half);
}

/* Below all leaders, so that none is hidden. */
static void draw_squares(const struct picture *p) {
    int any = 0;
    for (size_t i = 0; i < p->n; i++) {
        if (p->leaders[i].half == 0) continue;
        if (!any) printf("<g fill=\"#f6dcc0\" stroke=\"#d0a070\" stroke-width=\"0.6\">\n");
        any = 1;
        draw_square(p, p->leaders + i);
    }
    if (any) printf("</g>\n");
}

static void draw_line(const struct picture *p, const struct leader *l) {
    double x = pad_x(p, l), pad = pad_y(p, l), port = port_y(p, l->port);
    printf("<polyline data-points=\"%s\" points=\"%.6g,%.6g", l->text, x, pad);
    if (l->points == 3) printf(" %.6g,%.6g", x, port);
    printf(" %.6g,%.6g\"/>\n", p->left, port);
}

static void draw_leader(const struct picture *p, const struct leader *l) {
    const char *colour = colour_of(p, l->port);
    printf("<g id=\"leader-%d\" stroke=\"%s\">\n<title>", (int)l->record, colour);
    printf("pad %d (record %d) to port %d: length %" PRId64 ", bends %d</title>\n", l->name,
           (int)l->record, (int)l->port, length_of(l), bends_of(l));
    draw_line(p, l);
    printf("<circle cx=\"%.6g\" cy=\"%.6g\" r=\"%.4g\" stroke=\"none\" fill=\"%s\"/>\n</g>\n",
           pad_x(p, l), pad_y(p, l), DOT, colour);
}

static void draw_text(double x, double y, const char *colour, const char *text) {
    printf("<text x=\"%.6g\" y=\"%.6g\" dy=\"0.36em\"", x, y);
    printf(" fill=\"%s\">%s</text>\n", colour, text);
}

static void draw_name(const struct picture *p, const struct leader *l) {
    char digits[16];
    sprintf(digits, "%d", l->name);
    draw_text(pad_x(p, l) + name_offset(p, l), pad_y(p, l), colour_of(p, l->port), digits);
}

static void draw_leaders(const struct picture *p) {
    printf("<g fill=\"none\" stroke-width=\"%.4g\">\n", LINE);
    for (size_t i = 0; i < p->n; i++) draw_leader(p, p->leaders + i);
    printf("</g>\n");
}

/* The white around a name keeps it readable where leaders touch; elsewhere it is free of lines. */
static void draw_names(const struct picture *p) {
    printf("<g stroke=\"white\" stroke-width=\"3\" paint-order=\"stroke\">\n");
    for (size_t i = 0; i < p->n; i++) draw_name(p, p->leaders + i);
    printf("</g>\n");
}

static void draw_labels(const struct picture *p) {
    double x = p->left - 2 * DOT;
    printf("<g text-anchor=\"end\">\n");
    draw_text(x, p->edge, "gray", "port: pad");
    for (size_t q = 0; q < p->slots; q++) {
        struct label label = label_of(p, q);
        draw_text(x, port_y(p, q), colour_of(p, q), label.text);
    }
    printf("</g>\n");
}

/* With a mark across it at each free port. */
static void draw_edge(const struct picture *p) {
    printf("<path stroke=\"gray\" d=\"M%.6g,%.6gV%.6g", p->left, p->edge, p->height - AROUND / 2);
    for (size_t q = 0; q < p->slots; q++)
        if (p->ports[q].used == FREE)
            printf("M%.6g,%.6gh%.4g", p->left - DOT, port_y(p, q), 2 * DOT);
    printf("\"/>\n");
}

static void draw_heading(const struct heading *h) {
    for (int k = 0; k < h->count; k++)
        draw_text(AROUND, AROUND + LABELS * k, "black", h->lines[k]);
}

static void draw_picture(struct picture *p, const char *file) {
    choose_scale(p);
    place_heights(p);
    place_edge(p);
    place_pads(p);
    struct heading h = heading_of(p, file);
    place_heading(p, &h);
    printf("<svg xmlns=\"http://www.w3.org/2000/svg\" width=\"%.0f\" height=\"%.0f\" "
           "viewBox=\"0 0 %.0f %.0f\" font-family=\"sans-serif\" font-size=\"%.4g\">\n",
           p->width, p->height, p->width, p->height, FONT);
    printf("<title>%s</title>\n", h.lines[0]);
    printf("<rect width=\"100%%\" height=\"100%%\" fill=\"white\"/>\n");
    draw_area(p, &p->area);
    draw_squares(p);
    draw_heading(&h);
    draw_edge(p);
    draw_leaders(p);
    draw_names(p);
    draw_labels(p);
    printf("</svg>\n");
}

/* ---- the program ---- */

/* Two corners in the job's units; no word is no area. */
static struct area read_area(const char *word) {
    int at[4];
    if (!read_given_area(word, at)) {
        fprintf(stderr, "%s: --area takes X1,Y1,X2,Y2\n%s", program, usage);
        exit(2);
    }
    return (struct area){1, smaller(at[0], at[2]) / 4, -larger(at[1], at[3]) / 4,
                         larger(at[0], at[2]) / 4, -smaller(at[1], at[3]) / 4};
}

static const char *read_slots(const char *word) {
    if (word != NULL) return word;
    fprintf(stderr, "%s: --slots takes a file of port heights\n%s", program, usage);
    exit(2);
}

/* Takes the options out of the words and answers how many are left; -- ends the options. */
static int take_options(int argc, char **argv, struct options *o) {
    int left = 1, k = 1;
    for (; k < argc && strcmp(argv[k], "--") != 0; k++) {
        if (argv[k][0] != '-' || argv[k][1] == 0)
            argv[left++] = argv[k];
        else if (strcmp(argv[k], "--any") == 0)
            o->any = 1;
        else if (strcmp(argv[k], "--area") == 0)
            o->area = read_area(argv[++k]);
        else if (strcmp(argv[k], "--slots") == 0)
            o->slots = read_slots(argv[++k]);
        else
            end_with_option(program, usage, argv[k]);
    }
    if (k == argc) return left;
    memmove(argv + left, argv + k + 1, (size_t)(argc - k - 1) * sizeof *argv);
    return left + argc - k - 1;
}

int main(int argc, char **argv) {
    static struct picture p;
    struct options o = {.any = 0};
    int words = take_options(argc, argv, &o);
    if (words < 2) {
        fputs(usage, stderr);
        return 2;
    }
    argv[0] = program;
    p.s = read_given_sheet(words, argv);
    if (o.slots != NULL) read_given_ports(&p.s, program, o.slots);
    p.fault = judge(&p.s, argv[1], &o);
    p.area = o.area;
    find_ports(&p);
    lead_pads(&p);
    draw_picture(&p, argv[1]);
    return written(program);
}
