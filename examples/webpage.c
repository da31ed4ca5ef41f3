/*
 * webpage JOB >HTML: the best sheet of a job file as a web page. Svg's text stands in it as it is;
 * around it are a frame, the label edge, the pads, and the pads' names as labels at their ports, in
 * the same units: one is four of the job's, and y grows downward. So any size of the page is to
 * scale.
 * The status is 0 for a page, 1 if the job is refused, 2 if it cannot be read or written.
 */
#include <inttypes.h>

#include "given-sheet.h"

#define PADS CHEREMYSL_MAX_RECORDS

/* A pad and its port, as Draw and Svg have them. */
struct led {
    double x, y, half, port;
};

/* What the page shows, and how high its letters are. */
struct frame {
    double left, top, right, bottom, letter;
};

static const char style[] =
    "svg { display: block; width: 100%; max-width: 60em; border: 1px solid silver }\n"
    "text { font-family: sans-serif; text-anchor: end; dominant-baseline: central }\n"
    ".edge { stroke: silver }\n"
    ".leaders { fill: none; stroke: #0060b0 }\n"
    ".leaders polyline:hover { stroke: #b84000; stroke-width: 3 }\n"
    ".pads { fill: #b84000 }\n"
    ".squares { fill: #f6dcc0 }\n"
    "line, polyline { vector-effect: non-scaling-stroke }\n";

static double larger(double a, double b) { return a > b ? a : b; }
static double smaller(double a, double b) { return a < b ? a : b; }

static struct led led_by(const struct given_sheet *s, size_t i) {
    float at[CHEREMYSL_DRAW_FLOATS];
    int64_t points = cheremysl_draw(s->job, s->job_bytes, (uint32_t)i, s->layout[i], at,
                                    CHEREMYSL_DRAW_FLOATS);
    return (struct led){at[0], at[1], pad_half(s, i) / 4.0, at[2 * points - 1]};
}

/* Letters of four fifths of the least distance of two ports, 8 at most: labels stay apart. */
static double letter_for(const struct led *led, size_t n) {
    double least = 10;
    for (size_t k = 0; k < n * n; k++) {
        double apart = led[k / n].port - led[k % n].port;
        if (apart > 0) least = smaller(least, apart);
    }
    return 0.8 * least;
}

/* Room for labels of five digits at the left. */
static struct frame frame_of(const struct led *led, size_t n) {
    double letter = letter_for(led, n);
    struct frame f = {-4 * letter, led[0].port, 0, led[0].port, letter};
    for (size_t i = 0; i < n; i++) {
        f.right = larger(f.right, led[i].x + led[i].half);
        f.top = smaller(f.top, smaller(led[i].port, led[i].y - led[i].half));
        f.bottom = larger(f.bottom, larger(led[i].port, led[i].y + led[i].half));
    }
    return (struct frame){f.left, f.top - letter, f.right + letter, f.bottom + letter, letter};
}

static void print_squares(const struct led *led, size_t n) {
    printf("<g class=\"squares\">\n");
    for (size_t i = 0; i < n; i++) {
        double half = led[i].half, side = 2 * half;
        if (half == 0) continue;
        printf("<rect x=\"%.9g\" y=\"%.9g\" width=\"%.9g\" height=\"%.9g\"/>\n", led[i].x - half,
               led[i].y - half, side, side);
    }
    printf("</g>\n");
}

static void print_pads(const struct given_sheet *s, const struct led *led, double letter) {
    printf("<g class=\"pads\">\n");
    for (size_t i = 0; i < s->entries; i++)
        printf("<circle cx=\"%.9g\" cy=\"%.9g\" r=\"%.3g\"><title>pad %d</title></circle>\n",
               led[i].x, led[i].y, letter / 5, pad_name(s, i));
    printf("</g>\n");
}

static void print_labels(const struct given_sheet *s, const struct led *led, double letter) {
    printf("<g font-size=\"%.3g\">\n", letter);
    for (size_t i = 0; i < s->entries; i++)
        printf("<text x=\"%.3g\" y=\"%.9g\">%d</text>\n", -letter / 2, led[i].port,
               pad_name(s, i));
    printf("</g>\n");
}

static void print_sheet(const struct given_sheet *s, const char *text, int64_t bytes) {
    struct led led[PADS] = {{0, 0, 0, 0}};
    for (size_t i = 0; i < s->entries; i++) led[i] = led_by(s, i);
    struct frame f = frame_of(led, s->entries);
    printf("<svg viewBox=\"%.9g %.9g %.9g %.9g\">\n", f.left, f.top, f.right - f.left,
           f.bottom - f.top);
    print_squares(led, s->entries);
    printf("<line class=\"edge\" y1=\"%.9g\" y2=\"%.9g\"/>\n", f.top, f.bottom);
    printf("<g class=\"leaders\">\n%.*s</g>\n", (int)bytes, text);
    print_pads(s, led, f.letter);
    print_labels(s, led, f.letter);
    printf("</svg>\n");
}

static void print_page(const struct given_sheet *s, int64_t length, const char *text,
                       int64_t bytes) {
    printf("<!DOCTYPE html>\n<html lang=\"en\">\n<head>\n<meta charset=\"utf-8\">\n");
    printf("<title>Probe sheet</title>\n<style>\n%s</style>\n</head>\n<body>\n", style);
    printf("<h1>Probe sheet</h1>\n<p>%d pads, each with its leader to its label; ",
           (int)s->entries);
    printf("length %" PRId64 ".</p>\n", length);
    print_sheet(s, text, bytes);
    printf("</body>\n</html>\n");
}

int main(int argc, char **argv) {
    struct given_sheet s = {.entries = 0};
    char text[CHEREMYSL_MAX_SVG_BYTES]; /* every text fits */
    if (argc != 2) {
        fprintf(stderr, "usage: %s JOB >HTML: a job file\n", argv[0]);
        return 2;
    }
    read_given_job(&s, argv[0], argv[1]);
    int64_t length = cheremysl_first(s.job, s.job_bytes, 1, 0, s.layout, PADS);
    if (cheremysl_is_refusal(length)) {
        fprintf(stderr, "%s: refused %d record %d: %s\n", argv[0], cheremysl_refusal_number(length),
                cheremysl_refusal_record(length), cheremysl_refusal_text(length));
        return 1;
    }
    s.entries = s.job_bytes / CHEREMYSL_RECORD_BYTES;
    /* Never refused: First accepted the job, and nothing touches on its sheet. */
    int64_t bytes = cheremysl_svg(s.job, s.job_bytes, s.layout, s.entries, text, sizeof text);
    print_page(&s, length, text, bytes);
    if (fflush(stdout) != 0 || ferror(stdout)) end_unread(argv[0], "write", "the page");
    return 0;
}
