/*
 * thumbs JOB PLACE: a strip of thumbnails. Of the sheets with the fewest bends: how many there are,
 * the four from a place on, counted from 0, with each pad's port number, and a scroll bar. Where
 * there are too many to have places it says so, and prints the first four without a bar.
 * The status is 0 for sheets, 1 if the job is refused, 2 if there is no job or no place.
 */
#include <inttypes.h>

#include "given-sheet.h"

#define SHEETS 4 /* on the strip */
#define BAR 64   /* characters of the bar */

static uint64_t read_place(const char *program, const char *word) {
    char *end;
    uint64_t place = strtoull(word, &end, 10); /* of too many digits, the largest: past the last */
    if (*word < '0' || *word > '9' || *end != 0) {
        fprintf(stderr, "%s: '%s' is not a place\n", program, word);
        exit(2);
    }
    return place;
}

static int print_refusal(int64_t answer) {
    printf("refused %d record %d: %s\n", cheremysl_refusal_number(answer),
           cheremysl_refusal_record(answer), cheremysl_refusal_text(answer));
    return 1;
}

static void print_sheet(uint64_t place, const uint16_t *layout, size_t n) {
    printf("%" PRIu64 ":", place);
    for (size_t i = 0; i < n; i++) printf(" %d", layout[i]);
    printf("\n");
}

/* The sheet at a place, and those that follow: never refused, since the sheet given is best. */
static void print_strip(const struct given_sheet *s, size_t n, uint64_t place) {
    uint16_t page[(SHEETS - 1) * CHEREMYSL_MAX_RECORDS];
    int64_t more = cheremysl_page(s->job, s->job_bytes, 0, 1, s->layout, n, page, (SHEETS - 1) * n);
    print_sheet(place, s->layout, n);
    for (int64_t k = 0; k < more; k++) print_sheet(place + 1 + (uint64_t)k, page + k * n, n);
}

/* Divided before it is multiplied: the product of a place may need more than 64 bits. */
static void print_bar(uint64_t place, uint64_t count) {
    int at = (int)((double)place / (double)(count > 1 ? count - 1 : 1) * (BAR - 1));
    for (int k = 0; k < BAR; k++) putchar(k == at ? '#' : '-');
    printf("\n");
}

int main(int argc, char **argv) {
    struct given_sheet s = {.entries = 0};
    if (argc != 3) {
        fprintf(stderr, "usage: %s JOB PLACE: a job file, and a place counted from 0\n", argv[0]);
        return 2;
    }
    uint64_t place = read_place(argv[0], argv[2]);
    read_given_job(&s, argv[0], argv[1]);
    size_t n = s.job_bytes / CHEREMYSL_RECORD_BYTES, numbers = CHEREMYSL_BUFFER(n);
    uint64_t *buffer = malloc(numbers * sizeof *buffer); /* it need not be filled */
    if (buffer == NULL) end_unread(argv[0], "work on", argv[1]);
    int64_t count = cheremysl_count(s.job, s.job_bytes, 0, 1, buffer, numbers), bends;
    if (cheremysl_refusal_number(count) == CHEREMYSL_TOO_MANY) {
        /* First and Page go through any number of sheets. */
        printf("%s\n", cheremysl_refusal_text(count));
        bends = cheremysl_first(s.job, s.job_bytes, 0, 1, s.layout, n);
        print_strip(&s, n, 0);
        return bends < 0;
    }
    if (cheremysl_is_refusal(count)) return print_refusal(count);
    if (place >= (uint64_t)count) place = (uint64_t)count - 1; /* a bar that was moved too far */
    bends = cheremysl_place(s.job, s.job_bytes, 0, 1, place, s.layout, n, buffer, numbers);
    printf("sheets: %" PRId64 ", bends: %" PRId64 "\n", count, bends);
    print_strip(&s, n, place);
    print_bar(place, (uint64_t)count);
    free(buffer);
    return 0;
}
