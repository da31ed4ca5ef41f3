/* sheets JOB: every best sheet of a job file, with the points of its leaders. */
#include <cheremysl.h>
#include <errno.h>
#include <stdio.h>
#include <stdlib.h>
#include <string.h>

#define SHEETS 4 /* on a page */

static void show(const uint8_t *job, size_t bytes, const uint16_t *layout, int64_t total) {
    float at[CHEREMYSL_DRAW_FLOATS];
    printf("total %lld\n", (long long)total);
    for (uint32_t i = 0; i < bytes / CHEREMYSL_RECORD_BYTES; i++) {
        int64_t points = cheremysl_draw(job, bytes, i, layout[i], at, CHEREMYSL_DRAW_FLOATS);
        printf("  record %d to port %d:", (int)i, layout[i]);
        for (int k = 0; k < points; k++) printf(" (%.2f, %.2f)", at[2 * k], at[2 * k + 1]);
        printf("\n");
    }
}

static size_t read_job(const char *name, uint8_t *job, size_t room) {
    FILE *file = fopen(name, "rb");
    size_t bytes = file == NULL ? 0 : fread(job, 1, room, file);
    if (file == NULL || ferror(file)) {
        const char *what = file == NULL ? "open" : "read";
        fprintf(stderr, "sheets: cannot %s %s: %s\n", what, name, strerror(errno));
        exit(2);
    }
    fclose(file);
    return bytes;
}

int main(int argc, char **argv) {
    uint8_t job[CHEREMYSL_MAX_JOB_BYTES + 1]; /* a byte more: a longer file is refused too */
    uint16_t layout[CHEREMYSL_MAX_RECORDS], page[SHEETS * CHEREMYSL_MAX_RECORDS];
    if (argc != 2) {
        fprintf(stderr, "usage: sheets JOB\n");
        return 2;
    }
    size_t bytes = read_job(argv[1], job, sizeof job), n = bytes / CHEREMYSL_RECORD_BYTES;
    int64_t total = cheremysl_first(job, bytes, 1, 0, layout, CHEREMYSL_MAX_RECORDS);
    if (cheremysl_is_refusal(total)) {
        printf("refused %d record %d\n", cheremysl_refusal_number(total),
               cheremysl_refusal_record(total));
        return 1;
    }
    show(job, bytes, layout, total);
    for (;;) { /* never refused: First accepted the job, and each layout given here is best */
        int64_t sheets = cheremysl_page(job, bytes, 1, 0, layout, n, page, SHEETS * n);
        for (int64_t k = 0; k < sheets; k++) show(job, bytes, page + k * n, total);
        if (sheets < SHEETS) return 0; /* the end: 0 sheets if it came with a full page */
        /* The next page goes on from the last sheet; layout and page must not overlap. */
        memcpy(layout, page + (SHEETS - 1) * n, n * sizeof *layout);
    }
}
