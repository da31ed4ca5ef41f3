/*
 * antenna JOB X1,Y1,X2,Y2: the best sheet that keeps off an area of the board, the rectangle with
 * these corners. Prints each pad's port number, in a line that cheremysl-draw takes.
 * The status is 0 if no leader meets the area, 1 if the job is refused or no sheet keeps off, 2 if
 * there is no job or no area.
 */
#include "given-sheet.h"

/* More than all lengths of a sheet, 64 times 3,000,000: so the fewest leaders meet the area. */
#define DEAR 200000000

struct area {
    int left, low, right, high;
};

static void end_without_area(const char *program) {
    fprintf(stderr, "usage: %s JOB X1,Y1,X2,Y2: a job file, and two corners of an area\n", program);
    exit(2);
}

static struct area read_area(const char *program, const char *word) {
    int at[4];
    if (!read_given_area(word, at)) end_without_area(program);
    int right = at[0] < at[2], up = at[1] < at[3];
    return (struct area){at[right ? 0 : 2], at[up ? 1 : 3], at[right ? 2 : 0], at[up ? 3 : 1]};
}

/* A number of 4 bytes in a record: like the job, x86-64 has the lowest byte first. */
static int64_t field(const struct given_sheet *s, size_t record, size_t offset) {
    int32_t number;
    memcpy(&number, s->job + CHEREMYSL_RECORD_BYTES * record + offset, sizeof number);
    return number;
}

/* Does the leader of a pad (x, y) to a port of height q share a point with the area? */
static int meets(const struct area *a, int64_t x, int64_t y, int64_t q) {
    int64_t low = y < q ? y : q, high = y < q ? q : y;
    int hand = a->left <= x && x <= a->right && a->low <= high && low <= a->high;
    int arm = a->left <= x && 0 <= a->right && a->low <= q && q <= a->high;
    return hand || arm;
}

/* The leader's length, and DEAR more if it meets the area. */
static uint32_t figure(const struct given_sheet *s, const struct area *a, size_t pad, size_t port) {
    int64_t x = field(s, pad, 4), y = field(s, pad, 8), q = field(s, port, 12);
    return (uint32_t)(x + (y < q ? q - y : y - q)) + (meets(a, x, y, q) ? DEAR : 0);
}

int main(int argc, char **argv) {
    struct given_sheet s = {.entries = 0};
    uint32_t table[CHEREMYSL_MAX_FIGURES];
    if (argc != 3) end_without_area(argv[0]);
    struct area area = read_area(argv[0], argv[2]);
    read_given_job(&s, argv[0], argv[1]);
    size_t n = s.job_bytes / CHEREMYSL_RECORD_BYTES;
    for (size_t i = 0; i < n; i++)
        for (size_t q = 0; q < n; q++) table[i * n + q] = figure(&s, &area, i, q);
    int64_t total = cheremysl_table_first(s.job, s.job_bytes, table, n * n, s.layout,
                                          CHEREMYSL_MAX_RECORDS);
    if (cheremysl_is_refusal(total)) {
        printf("refused %d record %d: %s\n", cheremysl_refusal_number(total),
               cheremysl_refusal_record(total), cheremysl_refusal_text(total));
        return 1;
    }
    for (size_t i = 0; i < n; i++) printf("%d%c", s.layout[i], i + 1 < n ? ' ' : '\n');
    if (total < DEAR) return 0;
    fprintf(stderr, "%s: leaders that meet the area: %d; no sheet has fewer\n", argv[0],
            (int)(total / DEAR));
    return 1;
}
