/*
 * audit JOB PORT..: is an old sheet sound? Sound: each pad has a port of its own, and no leader
 * shares a point with another or with another pad's square. Prints the sheet's length and bends, or
 * what is wrong and the record at fault, or both records if they touch.
 * The status is 0 for a sound sheet, 1 for any other, 2 if there is nothing to audit.
 */
#include <inttypes.h>

#include "given-sheet.h"

static int64_t measure(const struct given_sheet *s, uint32_t length_weight, uint32_t bend_weight) {
    return cheremysl_measure(s->job, s->job_bytes, length_weight, bend_weight, s->layout,
                             s->entries);
}

static void print_refusal(const struct given_sheet *s, int64_t answer) {
    int number = cheremysl_refusal_number(answer), record = cheremysl_refusal_record(answer);
    int earlier = cheremysl_refusal_earlier(answer);
    printf("refused %d record %d", number, record);
    if (number >= CHEREMYSL_BAD_FIELD) printf(" (pad %d)", pad_name(s, (size_t)record));
    if (number == CHEREMYSL_TOUCHING)
        printf(" and record %d (pad %d)", earlier, pad_name(s, (size_t)earlier));
    printf(": %s\n", cheremysl_refusal_text(answer));
}

int main(int argc, char **argv) {
    struct given_sheet s = read_given_sheet(argc, argv);
    int64_t length = measure(&s, 1, 0), bends = measure(&s, 0, 1);
    if (cheremysl_is_refusal(length)) {
        print_refusal(&s, length);
        return 1;
    }
    if (s.entries > s.job_bytes / CHEREMYSL_RECORD_BYTES) {
        printf("the sheet has more ports than the job has pads\n");
        return 1;
    }
    printf("sound: length %" PRId64 ", bends %" PRId64 "\n", length, bends);
    return 0;
}
