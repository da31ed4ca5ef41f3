/*
 * slots PADS PORTS: every best sheet of a board on a strip of slots, of which some stay free: its
 * length, and then each pad's port number, as cheremysl-draw --slots PORTS PADS takes them.
 * The status is 0 for sheets, 1 if pads or ports are refused, 2 if they cannot be read.
 */
#include "given-sheet.h"

static int print_refusal(int64_t answer) {
    printf("refused %d record %d: %s\n", cheremysl_refusal_number(answer),
           cheremysl_refusal_record(answer), cheremysl_refusal_text(answer));
    return 1;
}

static void print_sheet(const struct given_sheet *s, size_t n, int64_t length) {
    printf("length %lld:", (long long)length);
    for (size_t i = 0; i < n; i++) printf(" %d", s->layout[i]);
    printf("\n");
}

int main(int argc, char **argv) {
    struct given_sheet s = {.entries = 0};
    if (argc != 3) {
        fprintf(stderr, "usage: %s PADS PORTS: a file of pads, and one of port heights\n", argv[0]);
        return 2;
    }
    read_given_job(&s, argv[0], argv[1]);
    read_given_ports(&s, argv[0], argv[2]);
    size_t n = s.job_bytes / CHEREMYSL_RECORD_BYTES, p = s.port_bytes / CHEREMYSL_PORT_BYTES;
    /* One work list does for all the calls, and need not be filled. */
    size_t numbers = CHEREMYSL_SLOTS_WORK(n, p);
    uint64_t *work = malloc(numbers * sizeof *work);
    if (work == NULL) end_unread(argv[0], "work on", argv[1]);
    int64_t length = cheremysl_slots_first(s.job, s.job_bytes, s.ports, s.port_bytes, 1, 0,
                                           s.layout, n, work, numbers);
    if (cheremysl_is_refusal(length)) return print_refusal(length);
    while (!cheremysl_is_end(length)) { /* never refused from here on: each layout given is best */
        print_sheet(&s, n, length);
        length = cheremysl_slots_next(s.job, s.job_bytes, s.ports, s.port_bytes, 1, 0, s.layout, n,
                                      work, numbers);
    }
    free(work);
    return 0;
}
