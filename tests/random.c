/*
 * random [COUNT [SEED]]: random questions, many of them damaged in every way, against the plain
 * account. Prints how often each answer came; each that a call can give must have come.
 */
#include <stdio.h>
#include <stdlib.h>

#include "boards.h"
#include "questions.h"
#include "trial.h"

static long came[CALLS][OUTCOMES];

/* More ports above the last: then there are too many to try, and the question must be damaged. */
static void widen(struct question *q) {
    size_t p = ports_of(q), more = below((uint32_t)(MOST_PORTS - p) + 1);
    int64_t height = port_of(q, p - 1);
    q->port_bytes += 4 * more;
    for (; p < ports_of(q); p++) set_port(q, p, height += 8 + below(3));
    lend_work(q, below(3));
}

static void one_question(void) {
    static struct question q;
    struct reply r;
    sound_question(&q, below(CALLS));
    if (takes_work(q.call) && below(4) == 0) widen(&q);
    for (uint32_t times = below(4); times > 0; times--) damage(&q);
    while ((r = plain_reply(&q)).answer == PLAIN_UNKNOWN) damage(&q);
    came[q.call][outcome_of(r.answer)]++;
    expect(&q, r);
}

int main(int argc, char **argv) {
    long count = argc > 1 ? atol(argv[1]) : 200000;
    seed_random(argc > 2 ? strtoull(argv[2], NULL, 10) : 1);
    begin();
    for (long k = 0; k < count; k++) one_question();
    for (enum call call = 0; call < CALLS; call++)
        report_refusals(call_names[call], call, came[call]);
    printf("%ld inputs\n", count);
    return done();
}
