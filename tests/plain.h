/*
 * plain.h: the calls in plain C, written from the paper's text alone. They share nothing with the
 * library: touching is sharing a point of hand or arm with the other's hand, arm or square, and
 * First, Next, Page, Count and Place try every assignment of ports to pads. The tests hold the
 * library to this account.
 */
#ifndef PLAIN_H
#define PLAIN_H

#include <stdbool.h>
#include <stddef.h>
#include <stdint.h>

#define PLAIN_PORTS 7           /* these five try every assignment up to so many ports .. */
#define PLAIN_UNKNOWN INT64_MIN /* .. and answer this for an accepted job with more */
#define PLAIN_SHEETS 5040       /* assignments of seven pads, or of six, to seven ports */

#define PLAIN_LIMIT 1000000000000000000 /* of more best layouts none has a place */

#define PLAIN_REFUSALS 25 /* one more than the largest refusal number */

/* The refusal numbers a call can give, in the order of its checks; 0 ends it. Page has Next's. */
extern const int first_checks[], next_checks[], measure_checks[], draw_checks[];
extern const int table_first_checks[], table_next_checks[], table_measure_checks[];
extern const int slots_first_checks[], slots_next_checks[], slots_measure_checks[];
extern const int count_checks[], place_checks[], svg_checks[];

/*
 * What a call is given. First's and Draw's lists, the work list and the buffer have a size only;
 * Draw has no weights.
 */
struct given {
    const uint8_t *job; /* in the second form the pads .. */
    size_t job_bytes;
    bool slots;           /* .. whose ports stand apart, .. */
    const uint8_t *ports; /* .. here */
    size_t port_bytes;
    size_t numbers; /* of the work list, or of the buffer */
    uint32_t length_weight, bend_weight;
    const uint32_t *table;
    size_t figures;
    bool by_table; /* the total is of the table's figures: the weights do not count */
    const uint16_t *layout;
    size_t entries;
    uint32_t record, port;
    size_t floats;
    bool draw; /* refusal 3 is about the floats */
    uint64_t place;
    size_t text_bytes;
};

/* The calls, over weights or a table. What they write may be the list that they are given. */
int64_t plain_first(const struct given *g, uint16_t *layout);
int64_t plain_next(const struct given *g, uint16_t *layout);
int64_t plain_page(const struct given *g, uint16_t *page, size_t page_entries);
int64_t plain_count(const struct given *g);
int64_t plain_place(const struct given *g, uint16_t *layout);
int64_t plain_measure(const struct given *g);
int64_t plain_draw(const struct given *g, float *points);
int64_t plain_svg(const struct given *g, char *text);

/*
 * The lines of those records that have a leader, whatever else is wrong with the job; how many
 * bytes. As many as a job of the tests can have, of fields of any size, fit PLAIN_TEXT.
 */
#define PLAIN_TEXT 16384
size_t plain_text(const struct given *g, char *text);

/* The first record at fault for one refusal number, whatever the others say; -1 if none is. */
int plain_fault(const struct given *g, int number);

/* The first record before record i that touches it; -1 if none does. */
int plain_earlier(const struct given *g, size_t i);

/* Pads and ports of a job; a pad's x, how far it is above a port, what its leader there costs. */
size_t plain_pads(const struct given *g);
size_t plain_ports(const struct given *g);
int64_t plain_x(const struct given *g, size_t i);
int64_t plain_over(const struct given *g, size_t i, size_t q);
int64_t plain_cost(const struct given *g, size_t i, size_t q);

/* The total of any assignment, touching or not. */
int64_t plain_total(const struct given *g, const uint16_t *layout);

/* Pads of records i and j, led to the ports p and q: do the leaders share a point? */
bool plain_cross(const struct given *g, size_t i, size_t p, size_t j, size_t q);

/* Does the leader of record i to port p share a point with the square of record j? */
bool plain_meet(const struct given *g, size_t i, size_t p, size_t j);

/* Do the two records touch: by their leaders, or one's leader and the other's square? */
bool plain_touch(const struct given *g, size_t i, size_t p, size_t j, size_t q);

/* Are all half-sides 0? */
bool plain_no_squares(const struct given *g);

/* Does layout a come before layout b in the paper's order? n pads. */
bool plain_before(const uint8_t *job, size_t n, const uint16_t *a, const uint16_t *b);

/*
 * All best layouts in the paper's order, and how many: 0 where every layout has a touching pair.
 * For jobs of up to PLAIN_PORTS ports.
 */
struct sheet {
    uint16_t port[PLAIN_PORTS];
};
struct sheets {
    size_t found;
    int64_t total;
    struct sheet sheet[PLAIN_SHEETS];
    size_t tried;  /* assignments, touching or not, .. */
    int64_t least; /* .. the least total of all these .. */
    bool crossed;  /* .. and whether touching leaders have it */
};
void plain_sheets(const struct given *g, struct sheets *all);

#endif
