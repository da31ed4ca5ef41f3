/*
 * boards.h: random numbers, jobs, squares and tables of many kinds, and layouts without a touching
 * pair.
 */
#ifndef BOARDS_H
#define BOARDS_H

#include <stdbool.h>
#include <stddef.h>
#include <stdint.h>

void seed_random(uint64_t seed);

/* A random number from 0 to k - 1. */
uint32_t below(uint32_t k);

/* Any number of 32 bits. */
uint32_t any_bits(void);

/* A length weight and a bend weight, often those that make many sheets best. */
void any_weights(uint32_t *length_weight, uint32_t *bend_weight);

/* Writes a number, little-endian; a whole record, half-side 0; single fields of record i. */
void put_number(uint8_t *at, int bytes, int64_t value);
void put_record(uint8_t *job, size_t i, int64_t name, int64_t x, int64_t y, int64_t port);
void put_name(uint8_t *job, size_t i, int64_t name);
void put_half(uint8_t *job, size_t i, int64_t half);
void put_x(uint8_t *job, size_t i, int64_t x);
void put_y(uint8_t *job, size_t i, int64_t y);
void put_port(uint8_t *job, size_t i, int64_t port);

/* Reads fields of record i. */
int64_t get_name(const uint8_t *job, size_t i);
int64_t get_half(const uint8_t *job, size_t i);
int64_t get_x(const uint8_t *job, size_t i);
int64_t get_y(const uint8_t *job, size_t i);
int64_t get_port(const uint8_t *job, size_t i);

/* A height in a list of ports. */
void put_height(uint8_t *ports, size_t q, int64_t height);

enum board {
    WIDE,       /* anywhere */
    CLOSE,      /* pads beside ports, so that they share heights with these and each other */
    LEVEL,      /* each pad at some port's height */
    ABOVE,      /* all pads above all ports */
    BELOW,      /* all pads below all ports */
    EVEN,       /* ports 8 apart, pads at ports' heights and half way between */
    ONE_HEIGHT, /* all pads at one height, perhaps a port's */
    STRAIGHT,   /* each pad at the height of a port of its own */
    PAIRS,      /* ports 8 apart, pads two by two half way between: ties everywhere */
    EDGES,      /* numbers at their limits */
    GAP,        /* nearly all pads in a wide gap amid the ports: many layouts, room for squares */
    BOARDS
};

/*
 * Makes an accepted job of n records, 1 to 64; one of the second form, with p ports, n to 128. All
 * half-sides are 0.
 */
void make_board(uint8_t *job, size_t n, enum board kind);
void make_slots(uint8_t *pads, size_t n, uint8_t *ports, size_t p, enum board kind);

/* Straight pads, and so many pairs half way between two ports: weights 1, 0 have 2^pairs sheets. */
void make_tied(uint8_t *job, size_t n, size_t pairs);

/* 64 pads in the middle gap, of which any 32 go down: too many to have places, for all weights. */
void make_plentiful(uint8_t *job);

/* An accepted job of either form: n pads; p ports, their heights so many bytes apart. */
#define MOST_PORTS 128
struct plan {
    const uint8_t *pads, *ports;
    size_t n, p, apart;
};
struct plan plan_of_job(const uint8_t *job, size_t n);
struct plan plan_of_slots(const uint8_t *pads, size_t n, const uint8_t *ports, size_t p);
int64_t get_height(const struct plan *plan, size_t q);

/* Pads joined to ports in order of height: no assignment has less length, touching or not. */
int64_t least_length(const struct plan *plan);

/* ---- squares ---- */

#define MOST_HALF 2000 /* the largest half-side */

enum squares {
    POINTS,  /* all half-sides 0 */
    SMALL,   /* up to half of what neighbouring ports are apart, some 0 */
    FITTED,  /* none reaches a leader of some layout; many would, if they were 1 larger */
    GRAZED,  /* the same, but one or more are that much larger */
    ANY_SIZE, /* of every order of size; mostly there is no layout */
    SQUARES
};

/* Gives half-sides to the pads of the plan, which had 0; most of those in use leave a layout. */
void give_squares(uint8_t *pads, const struct plan *plan, enum squares kind);

/* Any kind; every second job has points. */
void any_squares(uint8_t *pads, const struct plan *plan);

/* Would the leader of this pad to this port share a point with the square of another? */
bool meets_square(const struct plan *plan, size_t pad, size_t port);

/* ---- tables: the figure of pad i with port q is number n * i + q ---- */

enum figures {
    WEIGHED,     /* weighted lengths and bends, for some weights */
    ANY_FIGURES, /* anything */
    FEW,         /* mostly 0, else 1 or 2: ties everywhere */
    EQUAL,       /* one number */
    ZEROS,       /* the smallest .. */
    HIGHEST,     /* .. and the largest number of 32 bits */
    POWERS,      /* powers of two */
    STRIP,       /* little, but most for an area: some ports, from the pads on its right */
    PLANTED,     /* anything, but one layout has the smallest figure of each pad */
    FIGURES
};

/* Fills the table of an accepted job of n records. */
void make_table(uint32_t *table, const uint8_t *job, size_t n, enum figures kind);

/* The table of weighted lengths and bends. */
void weigh(uint32_t *table, const uint8_t *job, size_t n, uint32_t length_weight,
           uint32_t bend_weight);

/* Gives each pad's smallest figure to its port in the layout: no assignment has a smaller total. */
void plant(uint32_t *table, size_t n, const uint16_t *layout);

/* ---- layouts ---- */

/* The record numbers of the pads from left to right. */
void left_to_right(const uint8_t *job, size_t n, size_t *order);

/*
 * A random layout without a touching pair, any of them: from left to right each pad takes a port,
 * and shuts those from its own height to there, that one too: no pad further right may have them.
 * Among squares this may come to nothing; after some trials only leaders are kept apart, and it
 * returns false.
 */
bool any_untouching(const struct plan *plan, uint16_t *layout);

/* The ports that a pad at height y can take so that so many more stay open; how many these are. */
size_t choices_at(const struct plan *plan, const uint8_t *shut, int64_t y, size_t more,
                  uint16_t *choice);
void shut_ports(const struct plan *plan, uint8_t *shut, int64_t y, uint16_t port);

#endif
