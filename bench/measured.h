/* measured.h: the boards on which calls are counted and timed. Ports are 10 apart. */
#ifndef MEASURED_H
#define MEASURED_H

#include <stddef.h>
#include <stdint.h>

#include "../tests/values.h"

enum measured {
    RANDOM,      /* pad heights anywhere beside the ports */
    EVEN_SPREAD, /* a pad in each gap between ports */
    MIDDLE,      /* all pads in the middle gap; length weight 0, so that every untouching sheet is best */
    TIES,        /* two pads in every second gap: 2 to the n/2 best sheets */
    RIGHT,       /* only the rightmost pads, ten at most, have a choice; the others each just below a port .. */
    ABOVE_ALL,   /* .. or all above all ports, so that few strips can be filled */
    KINDS,
    AT_PORTS = KINDS, /* each pad at a port's height, perhaps the same; on slots alone */
    TALL,             /* one half of the pads as on even, in the lower half; the other half level with that, far right */
    RANDOM_SQUARES,   /* the same with squares, which leave a layout: on random up to what some layout leaves .. */
    EVEN_SQUARES,     /* .. on even half-sides 2 to 4, which are in no leader's way .. */
    TALL_SQUARES,     /* .. on tall those far right, each level with all ports of the lower half */
    FREE,             /* as random with length weight 0, so that a great many sheets are best; for counting alone .. */
    FREE_EVEN,        /* .. and as even: every run of ports can be filled, with many ports for its rightmost pad .. */
    FREE_MIXED,       /* .. and with a pad in each gap, x falling but for some pairs: made to be costly to count .. */
    FREE_WORST,       /* .. and the costliest to count that a search over heights and x came to */
    ALL_KINDS
};

extern const char *const measured_names[ALL_KINDS];

/* The same board without squares; itself if it has none. */
enum measured points_of(enum measured kind);

/* What First and the others are given; the bend weight is 0. The table has the figures that these weights give. */
struct given {
    uint8_t job[1024];
    size_t bytes;
    uint32_t length_weight;
    uint32_t table[64 * 64];
    size_t figures;
};

struct given make_measured(enum measured kind, int n);

/* The same on p slots, n at least: pads, and ports apart. */
struct on_slots {
    uint8_t pads[1024];
    size_t pad_bytes;
    uint8_t ports[512];
    size_t port_bytes;
    uint32_t length_weight;
};

struct on_slots make_measured_slots(enum measured kind, int n, int p);

/* Texts to be read, of the pads of random. */
enum text {
    UNQUOTED,
    QUOTED, /* every field */
    LONG,   /* of the largest size, by as many digits as fit each x: refused with 4 */
    LINES,  /* n lines, each the same, and none of random's: refused with 1 */
    TEXTS
};

extern const char *const text_names[TEXTS];

void make_measured_text(struct csv *csv, enum text kind, int n);

/* As many lines as a text can have beside the header. */
#define MOST_LINES 2339

#endif
