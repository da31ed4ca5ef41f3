/* The sheets worked by hand, and either side of every limit, each with its reply written out. */
#include <stdio.h>
#include <string.h>

#include "boards.h"
#include "trial.h"

#define KEPT 60000 /* what lists hold beyond the layout, and before First */

struct record {
    int x, y, port;
};

/* As many ports as pads, also where they stand apart. */
static struct question about(enum call call, size_t n, const struct record *records) {
    static uint32_t table[TABLE_ROOM];
    struct question q;
    memset(&q, 0, sizeof q);
    q.call = call;
    q.job_bytes = 16 * n;
    q.port_bytes = 4 * n;
    for (size_t i = 0; i < n; i++) {
        put_record(q.job, i, 101 + (int64_t)i, records[i].x, records[i].y, 0);
        set_port(&q, i, records[i].port);
    }
    lend_work(&q, 0);
    for (size_t k = 0; k < LIST_ROOM; k++) q.list.layout[k] = (uint16_t)(KEPT + k);
    q.count = n + 2;
    lend_page(&q, 2 * n + 1);
    lend_text(&q, TEXT_ROOM);
    if (takes_table(call)) lend_weights(&q, table, 1, 0);
    return q;
}

static const struct record J1[] = {{5, 3, 3}};
static const struct record J2[] = {{10, 0, 10}, {20, 30, 20}};
static const struct record J2_8[] = {{10, 0, 10}, {20, 30, 18}};
static const struct record J2_7[] = {{10, 0, 10}, {20, 30, 17}};
static const struct record J3[] = {{10, 15, 10}, {20, 15, 20}};
static const struct record J3_plus[] = {{10, 15, 10}, {20, 15, 20}, {30, 15, 30}};
static const struct record J4[] = {{10, 15, 10}, {20, 60, 20}};
static const struct record J5[] = {{10, 10, 0}, {20, 20, 10}, {30, 30, 20}};
/* Record 1 is as high as port 1, which it reaches without a bend only across record 0's hand. */
static const struct record level_pad[] = {{10, 20, 0}, {20, 10, 10}};

#define NONE {-1}
#define REFUSED(r, i) (-65536 * (r) - (i))
#define TOUCHING(i, j) (REFUSED(9, i) - 4294967296 * (j))
#define END (-1)

/* A job, a call, its weights, the layout given, the answer, the layout that was written, if any. */
static const struct {
    const char *mark;
    const struct record *job;
    size_t n;
    enum call call;
    uint32_t length_weight, bend_weight;
    int given[3];
    int64_t answer;
    int written[3];
} sheets[] = {
    {"P1", J1, 1, FIRST, 1, 0, NONE, 5, {0}},
    {"P2", J1, 1, FIRST, 0, 1, NONE, 0, {0}},
    {"P3", J2, 2, FIRST, 1, 0, NONE, 50, {0, 1}},
    {"P4", J2, 2, NEXT, 1, 0, {1, 0}, TOUCHING(1, 0), NONE},
    {"P5", J3, 2, FIRST, 1, 0, NONE, 40, {1, 0}},
    {"P6", J3, 2, NEXT, 1, 0, {1, 0}, 40, {0, 1}},
    {"P7", J3, 2, NEXT, 1, 0, {0, 1}, END, NONE},
    {"P8", J3, 2, NEXT, 1, 0, {0, 0}, REFUSED(8, 1), NONE},
    {"P9", J4, 2, FIRST, 1, 0, NONE, 75, {0, 1}},
    {"P10", J4, 2, NEXT, 1, 0, {1, 0}, REFUSED(10, 0), NONE},
    {"P11", J5, 3, FIRST, 2, 3, NONE, 183, {1, 2, 0}},
    {"P12", J5, 3, MEASURE, 1, 0, {0, 1, 2}, TOUCHING(1, 0), NONE},
    /* P10 names this total; with both weights 0 both layouts are best. */
    {"J4's other layout", J4, 2, MEASURE, 1, 0, {1, 0}, 85, NONE},
    {"J4, weights 0, 0", J4, 2, FIRST, 0, 0, NONE, 0, {1, 0}},
    {"J4, weights 0, 0", J4, 2, NEXT, 0, 0, {1, 0}, 0, {0, 1}},
    {"J4, weights 0, 0", J4, 2, NEXT, 0, 0, {0, 1}, END, NONE},
    /* Page from the same layouts: the one that follows, none, or Next's refusal. */
    {"P4 as a page", J2, 2, PAGE, 1, 0, {1, 0}, TOUCHING(1, 0), NONE},
    {"P6 as a page", J3, 2, PAGE, 1, 0, {1, 0}, 1, {0, 1}},
    {"P7 as a page", J3, 2, PAGE, 1, 0, {0, 1}, 0, NONE},
    {"P8 as a page", J3, 2, PAGE, 1, 0, {0, 0}, REFUSED(8, 1), NONE},
    {"P10 as a page", J4, 2, PAGE, 1, 0, {1, 0}, REFUSED(10, 0), NONE},
    {"J4, weights 0, 0", J4, 2, PAGE, 0, 0, {1, 0}, 1, {0, 1}},
    {"J4, weights 0, 0", J4, 2, PAGE, 0, 0, {0, 1}, 0, NONE},
    {"J5's end", J5, 3, PAGE, 2, 3, {1, 2, 0}, 0, NONE},
    {"J5 by pad height", J5, 3, PAGE, 1, 0, {0, 1, 2}, TOUCHING(1, 0), NONE},
    {"ports 7 apart", J2_7, 2, PAGE, 1, 0, {0, 1}, REFUSED(12, 1), NONE},
    /* What First and Next find, measured; their refusals, from Measure. */
    {"P1 measured", J1, 1, MEASURE, 1, 0, {0}, 5, NONE},
    {"P2 measured", J1, 1, MEASURE, 0, 1, {0}, 0, NONE},
    {"P3 measured", J2, 2, MEASURE, 1, 0, {0, 1}, 50, NONE},
    {"P4 measured", J2, 2, MEASURE, 1, 0, {1, 0}, TOUCHING(1, 0), NONE},
    {"P5 measured", J3, 2, MEASURE, 1, 0, {1, 0}, 40, NONE},
    {"P6 measured", J3, 2, MEASURE, 1, 0, {0, 1}, 40, NONE},
    {"P8 measured", J3, 2, MEASURE, 1, 0, {0, 0}, REFUSED(8, 1), NONE},
    {"P9 measured", J4, 2, MEASURE, 1, 0, {0, 1}, 75, NONE},
    {"P11 measured", J5, 3, MEASURE, 2, 3, {1, 2, 0}, 183, NONE},
    {"J5's end", J5, 3, NEXT, 2, 3, {1, 2, 0}, END, NONE},
    {"J5 by pad height", J5, 3, NEXT, 1, 0, {0, 1, 2}, TOUCHING(1, 0), NONE},
    /* An earlier record other than 0. */
    {"J5, 2 with 1", J5, 3, MEASURE, 1, 0, {1, 0, 2}, TOUCHING(2, 1), NONE},
    {"J5, 2 with 1", J5, 3, NEXT, 1, 0, {1, 0, 2}, TOUCHING(2, 1), NONE},
    {"J5, 2 with 1", J5, 3, PAGE, 1, 0, {1, 0, 2}, TOUCHING(2, 1), NONE},
    {"J5, 2 with 1", J5, 3, SVG, 0, 0, {1, 0, 2}, TOUCHING(2, 1), NONE},
    /* Ports 8 and 7 apart. */
    {"ports 8 apart", J2_8, 2, FIRST, 1, 0, NONE, 52, {0, 1}},
    {"ports 8 apart", J2_8, 2, NEXT, 1, 0, {0, 1}, END, NONE},
    {"ports 8 apart", J2_8, 2, MEASURE, 1, 0, {0, 1}, 52, NONE},
    {"ports 7 apart", J2_7, 2, FIRST, 1, 0, NONE, REFUSED(12, 1), NONE},
    {"ports 7 apart", J2_7, 2, NEXT, 1, 0, {0, 1}, REFUSED(12, 1), NONE},
    {"ports 7 apart", J2_7, 2, MEASURE, 1, 0, {0, 1}, REFUSED(12, 1), NONE},
    /* Straightening costs no length, but it can cost a bend. */
    {"level pad", level_pad, 2, FIRST, 1, 0, NONE, 50, {1, 0}},
    {"level pad", level_pad, 2, FIRST, 1, 1, NONE, 52, {1, 0}},
    {"level pad", level_pad, 2, NEXT, 1, 1, {1, 0}, END, NONE},
    {"level pad", level_pad, 2, MEASURE, 1, 1, {0, 1}, TOUCHING(1, 0), NONE},
};

/* The same over a table: so many figures, pad by pad, ports rising. */
static const struct {
    const char *mark;
    const struct record *job;
    size_t n;
    enum call call;
    size_t lent;
    uint32_t figures[9];
    int given[3];
    int64_t answer;
    int written[3];
} table_sheets[] = {
    {"largest figure", J1, 1, TABLE_FIRST, 1, {4294967295}, NONE, 4294967295, {0}},
    {"1 + 1 + 1", J3_plus, 3, TABLE_FIRST, 9, {5, 1, 5, 5, 5, 1, 1, 5, 5}, NONE, 3, {1, 2, 0}},
    {"2 + 32 + 64", J3_plus, 3, TABLE_MEASURE, 9, {1, 2, 4, 8, 16, 32, 64, 128, 256}, {1, 2, 0},
     98, NONE},
    {"all 7", J3, 2, TABLE_FIRST, 4, {7, 7, 7, 7}, NONE, 14, {1, 0}},
    {"all 7", J3, 2, TABLE_NEXT, 4, {7, 7, 7, 7}, {1, 0}, 14, {0, 1}},
    {"all 7", J3, 2, TABLE_NEXT, 4, {7, 7, 7, 7}, {0, 1}, END, NONE},
    {"5 and not 2", J3, 2, TABLE_FIRST, 4, {1, 2, 3, 1}, NONE, 2, {0, 1}},
    {"5 and not 2", J3, 2, TABLE_NEXT, 4, {1, 2, 3, 1}, {1, 0}, REFUSED(10, 0), NONE},
    {"5 and not 2", J3, 2, TABLE_MEASURE, 4, {1, 2, 3, 1}, {1, 0}, 5, NONE},
    /* Leaders that touch may have a smaller total, here 0: they do not count. */
    {"crossing pays", level_pad, 2, TABLE_FIRST, 4, {0, 1, 1, 0}, NONE, 2, {1, 0}},
    {"crossing pays", level_pad, 2, TABLE_NEXT, 4, {0, 1, 1, 0}, {1, 0}, END, NONE},
    {"crossing pays", level_pad, 2, TABLE_NEXT, 4, {0, 1, 1, 0}, {0, 1}, TOUCHING(1, 0), NONE},
    {"crossing pays", level_pad, 2, TABLE_MEASURE, 4, {0, 1, 1, 0}, {0, 1}, TOUCHING(1, 0), NONE},
    /* 13 is for a table that is longer, too, and comes after 1. */
    {"no job, no table", J1, 0, TABLE_FIRST, 0, {0}, NONE, REFUSED(1, 0), NONE},
    {"no job", J1, 0, TABLE_FIRST, 1, {1}, NONE, REFUSED(1, 0), NONE},
    {"shorter", J3, 2, TABLE_FIRST, 3, {1, 1, 1}, NONE, REFUSED(13, 0), NONE},
    {"longer", J3, 2, TABLE_FIRST, 5, {1, 1, 1, 1, 1}, NONE, REFUSED(13, 0), NONE},
    {"longer", J3, 2, TABLE_NEXT, 5, {1, 1, 1, 1, 1}, {1, 0}, REFUSED(13, 0), NONE},
    {"longer", J3, 2, TABLE_MEASURE, 5, {1, 1, 1, 1, 1}, {1, 0}, REFUSED(13, 0), NONE},
    {"ports 7 apart", J2_7, 2, TABLE_FIRST, 4, {1, 1, 1, 1}, NONE, REFUSED(12, 1), NONE},
    /* P1 to P12 with their lengths and bends as tables. */
    {"P1", J1, 1, TABLE_FIRST, 1, {5}, NONE, 5, {0}},
    {"P2", J1, 1, TABLE_FIRST, 1, {0}, NONE, 0, {0}},
    {"P3", J2, 2, TABLE_FIRST, 4, {20, 30, 40, 30}, NONE, 50, {0, 1}},
    {"P4", J2, 2, TABLE_NEXT, 4, {20, 30, 40, 30}, {1, 0}, TOUCHING(1, 0), NONE},
    {"P5", J3, 2, TABLE_FIRST, 4, {15, 15, 25, 25}, NONE, 40, {1, 0}},
    {"P6", J3, 2, TABLE_NEXT, 4, {15, 15, 25, 25}, {1, 0}, 40, {0, 1}},
    {"P7", J3, 2, TABLE_NEXT, 4, {15, 15, 25, 25}, {0, 1}, END, NONE},
    {"P8", J3, 2, TABLE_NEXT, 4, {15, 15, 25, 25}, {0, 0}, REFUSED(8, 1), NONE},
    {"P9", J4, 2, TABLE_FIRST, 4, {15, 15, 70, 60}, NONE, 75, {0, 1}},
    {"P10", J4, 2, TABLE_NEXT, 4, {15, 15, 70, 60}, {1, 0}, REFUSED(10, 0), NONE},
    {"P10", J4, 2, TABLE_MEASURE, 4, {15, 15, 70, 60}, {1, 0}, 85, NONE},
    {"P11", J5, 3, TABLE_FIRST, 9, {43, 20, 43, 83, 63, 40, 123, 103, 83}, NONE, 183, {1, 2, 0}},
    {"P12", J5, 3, TABLE_MEASURE, 9, {20, 10, 20, 40, 30, 20, 60, 50, 40}, {0, 1, 2},
     TOUCHING(1, 0), NONE},
};

/* The same on slots: pads, and ports that stand apart. */
static const struct {
    const char *mark;
    const struct record *pads;
    size_t n;
    int ports[4];
    size_t p;
    enum call call;
    uint32_t length_weight, bend_weight;
    int given[3];
    int64_t answer;
    int written[3];
} slots_sheets[] = {
    {"a free slot", J1, 1, {3, 13}, 2, SLOTS_FIRST, 1, 0, NONE, 5, {0}},
    {"a free slot", J1, 1, {3, 13}, 2, SLOTS_NEXT, 1, 0, {0}, END, NONE},
    {"a free slot", J1, 1, {3, 13}, 2, SLOTS_NEXT, 1, 0, {1}, REFUSED(10, 0), NONE},
    {"a free slot", J1, 1, {3, 13}, 2, SLOTS_MEASURE, 1, 0, {1}, 15, NONE},
    {"a free slot", J1, 1, {3, 13}, 2, SLOTS_MEASURE, 1, 0, {2}, REFUSED(8, 0), NONE},
    {"free below", J1, 1, {-7, 3}, 2, SLOTS_FIRST, 1, 0, NONE, 5, {1}},
    {"J2, a third port", J2, 2, {10, 20, 30}, 3, SLOTS_FIRST, 1, 0, NONE, 40, {0, 2}},
    {"J2, a third port", J2, 2, {10, 20, 30}, 3, SLOTS_NEXT, 1, 0, {0, 2}, END, NONE},
    {"J2, a third port", J2, 2, {10, 20, 30}, 3, SLOTS_NEXT, 1, 0, {0, 1}, REFUSED(10, 0), NONE},
    {"J2, a third port", J2, 2, {10, 20, 30}, 3, SLOTS_NEXT, 1, 0, {1, 0}, TOUCHING(1, 0), NONE},
    {"J3, a third port", J3, 2, {10, 20, 30}, 3, SLOTS_FIRST, 1, 0, NONE, 40, {1, 0}},
    {"J3, a third port", J3, 2, {10, 20, 30}, 3, SLOTS_NEXT, 1, 0, {1, 0}, 40, {0, 1}},
    {"J3, a third port", J3, 2, {10, 20, 30}, 3, SLOTS_NEXT, 1, 0, {0, 1}, END, NONE},
    {"J3, a third port", J3, 2, {10, 20, 30}, 3, SLOTS_NEXT, 1, 0, {0, 2}, REFUSED(10, 0), NONE},
    {"J3, a third port", J3, 2, {10, 20, 30}, 3, SLOTS_MEASURE, 1, 0, {2, 0}, 50, NONE},
    {"J3, a third port", J3, 2, {10, 20, 30}, 3, SLOTS_MEASURE, 1, 0, {2, 1}, TOUCHING(1, 0), NONE},
    {"J3, a third port", J3, 2, {10, 20, 30}, 3, SLOTS_NEXT, 1, 0, {2, 2}, REFUSED(8, 1), NONE},
    {"J3, a third port", J3, 2, {10, 20, 30}, 3, SLOTS_NEXT, 1, 0, {0, 3}, REFUSED(8, 1), NONE},
    /* With weights 0, 0 every untouching layout is best, the ones with a gap too. */
    {"J3, weights 0, 0", J3, 2, {10, 20, 30}, 3, SLOTS_FIRST, 0, 0, NONE, 0, {1, 0}},
    {"J3, weights 0, 0", J3, 2, {10, 20, 30}, 3, SLOTS_NEXT, 0, 0, {1, 0}, 0, {2, 0}},
    {"J3, weights 0, 0", J3, 2, {10, 20, 30}, 3, SLOTS_NEXT, 0, 0, {2, 0}, 0, {0, 1}},
    {"J3, weights 0, 0", J3, 2, {10, 20, 30}, 3, SLOTS_NEXT, 0, 0, {0, 1}, 0, {0, 2}},
    {"J3, weights 0, 0", J3, 2, {10, 20, 30}, 3, SLOTS_NEXT, 0, 0, {0, 2}, 0, {1, 2}},
    {"J3, weights 0, 0", J3, 2, {10, 20, 30}, 3, SLOTS_NEXT, 0, 0, {1, 2}, END, NONE},
    /* A free port may save a bend, or all of them. */
    {"level pad", level_pad, 2, {0, 10, 20}, 3, SLOTS_FIRST, 1, 1, NONE, 30, {2, 1}},
    {"J5, a fourth port", J5, 3, {0, 10, 20, 30}, 4, SLOTS_FIRST, 2, 3, NONE, 120, {1, 2, 3}},
    {"J5, a fourth port", J5, 3, {0, 10, 20, 30}, 4, SLOTS_MEASURE, 2, 3, {1, 2, 0}, 183, NONE},
    {"J5, a fourth port", J5, 3, {0, 10, 20, 30}, 4, SLOTS_MEASURE, 1, 0, {1, 0, 2}, TOUCHING(2, 1),
     NONE},
    /* As many ports as pads: P5, P6, P7, P11, P12. */
    {"P5", J3, 2, {10, 20}, 2, SLOTS_FIRST, 1, 0, NONE, 40, {1, 0}},
    {"P6", J3, 2, {10, 20}, 2, SLOTS_NEXT, 1, 0, {1, 0}, 40, {0, 1}},
    {"P7", J3, 2, {10, 20}, 2, SLOTS_NEXT, 1, 0, {0, 1}, END, NONE},
    {"P11", J5, 3, {0, 10, 20}, 3, SLOTS_FIRST, 2, 3, NONE, 183, {1, 2, 0}},
    {"P12", J5, 3, {0, 10, 20}, 3, SLOTS_MEASURE, 1, 0, {0, 1, 2}, TOUCHING(1, 0), NONE},
    /* Too few of them, also where the one that there is will not do. */
    {"one port", J3, 2, {10}, 1, SLOTS_FIRST, 1, 0, NONE, REFUSED(14, 0), NONE},
    {"one port", J3, 2, {1000001}, 1, SLOTS_NEXT, 1, 0, {0, 1}, REFUSED(14, 0), NONE},
    {"one port", J3, 2, {10}, 1, SLOTS_MEASURE, 1, 0, {0, 1}, REFUSED(14, 0), NONE},
    {"no port", J3, 2, {0}, 0, SLOTS_MEASURE, 1, 0, {0, 1}, REFUSED(1, 0), NONE},
    /* The port's number, also where no record has it. */
    {"7 apart", J1, 1, {3, 11, 18}, 3, SLOTS_FIRST, 1, 0, NONE, REFUSED(12, 2), NONE},
    {"8 apart", J1, 1, {3, 11, 19}, 3, SLOTS_FIRST, 1, 0, NONE, 5, {0}},
    {"falling", J1, 1, {3, 10, 2}, 3, SLOTS_MEASURE, 1, 0, {0}, REFUSED(5, 2), NONE},
    {"too high", J1, 1, {3, 0, 1000001}, 3, SLOTS_MEASURE, 1, 0, {0}, REFUSED(4, 2), NONE},
};

/* J4, but its first pad is nearer to the upper port; the same, its records the other way round. */
static const struct record near_upper[] = {{10, 16, 10}, {20, 60, 20}};
static const struct record turned[] = {{20, 60, 10}, {10, 16, 20}};
/* The second pad's hand passes two units right of the first pad, if it goes to the lower port. */
static const struct record passing[] = {{10, 15, 10}, {12, 40, 20}};
/* The first pad is so near to the label edge that its square reaches past it. */
static const struct record at_edge[] = {{3, 15, 10}, {20, 60, 20}};
/* A pad in the square of the other; two straight leaders 8 apart. */
static const struct record inside_pads[] = {{10, 10, 10}, {12, 12, 20}};
static const struct record straight_pads[] = {{10, 10, 10}, {14, 18, 18}};
/* A hundred times as large; at the largest height, at the smallest, at the largest x. */
static const struct record far_upper[] = {{1000, 1600, 1000}, {2000, 6000, 2000}};
static const struct record highest[] = {{10, 998000, 990000}, {20, 1000000, 1000000}};
static const struct record lowest[] = {{10, -998000, -1000000}, {20, -1000000, -990000}};
static const struct record rightmost[] = {{999000, 0, -5000}, {1000000, 20000, 5000}};
/* Pads at one height, the right one's arm above or below the left one. */
static const struct record level_pads[] = {{10, 15, 8}, {20, 15, 20}};

/* With squares: half-sides, and ports in the records or apart; a table of four figures. */
static const struct {
    const char *mark;
    const struct record *pads;
    int half[3];
    size_t n;
    int ports[3];
    size_t p;
    enum call call;
    uint32_t length_weight, bend_weight, figures[4];
    int given[3];
    int64_t answer;
    int written[3];
} square_sheets[] = {
    /* A square 19 wide to each side is one unit from the other leader; then no layout is left. */
    {"J2", J2, {19, 19}, 2, {10, 20}, 2, FIRST, 1, 0, {0}, NONE, 50, {0, 1}},
    {"J2", J2, {20, 0}, 2, {10, 20}, 2, FIRST, 1, 0, {0}, NONE, REFUSED(15, 0), NONE},
    {"J2", J2, {0, 20}, 2, {10, 20}, 2, FIRST, 1, 0, {0}, NONE, REFUSED(15, 0), NONE},
    {"J2", J2, {20, 0}, 2, {10, 20}, 2, MEASURE, 1, 0, {0}, {0, 1}, TOUCHING(1, 0), NONE},
    {"J2", J2, {0, 20}, 2, {10, 20}, 2, NEXT, 1, 0, {0}, {0, 1}, TOUCHING(1, 0), NONE},
    {"J2", J2, {0, 20}, 2, {10, 20}, 2, PAGE, 1, 0, {0}, {0, 1}, TOUCHING(1, 0), NONE},
    {"J2", J2, {19, 19}, 2, {10, 20}, 2, PAGE, 1, 0, {0}, {0, 1}, 0, NONE},
    /* The shorter layout is barred, then both: squares cost length. */
    {"near", near_upper, {3, 0}, 2, {10, 20}, 2, FIRST, 1, 0, {0}, NONE, 76, {0, 1}},
    {"near", near_upper, {4, 0}, 2, {10, 20}, 2, FIRST, 1, 0, {0}, NONE, 84, {1, 0}},
    {"near", near_upper, {5, 0}, 2, {10, 20}, 2, FIRST, 1, 0, {0}, NONE, 84, {1, 0}},
    {"near", near_upper, {6, 0}, 2, {10, 20}, 2, FIRST, 1, 0, {0}, NONE, REFUSED(15, 0), NONE},
    {"near", near_upper, {4, 0}, 2, {10, 20}, 2, NEXT, 1, 0, {0}, {1, 0}, END, NONE},
    {"near", near_upper, {4, 0}, 2, {10, 20}, 2, NEXT, 1, 0, {0}, {0, 1}, TOUCHING(1, 0), NONE},
    {"near", near_upper, {3, 0}, 2, {10, 20}, 2, NEXT, 1, 0, {0}, {1, 0}, REFUSED(10, 0), NONE},
    {"near", near_upper, {4, 0}, 2, {10, 20}, 2, MEASURE, 1, 0, {0}, {1, 0}, 84, NONE},
    {"near", near_upper, {6, 0}, 2, {10, 20}, 2, MEASURE, 1, 0, {0}, {1, 0}, TOUCHING(1, 0), NONE},
    {"turned", turned, {0, 4}, 2, {10, 20}, 2, FIRST, 1, 0, {0}, NONE, 84, {0, 1}},
    {"turned", turned, {0, 4}, 2, {10, 20}, 2, MEASURE, 1, 0, {0}, {1, 0}, TOUCHING(1, 0), NONE},
    {"turned", turned, {0, 3}, 2, {10, 20}, 2, MEASURE, 1, 0, {0}, {1, 0}, 76, NONE},
    /* The same over a table, by which the barred layout would cost nothing. */
    {"near", near_upper, {3, 0}, 2, {10, 20}, 2, TABLE_FIRST, 0, 0, {0, 9, 9, 0}, NONE, 0, {0, 1}},
    {"near", near_upper, {4, 0}, 2, {10, 20}, 2, TABLE_FIRST, 0, 0, {0, 9, 9, 0}, NONE, 18, {1, 0}},
    {"near", near_upper, {4, 0}, 2, {10, 20}, 2, TABLE_NEXT, 0, 0, {0, 9, 9, 0}, {1, 0}, END, NONE},
    {"near", near_upper, {4, 0}, 2, {10, 20}, 2, TABLE_MEASURE, 0, 0, {0, 9, 9, 0}, {0, 1},
     TOUCHING(1, 0), NONE},
    {"near", near_upper, {6, 0}, 2, {10, 20}, 2, TABLE_FIRST, 0, 0, {0, 9, 9, 0}, NONE,
     REFUSED(15, 0), NONE},
    /* A third port is out of the square's reach up to 13. */
    {"near", near_upper, {4, 0}, 2, {10, 20, 30}, 3, SLOTS_FIRST, 1, 0, {0}, NONE, 64, {1, 2}},
    {"near", near_upper, {13, 0}, 2, {10, 20, 30}, 3, SLOTS_FIRST, 1, 0, {0}, NONE, 64, {1, 2}},
    {"near", near_upper, {14, 0}, 2, {10, 20, 30}, 3, SLOTS_FIRST, 1, 0, {0}, NONE, REFUSED(15, 0),
     NONE},
    {"near", near_upper, {13, 0}, 2, {10, 20, 30}, 3, SLOTS_NEXT, 0, 0, {0}, {0, 2}, 0, {1, 2}},
    {"near", near_upper, {13, 0}, 2, {10, 20, 30}, 3, SLOTS_NEXT, 0, 0, {0}, {1, 2}, END, NONE},
    {"near", near_upper, {13, 0}, 2, {10, 20, 30}, 3, SLOTS_MEASURE, 1, 0, {0}, {1, 0},
     TOUCHING(1, 0), NONE},
    /* Half-sides of more than a byte. */
    {"far", far_upper, {399, 0}, 2, {1000, 2000}, 2, FIRST, 1, 0, {0}, NONE, 7600, {0, 1}},
    {"far", far_upper, {400, 0}, 2, {1000, 2000}, 2, FIRST, 1, 0, {0}, NONE, 8400, {1, 0}},
    {"far", far_upper, {600, 0}, 2, {1000, 2000}, 2, FIRST, 1, 0, {0}, NONE, REFUSED(15, 0), NONE},
    {"far", far_upper, {400, 0}, 2, {1000, 2000}, 2, TABLE_FIRST, 0, 0, {0, 9, 9, 0}, NONE, 18,
     {1, 0}},
    {"far", far_upper, {1399, 0}, 2, {1000, 2000, 3000}, 3, SLOTS_FIRST, 1, 0, {0}, NONE, 6400,
     {1, 2}},
    {"far", far_upper, {1400, 0}, 2, {1000, 2000, 3000}, 3, SLOTS_FIRST, 1, 0, {0}, NONE,
     REFUSED(15, 0), NONE},
    {"far", far_upper, {400, 0}, 2, {1000, 2000}, 2, MEASURE, 1, 0, {0}, {0, 1}, TOUCHING(1, 0),
     NONE},
    /* At and past the limits. */
    {"highest", highest, {1999, 0}, 2, {990000, 1000000}, 2, FIRST, 1, 0, {0}, NONE, 8030, {0, 1}},
    {"highest", highest, {2000, 0}, 2, {990000, 1000000}, 2, FIRST, 1, 0, {0}, NONE, REFUSED(15, 0),
     NONE},
    {"highest", highest, {0, 2000}, 2, {990000, 1000000}, 2, FIRST, 1, 0, {0}, NONE, REFUSED(15, 0),
     NONE},
    {"lowest", lowest, {1999, 0}, 2, {-1000000, -990000}, 2, FIRST, 1, 0, {0}, NONE, 8030, {1, 0}},
    {"lowest", lowest, {2000, 0}, 2, {-1000000, -990000}, 2, FIRST, 1, 0, {0}, NONE, REFUSED(15, 0),
     NONE},
    {"rightmost", rightmost, {999, 0}, 2, {-5000, 5000}, 2, FIRST, 0, 0, {0}, NONE, 0, {1, 0}},
    {"rightmost", rightmost, {1000, 0}, 2, {-5000, 5000}, 2, FIRST, 0, 0, {0}, NONE, 0, {0, 1}},
    {"rightmost", rightmost, {0, 2000}, 2, {-5000, 5000}, 2, FIRST, 0, 0, {0}, NONE, 0, {1, 0}},
    /* A hand along a square's side; one unit off it. */
    {"passing", passing, {1, 0}, 2, {10, 20}, 2, FIRST, 0, 0, {0}, NONE, 0, {1, 0}},
    {"passing", passing, {2, 0}, 2, {10, 20}, 2, FIRST, 0, 0, {0}, NONE, 0, {0, 1}},
    {"passing", passing, {1, 0}, 2, {10, 20}, 2, MEASURE, 1, 0, {0}, {1, 0}, 57, NONE},
    {"passing", passing, {2, 0}, 2, {10, 20}, 2, MEASURE, 1, 0, {0}, {1, 0}, TOUCHING(1, 0), NONE},
    {"passing", passing, {2, 0}, 2, {10, 20}, 2, NEXT, 0, 0, {0}, {0, 1}, END, NONE},
    /* Past the label edge, and over both ports. */
    {"at the edge", at_edge, {4, 0}, 2, {10, 20}, 2, FIRST, 1, 0, {0}, NONE, 68, {0, 1}},
    {"at the edge", at_edge, {5, 0}, 2, {10, 20}, 2, FIRST, 1, 0, {0}, NONE, REFUSED(15, 0), NONE},
    {"at the edge", at_edge, {2000, 0}, 2, {10, 20}, 2, FIRST, 1, 0, {0}, NONE, REFUSED(15, 0),
     NONE},
    /* In a square, on its corner, one unit off it; and its own square is no pad's affair. */
    {"inside", inside_pads, {5, 0}, 2, {10, 20}, 2, FIRST, 1, 0, {0}, NONE, REFUSED(15, 0), NONE},
    {"inside", inside_pads, {2, 0}, 2, {10, 20}, 2, FIRST, 1, 0, {0}, NONE, REFUSED(15, 0), NONE},
    {"inside", inside_pads, {1, 0}, 2, {10, 20}, 2, FIRST, 1, 0, {0}, NONE, 30, {0, 1}},
    {"inside", inside_pads, {0, 2}, 2, {10, 20}, 2, FIRST, 1, 0, {0}, NONE, REFUSED(15, 0), NONE},
    {"inside", inside_pads, {5, 0}, 2, {10, 20, 30}, 3, SLOTS_FIRST, 1, 0, {0}, NONE,
     REFUSED(15, 0), NONE},
    {"alone", J1, {2000}, 1, {3}, 1, FIRST, 1, 0, {0}, NONE, 5, {0}},
    {"alone", J1, {2001}, 1, {3}, 1, FIRST, 1, 0, {0}, NONE, REFUSED(4, 0), NONE},
    /* Squares may overlap. */
    {"overlap", straight_pads, {7, 7}, 2, {10, 18}, 2, FIRST, 1, 0, {0}, NONE, 24, {0, 1}},
    {"overlap", straight_pads, {8, 7}, 2, {10, 18}, 2, FIRST, 1, 0, {0}, NONE, REFUSED(15, 0),
     NONE},
    {"overlap", straight_pads, {7, 8}, 2, {10, 18}, 2, MEASURE, 1, 0, {0}, {0, 1}, TOUCHING(1, 0),
     NONE},
    /* The right pad's arm is 5 above the left pad, or 7 below it. */
    {"level", level_pads, {4, 0}, 2, {8, 20}, 2, FIRST, 1, 0, {0}, NONE, 42, {1, 0}},
    {"level", level_pads, {4, 0}, 2, {8, 20}, 2, NEXT, 1, 0, {0}, {1, 0}, 42, {0, 1}},
    {"level", level_pads, {5, 0}, 2, {8, 20}, 2, NEXT, 1, 0, {0}, {1, 0}, END, NONE},
    {"level", level_pads, {6, 9}, 2, {8, 20}, 2, FIRST, 1, 0, {0}, NONE, 42, {1, 0}},
    {"level", level_pads, {6, 10}, 2, {8, 20}, 2, FIRST, 1, 0, {0}, NONE, REFUSED(15, 0), NONE},
    {"level", level_pads, {7, 0}, 2, {8, 20}, 2, FIRST, 1, 0, {0}, NONE, REFUSED(15, 0), NONE},
    /* Leaders touch at a larger pair; the square does at a smaller one, and that is named. */
    {"J5", J5, {9, 0, 0}, 3, {0, 10, 20}, 3, MEASURE, 1, 0, {0}, {1, 0, 2}, TOUCHING(2, 1), NONE},
    {"J5", J5, {10, 0, 0}, 3, {0, 10, 20}, 3, MEASURE, 1, 0, {0}, {1, 0, 2}, TOUCHING(1, 0), NONE},
    {"J5", J5, {10, 0, 0}, 3, {0, 10, 20}, 3, NEXT, 1, 0, {0}, {1, 0, 2}, TOUCHING(1, 0), NONE},
    {"J5", J5, {10, 0, 0}, 3, {0, 10, 20}, 3, PAGE, 1, 0, {0}, {1, 0, 2}, TOUCHING(1, 0), NONE},
};

/* How many best layouts, and each by its place; the buffer has so many numbers. */
static const struct {
    const char *mark;
    const struct record *job;
    size_t n;
    enum call call;
    uint32_t length_weight, bend_weight;
    uint64_t place;
    size_t numbers;
    int64_t answer;
    int written[3];
} place_sheets[] = {
    {"J1", J1, 1, COUNT, 1, 0, 0, 18, 1, NONE},
    {"J1", J1, 1, PLACE, 1, 0, 0, 18, 5, {0}},
    {"J1", J1, 1, PLACE, 1, 0, 1, 18, REFUSED(17, 0), NONE},
    {"J3", J3, 2, COUNT, 1, 0, 0, 32, 2, NONE},
    {"J3, P5", J3, 2, PLACE, 1, 0, 0, 32, 40, {1, 0}},
    {"J3, P6", J3, 2, PLACE, 1, 0, 1, 32, 40, {0, 1}},
    {"J3, P7", J3, 2, PLACE, 1, 0, 2, 32, REFUSED(17, 0), NONE},
    {"J3 and three pads", J3_plus, 3, COUNT, 1, 0, 0, 50, 3, NONE},
    {"J3 and three pads", J3_plus, 3, PLACE, 1, 0, 0, 50, 85, {1, 2, 0}},
    {"J3 and three pads", J3_plus, 3, PLACE, 1, 0, 1, 50, 85, {1, 0, 2}},
    {"J3 and three pads", J3_plus, 3, PLACE, 1, 0, 2, 50, 85, {0, 1, 2}},
    {"J3 and three pads", J3_plus, 3, PLACE, 1, 0, 3, 50, REFUSED(17, 0), NONE},
    {"J4", J4, 2, COUNT, 1, 0, 0, 32, 1, NONE},
    {"J4, weights 0, 0", J4, 2, COUNT, 0, 0, 0, 32, 2, NONE},
    {"J4, weights 0, 0", J4, 2, PLACE, 0, 0, 0, 32, 0, {1, 0}},
    {"J4, weights 0, 0", J4, 2, PLACE, 0, 0, 1, 32, 0, {0, 1}},
    {"J5", J5, 3, COUNT, 2, 3, 0, 50, 1, NONE},
    {"J5, P11", J5, 3, PLACE, 2, 3, 0, 50, 183, {1, 2, 0}},
    {"J5, by far", J5, 3, PLACE, 2, 3, UINT64_MAX, 50, REFUSED(17, 0), NONE},
    /* A buffer of one number too few, which comes before the place. */
    {"J3, 31 numbers", J3, 2, COUNT, 1, 0, 0, 31, REFUSED(18, 0), NONE},
    {"J3, 31 numbers", J3, 2, PLACE, 1, 0, 0, 31, REFUSED(18, 0), NONE},
    {"J3, 31 numbers", J3, 2, PLACE, 1, 0, 2, 31, REFUSED(18, 0), NONE},
    {"ports 7 apart", J2_7, 2, COUNT, 1, 0, 0, 0, REFUSED(12, 1), NONE},
    {"ports 7 apart", J2_7, 2, PLACE, 1, 0, 9, 0, REFUSED(12, 1), NONE},
};

static void put_layout(uint16_t *list, const int *layout, size_t n) {
    if (layout[0] < 0) return;
    for (size_t i = 0; i < n; i++) list[i] = (uint16_t)layout[i];
}

/* The question with a layout given: its answer, and the layout that was written. */
static void worked(struct question q, const char *mark, const int *given, int64_t answer,
                   const int *written) {
    size_t n = records_of(&q);
    put_layout(q.list.layout, given, n);
    struct reply r = keeps(&q, answer);
    put_layout(q.call == PAGE ? r.page : r.list.layout, written, n);
    if (!expect(&q, r)) printf("  this was %s\n", mark);
    if (plain_reply(&q).answer != answer) check(false, &q, "the plain account differs");
}

static void worked_sheets(void) {
    for (size_t k = 0; k < sizeof sheets / sizeof *sheets; k++) {
        if (sheets[k].call >= CALLS) continue;
        struct question q = about(sheets[k].call, sheets[k].n, sheets[k].job);
        q.a = sheets[k].length_weight;
        q.b = sheets[k].bend_weight;
        worked(q, sheets[k].mark, sheets[k].given, sheets[k].answer, sheets[k].written);
    }
}

static void worked_tables(void) {
    for (size_t k = 0; k < sizeof table_sheets / sizeof *table_sheets; k++) {
        if (table_sheets[k].call >= CALLS) continue;
        struct question q = about(table_sheets[k].call, table_sheets[k].n, table_sheets[k].job);
        q.figures = table_sheets[k].lent;
        memcpy(q.table, table_sheets[k].figures, sizeof table_sheets[k].figures);
        worked(q, table_sheets[k].mark, table_sheets[k].given, table_sheets[k].answer,
               table_sheets[k].written);
    }
}

static void worked_slots(void) {
    for (size_t k = 0; k < sizeof slots_sheets / sizeof *slots_sheets; k++) {
        if (slots_sheets[k].call >= CALLS) continue;
        struct question q = about(slots_sheets[k].call, slots_sheets[k].n, slots_sheets[k].pads);
        q.port_bytes = 4 * slots_sheets[k].p;
        for (size_t i = 0; i < slots_sheets[k].p; i++) set_port(&q, i, slots_sheets[k].ports[i]);
        lend_work(&q, 0);
        q.a = slots_sheets[k].length_weight;
        q.b = slots_sheets[k].bend_weight;
        worked(q, slots_sheets[k].mark, slots_sheets[k].given, slots_sheets[k].answer,
               slots_sheets[k].written);
    }
}

static void worked_squares(void) {
    for (size_t k = 0; k < sizeof square_sheets / sizeof *square_sheets; k++) {
        enum call call = square_sheets[k].call;
        if (call >= CALLS) continue;
        struct question q = about(call, square_sheets[k].n, square_sheets[k].pads);
        for (size_t i = 0; i < square_sheets[k].n; i++)
            put_half(q.job, i, square_sheets[k].half[i]);
        q.port_bytes = 4 * square_sheets[k].p;
        for (size_t i = 0; i < square_sheets[k].p; i++) set_port(&q, i, square_sheets[k].ports[i]);
        lend_work(&q, 0);
        q.a = square_sheets[k].length_weight;
        q.b = square_sheets[k].bend_weight;
        if (takes_table(call))
            memcpy(q.table, square_sheets[k].figures, sizeof square_sheets[k].figures);
        worked(q, square_sheets[k].mark, square_sheets[k].given, square_sheets[k].answer,
               square_sheets[k].written);
    }
}

static void worked_places(void) {
    static const int none[] = NONE;
    for (size_t k = 0; k < sizeof place_sheets / sizeof *place_sheets; k++) {
        if (place_sheets[k].call >= CALLS) continue;
        struct question q = about(place_sheets[k].call, place_sheets[k].n, place_sheets[k].job);
        q.a = place_sheets[k].length_weight;
        q.b = place_sheets[k].bend_weight;
        q.place = place_sheets[k].place;
        q.numbers = place_sheets[k].numbers;
        worked(q, place_sheets[k].mark, none, place_sheets[k].answer, place_sheets[k].written);
    }
}

/* J3 with a list of one entry: 13 before 3. */
static void worked_short_list(void) {
    struct question q = about(TABLE_FIRST, 2, J3);
    if (TABLE_FIRST >= CALLS) return;
    q.count = 1;
    q.figures = 3;
    expect(&q, keeps(&q, REFUSED(13, 0)));
    q.figures = 4;
    expect(&q, keeps(&q, REFUSED(3, 0)));
}

/* The level pad with other weights: its touching leaders have a bend less and the same lengths. */
static void bends_can_cost(void) {
    static const uint32_t weights[] = {0, 1, 2, 7, 999, 1000};
    static const uint16_t crossed[] = {0, 1}, apart[] = {1, 0};
    struct question q = about(FIRST, 2, level_pad);
    for (int k = 0; k < 36 && FIRST < CALLS; k++) {
        q.a = weights[k / 6];
        q.b = weights[k % 6];
        struct given g = given_of(&q);
        expect(&q, gives(&q, 50 * (int64_t)q.a + 2 * q.b, apart));
        check(plain_total(&g, crossed) == 50 * (int64_t)q.a + q.b, &q, "the crossed total");
    }
}

/* ---- Svg ---- */

/* A text's line: the points of one leader. */
#define LINE(points) "<polyline points=\"" points "\"/>\n"

/* Points a quarter from the edge and from each other; pads at the corners of the board. */
static const struct record quarters[] = {{1, 1, -1}, {2, -2, 10}, {3, 3, 21}};
static const struct record corners[] = {{999999, 999999, -999999}, {1000000, -1000000, 1000000}};
static const struct record below_zero[] = {{4, -4, -4}, {40, -40, 40}};

/* A job, a layout, and its text: best or not. */
static const struct {
    const char *mark;
    const struct record *job;
    size_t n;
    int given[3];
    const char *text;
} texts[] = {
    {"J5", J5, 3, {1, 2, 0}, LINE("2.5,-2.5 0,-2.5") LINE("5,-5 0,-5") LINE("7.5,-7.5 7.5,0 0,0")},
    {"J1", J1, 1, {0}, LINE("1.25,-0.75 0,-0.75")},
    {"J2", J2, 2, {0, 1}, LINE("2.5,0 2.5,-2.5 0,-2.5") LINE("5,-7.5 5,-5 0,-5")},
    {"J3, P5", J3, 2, {1, 0}, LINE("2.5,-3.75 2.5,-5 0,-5") LINE("5,-3.75 5,-2.5 0,-2.5")},
    {"J3, P6", J3, 2, {0, 1}, LINE("2.5,-3.75 2.5,-2.5 0,-2.5") LINE("5,-3.75 5,-5 0,-5")},
    {"J4, not best", J4, 2, {1, 0}, LINE("2.5,-3.75 2.5,-5 0,-5") LINE("5,-15 5,-2.5 0,-2.5")},
    {"quarters", quarters, 3, {1, 0, 2},
     LINE("0.25,-0.25 0.25,-2.5 0,-2.5") LINE("0.5,0.5 0.5,0.25 0,0.25")
     LINE("0.75,-0.75 0.75,-5.25 0,-5.25")},
    {"corners", corners, 2, {1, 0},
     LINE("249999.75,-249999.75 249999.75,-250000 0,-250000")
     LINE("250000,250000 250000,249999.75 0,249999.75")},
    {"below zero", below_zero, 2, {0, 1}, LINE("1,1 0,1") LINE("10,10 10,-10 0,-10")},
};

/* In just as many bytes as it has, and in more; in one less it is refused. */
static void worked_text(struct question q, const char *mark, const char *text) {
    size_t bytes = strlen(text);
    struct reply r = keeps(&q, (int64_t)bytes);
    memcpy(r.text, text, bytes);
    if (!expect(&q, r)) printf("  this was %s\n", mark);
    struct reply plain = plain_reply(&q);
    check(plain.answer == r.answer && memcmp(plain.text, r.text, sizeof r.text) == 0, &q,
          "the plain account differs");
    q.text_bytes = bytes;
    expect(&q, r);
    q.text_bytes--;
    expect(&q, keeps(&q, REFUSED(19, 0)));
}

static void worked_texts(void) {
    for (size_t k = 0; k < sizeof texts / sizeof *texts; k++) {
        struct question q = about(SVG, texts[k].n, texts[k].job);
        put_layout(q.list.layout, texts[k].given, texts[k].n);
        worked_text(q, texts[k].mark, texts[k].text);
    }
}

/* Half-sides count where records touch, and nowhere else; 9 comes before 19. */
static void squares_and_text(void) {
    struct question q = about(SVG, 2, near_upper);
    put_layout(q.list.layout, (const int[]){0, 1}, 2);
    put_half(q.job, 0, 3);
    worked_text(q, "near", LINE("2.5,-4 2.5,-2.5 0,-2.5") LINE("5,-15 5,-5 0,-5"));
    put_half(q.job, 0, 4);
    expect(&q, keeps(&q, TOUCHING(1, 0)));
    q.text_bytes = 0;
    expect(&q, keeps(&q, TOUCHING(1, 0)));
}

/* ---- Draw ---- */

static void put_bits(union list *list, size_t k, uint32_t bits) {
    memcpy(list->points + k, &bits, sizeof bits);
}

static void drawn(const struct question *q, int64_t points, const uint32_t *bits) {
    struct reply r = keeps(q, points);
    for (size_t k = 0; k < 2 * (size_t)points; k++) put_bits(&r.list, k, bits[k]);
    expect(q, r);
}

static struct question draw_of(size_t n, const struct record *job, uint32_t record, uint32_t port) {
    struct question q = about(DRAW, n, job);
    q.a = record;
    q.b = port;
    q.count = 8;
    for (size_t k = 0; k < LIST_ROOM; k++) put_bits(&q.list, k, (uint32_t)(0x7F800001 + k));
    return q;
}

static void drawn_sheets(void) {
    struct question bent = draw_of(3, J5, 2, 0), straight = draw_of(3, J5, 0, 1);
    drawn(&bent, 3, (const uint32_t[]){0x40F00000, 0xC0F00000, 0x40F00000, 0, 0, 0});
    drawn(&straight, 2, (const uint32_t[]){0x40200000, 0xC0200000, 0, 0xC0200000});
    bent.count = 6;
    drawn(&bent, 3, (const uint32_t[]){0x40F00000, 0xC0F00000, 0x40F00000, 0, 0, 0});
    straight.count = 6;
    drawn(&straight, 2, (const uint32_t[]){0x40200000, 0xC0200000, 0, 0xC0200000});
    straight.count = 5;
    expect(&straight, keeps(&straight, REFUSED(3, 0)));
    struct question close = draw_of(2, J2_7, 0, 0);
    expect(&close, keeps(&close, REFUSED(12, 1)));
}

/* Squares make no difference, not even those that leave no layout, unless they are too large. */
static void drawn_squares(void) {
    struct question q = draw_of(3, J5, 2, 0);
    for (size_t i = 0; i < 3; i++) put_half(q.job, i, 2000);
    drawn(&q, 3, (const uint32_t[]){0x40F00000, 0xC0F00000, 0x40F00000, 0, 0, 0});
    put_half(q.job, 1, 2001);
    expect(&q, keeps(&q, REFUSED(4, 1)));
}

/* Four times the drawn number is the whole number, and a zero is positive. */
static bool stands_for(float drawn_number, int64_t units) {
    uint32_t bits;
    memcpy(&bits, &drawn_number, sizeof bits);
    return 4.0 * drawn_number == (double)units && (units != 0 || bits == 0);
}

/* Pad (x, y) and port height over their whole range, most of it in steps. */
static void drawn_range(void) {
    for (int64_t v = -1000000; v <= 1000000;) {
        int64_t x = v < 0 ? -v : v + (v == 0), port = -v / 3;
        struct record job = {(int)x, (int)v, (int)port};
        struct question q = draw_of(1, &job, 0, 0);
        struct reply r = ask(&q, AT_END);
        const float *p = r.list.points, *last = p + (v == port ? 2 : 4);
        bool ok = r.answer == (v == port ? 2 : 3) && stands_for(p[0], x) && stands_for(p[1], -v) &&
                  stands_for(last[0], 0) && stands_for(last[1], -port);
        if (v != port) ok &= stands_for(p[2], x) && stands_for(p[3], -port);
        check(ok, &q, "drawn otherwise");
        v += (v >= -999000 && v < -2037) || (v >= 2000 && v < 998900) ? 37 : 1;
    }
}

/* ---- either side of a limit ---- */

/*
 * n straight leaders, pad i at port i, the ports so far apart: the only best layout, weights 1, 0,
 * or their table, total 10 + 20 + ..
 */
static struct question spaced(enum call call, size_t n, int apart) {
    struct record job[66];
    for (int i = 0; i < (int)n; i++) {
        struct record straight = {10 * (i + 1), apart * i, apart * i};
        job[i] = straight;
    }
    struct question q = call == DRAW ? draw_of(n, job, 0, 0) : about(call, n, job);
    if (call != DRAW) q.a = 1;
    if (takes_layout(call))
        for (size_t i = 0; i < n; i++) q.list.layout[i] = (uint16_t)i;
    return q;
}

static struct question good(enum call call, size_t n) { return spaced(call, n, 10); }

static void passes(const struct question *q) {
    struct reply r = plain_reply(q);
    check(r.answer >= -1, q, "this should pass");
    expect(q, r);
}

static void is_refused(const struct question *q, int number, int record) {
    check(plain_reply(q).answer == refused(number, record), q, "this should be refused");
    expect(q, keeps(q, refused(number, record)));
}

/* The reply to n straight leaders, for more records than the plain account can try too. */
static void is_straight(const struct question *q) {
    int64_t n = (int64_t)records_of(q);
    int64_t none_follows = q->call == PAGE ? 0 : END;
    bool fills_list = gives_first(q->call) || q->call == PLACE;
    struct reply r = keeps(q, takes_best(q->call) ? none_follows : 5 * n * (n + 1));
    if (q->call == COUNT) r.answer = 1;
    if (q->call == SVG) r = plain_reply(q);
    for (int64_t i = 0; i < n && fills_list; i++) r.list.layout[i] = (uint16_t)i;
    if (q->call == DRAW)
        drawn(q, 2, (const uint32_t[]){0x40200000, 0, 0, 0});
    else
        expect(q, r);
}

static void largest_job(enum call call, int apart) {
    struct question q = spaced(call, 64, apart);
    is_straight(&q);
}

static void sizes(enum call call) {
    struct question q = good(call, 1);
    passes(&q);
    q.job_bytes = 15;
    is_refused(&q, 1, 0);
    q.job_bytes = 17;
    is_refused(&q, 1, 0);
    q.job_bytes = 0;
    is_refused(&q, 1, 0);
    q.count = 0;
    is_refused(&q, 1, 0);
    largest_job(call, 10);
    q = good(call, 65);
    is_refused(&q, 1, 0);
    q.job_bytes = 1025;
    is_refused(&q, 1, 0);
    q.job_bytes = 1023;
    is_refused(&q, 1, 0);
}

/* 4 to 512 bytes of ports, in fours. */
static void port_sizes(enum call call) {
    static const size_t bad[] = {0, 1, 3, 5, 15, 17, 511, 513, 516, 520, PORTS_ROOM};
    if (!takes_slots(call)) return;
    struct question q = good(call, 3);
    for (size_t k = 0; k < sizeof bad / sizeof *bad; k++) {
        q.port_bytes = bad[k];
        is_refused(&q, 1, 0);
    }
    q.job_bytes = 0;
    is_refused(&q, 1, 0);
    q.port_bytes = 0;
    is_refused(&q, 1, 0);
}

/* Straight leaders to the first ports of so many. */
static struct question on_strip(enum call call, size_t n, size_t p, int apart) {
    struct question q = spaced(call, n, apart);
    q.port_bytes = 4 * p;
    for (size_t i = n; i < p; i++) set_port(&q, i, apart * (int64_t)i);
    lend_work(&q, 0);
    return q;
}

/*
 * A square that reaches the ports beside its own: no pad right of it may have these. So those above
 * it go one port up, if there is one; else the first of them goes below all others.
 */
static void grazed_from(struct question q, uint16_t port) {
    bool room = port < 120;
    put_half(q.job, 3, 8);
    for (uint16_t i = 0; i < 8; i++) q.list.layout[i] = port + i + (i > 3 && room);
    if (!room) q.list.layout[4] = port - 1;
    struct reply r = keeps(&q, q.call == SLOTS_NEXT ? END : 5 * 8 * 9 + (room ? 4 * 8 : 5 * 8));
    if (q.call == SLOTS_FIRST) q.list.layout[0] = KEPT;
    expect(&q, r);
    q.list.layout[0] = port;
    if (!room) q.list.layout[4] = port + 4;
    for (uint16_t i = 4; i < 8 && room; i++) q.list.layout[i] = port + i;
    if (takes_layout(q.call)) expect(&q, keeps(&q, refused_pair(4, 3)));
}

/* Straight leaders of eight pads to eight of 128 ports, from some port on; squares that just fit. */
static void straight_from(enum call call, uint16_t port) {
    struct question q = on_strip(call, 8, 128, 8);
    struct reply r = keeps(&q, takes_best(call) ? END : 5 * 8 * 9);
    for (uint16_t i = 0; i < 8; i++) {
        put_y(q.job, i, port_of(&q, port + i));
        put_half(q.job, i, 7);
        if (takes_layout(call)) q.list.layout[i] = port + i;
        r.list.layout[i] = port + i;
    }
    expect(&q, r);
    grazed_from(q, port);
}

/* 128 ports, of which any may be at fault, and 129; as many ports as pads, and one fewer. */
static void strips(enum call call) {
    if (!takes_slots(call)) return;
    struct question q;
    for (uint16_t port = 0; port <= 120; port += 24) straight_from(call, port);
    for (size_t i = 1; i < 128; i += 1 + i / 3) {
        q = on_strip(call, 3, 128, 8);
        set_port(&q, i, port_of(&q, i) - 1);
        is_refused(&q, 12, (int)i);
        set_port(&q, i, port_of(&q, i - 1));
        is_refused(&q, 5, (int)i);
        set_port(&q, i, i % 2 ? 1000001 : -1000001);
        is_refused(&q, 4, (int)i);
    }
    q = on_strip(call, 3, 129, 8);
    is_refused(&q, 1, 0);
    for (size_t n = 1; n <= 64; n += 1 + n / 2) {
        q = on_strip(call, n, n, 10);
        q.port_bytes -= 4;
        is_refused(&q, n == 1 ? 1 : 14, 0);
    }
}

/* Just enough numbers, more of them, and fewer. */
static void works(enum call call) {
    if (!takes_work(call)) return;
    struct question q = on_strip(call, 3, 5, 10);
    size_t enough = q.numbers;
    check(enough == 392, &q, "2 times 4 times 7 times 7");
    for (q.numbers = enough; q.numbers < enough + 40; q.numbers += 13) passes(&q);
    for (q.numbers = 0; q.numbers < enough; q.numbers += 17) is_refused(&q, 24, 0);
    q.numbers = enough - 1;
    is_refused(&q, 24, 0);
    put_x(q.job, 0, 0);
    is_refused(&q, 24, 0);
    q.port_bytes = 8;
    is_refused(&q, 14, 0);
    q.count = 2;
    is_refused(&q, 3, 0);
}

/* The same of a buffer, which is looked at after the job. */
static void buffers(enum call call) {
    if (!takes_buffer(call)) return;
    struct question q = good(call, 3);
    size_t enough = q.numbers;
    check(enough == 50, &q, "2 times 5 times 5");
    for (q.numbers = enough; q.numbers < enough + 40; q.numbers += 13) passes(&q);
    for (q.numbers = 0; q.numbers < enough; q.numbers++) is_refused(&q, 18, 0);
    q.numbers = enough - 1;
    q.place = 1;
    is_refused(&q, 18, 0);
    put_half(q.job, 1, 10);
    is_refused(&q, 15, 0);
    put_x(q.job, 0, 0);
    is_refused(&q, 4, 0);
}

static void weights(enum call call) {
    struct question q = good(call, 3);
    if (!takes_weights(call)) return;
    q.a = q.b = 1000;
    passes(&q);
    q.a = 1001;
    is_refused(&q, 2, 0);
    q.a = 1000;
    q.b = 1001;
    is_refused(&q, 2, 0);
    q.b = UINT32_MAX;
    is_refused(&q, 2, 0);
    q.a = UINT32_MAX;
    q.b = 0;
    is_refused(&q, 2, 0);
}

/* A best layout for those calls that are given one. */
static void give_best(struct question *q) {
    struct question first = *q;
    turn_to(&first, FIRST);
    if (takes_layout(q->call)) q->list = plain_reply(&first).list;
}

/* Nine figures of any size for three pads, and no other number of them; 13 before 3 and 4. */
static void tables(enum call call) {
    static const uint32_t sizes[] = {0, 1, 1001, 2147483647, 2147483648, 4294967295};
    struct question q = good(call, 3);
    if (!takes_table(call)) return;
    for (size_t k = 0; k < 9 * sizeof sizes / sizeof *sizes; k++) {
        q.table[k % 9] = sizes[k / 9];
        give_best(&q);
        passes(&q);
    }
    for (q.figures = 0; q.figures <= 64; q.figures++)
        if (q.figures != 9) is_refused(&q, 13, 0);
    put_x(q.job, 0, 0);
    is_refused(&q, 13, 0);
    q.count = 2;
    is_refused(&q, 13, 0);
    q.figures = 9;
    is_refused(&q, 3, 0);
    q.count = 3;
    is_refused(&q, 4, 0);
}

static void room(enum call call) {
    struct question q = good(call, 3);
    size_t enough = call == DRAW ? 6 : 3;
    if (call == COUNT) return;
    q.count = enough;
    passes(&q);
    q.count = enough + 20;
    passes(&q);
    for (q.count = 0; q.count < enough; q.count++) is_refused(&q, 3, 0);
}

/* Bytes for a text: just enough, and each number below. */
static void text_room(enum call call) {
    struct question q = good(call, 3);
    if (call != SVG) return;
    q.text_bytes = text_length(&q);
    passes(&q);
    while (q.text_bytes-- > 0) is_refused(&q, 19, 0);
}

typedef void put_field(uint8_t *job, size_t i, int64_t value);

static void put_in(struct question *q, put_field *put, size_t i, int64_t value) {
    if (put == put_port)
        set_port(q, i, value);
    else
        put(q->job, i, value);
}

static void inside(enum call call, put_field *put, size_t record, int64_t value) {
    struct question q = good(call, 3);
    put_in(&q, put, record, value);
    give_best(&q);
    passes(&q);
}

static void outside(enum call call, put_field *put, size_t record, int64_t value) {
    struct question q = good(call, 3);
    put_in(&q, put, record, value);
    is_refused(&q, 4, (int)record);
}

static void fields(enum call call) {
    static const int64_t far_out[] = {-1000001, 1000001, -2147483648, 2147483647, -16777216};
    for (size_t i = 0; i < 3; i++) {
        inside(call, put_x, i, 1);
        inside(call, put_x, i, 1000000);
        inside(call, put_y, i, -1000000);
        inside(call, put_y, i, 1000000);
        inside(call, put_name, i, 1);
        inside(call, put_name, i, 256);
        inside(call, put_name, i, 65535);
        outside(call, put_name, i, 0);
        outside(call, put_x, i, 0);
        outside(call, put_x, i, 1000001);
        outside(call, put_x, i, 2147483648);
        outside(call, put_x, i, 4294967295);
        outside(call, put_half, i, 2001);
        outside(call, put_half, i, 2048);
        outside(call, put_half, i, 65535);
        inside(call, put_half, i, 1);
        inside(call, put_half, i, 9);
        for (size_t k = 0; k < sizeof far_out / sizeof *far_out; k++) {
            outside(call, put_y, i, far_out[k]);
            outside(call, put_port, i, far_out[k]);
        }
    }
    inside(call, put_port, 0, -1000000);
    inside(call, put_port, 2, 1000000);
}

/* Where ports stand apart, a pad's last field is 0, in each of its bits. */
static void last_fields(enum call call) {
    for (int bit = 0; bit < 32 && takes_slots(call); bit++) {
        struct question q = good(call, 3);
        put_port(q.job, (size_t)bit % 3, (int64_t)1 << bit);
        is_refused(&q, 4, bit % 3);
    }
}

/* Every name, by one call or another: all pass but 0. */
static void names(void) {
    for (uint32_t name = 0; name < 65536; name++) {
        struct question q = good((enum call)(MEASURE + name % (CALLS - MEASURE)), 1);
        put_name(q.job, 0, name);
        check((ask(&q, AT_END).answer == refused(4, 0)) == (name == 0), &q, "this name");
    }
}

/* Every half-side, by every call: up to 2,000 they pass. */
static void half_sides(enum call call) {
    struct question sound = good(call, 1), q = sound;
    int64_t passed = call_library(&q);
    check(passed >= -1, &sound, "a pad alone passes");
    bool ok = true;
    for (uint32_t half = 0; half < 65536; half++) {
        q.list = sound.list;
        put_half(q.job, 0, half);
        bool same = call_library(&q) == (half <= 2000 ? passed : refused(4, 0));
        if (half > 2000) same &= memcmp(&q.list, &sound.list, sizeof q.list) == 0;
        ok &= same;
        if (!same && half % 256 == 0) check(false, &q, "this half-side");
    }
    check(ok, NULL, "a half-side passes or not");
}

/* Names, and x, that are equal in all bits but one are not the same. */
static void one_bit_apart(enum call call) {
    for (int bit = 0; bit < 16; bit++) {
        struct question q = good(call, 3);
        put_name(q.job, 0, 0x5555);
        put_name(q.job, 2, 0x5555 ^ (1 << bit));
        passes(&q);
        put_name(q.job, 2, 0x5555);
        is_refused(&q, 6, 2);
    }
    for (int bit = 0; bit < 20; bit++) {
        struct question q = good(call, 3);
        put_x(q.job, 0, 0x55555);
        put_x(q.job, 2, 0x55555 ^ (1 << bit));
        give_best(&q);
        passes(&q);
        put_x(q.job, 2, 0x55555);
        is_refused(&q, 7, 2);
    }
}

static void job_rules(enum call call) {
    struct question q = good(call, 3);
    set_port(&q, 1, 0); /* equal port heights */
    is_refused(&q, 5, 1);
    put_x(q.job, 1, 0); /* and x = 0 in the same record */
    is_refused(&q, 4, 1);
    q = good(call, 3);
    set_port(&q, 1, -1);
    is_refused(&q, 5, 1);
    q = good(call, 3);
    put_name(q.job, 2, 101);
    is_refused(&q, 6, 2);
    put_x(q.job, 2, 20); /* and one x twice, which is left when the name goes */
    is_refused(&q, 6, 2);
    put_name(q.job, 2, 104);
    is_refused(&q, 7, 2);
}

/* n straight leaders: port i is so much above the one before, every other 10. */
static struct question rising(enum call call, size_t n, size_t i, int64_t by) {
    struct question q = good(call, n);
    for (int64_t port = port_of(&q, i - 1) + by; i < n; i++, port += 10) {
        set_port(&q, i, port);
        put_y(q.job, i, port);
    }
    return q;
}

static void one_rise(enum call call, size_t n, size_t i, int64_t by) {
    struct question q = rising(call, n, i, by);
    if (by < 8)
        is_refused(&q, by > 0 ? 12 : 5, (int)i);
    else
        is_straight(&q);
}

/* Either side of 8 at every record of five, and at the first, the last and two others of 64. */
static void spacing(enum call call) {
    for (int64_t by = -8; by <= 9; by++)
        for (size_t i = 1; i < 5; i++) {
            one_rise(call, 5, i, by);
            one_rise(call, 64, 1 + (i - 1) * 62 / 3, by);
        }
    largest_job(call, 8);
    struct question q = spaced(call, 64, 7);
    is_refused(&q, 12, 1);
}

/* Rises that would be small, or falls, in 8 or 16 bits; one that would be in 32 gets 4 first. */
static void wide_rises(enum call call) {
    static const int64_t rises[] = {128, 256, 263, 32768, 65536, 65543, 1 << 20, 2000000};
    for (size_t k = 0; k < sizeof rises / sizeof *rises; k++) {
        struct question q = good(call, 2);
        set_port(&q, 0, -1000000);
        set_port(&q, 1, rises[k] - 1000000);
        give_best(&q);
        passes(&q);
        set_port(&q, 0, rises[k] - 1000000);
        set_port(&q, 1, -1000000);
        is_refused(&q, 5, 1);
    }
    struct question q = good(call, 2);
    set_port(&q, 0, INT32_MIN);
    set_port(&q, 1, INT32_MAX);
    is_refused(&q, 4, 0);
}

/* 5 before 12 before 6, wherever they stand. */
static void spacing_in_its_place(enum call call) {
    struct question q = good(call, 5);
    set_port(&q, 1, 7);
    put_name(q.job, 1, get_name(q.job, 0));
    put_x(q.job, 1, get_x(q.job, 0));
    is_refused(&q, 12, 1);
    set_port(&q, 4, 30);
    is_refused(&q, 5, 4);
    q = good(call, 5);
    set_port(&q, 4, 37);
    put_x(q.job, 1, get_x(q.job, 0));
    is_refused(&q, 12, 4);
    put_name(q.job, 1, get_name(q.job, 0));
    is_refused(&q, 12, 4);
    set_port(&q, 4, 38);
    is_refused(&q, 6, 1);
}

static void given_numbers(enum call call) {
    struct question q = good(call, 3);
    if (call != DRAW && !takes_layout(call)) return;
    if (call == DRAW) {
        q.a = q.b = 2;
        passes(&q);
        q.a = 3;
        is_refused(&q, 11, 0);
        q.a = 2;
        q.b = 3;
        is_refused(&q, 11, 0);
        q.b = UINT32_MAX;
        is_refused(&q, 11, 0);
        return;
    }
    q.list.layout[2] = 3;
    is_refused(&q, 8, 2);
    q.list.layout[2] = 65535;
    is_refused(&q, 8, 2);
    q.list.layout[2] = 1;
    is_refused(&q, 8, 2);
    if (!takes_slots(call)) return;
    q = on_strip(call, 3, 5, 10);
    for (uint16_t port = 2; port < 5; port++) {
        q.list.layout[2] = port;
        int64_t total = 60 + 10 * (port - 2);
        expect(&q, keeps(&q, call == SLOTS_MEASURE ? total : port == 2 ? END : REFUSED(10, 0)));
    }
    q.list.layout[2] = 5;
    is_refused(&q, 8, 2);
}

int main(void) {
    begin();
    worked_sheets();
    worked_tables();
    worked_slots();
    worked_squares();
    worked_places();
    worked_short_list();
    bends_can_cost();
    worked_texts();
    squares_and_text();
    drawn_sheets();
    drawn_squares();
    drawn_range();
    names();
    for (enum call call = MEASURE; call < CALLS; call++) {
        sizes(call);
        port_sizes(call);
        strips(call);
        works(call);
        buffers(call);
        weights(call);
        tables(call);
        room(call);
        text_room(call);
        fields(call);
        half_sides(call);
        last_fields(call);
        one_bit_apart(call);
        job_rules(call);
        spacing(call);
        wide_rises(call);
        spacing_in_its_place(call);
        given_numbers(call);
    }
    return done();
}
