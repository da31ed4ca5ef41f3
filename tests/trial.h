/*
 * trial.h: a question is one call with all that it is given; a reply is its answer and the lists
 * afterwards. Questions go to the library in guarded memory, or to the plain account.
 */
#ifndef TRIAL_H
#define TRIAL_H

#include <stdbool.h>
#include <stddef.h>
#include <stdint.h>

#include "boards.h"
#include "guard.h"
#include "plain.h"
#include "values.h"

/*
 * ReadCsv has no job: those from MEASURE on have. With NO_SEARCH the tests keep to the calls that
 * search for nothing: the first six.
 */
enum call {
    READ_CSV, MEASURE, DRAW, SVG, TABLE_MEASURE, SLOTS_MEASURE,
    FIRST, NEXT, PAGE, TABLE_FIRST, TABLE_NEXT, SLOTS_FIRST, SLOTS_NEXT, COUNT, PLACE
};
#ifdef NO_SEARCH
#define CALLS 6
#else
#define CALLS 15
#endif

#define JOB_ROOM 1056 /* two records more than the largest job */
#define PORTS_ROOM 528 /* four ports more than the longest list */
#define LIST_ROOM 80
#define TABLE_ROOM 4356 /* figures for as many records */
#define PAGE_ROOM 1343 /* 20 layouts of the largest job, and an entry too few for one more */
#define TEXT_ROOM 4880 /* 16 bytes more than the longest text */
#define WORK_ROOM 2197008 /* eight numbers more than the largest job needs */

union list {
    uint16_t layout[LIST_ROOM];
    float points[LIST_ROOM];
};

struct question {
    enum call call;
    uint8_t job[JOB_ROOM]; /* the slots calls have pads here .. */
    size_t job_bytes;
    uint8_t ports[PORTS_ROOM]; /* .. and ports here */
    size_t port_bytes;
    uint32_t a, b; /* length weight and bend weight, if any; Draw: record number, port number */
    union list list;
    size_t count; /* of the list's entries or floats; Count has no list */
    uint16_t page[PAGE_ROOM]; /* Page alone has it; its list is the given layout */
    size_t page_entries;
    uint32_t *table; /* the table calls have it in place of the numbers; copies share it */
    size_t figures; /* more than TABLE_ROOM stand nowhere, and must not be read */
    size_t numbers; /* of the work list, or of the buffer; the same for more than WORK_ROOM */
    uint64_t place;
    char text[TEXT_ROOM]; /* that Svg writes; ReadCsv's room for pads */
    size_t text_bytes;
    struct csv *csv; /* that ReadCsv reads; copies share it */
};

struct reply {
    int64_t answer;
    union list list;
    uint16_t page[PAGE_ROOM];
    char text[TEXT_ROOM];
};

/* By call: its name, and the refusal numbers that it can give, in order of checks; 0 ends it. */
extern const char *const call_names[];
extern const int *const refusals_of[];

/*
 * Is the call given a layout? And does it refuse one that is not best? Is it given a table, or
 * weights?
 */
bool takes_layout(enum call call);
bool takes_best(enum call call);
bool takes_table(enum call call);
bool takes_weights(enum call call);

/* Is the job of the second form? And is a work list lent? Is a buffer, to Count or Place? */
bool takes_slots(enum call call);
bool takes_work(enum call call);
bool takes_buffer(enum call call);

/* Does it give the first layout? Can it answer the end? */
bool gives_first(enum call call);
bool can_end(enum call call);

/* Makes it a question of First, Next or Measure: over its table or on slots, as it was before. */
void turn_to(struct question *q, enum call call);

/* Lends a table with a figure for each pad and port of the job, which is accepted. */
void lend_table(struct question *q, uint32_t *table, enum figures kind);
void lend_weights(struct question *q, uint32_t *table, uint32_t length_weight,
                  uint32_t bend_weight);

/*
 * A question of First, Next or Measure over weights, over the table of these, or with its ports
 * apart: the same reply.
 */
struct question by_table(const struct question *q, uint32_t *table);
struct question by_slots(const struct question *q);

/* As many numbers in the work list, or in the buffer, as are needed, and so many more. */
void lend_work(struct question *q, size_t more);

/* Where port number i stands, in the job or apart: its height, and another one. */
int64_t port_of(const struct question *q, size_t i);
void set_port(struct question *q, size_t i, int64_t height);

/* Lends a page of so many entries, which hold other numbers each time, all different. */
void lend_page(struct question *q, size_t entries);

/*
 * Lends so many bytes for a text, or for pads, which hold other bytes each time; how many Svg's
 * text would have.
 */
void lend_text(struct question *q, size_t bytes);
size_t text_length(const struct question *q);

/* How many records and ports the job has, and the question as the plain account is given it. */
size_t records_of(const struct question *q);
size_t ports_of(const struct question *q);
struct plan plan_of(const struct question *q);
struct given given_of(const struct question *q);

/* The answer of a refusal that names one record; of refusal 9, which names two. */
int64_t refused(int number, int record);
int64_t refused_pair(int record, int earlier);

/*
 * What a question came to: 0 if it was accepted, a refusal's number, ENDS, or OTHER_PAIR: refusal 9
 * with another earlier record than 0.
 */
enum { OTHER_PAIR = PLAIN_REFUSALS, ENDS, OUTCOMES };
int outcome_of(int64_t answer);

/* The reply that leaves the lists as they are; the one that puts a layout into the list. */
struct reply keeps(const struct question *q, int64_t answer);
struct reply gives(const struct question *q, int64_t answer, const uint16_t *layout);

/* Page's reply where so many layouts follow, `apart` entries from the start of one to the next. */
struct reply fills(const struct question *q, const uint16_t *layouts, size_t apart, size_t count);

/* The reply to Page that calls of the library's Next make: one a layout that fits, and one more. */
struct reply stepped(const struct question *q);

/*
 * The plain account's reply, to Count and Place on many ports that of the layouts by their place
 * (ranked.h); its word on one refusal number, and on a record's first touch.
 */
struct reply plain_reply(const struct question *q);
int fault_of(const struct question *q, int number);
int earlier_of(const struct question *q, int record);

/* The library's answer, over the question's own job and lists. */
int64_t call_library(struct question *q);

/* The call's arguments as the machine passes them; few calls have those after the sixth. */
#define ARGUMENTS 10
void put_arguments(struct question *q, uint64_t *arguments);

/*
 * The library's reply. It fails if anything but the list that it may write was changed, or if the
 * answer is none that the call can give. A work list holds something else each time: what an
 * earlier call left, zeros, ones, any numbers; and so does a buffer. Refusals but 10 and 15, of a
 * buffer but 16 and 17, must leave all of it as it was.
 */
struct reply ask(const struct question *q, enum side side);

/* Asks the library, the lists at every side, and compares with the expected reply, to the bit. */
bool expect(const struct question *q, struct reply expected);

/* Is what the library replies to a question of weights also its reply over their table or slots? */
bool alike(const struct question *q);

/* Counts a success or a failure; the question, if any, is printed with a failure. */
bool check(bool ok, const struct question *q, const char *what);

/* Prints the counts as the program's last line; the status that main returns. */
int done(void);

/* A trial program calls this first: a crash prints the question that was asked. */
void begin(void);

#endif
