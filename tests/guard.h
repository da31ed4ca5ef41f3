/*
 * guard.h: memory for lent lists, unreadable on either side, so that one element too far is a
 * crash. The tests write it through another view; the library's view of what it may only read can
 * not be written.
 */
#ifndef GUARD_H
#define GUARD_H

#include <stdbool.h>
#include <stddef.h>

/* Where a list stands: up to the end of its memory, from the start on, or amid, badly aligned. */
enum side { AT_END, AT_START, AMID, SIDES };

struct guarded {
    unsigned char *ours;   /* the memory as the tests see it */
    unsigned char *theirs; /* the memory as the library sees it, unreadable around it */
    size_t size;
    size_t element;    /* the size of a list's elements */
    bool writable;     /* by the library: then a pattern stands around the list .. */
    size_t start, end; /* .. which is, or was, from here to there */
};

/* Memory for lists of up to so many bytes, writable by the library or not. */
struct guarded guard_memory(bool writable, size_t element, size_t most);

/*
 * Copies a list into the memory, the rest of which holds a pattern if the library can write there,
 * and returns the list's address for the library. An empty list at the start is NULL, one at the
 * end is the memory's end.
 */
void *guard_put(struct guarded *g, enum side side, const void *list, size_t bytes);

/* The address alone, whatever the memory holds. */
void *guard_at(const struct guarded *g, enum side side, size_t bytes);

/*
 * Addresses of more bytes than 32 bits count, for the library to write at: nothing is there but the
 * first 64 KiB. NULL if there are no such addresses.
 */
void *guard_wide(void);

/* Copies the list back; false if the rest of the memory was changed, which is then mended. */
bool guard_get(struct guarded *g, enum side side, void *list, size_t bytes);

#endif
