#define _DEFAULT_SOURCE
#include "guard.h"

#include <stdint.h>
#include <stdio.h>
#include <stdlib.h>
#include <string.h>
#include <sys/mman.h>
#include <unistd.h>

#define PATTERN 0xA5
#define PATTERNS 0xA5A5A5A5A5A5A5A5

static void need(bool ok, const char *what) {
    if (ok) return;
    perror(what);
    exit(2);
}

/* The same bytes of a file that has no name are seen twice: by the tests, and by the library. */
struct guarded guard_memory(bool writable, size_t element, size_t most) {
    struct guarded g;
    FILE *file = tmpfile();
    unsigned char *around;
    int rights = writable ? PROT_READ | PROT_WRITE : PROT_READ;
    size_t unit = (size_t)sysconf(_SC_PAGESIZE);
    g.element = element;
    g.writable = writable;
    g.start = g.end = 0;
    g.size = (2 * (most + element) + unit - 1) / unit * unit; /* a list amid has half of it */
    need(file != NULL && ftruncate(fileno(file), (off_t)g.size) == 0, "tmpfile");
    g.ours = mmap(NULL, g.size, PROT_READ | PROT_WRITE, MAP_SHARED, fileno(file), 0);
    need(g.ours != MAP_FAILED, "mmap");
    around = mmap(NULL, g.size + 2 * unit, PROT_NONE, MAP_PRIVATE | MAP_ANONYMOUS, -1, 0);
    need(around != MAP_FAILED, "mmap");
    g.theirs = mmap(around + unit, g.size, rights, MAP_SHARED | MAP_FIXED, fileno(file), 0);
    need(g.theirs == around + unit, "mmap");
    fclose(file);
    if (writable) memset(g.ours, PATTERN, g.size);
    return g;
}

void *guard_wide(void) {
    size_t all = 0x100000000 + 0x100000, usable = 0x10000;
    int flags = MAP_PRIVATE | MAP_ANONYMOUS | MAP_NORESERVE;
    void *memory = mmap(NULL, all, PROT_NONE, flags, -1, 0);
    bool lent = memory != MAP_FAILED && mprotect(memory, usable, PROT_READ | PROT_WRITE) == 0;
    return lent ? memory : NULL;
}

static size_t start_of(const struct guarded *g, enum side side, size_t bytes) {
    return side == AT_START ? 0 : side == AT_END ? g->size - bytes : g->size / 2 + g->element;
}

void *guard_at(const struct guarded *g, enum side side, size_t bytes) {
    return bytes == 0 && side == AT_START ? NULL : g->theirs + start_of(g, side, bytes);
}

void *guard_put(struct guarded *g, enum side side, const void *list, size_t bytes) {
    if (g->writable) memset(g->ours + g->start, PATTERN, g->end - g->start);
    g->start = start_of(g, side, bytes);
    g->end = g->start + bytes;
    if (bytes > 0) memcpy(g->ours + g->start, list, bytes); /* NULL if there is none */
    return guard_at(g, side, bytes);
}

/* Four words at a time: an emulator is slow with what libc would use. */
static bool holds_pattern(const unsigned char *at, size_t bytes) {
    uint64_t word[4], other = 0;
    for (; bytes >= sizeof word; at += sizeof word, bytes -= sizeof word) {
        memcpy(word, at, sizeof word);
        other |= (word[0] ^ PATTERNS) | (word[1] ^ PATTERNS) | (word[2] ^ PATTERNS) |
                 (word[3] ^ PATTERNS);
    }
    while (bytes > 0 && at[bytes - 1] == PATTERN) bytes--;
    return other == 0 && bytes == 0;
}

bool guard_get(struct guarded *g, enum side side, void *list, size_t bytes) {
    size_t start = start_of(g, side, bytes), end = start + bytes;
    memcpy(list, g->ours + start, bytes);
    if (!g->writable) return true;
    bool kept = holds_pattern(g->ours, start) && holds_pattern(g->ours + end, g->size - end);
    if (!kept) memset(g->ours, PATTERN, g->size);
    return kept;
}
