/* given-sheet.h: a sheet that someone drew: a job file, and its layout on the command line. */
#ifndef GIVEN_SHEET_H
#define GIVEN_SHEET_H

#include <cheremysl.h>
#include <errno.h>
#include <stdio.h>
#include <stdlib.h>
#include <string.h>

struct given_sheet {
    uint8_t job[CHEREMYSL_MAX_JOB_BYTES + 1]; /* a byte more: a longer file is refused too */
    size_t job_bytes;
    int slots; /* the job's ports stand apart: it is of the second form */
    uint8_t ports[CHEREMYSL_MAX_PORT_BYTES + 1];
    size_t port_bytes;
    uint16_t layout[CHEREMYSL_MAX_RECORDS + 1]; /* an entry more: a longer list is seen to be one */
    size_t entries;
};

static inline void end_unread(const char *program, const char *what, const char *name) {
    fprintf(stderr, "%s: cannot %s %s: %s\n", program, what, name, strerror(errno));
    exit(2);
}

/* The bytes of a file, '-' for standard input; if it cannot be read the program ends with 2. */
static inline size_t read_given_file(const char *program, const char *name, uint8_t *to,
                                     size_t room) {
    FILE *file = strcmp(name, "-") == 0 ? stdin : fopen(name, "rb");
    if (file == NULL) end_unread(program, "open", name);
    size_t bytes = fread(to, 1, room, file);
    if (ferror(file)) end_unread(program, "read", name);
    if (file != stdin) fclose(file); /* a second file may be '-' too, and is empty then */
    return bytes;
}

static inline void read_given_job(struct given_sheet *s, const char *program, const char *name) {
    s->job_bytes = read_given_file(program, name, s->job, sizeof s->job);
}

/* The port heights of a strip of slots; the job has the pads then. */
static inline void read_given_ports(struct given_sheet *s, const char *program, const char *name) {
    s->port_bytes = read_given_file(program, name, s->ports, sizeof s->ports);
    s->slots = 1;
}

/* A port's number; one too large for an entry stays too large for any job. */
static inline uint16_t read_given_port(const char *program, const char *word) {
    char *end;
    unsigned long port = strtoul(word, &end, 10);
    if (*word < '0' || *word > '9' || *end != 0) {
        fprintf(stderr, "%s: '%s' is not a port number\n", program, word);
        exit(2);
    }
    return port < UINT16_MAX ? (uint16_t)port : UINT16_MAX;
}

/* Takes the words 'PROGRAM JOB PORT..'; without a file and numbers the program ends with 2. */
static inline struct given_sheet read_given_sheet(int argc, char **argv) {
    struct given_sheet s = {.entries = 0};
    if (argc < 2) {
        fprintf(stderr, "usage: %s JOB PORT..: a job file, and each pad's port number\n", argv[0]);
        exit(2);
    }
    read_given_job(&s, argv[0], argv[1]);
    for (; s.entries + 2 < (size_t)argc && s.entries <= CHEREMYSL_MAX_RECORDS; s.entries++)
        s.layout[s.entries] = read_given_port(argv[0], argv[s.entries + 2]);
    return s;
}

/* The corners of an area, X1,Y1,X2,Y2 in the job's units; 0 if the word is none. */
static inline int read_given_area(const char *word, int at[4]) {
    int end = 0;
    return word != NULL &&
           sscanf(word, "%8d,%8d,%8d,%8d%n", &at[0], &at[1], &at[2], &at[3], &end) == 4 &&
           word[end] == 0;
}

/* A number of 2 bytes in the record of pad i, which must be one of the job's. */
static inline int short_field(const struct given_sheet *s, size_t i, size_t offset) {
    const uint8_t *field = s->job + CHEREMYSL_RECORD_BYTES * i + offset;
    return field[0] + 256 * field[1];
}

static inline int pad_name(const struct given_sheet *s, size_t i) { return short_field(s, i, 0); }
static inline int pad_half(const struct given_sheet *s, size_t i) { return short_field(s, i, 2); }

#endif
