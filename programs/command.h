/* command.h: what commands that write by stdio have in common. */
#ifndef COMMAND_H
#define COMMAND_H

#include <cheremysl.h>
#include <errno.h>
#include <stdio.h>
#include <stdlib.h>
#include <string.h>

/* What was printed has been written, or the program ends with 2. */
static inline int written(const char *program) {
    if (fflush(stdout) == 0 && !ferror(stdout) && fclose(stdout) == 0) return 0;
    fprintf(stderr, "%s: cannot write: %s\n", program, strerror(errno));
    return 2;
}

/* The options that every command has; any other is none. */
static inline void end_with_option(const char *program, const char *usage, const char *word) {
    if (strcmp(word, "--help") == 0) {
        fputs(usage, stdout);
        exit(written(program));
    }
    if (strcmp(word, "--version") == 0) {
        printf("%s %s\n", program, CHEREMYSL_VERSION_TEXT);
        exit(written(program));
    }
    fprintf(stderr, "%s: there is no option %s\n%s", program, word, usage);
    exit(2);
}

#endif
