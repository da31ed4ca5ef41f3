/*
 * cheremysl-import [-o PADS] [CSV]: the pads of a list that a board tool saves as comma-separated
 * values, as records of 16 bytes for cheremysl-draw --slots and the slots calls.
 * The status is 0 if they were written, 1 if the list is refused, 2 if it cannot be read or the
 * pads cannot be written.
 *
 * cheremysl_read_csv reads the list, and names the line or the pad at fault. What is wrong with it
 * is looked for here, for the message alone.
 */
#define _POSIX_C_SOURCE 200809L
#include <sys/stat.h>

#include "../examples/given-sheet.h"
#include "command.h"

#define SHOWN 40 /* bytes of a field or a line that a message shows */

static const char program[] = "cheremysl-import";
static const char usage[] =
    "usage: cheremysl-import [-o PADS] [CSV] >PADS\n"
    "Makes pad records, for cheremysl-draw --slots, of the list in the file CSV, or on standard\n"
    "input without one or with -. The list is comma-separated values: a line name,x,y and then a\n"
    "line for each pad, with CR LF between lines.\n"
    "  -o PADS    writes the pads to this file\n"
    "  --help     prints this\n"
    "  --version  prints the version\n"
    "The status is 0 if the pads were written, 1 for a refused list, 2 for any other failure.\n";

/* Some bytes of the list. */
struct part {
    const char *at;
    size_t length;
};

enum { NAME, X, Y, COLUMNS };

static const struct column {
    const char *name, *range;
    long least, most;
} columns[COLUMNS] = {
    {"name", "1 to 65,535", 1, UINT16_MAX},
    {"x", "1 to 1,000,000", 1, CHEREMYSL_MAX_X},
    {"y", "-1,000,000 to 1,000,000", -CHEREMYSL_MAX_HEIGHT, CHEREMYSL_MAX_HEIGHT},
};

/* A line's fields, without their quotes; one more than a line may have, if there are so many. */
struct fields {
    struct part at[COLUMNS + 1];
    int count;
    const char *fault; /* of quotes, if there is one */
};

/* ---- lines and fields, as the call takes them ---- */

static int begins_with(struct part p, const char *word) {
    return p.length >= strlen(word) && memcmp(p.at, word, strlen(word)) == 0;
}

static struct part without(struct part p, size_t bytes) {
    return (struct part){p.at + bytes, p.length - bytes};
}

/* Takes the first line, and its end, off the rest of the list. */
static struct part take_line(struct part *rest) {
    struct part line = {rest->at, 0};
    for (; rest->length > 0 && !begins_with(*rest, "\r\n"); line.length++)
        *rest = without(*rest, 1);
    if (rest->length > 0) *rest = without(*rest, 2);
    return line;
}

static struct part line_of(struct part list, int number) {
    while (--number > 0) take_line(&list);
    return take_line(&list);
}

/* The bytes of a field, its quotes among them: up to the first comma that is not in quotes. */
static size_t field_length(struct part rest) {
    int quoted = begins_with(rest, "\""), inside = 0;
    size_t k = 0;
    for (; k < rest.length && (inside || rest.at[k] != ','); k++)
        if (quoted && rest.at[k] == '"') inside = !inside;
    return k;
}

/* What is wrong with the quotes of a field; NULL if nothing is. */
static const char *quote_fault(struct part field) {
    int quotes = 0, last = field.length > 0 && field.at[field.length - 1] == '"';
    for (size_t k = 0; k < field.length; k++) quotes += field.at[k] == '"';
    if (quotes == 0) return NULL;
    if (field.at[0] != '"') return "a quote stands in a field that does not begin with one";
    if (quotes % 2 != 0) return "a quoted field does not end on its line";
    return last ? NULL : "a quoted field goes on after its last quote";
}

static struct fields fields_of(struct part line) {
    struct fields f = {.count = 0};
    for (int more = 1; more && f.count <= COLUMNS && f.fault == NULL; f.count++) {
        struct part field = {line.at, field_length(line)};
        more = field.length < line.length;
        line = without(line, field.length + (size_t)more);
        f.fault = quote_fault(field);
        f.at[f.count] = field;
        if (f.fault == NULL && begins_with(field, "\""))
            f.at[f.count] = (struct part){field.at + 1, field.length - 2};
    }
    return f;
}

/* ---- what is wrong, in words ---- */

static void say_part(struct part p) {
    size_t shown = p.length < SHOWN ? p.length : SHOWN;
    fputc('\'', stderr);
    for (size_t k = 0; k < shown; k++) {
        unsigned char letter = (unsigned char)p.at[k];
        fprintf(stderr, letter >= ' ' && letter <= '~' ? "%c" : "\\x%02X", letter);
    }
    fputs(shown < p.length ? "'.." : "'", stderr);
}

static void say_field(const struct fields *f, int column) {
    fprintf(stderr, "%s ", columns[column].name);
    say_part(f->at[column]);
}

/* What keeps a field from being a number; NULL if it is one. */
static const char *number_fault(struct part field, int column) {
    int minus = begins_with(field, "-");
    struct part digits = without(field, (size_t)minus);
    size_t k = 0;
    if (field.length == 0) return "is empty";
    while (k < digits.length && digits.at[k] >= '0' && digits.at[k] <= '9') k++;
    if (k < digits.length || k == 0) return "is not a whole number written in digits alone";
    if (minus && columns[column].least > 0) return "is negative";
    if (digits.at[0] == '0' && digits.length > 1) return "has a leading zero";
    return minus && digits.at[0] == '0' ? "has a minus before 0" : NULL;
}

/* Of a field that is a number; one that is longer is outside every range. */
static int in_range(struct part field, int column) {
    char digits[sizeof "-1000000"] = "";
    if (field.length >= sizeof digits) return 0;
    memcpy(digits, field.at, field.length);
    long value = strtol(digits, NULL, 10);
    return value >= columns[column].least && value <= columns[column].most;
}

static void say_bad_number(const struct fields *f) {
    int column = 0;
    while (column < Y && number_fault(f->at[column], column) == NULL) column++;
    say_field(f, column);
    fprintf(stderr, " %s", number_fault(f->at[column], column));
}

static void say_out_of_range(const struct fields *f) {
    int column = 0;
    while (column < Y && in_range(f->at[column], column)) column++;
    say_field(f, column);
    fprintf(stderr, " is outside %s", columns[column].range);
}

/* What other programs write for text, and no list may have; NULL if it is not that. */
static const char *text_fault(struct part line) {
    int marked = begins_with(line, "\xff\xfe") || begins_with(line, "\xfe\xff");
    if (marked || memchr(line.at, 0, line.length) != NULL)
        return "it is no plain text (UTF-16?); save the list as UTF-8 without a byte order mark";
    if (begins_with(line, "\xef\xbb\xbf"))
        return "a byte order mark stands before it; save the list without one";
    if (memchr(line.at, '\n', line.length) != NULL)
        return "lines end with CR LF, and here with LF alone; "
               "awk '{ sub(/\\r*$/, \"\\r\") } 1' puts that right";
    return NULL;
}

/* What is wrong with a pad's line as a whole; NULL if it is one of its numbers. */
static const char *line_fault(struct part line, const struct fields *f) {
    if (line.length == 0) return "it is empty";
    if (f->fault != NULL) return f->fault;
    if (f->count != COLUMNS)
        return f->count < COLUMNS ? "it has fewer fields than name, x and y"
                                  : "it has more fields than name, x and y";
    return NULL;
}

static void say_bad_line(struct part line, int number) {
    struct fields f = fields_of(line);
    const char *fault = text_fault(line);
    if (fault == NULL && number > 1) fault = line_fault(line, &f);
    if (fault != NULL)
        fputs(fault, stderr);
    else if (number > 1)
        say_bad_number(&f);
    else {
        fputs("it is not name,x,y but ", stderr);
        say_part(line);
    }
}

static int same(struct part a, struct part b) {
    return a.length == b.length && memcmp(a.at, b.at, a.length) == 0;
}

/* Equal numbers have equal digits, since none has a leading zero. */
static void say_twice(struct part list, int line, int column) {
    struct fields f = fields_of(line_of(list, line)), earlier;
    int number = 1;
    do
        earlier = fields_of(line_of(list, ++number));
    while (!same(earlier.at[column], f.at[column]));
    say_field(&f, column);
    fprintf(stderr, " stands on line %d too", number);
}

static void say_count(struct part list) {
    int pads = -1; /* the first line is none */
    for (; list.length > 0; pads++) take_line(&list);
    fprintf(stderr, "the list has %d pads, not 1 to %d", pads, CHEREMYSL_MAX_RECORDS);
}

static void say_why(struct part list, int64_t answer, int line) {
    struct fields f = fields_of(line_of(list, line));
    switch (cheremysl_refusal_number(answer)) {
    case CHEREMYSL_BAD_LINE: say_bad_line(line_of(list, line), line); break;
    case CHEREMYSL_BAD_SIZE: say_count(list); break;
    case CHEREMYSL_BAD_FIELD: say_out_of_range(&f); break;
    case CHEREMYSL_NAME_TWICE: say_twice(list, line, NAME); break;
    case CHEREMYSL_X_TWICE: say_twice(list, line, X); break;
    default: fputs(cheremysl_refusal_text(answer), stderr);
    }
}

static void end_refused(const char *file, struct part list, int64_t answer) {
    int number = cheremysl_refusal_number(answer), at = cheremysl_refusal_record(answer);
    int bad = number == CHEREMYSL_BAD_LINE, line = bad ? at : at + 2;
    fprintf(stderr, "%s: %s: refused %d %s %d", program, file, number, bad ? "line" : "record", at);
    if (number >= CHEREMYSL_BAD_FIELD && number <= CHEREMYSL_X_TWICE)
        fprintf(stderr, " (line %d)", line);
    fputs(": ", stderr);
    say_why(list, answer, line);
    fputc('\n', stderr);
    exit(1);
}

/* ---- the program ---- */

/* A file is opened for pads that are there, and is not left with a part of them. */
static int write_file(const char *file, const uint8_t *pads, size_t bytes) {
    struct stat made;
    FILE *out = fopen(file, "wb");
    if (out == NULL) end_unread(program, "open", file);
    size_t put = fwrite(pads, 1, bytes, out);
    if (fclose(out) == 0 && put == bytes) return 0;
    int why = errno;
    if (stat(file, &made) == 0 && S_ISREG(made.st_mode)) remove(file);
    errno = why;
    end_unread(program, "write", file);
    return 2;
}

static int write_pads(const char *file, const uint8_t *pads, size_t bytes) {
    if (strcmp(file, "-") != 0) return write_file(file, pads, bytes);
    fwrite(pads, 1, bytes, stdout);
    return written(program);
}

struct files {
    const char *csv, *pads;
};

static void end_misused(const char *what) {
    fprintf(stderr, "%s: %s\n%s", program, what, usage);
    exit(2);
}

static struct files take_words(int argc, char **argv) {
    struct files f = {NULL, NULL};
    int options = 1;
    for (int k = 1; k < argc; k++) {
        int option = options && argv[k][0] == '-' && argv[k][1] != 0;
        int output = option && strcmp(argv[k], "-o") == 0;
        if (option && strcmp(argv[k], "--") == 0)
            options = 0;
        else if (output && k + 1 == argc)
            end_misused("-o takes a file for the pads");
        else if (output && f.pads != NULL)
            end_misused("there is more than one file for the pads");
        else if (output)
            f.pads = argv[++k];
        else if (option)
            end_with_option(program, usage, argv[k]);
        else if (f.csv != NULL)
            end_misused("there is more than one list");
        else
            f.csv = argv[k];
    }
    if (f.csv == NULL) f.csv = "-";
    if (f.pads == NULL) f.pads = "-";
    return f;
}

int main(int argc, char **argv) {
    static uint8_t text[CHEREMYSL_MAX_CSV_BYTES + 1]; /* a byte more: so is a longer file refused */
    uint8_t pads[CHEREMYSL_MAX_JOB_BYTES];
    struct files f = take_words(argc, argv);
    size_t bytes = read_given_file(program, f.csv, text, sizeof text);
    int64_t answer = cheremysl_read_csv(text, bytes, pads, sizeof pads);
    if (cheremysl_is_refusal(answer))
        end_refused(f.csv, (struct part){(const char *)text, bytes}, answer);
    return write_pads(f.pads, pads, CHEREMYSL_RECORD_BYTES * (size_t)answer);
}
