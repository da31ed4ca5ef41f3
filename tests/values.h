/*
 * values.h: texts of comma-separated values. ReadCsv in plain C, written from the paper's text
 * alone; and texts for it, sound ones and damage of every kind.
 */
#ifndef VALUES_H
#define VALUES_H

#include <stdbool.h>
#include <stddef.h>
#include <stdint.h>

#define CSV_LIMIT 16384 /* bytes of the largest text that is read */

struct csv {
    size_t bytes;
    uint8_t text[CSV_LIMIT + 32];
};

/* The refusal numbers, in the order of the checks; 0 ends it. */
extern const int csv_checks[];

/*
 * ReadCsv, which shares nothing with the library: the text is cut into lines, each line is read by
 * an automaton, and each number is compared digit by digit with its range's ends.
 */
int64_t plain_read_csv(const struct csv *csv, uint8_t *pads, size_t pad_bytes);

/* So many bytes from one on replaced by others, or by a word. What has no room is cut off. */
void splice(struct csv *csv, size_t from, size_t removed, const void *bytes, size_t count);
void splice_word(struct csv *csv, size_t from, size_t removed, const char *word);

/* At the text's end: any word; the header, and a line for each of n pads from the first on. */
void add_word(struct csv *csv, const char *word);
void add_pads(struct csv *csv, const uint8_t *pads, size_t n);

/* n pads that ReadCsv can give: near each other, at the ends of their ranges, or anywhere. */
void any_csv_pads(uint8_t *pads, size_t n);

/* A text of n such pads, which are put there: unquoted, quoted or both; a last CR LF or none. */
void any_csv(struct csv *csv, uint8_t *pads, size_t n);

/* Puts quotes around some of the fields of a text that has none: of about one in so many. */
void quote_some(struct csv *csv, uint32_t one_in);

/* Changes one thing: a byte, a few, a field or a line, or all. */
void damage_csv(struct csv *csv);

#endif
