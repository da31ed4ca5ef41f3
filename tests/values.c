#include "values.h"

#include <stdio.h>
#include <stdlib.h>
#include <string.h>

#include "boards.h"

/* ---- the reading ---- */

const int csv_checks[] = {20, 21, 1, 22, 4, 6, 7, 0};

enum { NAME, X, Y, FIELDS };

#define PADS 64
#define LINES (CSV_LIMIT / 2 + 1) /* of two bytes, and one without */

struct piece {
    const uint8_t *at;
    size_t bytes;
};

/* Every CR LF ends a line; what comes after the last one is a line if it is something. */
static size_t cut_lines(const struct csv *csv, struct piece *lines) {
    size_t count = 0, start = 0;
    for (size_t k = 1; k < csv->bytes; k++) {
        if (csv->text[k - 1] != '\r' || csv->text[k] != '\n') continue;
        lines[count++] = (struct piece){csv->text + start, k - 1 - start};
        start = k + 1;
    }
    if (start < csv->bytes) lines[count++] = (struct piece){csv->text + start, csv->bytes - start};
    return count;
}

/* RFC 4180, of a line. At the beginning of a field; amid one; amid quotes; after a quote there. */
enum state { BEGINS, BARE, QUOTED, CLOSING, ENDED, BAD };

static enum state step(enum state from, int byte) {
    static const enum state next[][4] = {
        /* a quote, a comma, another byte, the line's end */
        [BEGINS] = {QUOTED, BEGINS, BARE, ENDED},
        [BARE] = {BAD, BEGINS, BARE, ENDED},
        [QUOTED] = {CLOSING, QUOTED, QUOTED, BAD},
        [CLOSING] = {QUOTED, BEGINS, BAD, ENDED},
    };
    return next[from][byte == '"' ? 0 : byte == ',' ? 1 : byte >= 0 ? 2 : 3];
}

/* The values of a line's fields, unquoted, one after the other in the room; false if it is bad. */
static bool cut_fields(const struct piece *line, uint8_t *room, struct piece *field) {
    enum state now = BEGINS;
    int count = 0;
    field[0] = (struct piece){room, 0};
    for (size_t k = 0; k <= line->bytes; k++) {
        int byte = k < line->bytes ? line->at[k] : -1;
        enum state before = now;
        now = step(now, byte);
        if (now == BAD) return false;
        if (now == BARE || (now == QUOTED && before != BEGINS)) {
            *room++ = (uint8_t)byte;
            field[count].bytes++;
        }
        if ((now == BEGINS || now == ENDED) && ++count == FIELDS) return now == ENDED;
        if (now == BEGINS) field[count] = (struct piece){room, 0};
    }
    return false;
}

static bool is_word(const struct piece *field, const char *word) {
    return field->bytes == strlen(word) && memcmp(field->at, word, field->bytes) == 0;
}

/* Of a number its digits; y may have a minus, which is then cut off. */
static bool cut_minus(struct piece *number, int field) {
    bool minus = field == Y && number->bytes > 0 && number->at[0] == '-';
    number->at += minus;
    number->bytes -= minus;
    return minus;
}

static bool is_number(struct piece number, int field) {
    bool minus = cut_minus(&number, field);
    if (number.bytes == 0) return false;
    if (number.at[0] == '0') return number.bytes == 1 && !minus;
    for (size_t k = 0; k < number.bytes; k++)
        if (number.at[k] < '0' || number.at[k] > '9') return false;
    return true;
}

/* A number by its digits, without its minus: of more digits the larger, else by the first other. */
static bool is_in_range(struct piece number, int field) {
    static const char *const most[FIELDS] = {"65535", "1000000", "1000000"};
    cut_minus(&number, field);
    if (field != Y && is_word(&number, "0")) return false;
    size_t digits = strlen(most[field]);
    return number.bytes < digits ||
           (number.bytes == digits && memcmp(number.at, most[field], digits) <= 0);
}

static long value_of(const struct piece *number) {
    char digits[16] = "";
    memcpy(digits, number->at, number->bytes);
    return strtol(digits, NULL, 10);
}

/* What a line comes to: a pad, one that is outside its ranges, or nothing. */
struct row {
    bool bad, outside;
    long value[FIELDS];
};

static struct row read_row(const struct piece *line) {
    static uint8_t room[CSV_LIMIT];
    struct piece field[FIELDS];
    struct row row = {!cut_fields(line, room, field), false, {0}};
    for (int k = 0; k < FIELDS && !row.bad; k++) {
        row.bad |= !is_number(field[k], k);
        row.outside |= !row.bad && !is_in_range(field[k], k);
        if (!row.bad && !row.outside) row.value[k] = value_of(&field[k]);
    }
    return row;
}

static bool is_header(const struct piece *line) {
    static uint8_t room[CSV_LIMIT];
    struct piece field[FIELDS];
    return cut_fields(line, room, field) && is_word(&field[NAME], "name") &&
           is_word(&field[X], "x") && is_word(&field[Y], "y");
}

static int64_t refusal(int number, size_t record) {
    return -(65536 * (int64_t)number + (int64_t)record);
}

/* 4; then 6; then 7: the first pad of which another that stands earlier has the same value. */
static int64_t refused_pad(const struct row *row, size_t n) {
    for (size_t i = 0; i < n; i++)
        if (row[i].outside) return refusal(4, i);
    for (int field = NAME; field <= X; field++)
        for (size_t i = 0; i < n; i++)
            for (size_t j = 0; j < i; j++)
                if (row[i].value[field] == row[j].value[field]) return refusal(6 + field, i);
    return 0;
}

int64_t plain_read_csv(const struct csv *csv, uint8_t *pads, size_t pad_bytes) {
    static struct piece lines[LINES];
    struct row row[PADS];
    if (csv->bytes > CSV_LIMIT) return refusal(20, 0);
    size_t count = cut_lines(csv, lines);
    if (count == 0 || !is_header(&lines[0])) return refusal(21, 1);
    for (size_t k = 1; k < count; k++) {
        struct row r = read_row(&lines[k]);
        if (r.bad) return refusal(21, k + 1);
        if (k <= PADS) row[k - 1] = r;
    }
    size_t n = count - 1;
    if (n == 0 || n > PADS) return refusal(1, 0);
    if (pad_bytes < 16 * n) return refusal(22, 0);
    int64_t refused = refused_pad(row, n);
    for (size_t i = 0; i < n && refused == 0; i++)
        put_record(pads, i, row[i].value[NAME], row[i].value[X], row[i].value[Y], 0);
    return refused != 0 ? refused : (int64_t)n;
}

/* ---- texts ---- */

void splice(struct csv *csv, size_t from, size_t removed, const void *bytes, size_t count) {
    uint8_t rest[sizeof csv->text];
    size_t room = sizeof csv->text, after = csv->bytes - from - removed;
    memcpy(rest, csv->text + from + removed, after);
    if (count > room - from) count = room - from;
    if (count > 0) memmove(csv->text + from, bytes, count); /* perhaps its own */
    from += count;
    if (after > room - from) after = room - from;
    memcpy(csv->text + from, rest, after);
    csv->bytes = from + after;
}

void splice_word(struct csv *csv, size_t from, size_t removed, const char *word) {
    splice(csv, from, removed, word, strlen(word));
}

void add_word(struct csv *csv, const char *word) { splice_word(csv, csv->bytes, 0, word); }

void add_pads(struct csv *csv, const uint8_t *pads, size_t n) {
    add_word(csv, "name,x,y\r\n");
    for (size_t i = 0; i < n; i++) {
        char line[40];
        snprintf(line, sizeof line, "%d,%d,%d\r\n", (int)get_name(pads, i), (int)get_x(pads, i),
                 (int)get_y(pads, i));
        add_word(csv, line);
    }
}

/* A number that is not the last one's, and as far from it for all i: from 0 to below `count`. */
static uint32_t other_number(uint32_t from, size_t i, uint32_t apart, uint32_t count) {
    return (uint32_t)((from + (uint64_t)apart * i) % count);
}

void any_csv_pads(uint8_t *pads, size_t n) {
    uint32_t kind = below(3), name = below(65535), x = below(1000000);
    uint32_t names_apart = kind == 2 ? 16384 + 1 : 1, x_apart = kind == 2 ? 1000000 / 7 * 3 : 1;
    if (kind == 1) name = 65535 - below(3), x = 1000000 - below(3);
    for (size_t i = 0; i < n; i++) {
        int64_t y = kind == 1 ? (below(2) ? -1000000 : 1000000) : (int64_t)below(2000001) - 1000000;
        if (below(4) == 0) y = (int64_t)below(21) - 10;
        put_record(pads, i, 1 + other_number(name, i, names_apart, 65535),
                   1 + other_number(x, i, x_apart, 1000000), y, 0);
    }
}

static bool ends_field(const struct csv *csv, size_t k) {
    return k >= csv->bytes || csv->text[k] == ',' || csv->text[k] == '\r' || csv->text[k] == '\n';
}

static bool put_byte(struct csv *csv, uint8_t byte) {
    bool room = csv->bytes < sizeof csv->text;
    if (room) csv->text[csv->bytes++] = byte;
    return room;
}

void quote_some(struct csv *csv, uint32_t one_in) {
    struct csv old;
    bool quoted = false;
    old.bytes = csv->bytes;
    memcpy(old.text, csv->text, csv->bytes);
    csv->bytes = 0;
    for (size_t k = 0; k < old.bytes; k++) {
        bool first = k == 0 || ends_field(&old, k - 1);
        if (first && !ends_field(&old, k)) quoted = below(one_in) == 0;
        if (first && quoted) put_byte(csv, '"');
        put_byte(csv, old.text[k]);
        if (!quoted || !ends_field(&old, k + 1)) continue;
        put_byte(csv, '"');
        quoted = false;
    }
}

void any_csv(struct csv *csv, uint8_t *pads, size_t n) {
    uint32_t quotes = below(4);
    csv->bytes = 0;
    any_csv_pads(pads, n);
    add_pads(csv, pads, n);
    if (quotes > 0) quote_some(csv, quotes);
    if (below(2)) csv->bytes -= 2;
}

/* ---- damage ---- */

static size_t any_place(const struct csv *csv) { return below((uint32_t)csv->bytes + 1); }

/* The field around some place, or between some commas inside it. */
static struct piece any_field(const struct csv *csv) {
    size_t from = any_place(csv), to = from;
    while (from > 0 && !ends_field(csv, from - 1) && csv->text[from - 1] != '"') from--;
    while (!ends_field(csv, to) && csv->text[to] != '"') to++;
    return (struct piece){csv->text + from, to - from};
}

/* From one line's beginning to the next. */
static struct piece any_line(const struct csv *csv) {
    size_t from = any_place(csv), to = from;
    while (from > 0 && csv->text[from - 1] != '\n') from--;
    while (to < csv->bytes && csv->text[to++] != '\n') continue;
    return (struct piece){csv->text + from, to - from};
}

static uint8_t likely_byte(void) {
    static const uint8_t likely[] = "\r\n\",-+0123456789 \t.exy\0nam\x7f\x80\xef\xff";
    return below(8) ? likely[below(sizeof likely - 1)] : (uint8_t)below(256);
}

static void replace(struct csv *csv, struct piece old, const void *bytes, size_t count) {
    splice(csv, (size_t)(old.at - csv->text), old.bytes, bytes, count);
}

static const char *any_word(void) {
    static const char *const words[] = {
        "0", "00", "01", "-0", "-1", "-", "--1", "+1", "1.0", "1e3", " 1", "1 ", "", "65535",
        "65536", "1000000", "1000001", "-1000000", "-1000001", "4294967297", "-65537", "131073",
        "18446744073709551617", "\r\n", "\n", "\r", "\r\r\n", "\"\"", "\"", "\"\"\"\"", ",", ",,",
        "name", "x", "\"1\"", "\"1\"2", "1,1,1", "\xef\xbb\xbf", "1\r\n1,2,3"};
    return words[below(sizeof words / sizeof *words)];
}

/* A number of many digits, or many lines: over the text's limit or near it, or not so many. */
static void lengthen(struct csv *csv) {
    static const char *const lines[] = {"1,1,1\r\n", "7", "65535,1000000,-1000000\r\n", "\r\n"};
    const char *line = lines[below(4)];
    uint8_t filling[sizeof csv->text];
    size_t most = sizeof filling - csv->bytes, count = below(3) ? most - below(40) : below(900);
    for (size_t k = 0; k < sizeof filling; k++) filling[k] = (uint8_t)line[k % strlen(line)];
    splice(csv, csv->bytes - (below(2) && csv->bytes > 0), 0, filling, count < most ? count : most);
}

void damage_csv(struct csv *csv) {
    size_t at = any_place(csv), rest = csv->bytes - at;
    uint8_t byte = likely_byte(), pair[2] = {0, 0};
    struct piece field = any_field(csv), other = any_field(csv), line = any_line(csv);
    const char *word = any_word();
    for (size_t k = 0; k < 2 && rest >= 2; k++) pair[k] = csv->text[at + 1 - k];
    switch (below(13)) {
    case 0: splice(csv, at, rest > 0, &byte, 1); break;
    case 1: splice(csv, at, 0, &byte, 1); break;
    case 2: splice(csv, at, rest > 0, NULL, 0); break;
    case 3: splice(csv, at, rest < 2 ? 0 : 2, pair, rest < 2 ? 0 : 2); break;
    case 4: csv->bytes = at; break;
    case 5: splice_word(csv, at, 0, word); break;
    case 6: replace(csv, field, word, strlen(word)); break;
    case 7:
    case 8: replace(csv, field, other.at, other.bytes); break;
    case 9: replace(csv, line, NULL, 0); break;
    case 10: splice(csv, (size_t)(line.at - csv->text), 0, line.at, line.bytes); break;
    case 11: add_word(csv, word); break;
    default: if (below(8) == 0) lengthen(csv);
    }
}
