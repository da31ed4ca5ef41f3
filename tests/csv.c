/*
 * csv [COUNT [SEED]]: ReadCsv beside another reader (values.h): the answer and every byte of the
 * room, whatever it holds. Texts worked by hand, with their replies; every name, x and y that a pad
 * can have, and numbers on both sides of every range and far beyond; good texts with each byte as
 * each of 256, left out, doubled or swapped with the next; every short text of the bytes that
 * matter; quotes and line ends of every kind, everywhere; texts of the largest size and one byte
 * more; 0 to 65 pads and thousands of lines; rooms of one byte too few, just enough and more, and
 * of more than 32 bits; every set of faults at once; each two of 64 pads with one name, and with
 * one x; lists written and read back, and laid out; COUNT texts with random damage. With a COUNT
 * below 100,000 about a tenth of the others.
 */
#include <stdio.h>
#include <stdlib.h>
#include <string.h>

#include "boards.h"
#include "cheremysl.h"
#include "questions.h"
#include "trial.h"

#define PADS CHEREMYSL_MAX_RECORDS
#define MOST 1000000 /* x, and y up or down */
#define HEADER "name,x,y\r\n"

static struct csv csv;
static struct question q = {.call = READ_CSV, .csv = &csv};
static long came[OUTCOMES], read_back, laid_out;

/* ---- replies ---- */

static void begin_text(const char *text) {
    csv.bytes = 0;
    add_word(&csv, text);
}

/* The other reader's reply. */
static bool read_alike(void) {
    struct reply r = plain_reply(&q);
    came[outcome_of(r.answer)]++;
    return expect(&q, r);
}

/* The same, which must be this answer. */
static bool answers(int64_t answer) {
    bool ok = check(plain_reply(&q).answer == answer, &q, "the plain account answers otherwise");
    return read_alike() && ok;
}

/* Just these records, from a list that is one of pads, in any room. */
static bool reads(const uint8_t *pads, size_t n) {
    lend_text(&q, below(2) ? 16 * n : 16 * n + below(64));
    struct reply r = keeps(&q, (int64_t)n);
    memcpy(r.text, pads, 16 * n);
    return expect(&q, r);
}

/* ---- by hand ---- */

/* A refusal's number, and its record; or 0, the number of pads, and their records. */
static const struct {
    const char *text;
    int number, record;
    const char *pads;
} worked[] = {
    {HEADER "1,1,0\r\n", 0, 1, "\1\0\0\0\1\0\0\0\0\0\0\0\0\0\0\0"},
    {HEADER "258,1000000,-1", 0, 1, "\2\1\0\0\x40\x42\x0F\0\xFF\xFF\xFF\xFF\0\0\0\0"},
    {"\"name\",\"x\",\"y\"\r\n\"65535\",\"66051\",\"-1000000\"\r\n", 0, 1,
     "\xFF\xFF\0\0\3\2\1\0\xC0\xBD\xF0\xFF\0\0\0\0"},
    {HEADER "7,20,1000000\r\n\"8\",10,-128\r\n", 0, 2,
     "\7\0\0\0\x14\0\0\0\x40\x42\x0F\0\0\0\0\0\x8\0\0\0\xA\0\0\0\x80\xFF\xFF\xFF\0\0\0\0"},
    {"name,\"x\",y\r\n1,2,3\r\n2,1,3\r\n3,\"3\",3", 0, 3,
     "\1\0\0\0\2\0\0\0\3\0\0\0\0\0\0\0\2\0\0\0\1\0\0\0\3\0\0\0\0\0\0\0"
     "\3\0\0\0\3\0\0\0\3\0\0\0\0\0\0\0"},
    {"", 21, 1, NULL}, {"\r\n", 21, 1, NULL}, {"\r\n" HEADER "1,1,1\r\n", 21, 1, NULL},
    {"name,x,y", 1, 0, NULL}, {HEADER, 1, 0, NULL}, {"\"name\",\"x\",\"y\"", 1, 0, NULL},
    {HEADER "\r\n", 21, 2, NULL}, {HEADER "1,1,1\r\n\r\n", 21, 3, NULL},
    {HEADER "1,1,1\r\n\r\n2,2,2\r\n", 21, 3, NULL}, {HEADER "\r\n1,1,1\r\n", 21, 2, NULL},
    {HEADER "1,1,1\r\n\r", 21, 3, NULL}, {HEADER "1,1,1\r\n\n", 21, 3, NULL},
    {HEADER "1,1,1\r", 21, 2, NULL}, {HEADER "1,1,1\n", 21, 2, NULL},
    {HEADER "1,1,1\r\r\n", 21, 2, NULL}, {HEADER "1,1,1\n\r\n", 21, 2, NULL},
    {HEADER "1,1,1\n\r2,2,2\r\n", 21, 2, NULL}, {HEADER "1,1,1\r2,2,2\r\n", 21, 2, NULL},
    {HEADER "1,1,1\n2,2,2\n", 21, 2, NULL}, {"name,x,y\n1,1,1\n", 21, 1, NULL},
    {"name,x,y\r1,1,1\r", 21, 1, NULL}, {"name,x,y\r\r\n1,1,1\r\n", 21, 1, NULL},
    {"\xEF\xBB\xBF" HEADER "1,1,1\r\n", 21, 1, NULL},
    {"\"\xEF\xBB\xBFname\",x,y\r\n1,1,1", 21, 1, NULL},
    {"Name,x,y\r\n1,1,1", 21, 1, NULL}, {"name,X,y\r\n1,1,1", 21, 1, NULL},
    {"NAME,X,Y\r\n1,1,1", 21, 1, NULL}, {"name,y,x\r\n1,1,1", 21, 1, NULL},
    {"x,name,y\r\n1,1,1", 21, 1, NULL}, {"name;x;y\r\n1;1;1", 21, 1, NULL},
    {"name, x, y\r\n1,1,1", 21, 1, NULL}, {"name,x,y \r\n1,1,1", 21, 1, NULL},
    {"name,x\r\n1,1,1", 21, 1, NULL}, {"name,x,y,\r\n1,1,1", 21, 1, NULL},
    {"names,x,y\r\n1,1,1", 21, 1, NULL}, {"nam,x,y\r\n1,1,1", 21, 1, NULL},
    {"name,xy\r\n1,1,1", 21, 1, NULL}, {"name,x,yy\r\n1,1,1", 21, 1, NULL},
    {"1,1,1\r\n2,2,2\r\n", 21, 1, NULL}, {HEADER HEADER, 21, 2, NULL},
    {HEADER "1,1\r\n", 21, 2, NULL}, {HEADER "1,1,1,1\r\n", 21, 2, NULL},
    {HEADER "1,1,1,\r\n", 21, 2, NULL}, {HEADER ",1,1,1\r\n", 21, 2, NULL},
    {HEADER ",,\r\n", 21, 2, NULL}, {HEADER "1;1;1\r\n", 21, 2, NULL},
    {HEADER "1,1,1\r\n2,2,2 \r\n", 21, 3, NULL}, {HEADER "1,1,1\r\nx\r\ny\r\n", 21, 3, NULL},
    {HEADER "0,0,0\r\n1,1\r\n", 21, 3, NULL}, {HEADER "1,1,1\r\n1,1,1\r\n1,1,z", 21, 4, NULL},
    {HEADER "\"1\r\n2\",1,1\r\n", 21, 2, NULL}, {HEADER "1,1,1\r\n2,2,\"2\r\n\"\r\n", 21, 3, NULL},
    {"\"name\r\n\",x,y\r\n1,1,1\r\n", 21, 1, NULL}, {HEADER "1,1,\"1", 21, 2, NULL},
    {HEADER "\"1,1\",1\r\n", 21, 2, NULL}, {HEADER "1,\"1,1\",1\r\n", 21, 2, NULL},
    {HEADER "\"1\",\"1\",\"\"1\"\"\r\n", 21, 2, NULL},
    {HEADER "\"\"\"1\"\"\",1,1\r\n", 21, 2, NULL},
    {HEADER "0,1,1\r\n", 4, 0, NULL}, {HEADER "1,0,1\r\n", 4, 0, NULL},
    {HEADER "1,1,1\r\n65536,2,2\r\n", 4, 1, NULL}, {HEADER "1,1000001,1\r\n", 4, 0, NULL},
    {HEADER "1,1,1000001\r\n", 4, 0, NULL}, {HEADER "1,1,-1000001\r\n", 4, 0, NULL},
    {HEADER "1,1,1\r\n2,1,1\r\n1,2,0\r\n", 6, 2, NULL}, {HEADER "1,1,1\r\n2,1,1", 7, 1, NULL},
    {HEADER "1,1,1\r\n1,1,1\r\n", 6, 1, NULL}, {HEADER "5,1,1\r\n1,5,1\r\n5,7,0\r\n", 6, 2, NULL},
    {HEADER "1,2,0\r\n2,1,0\r\n3,3,1000000\r\n1,4,0\r\n5,2,-1000001\r\n", 4, 4, NULL},
};

static void by_hand(void) {
    for (size_t k = 0; k < sizeof worked / sizeof *worked; k++) {
        begin_text(worked[k].text);
        lend_text(&q, 16 * PADS);
        if (worked[k].number != 0) {
            answers(refused(worked[k].number, worked[k].record));
            continue;
        }
        check(reads((const uint8_t *)worked[k].pads, (size_t)worked[k].record), &q, "by hand");
        answers(worked[k].record);
    }
}

/* ---- every number of a pad ---- */

/* 64 pads with numbers from one on in some field; the others' numbers go on from text to text. */
static bool numbers_from(int field, int64_t from, int64_t to) {
    static int64_t others;
    uint8_t pads[16 * PADS], room[16 * PADS];
    size_t n = 0;
    for (; n < PADS && from + (int64_t)n <= to; n++, others++) {
        int64_t value = from + (int64_t)n;
        put_record(pads, n, field == 0 ? value : 1 + others % 65535,
                   field == 1 ? value : 1 + others % MOST,
                   field == 2 ? value : others * 7 % (2 * MOST + 1) - MOST, 0);
    }
    csv.bytes = 0;
    add_pads(&csv, pads, n);
    memset(room, 0xC3, sizeof room);
    int64_t answer = cheremysl_read_csv(csv.text, csv.bytes, room, 16 * n);
    return check(answer == (int64_t)n && memcmp(room, pads, 16 * n) == 0, &q,
                 "a number is read otherwise");
}

static void every_number(int64_t blocks) {
    static const int64_t least[] = {1, 1, -MOST}, most[] = {65535, MOST, MOST};
    for (int field = 0; field < 3; field++)
        for (int64_t from = least[field]; from <= most[field]; from += PADS * blocks)
            if (!numbers_from(field, from, most[field])) return;
}

/* ---- numbers, field by field ---- */

/* The field of the second of three pads, by a word; the refusal of it as name, x or y, or 0. */
static void field_is(int field, const char *word, int number) {
    static const char *const before[] = {"", "20,", "20,30,"}, *const after[] = {",30,9", ",9", ""};
    begin_text(HEADER "1,10,-5\r\n");
    add_word(&csv, before[field]);
    add_word(&csv, word);
    add_word(&csv, after[field]);
    add_word(&csv, below(2) ? "\r\n3,7,0" : "\r\n3,7,0\r\n");
    lend_text(&q, 16 * 3 + below(20));
    answers(number == 0 ? 3 : refused(number, number == 21 ? 3 : 1));
}

static const struct {
    const char *word;
    int as[3];
} words[] = {
    {"0", {4, 4, 0}}, {"2", {0, 0, 0}}, {"-1", {21, 21, 0}}, {"-0", {21, 21, 21}},
    {"-", {21, 21, 21}}, {"--1", {21, 21, 21}}, {"-+1", {21, 21, 21}}, {"+1", {21, 21, 21}},
    {"+0", {21, 21, 21}}, {"00", {21, 21, 21}}, {"01", {21, 21, 21}}, {"-01", {21, 21, 21}},
    {"0000000000", {21, 21, 21}}, {"0x1", {21, 21, 21}}, {"1.0", {21, 21, 21}},
    {"1.", {21, 21, 21}}, {".1", {21, 21, 21}}, {"1e3", {21, 21, 21}}, {"1E3", {21, 21, 21}},
    {" 1", {21, 21, 21}}, {"1 ", {21, 21, 21}}, {"\t1", {21, 21, 21}}, {"1\t", {21, 21, 21}},
    {" ", {21, 21, 21}}, {"", {21, 21, 21}}, {"1 1", {21, 21, 21}}, {"1-", {21, 21, 21}},
    {"- 1", {21, 21, 21}}, {"1-1", {21, 21, 21}}, {"1_000", {21, 21, 21}}, {"1'0", {21, 21, 21}},
    {"nan", {21, 21, 21}}, {"inf", {21, 21, 21}}, {"one", {21, 21, 21}}, {"\x7F", {21, 21, 21}},
    {"\xB2", {21, 21, 21}}, {"\xD9\xA1", {21, 21, 21}}, {"\xEF\xBC\x91", {21, 21, 21}},
    {"/", {21, 21, 21}}, {":", {21, 21, 21}}, {"2/", {21, 21, 21}}, {"2:", {21, 21, 21}},
    {"65534", {0, 0, 0}}, {"65535", {0, 0, 0}}, {"65536", {4, 0, 0}}, {"65537", {4, 0, 0}},
    {"70000", {4, 0, 0}}, {"99999", {4, 0, 0}}, {"100000", {4, 0, 0}}, {"131073", {4, 0, 0}},
    {"999999", {4, 0, 0}}, {"1000000", {4, 0, 0}}, {"1000001", {4, 4, 4}}, {"1000002", {4, 4, 4}},
    {"1048577", {4, 4, 4}}, {"9999999", {4, 4, 4}}, {"10000000", {4, 4, 4}},
    {"-999999", {21, 21, 0}}, {"-1000000", {21, 21, 0}}, {"-1000001", {21, 21, 4}},
    {"-1048577", {21, 21, 4}}, {"-10000000", {21, 21, 4}}, {"-2147483648", {21, 21, 4}},
    {"-2147483649", {21, 21, 4}}, {"-4294967295", {21, 21, 4}},
    {"-9223372036854775809", {21, 21, 4}}, {"-18446744073709551615", {21, 21, 4}},
};

/* Also with quotes around it, which change nothing. */
static void each_word(void) {
    for (size_t k = 0; k < sizeof words / sizeof *words; k++)
        for (int field = 0; field < 3; field++) {
            char quoted[40];
            snprintf(quoted, sizeof quoted, "\"%s\"", words[k].word);
            field_is(field, words[k].word, words[k].as[field]);
            field_is(field, quoted, words[k].as[field]);
        }
}

/* Adds a number to decimal digits, the first of which is the last in the list. */
static void add_to(char *digits, size_t *count, int number) {
    for (size_t k = 0; number > 0; k++, number /= 10) {
        if (k == *count) digits[(*count)++] = '0';
        number += digits[k] - '0';
        digits[k] = (char)('0' + number % 10);
    }
}

/* Twice the number. */
static void twice(char *digits, size_t *count) {
    int carried = 0;
    for (size_t k = 0; k < *count || carried > 0; k++) {
        if (k == *count) digits[(*count)++] = '0';
        carried += 2 * (digits[k] - '0');
        digits[k] = (char)('0' + carried % 10);
        carried /= 10;
    }
}

/* 2 to each power from 2^20 on, and some more: in fewer bits a number in range, which it is not. */
static void powers_of_two(int most) {
    char power[200] = "1", word[200];
    size_t count = 1;
    for (int bit = 1; bit <= most; bit++) {
        twice(power, &count);
        for (int more = 0; more < 12 && bit >= 20; more += 5) {
            char digits[200];
            size_t k = 0, length = count;
            memcpy(digits, power, sizeof digits);
            add_to(digits, &length, more);
            for (word[0] = '-'; k < length; k++) word[k + 1] = digits[length - 1 - k];
            word[length + 1] = 0;
            for (int field = 0; field < 3; field++) field_is(field, word + 1, 4);
            field_is(2, word, 4);
        }
    }
}

/* ---- numbers of very many digits ---- */

/* So many digits, all the same, in one field; the text has up to its largest size. */
static void long_number(int field, const char *first, char digit, size_t count, int number) {
    char *word = malloc(count + 2);
    if (!check(word != NULL, NULL, "memory")) return;
    memset(word, digit, count);
    memcpy(word, first, strlen(first));
    word[count] = 0;
    field_is(field, word, number);
    free(word);
}

static void long_numbers(void) {
    static const size_t counts[] = {8, 9, 10, 11, 19, 20, 21, 39, 40, 255, 256, 257, 4096, 16000};
    for (size_t k = 0; k < sizeof counts / sizeof *counts; k++)
        for (int field = 0; field < 3; field++) {
            for (char digit = '1'; digit <= '9'; digit++)
                long_number(field, "", digit, counts[k], 4);
            long_number(field, "1", '0', counts[k], 4);
            long_number(field, "", '0', counts[k], 21);
            long_number(field, "0", '1', counts[k], 21);
            long_number(field, "-", '1', counts[k], field == 2 ? 4 : 21);
            long_number(field, "-", '0', counts[k], 21);
            long_number(field, "x", '1', counts[k], 21);
            long_number(field, "\"", '1', counts[k], 21);
        }
}

/* ---- each byte of good texts ---- */

static const char *const good_texts[] = {
    HEADER "12,340,-56\r\n7,8,9\r\n", HEADER "1,1,1",
    "\"name\",x,\"y\"\r\n\"1\",20,\"-3\"\r\n4,\"50\",0\r\n",
    HEADER "65535,1000000,1000000\r\n65534,999999,-1000000\r\n",
};

/* Replaced by every byte. */
static void each_byte(const char *text) {
    for (size_t k = 0; k < strlen(text); k++)
        for (int byte = 0; byte < 256; byte++) {
            begin_text(text);
            csv.text[k] = (uint8_t)byte;
            read_alike();
        }
}

/* Left out, doubled, swapped with the next, with any byte put before it, and as the last one. */
static void each_place(const char *text) {
    for (size_t k = 0; k < strlen(text); k++) {
        begin_text(text);
        splice(&csv, k, 1, NULL, 0);
        read_alike();
        begin_text(text);
        splice(&csv, k, 0, csv.text + k, 1);
        read_alike();
        begin_text(text);
        uint8_t swapped[] = {csv.text[k + 1], csv.text[k]};
        if (k + 1 < csv.bytes) splice(&csv, k, 2, swapped, 2);
        read_alike();
        begin_text(text);
        csv.bytes = k;
        read_alike();
    }
    for (size_t k = 0; k <= 256 * strlen(text); k++) {
        uint8_t byte = (uint8_t)k;
        begin_text(text);
        splice(&csv, k / 256, 0, &byte, 1);
        read_alike();
    }
}

static void good_ones(size_t count) {
    for (size_t k = 0; k < count; k++) {
        lend_text(&q, k % 2 ? 16 * PADS : 32);
        each_byte(good_texts[k]);
        each_place(good_texts[k]);
    }
}

/* ---- every short text ---- */

/* Every text of up to so many of the bytes that matter, after each of these beginnings. */
static void every_short(const char *start, size_t most) {
    static const char bytes[] = "1\",\r\n-0";
    size_t kinds = strlen(bytes), all = 1;
    bool ok = true;
    for (size_t length = 0; length <= most && ok; length++, all *= kinds)
        for (size_t k = 0; k < all && ok; k++) {
            uint8_t room[48], expected[48];
            begin_text(start);
            for (size_t i = 0, rest = k; i < length; i++, rest /= kinds)
                csv.text[csv.bytes++] = (uint8_t)bytes[rest % kinds];
            memset(room, 0x5A, sizeof room);
            memcpy(expected, room, sizeof room);
            int64_t answer = plain_read_csv(&csv, expected, sizeof expected);
            came[outcome_of(answer)]++;
            ok = cheremysl_read_csv(csv.text, csv.bytes, room, sizeof room) == answer &&
                 memcmp(room, expected, sizeof room) == 0;
        }
    check(ok, &q, "a short text is read otherwise");
}

static void every_short_text(size_t most) {
    static const char *const starts[] = {"", "name,x,", "name,x,y", HEADER, HEADER "1,",
                                         HEADER "1,\"1", HEADER "1,1,", HEADER "2,2,2\r\n1,1"};
    for (size_t k = 0; k < sizeof starts / sizeof *starts; k++) every_short(starts[k], most);
}

/* ---- quotes ---- */

/* Header and two pads: each set of their nine fields has quotes. The same two pads. */
static void each_set_of_quotes(void) {
    static const char *const fields[] = {"name", "x", "y", "300", "40000", "-5",
                                         "6", "7", "800000"};
    uint8_t pads[32];
    put_record(pads, 0, 300, 40000, -5, 0);
    put_record(pads, 1, 6, 7, 800000, 0);
    for (uint32_t set = 0; set < 1024; set++) {
        csv.bytes = 0;
        for (int k = 0; k < 9; k++) {
            const char *quote = set >> k & 1 ? "\"" : "";
            add_word(&csv, quote);
            add_word(&csv, fields[k]);
            add_word(&csv, quote);
            if (k < 8 || set >> 9) add_word(&csv, k % 3 == 2 ? "\r\n" : ",");
        }
        reads(pads, 2);
    }
}

/* A word in place of one of nine fields. */
static void odd_field(const char *word, int field, bool ends) {
    static const char *const usual[] = {"name", "x", "y", "3", "4", "5", "31", "41", "51"};
    csv.bytes = 0;
    for (int k = 0; k < 9; k++) {
        add_word(&csv, k == field ? word : usual[k]);
        if (k < 8 || ends) add_word(&csv, k % 3 == 2 ? "\r\n" : ",");
    }
    lend_text(&q, 16 * PADS);
    read_alike();
}

static void odd_quotes(void) {
    static const char *const odd[] = {
        "\"", "\"\"", "\"\"\"", "\"\"\"\"", "1\"", "\"1", "1\"\"", "\"\"1", "\"1\"\"", "\"\"1\"",
        "\"\"1\"\"", "\"\"\"1\"", "\"1\"\"\"", "\"\"\"1\"\"\"", "1\"2", "\"1\"2", "1\"2\"",
        "\"1\"\"2\"", "\"1\" ", " \"1\"", "\"1\"\"2", "\"1,2\"", "\"1,\"", "\",1\"", "\"\r\n\"",
        "\"1\r\n\"",
        "\"\r\n1\"", "\"1\r\n2\"", "\"1\r\"", "\"1\n\"", "\"1\r\n", "\"\r\n", "\"1\"\r\n\"2\"",
        "'1'",
        "\"1 \"", "\" 1\"", "\"\t1\"", "\"1\"\"\r\n", "\"name\"", "\"x\"", "\"y\"", "\"Name\""};
    for (size_t k = 0; k < sizeof odd / sizeof *odd; k++)
        for (int field = 0; field < 18; field++) odd_field(odd[k], field / 2, field % 2);
}

/* ---- sizes ---- */

/* So many pads with names and x of their own. */
static void pads_of(size_t n) {
    uint8_t *pads = malloc(16 * (n + 1));
    if (!check(pads != NULL, NULL, "memory")) return;
    for (size_t i = 0; i < n; i++) put_record(pads, i, 1 + (int64_t)i, 5000 - (int64_t)i, -3, 0);
    csv.bytes = 0;
    add_pads(&csv, pads, n);
    free(pads);
}

/* 0 to 70 pads; with a last CR LF and without it; in a room of just enough bytes or one too few. */
static void numbers_of_pads(void) {
    for (size_t n = 0; n <= 70; n++)
        for (int ends = 0; ends < 2; ends++) {
            size_t rooms[] = {16 * n, 16 * n + 1, 16 * n + 15, 16 * PADS, TEXT_ROOM,
                              16 * n - (n > 0), 8 * n, 15, 1, 0};
            pads_of(n);
            if (!ends) csv.bytes -= 2;
            for (size_t k = 0; k < 10; k++) {
                lend_text(&q, rooms[k]);
                answers(n < 1 || n > PADS       ? refused(1, 0)
                        : rooms[k] < 16 * n ? refused(22, 0)
                                            : (int64_t)n);
            }
        }
}

/* As many lines as a text can have, and the first bad one at each place, or at one in so many. */
static void thousands_of_lines(size_t apart) {
    size_t lines = (CSV_LIMIT - strlen(HEADER)) / 7;
    lend_text(&q, 16 * PADS);
    begin_text(HEADER);
    for (size_t k = 0; k < lines; k++) add_word(&csv, "1,1,1\r\n");
    answers(refused(1, 0));
    for (size_t k = 0; k < lines; k += k < 70 ? 1 : apart) {
        static const char bad[] = "x-,\"\r\n.";
        csv.text[strlen(HEADER) + 7 * k + 4] = (uint8_t)bad[k % 7];
        csv.text[strlen(HEADER) + 7 * (lines - 1)] = 'z';
        answers(refused(21, (int)k + 2));
        csv.text[strlen(HEADER) + 7 * k + 4] = '1';
    }
    csv.text[strlen(HEADER) + 7 * (lines - 1)] = '1';
    add_word(&csv, "1");
    answers(refused(21, (int)lines + 2));
    check(lines + 2 == 2341 && csv.bytes == CSV_LIMIT, NULL, "the last line that can be bad");
}

/* A text of just so many bytes: filled up with what is to stand at its end. */
static void filled_text(const char *start, const char *filling, size_t bytes) {
    begin_text(start);
    while (csv.bytes < bytes) add_word(&csv, filling);
    csv.bytes = bytes;
}

/* The largest texts, good but for a number or the number of pads, and bad; all of one byte more. */
static void largest_texts(void) {
    static const struct {
        const char *start, *filling;
        int number, record;
    } texts[] = {
        {HEADER "1,1,", "8", 4, 0},
        {HEADER "1,1,1\r\n2,2,-", "1", 4, 1},
        {HEADER "1,1,1\r\n", "2,2,2\r\n", 21, 2341},
        {HEADER "10,1,1\r\n", "2,2,2\r\n", 1, 0},
        {HEADER "1,1,1\r\n", "\r\n", 21, 3},
        {HEADER "1,1,\"", "\"\"", 21, 2},
        {HEADER "1,1,1\r\n2,2,0", "0", 21, 3},
        {HEADER "1,1,1\r\n2,2,\"", "7", 21, 3},
        {HEADER "1,1,1\r\n2,", "7", 21, 3},
        {HEADER, ",", 21, 2},
        {"\"", "\"\"", 21, 1},
        {"", "\r\n", 21, 1},
        {"", "\"", 21, 1},
        {"", "\r", 21, 1},
        {"", "\n", 21, 1},
        {"", "x", 21, 1},
    };
    static const size_t more[] = {1, 2, 15, 16, 31, 32};
    for (size_t k = 0; k < sizeof texts / sizeof *texts; k++) {
        lend_text(&q, 16 * PADS);
        filled_text(texts[k].start, texts[k].filling, CSV_LIMIT);
        answers(refused(texts[k].number, texts[k].record));
        for (size_t i = 0; i < 6; i++) {
            filled_text(texts[k].start, texts[k].filling, CSV_LIMIT + more[i]);
            lend_text(&q, i % 2 ? 0 : 16 * PADS);
            answers(refused(20, 0));
        }
    }
}

/* Sizes that no memory has: more than a text may have, whatever is there. */
static void endless_texts(void) {
    static const size_t counts[] = {SIZE_MAX, SIZE_MAX / 2, (size_t)1 << 32, (size_t)1 << 63,
                                    65536};
    uint8_t room[16];
    begin_text(HEADER "1,1,1");
    for (size_t k = 0; k < sizeof counts / sizeof *counts; k++)
        for (size_t more = 0; more <= csv.bytes; more += csv.bytes) {
            int64_t answer = cheremysl_read_csv(csv.text, counts[k] + more, room, 16);
            bool small = counts[k] + more <= CSV_LIMIT; /* a count that went round */
            check(answer == refused(20, 0) || small, &q, "an endless text");
        }
}

/* ---- rooms of more than 32 bits ---- */

static void wide_rooms(void) {
    static const uint64_t wide[] = {0x7FFFFFFF, 0x80000000, 0xFFFFFFFF, 0x100000000, 0x100000001,
                                    0x100000010};
    char *memory = guard_wide();
    if (!check(memory != NULL, NULL, "4 GiB of addresses")) return;
    pads_of(3);
    lend_text(&q, TEXT_ROOM);
    struct reply r = plain_reply(&q);
    for (size_t k = 0; k < sizeof wide / sizeof *wide; k++) {
        memcpy(memory, q.text, sizeof q.text);
        int64_t answer = cheremysl_read_csv(csv.text, csv.bytes, (uint8_t *)memory, wide[k]);
        check(answer == 3 && memcmp(memory, r.text, sizeof r.text) == 0, &q, "a wide room");
    }
}

/* ---- several faults ---- */

enum { LONG, BAD, COUNT_OF, ROOM, FIELD, NAME, X, FAULTS };

/* Eight pads, or 65; at pad 2 a field outside its range, at 3 a name again, at 4 an x again. */
static void with_faults(uint32_t set, size_t bad_line) {
    size_t n = set >> COUNT_OF & 1 ? PADS + 1 : 8;
    csv.bytes = 0;
    add_word(&csv, HEADER);
    for (size_t i = 0; i < n; i++) {
        char line[40];
        snprintf(line, sizeof line, "%d,%d,%d%s\r\n", i == 3 && set >> NAME & 1 ? 2 : (int)i + 1,
                 i == 4 && set >> X & 1       ? 200
                 : i == 2 && set >> FIELD & 1 ? 0
                                              : 100 * (int)i + 100,
                 -(int)i - 1, i == bad_line && set >> BAD & 1 ? "x" : "");
        add_word(&csv, line);
    }
    csv.bytes -= 2;
    while (set >> LONG & 1 && csv.bytes <= CSV_LIMIT) add_word(&csv, "0");
    lend_text(&q, 16 * n - (set >> ROOM & 1));
}

/* Every set of faults, wherever the bad line is: the one that is checked first, with its record. */
static void every_set_of_faults(void) {
    static const int records[FAULTS] = {0, 0, 0, 0, 2, 3, 4};
    for (uint32_t set = 1; set < 1u << FAULTS; set++)
        for (size_t bad = 0; bad < 8; bad++) {
            int first = 0;
            while (!(set >> first & 1)) first++;
            with_faults(set, bad);
            answers(refused(csv_checks[first], first == BAD ? (int)bad + 2 : records[first]));
        }
}

/* Of 64 pads that all differ, one gets the name or the x of an earlier one. */
static void one_twice(void (*put)(uint8_t *, size_t, int64_t),
                      int64_t (*get)(const uint8_t *, size_t), int number) {
    uint8_t pads[16 * PADS];
    lend_text(&q, 16 * PADS);
    for (size_t j = 1; j < PADS; j++)
        for (size_t i = 0; i < j; i++) {
            any_csv_pads(pads, PADS);
            put(pads, j, get(pads, i));
            csv.bytes = 0;
            add_pads(&csv, pads, PADS);
            answers(refused(number, (int)j));
        }
}

/* Two of 64 pads with the same fault, or one that has what another has: the first such record. */
static void two_records(size_t i, size_t j, size_t k) {
    static const char *const wrong[] = {"0,", "65536,", "70000,"};
    uint8_t pads[16 * PADS];
    any_csv_pads(pads, PADS);
    put_name(pads, j, get_name(pads, i));
    put_x(pads, k, get_x(pads, j));
    csv.bytes = 0;
    add_pads(&csv, pads, PADS);
    lend_text(&q, 16 * PADS);
    answers(refused(6, (int)j));
    put_name(pads, j, get_name(pads, i) % 65535 + 1);
    for (size_t other = 0; other < PADS; other++)
        if (other != j && get_name(pads, other) == get_name(pads, j)) return;
    csv.bytes = 0;
    add_pads(&csv, pads, PADS);
    answers(refused(7, (int)k));
    size_t at = strlen(HEADER), line = 0;
    for (; line < j; at++) line += csv.text[at] == '\n';
    size_t name = 0;
    while (csv.text[at + name] != ',') name++;
    splice_word(&csv, at, name + 1, wrong[(i + k) % 3]);
    answers(refused(4, (int)j));
    csv.text[at] = 'x';
    answers(refused(21, (int)j + 2));
}

static void each_two_records(size_t apart) {
    for (size_t j = 1; j < PADS - 1; j++)
        for (size_t i = 0; i < j; i += apart)
            two_records(i, j, j + 1 + below((uint32_t)(PADS - 1 - j)));
}

/* ---- written and read back ---- */

/* On n ports 10 apart no pad is too many, and points leave a layout. */
static void is_laid_out(const uint8_t *pads, size_t n) {
    static struct question s;
    if (SLOTS_FIRST >= CALLS) return;
    s.call = SLOTS_FIRST;
    memcpy(s.job, pads, 16 * n);
    s.job_bytes = 16 * n;
    s.port_bytes = 4 * n;
    s.count = n;
    for (size_t k = 0; k < n; k++) set_port(&s, k, 10 * (int64_t)k);
    lend_work(&s, 0);
    check(call_library(&s) >= 0, &s, "what was read is no list of pads");
    laid_out++;
}

/* By the plain rule; then without its last CR LF; then with quotes. */
static void written(size_t n) {
    uint8_t pads[16 * PADS];
    any_csv_pads(pads, n);
    csv.bytes = 0;
    add_pads(&csv, pads, n);
    reads(pads, n);
    csv.bytes -= 2;
    reads(pads, n);
    for (uint32_t one_in = 1; one_in <= 3; one_in++) {
        any_csv(&csv, pads, n);
        quote_some(&csv, one_in);
        read_alike();
        any_csv(&csv, pads, n);
        reads(pads, n);
    }
    read_back++;
    if (n <= 10 || below(64) == 0) is_laid_out(pads, n);
}

/* ---- random damage ---- */

static void damaged(void) {
    static struct question random;
    sound_question(&random, READ_CSV);
    for (uint32_t times = below(4); times > 0; times--) damage(&random);
    struct reply r = plain_reply(&random);
    came[outcome_of(r.answer)]++;
    expect(&random, r);
}

int main(int argc, char **argv) {
    long count = argc > 1 ? atol(argv[1]) : 200000;
    bool all = count >= 100000;
    seed_random(argc > 2 ? strtoull(argv[2], NULL, 10) : 1);
    begin();
    by_hand();
    every_number(all ? 1 : 11);
    each_word();
    powers_of_two(all ? 300 : 140);
    long_numbers();
    good_ones(all ? 4 : 1);
    every_short_text(all ? 6 : 4);
    each_set_of_quotes();
    odd_quotes();
    numbers_of_pads();
    thousands_of_lines(all ? 3 : 100);
    largest_texts();
    endless_texts();
    wide_rooms();
    every_set_of_faults();
    one_twice(put_name, get_name, 6);
    one_twice(put_x, get_x, 7);
    each_two_records(all ? 1 : 9);
    for (long k = 0; k < count / 100; k++) written(1 + (size_t)k % PADS);
    for (long k = 0; k < count; k++) damaged();
    report_refusals("ReadCsv", READ_CSV, came);
    printf("%ld lists written and read back, %ld laid out\n", read_back, laid_out);
    check(laid_out > 0 || SLOTS_FIRST >= CALLS, NULL, "none was laid out");
    return done();
}
