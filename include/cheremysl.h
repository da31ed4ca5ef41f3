/*
 * cheremysl.h - leaders from the pads of a board to the labels at its edge, for C and C++
 *
 * WHAT IT IS FOR
 *
 * Pads lie to the right of a vertical line, the label edge, at x = 0. Ports are fixed heights
 * on that line, one for each label: as many as there are pads, or in the slots calls as many or
 * more. A leader joins a pad to a port: from the pad straight up or down to the port's height (the
 * hand), then straight to the edge (the arm). A pad is a square of copper, or a point.
 *
 *      y
 *     30 |                 o 103         cheremysl_first     the earliest best sheet of a board
 *        |                 |             cheremysl_next      the best sheet after a given one
 *     20 *-----------o 102 |             cheremysl_page      several best sheets after a given one
 *        |                 |             cheremysl_count     how many best sheets there are
 *     10 *-----o 101       |             cheremysl_place     the best sheet at a given place
 *        |                 |             cheremysl_measure   the total of any sheet that is sound
 *      0 *-----------------+             cheremysl_draw      one leader's points for the canvas
 *        +-----+-----+-----+--> x        cheremysl_svg       all leaders as text for a web page
 *        0    10    20    30             cheremysl_read_csv  pads from the list of a board tool
 *
 *                                        cheremysl_table_first     First, Next and Measure by the
 *                                        cheremysl_table_next      caller's own figure for each
 *                                        cheremysl_table_measure   pad with each port
 *
 *                                        cheremysl_slots_first     First, Next and Measure on a
 *                                        cheremysl_slots_next      strip of slots: ports may be
 *                                        cheremysl_slots_measure   more than pads, and stay free
 *
 * Best: no leader shares a point with another leader or with another pad's square, and no such
 * sheet has a smaller total. The total is that of lengths and bends, each times a weight that the
 * caller chooses; in the table calls it is that of the caller's own figures.
 *
 * First and then Next until the end list every best sheet once and nothing else, and so do
 * TableFirst and TableNext, and SlotsFirst and SlotsNext; Page does the work of several calls of
 * Next, and Place goes to any of the sheets that Count counts, without those before it. Every job
 * that a First accepts has a best sheet. Answers and lists are proved to be what this header says,
 * for every input.
 *
 * A MINUTE'S USE
 *
 *      uint16_t layout[CHEREMYSL_MAX_RECORDS];
 *      int64_t answer = cheremysl_first(job, job_bytes, 1, 0, layout, CHEREMYSL_MAX_RECORDS);
 *      if (cheremysl_is_refusal(answer))
 *          printf("record %d: %s\n", cheremysl_refusal_record(answer),
 *                 cheremysl_refusal_text(answer));
 *      while (answer >= 0) {
 *          show(layout, answer);
 *          answer = cheremysl_next(job, job_bytes, 1, 0, layout, CHEREMYSL_MAX_RECORDS);
 *      }
 *
 * The example sheets.c takes them page by page; thumbs.c shows a page of them at any place;
 * antenna.c makes a table that keeps leaders off an area of the board; slots.c lays a board out on
 * a strip of slots; webpage.c makes a web page of a sheet.
 *
 * THE JOB
 *
 * A job is a string of bytes: records of 16 bytes, 1 to 64 of them, no header. Record i,
 * counted from 0, brings one pad and one port. All numbers are little-endian, on every machine.
 *
 *      offset  bytes  field         allowed
 *         0      2    name          1 to 65,535
 *         2      2    half-side     0 to 2,000
 *         4      4    x             1 to 1,000,000
 *         8      4    y             -1,000,000 to 1,000,000, two's complement
 *        12      4    port height   -1,000,000 to 1,000,000, two's complement
 *
 * Port heights rise from record to record, by at least 8, so that labels do not run into each
 * other: the port of record i is port number i. The x of all pads differ, and so do their names.
 * Pads may share a height with each other and with ports.
 *
 * (x, y) is the centre of the pad's square, which reaches by the half-side to either side of x and
 * of y, its sides included. With half-side 0 it is a point. A square may reach past the label edge,
 * past ports and over other squares.
 *
 * Below, n is the number of records, job_bytes / 16.
 *
 * THE STRIP OF SLOTS
 *
 * A printed strip has a fixed row of slots for labels, and a small board uses only some of them. So
 * the slots calls take the job in a second form, which is two strings of bytes:
 *
 *      pads    1 to 64 records of 16 bytes as above, whose last field, at offset 12, is 0
 *      ports   1 to 128 port heights of 4 bytes, two's complement, -1,000,000 to 1,000,000, no
 *              header; they rise by at least 8, and the place in the list, counted from 0, is the
 *              port's number
 *
 * Here n is the number of pads, pad_bytes / 16, and p the number of ports, port_bytes / 4, at least
 * n. A port that no pad is led to stays free. One list of ports serves all boards that use a strip.
 * ReadCsv makes pads, as points, of the list that a board tool saves.
 *
 * SlotsFirst and SlotsNext are lent a work list as well, of 2(n + 1)(p + 2)(p + 2) 64-bit numbers
 * or more: CHEREMYSL_SLOTS_WORK(n, p), which for the largest job is 2,197,000, some 17.6 million
 * bytes. What it holds on entry changes no answer: it need not be filled, and one list will do for
 * any number of calls, one after the other. What it holds after them is of no use.
 *
 * These calls are by weights. Page, Count, Place, Draw, Svg and the table calls take jobs of the
 * first form. A pad with its port's height in its last field is such a job, of one record: Draw
 * gives its leader's points, Svg with the layout {0} its line, and Measure with that layout its
 * length, or its bends.
 *
 *      uint8_t one[CHEREMYSL_RECORD_BYTES];
 *      memcpy(one, pads + 16 * i, 12);
 *      memcpy(one + 12, ports + 4 * layout[i], 4);
 *      answer = cheremysl_draw(one, sizeof one, 0, 0, points, CHEREMYSL_DRAW_FLOATS);
 *
 * THE TABLE
 *
 * The table calls are lent a table where the others take weights: n * n unsigned 32-bit figures,
 * in the machine's own form. They stand pad by pad in the order of the records, and for each pad
 * port by port from port 0 on: the figure of pad i with port q is table[i * n + q]. With 3 records:
 *
 *                 port 0     port 1     port 2
 *      pad 0     table[0]   table[1]   table[2]
 *      pad 1     table[3]   table[4]   table[5]
 *      pad 2     table[6]   table[7]   table[8]
 *
 * A figure says how bad that leader is. It may be anything from 0 to 4,294,967,295, and none has a
 * meaning of its own: the largest forbids nothing. To keep a leader away, give it a dear figure. If
 * that is more than the other figures of a sheet can come to, a best sheet has as few dear leaders
 * as can be, and its total divided by the dear figure, the remainder dropped, is their number.
 *
 * SHEETS
 *
 * A layout is a list of n 16-bit entries: entry i is the port number, 0 to n - 1, of the pad of
 * record i, and each port number stands once. In the slots calls it is 0 to p - 1, and no port
 * number stands twice.
 *
 * The leader of a pad (x, y) to a port of height q has a hand on the vertical line at x, from y
 * to q, and an arm at height q, from x to 0; both include their ends. Its length is x plus the
 * distance of y and q. It has 0 bends if y = q, else 1.
 *
 * Two records touch if their leaders share a point, or if the leader of one shares a point with the
 * square of the other; that two squares overlap is no touching. For pad A right of pad B leaders
 * share a point exactly if A's port height lies between B's own height and B's port height, ends
 * included. The leader of a pad (x, y) to a port of height q meets the square at (u, v) with
 * half-side h exactly if u - h <= x and q lies in v - h to v + h (the arm), or if x lies in u - h to
 * u + h and some height between y and q in v - h to v + h (the hand), ends included.
 *
 * The total of a layout is length_weight times the sum of the lengths plus bend_weight times
 * the sum of the bends. By a table it is the sum of the figures of the pads with their ports. A
 * best layout has no touching pair, and no layout without a touching pair has a smaller total.
 * With both weights 0, or all figures equal, every layout without a touching pair is best. If all
 * half-sides are 0, with bend_weight 0 no layout at all, touching or not, has a smaller total than
 * a best one; with squares, a larger bend_weight or by a table, one with a touching pair may have.
 *
 * If all half-sides are 0, some layout has no touching pair. With squares there may be none: each
 * First then refuses with 15, and so do Count and Place. No other call does, since any layout that
 * it is given gets 8 or 9.
 *
 * With weights up to 1,000, First, Next and Measure answer as the table calls do with the table of
 * weighted leaders: the figure of a pad with a port is length_weight times the length of that
 * leader plus bend_weight times its bends.
 *
 * Order: to compare two layouts take the pad with the largest x; the layout with the smaller
 * port number there comes earlier. If these are equal, go on with the next pad to the left.
 *
 * PLACES
 *
 * The best layouts have places in this order, counted from 0: First gives the one at place 0, and
 * Next, given the one at place k, that at place k + 1. Count answers how many there are, one more
 * than the last place; Place gives the one at any place, without those before it. The sheet in the
 * middle of them all:
 *
 *      static uint64_t buffer[CHEREMYSL_MAX_BUFFER];
 *      int64_t count = cheremysl_count(job, job_bytes, 1, 0, buffer, CHEREMYSL_MAX_BUFFER);
 *      if (count > 0)
 *          answer = cheremysl_place(job, job_bytes, 1, 0, (uint64_t)count / 2, layout, n, buffer,
 *                                   CHEREMYSL_MAX_BUFFER);
 *
 * Both are lent a buffer of 2(n + 2)(n + 2) 64-bit numbers or more: CHEREMYSL_BUFFER(n), which for
 * the largest job is 8,712, some 70,000 bytes. They keep there how many layouts the smaller parts
 * of the job have. It is never trusted: what it holds on entry, be it of this job, of another or
 * anything, changes no answer. So it need not be filled, and one buffer will do for any number of
 * calls, one after the other.
 *
 * A large board may have a great many best layouts. Of more than CHEREMYSL_MAX_COUNT,
 * 1,000,000,000,000,000,000, none is given by its place, not even the first: Count and Place refuse
 * with 16. First, Next and Page go through them as ever.
 *
 * ANSWERS
 *
 * Each call answers one signed 64-bit number:
 *
 *      0 or more           the total (First, Next, Place, Measure and the slots calls; at most
 *                          CHEREMYSL_MAX_TOTAL, and in the table calls at most
 *                          CHEREMYSL_MAX_TABLE_TOTAL), the number of layouts written (Page), of
 *                          best layouts, 1 to CHEREMYSL_MAX_COUNT (Count), of points, 2 or 3
 *                          (Draw), of bytes written, at most CHEREMYSL_MAX_SVG_BYTES (Svg), or
 *                          of pads, 1 to 64 (ReadCsv)
 *      -1                  the end (Next, TableNext and SlotsNext only): no best layout comes
 *                          after the given one
 *      -(4294967296 * j + 65536 * r + i)
 *                          refusal number r with record number i and, in refusal 9 alone, the
 *                          earlier record j; in every other refusal j is 0
 *
 * cheremysl_is_refusal, cheremysl_refusal_number, cheremysl_refusal_record,
 * cheremysl_refusal_earlier and cheremysl_is_end, at the foot of this file, take an answer apart;
 * cheremysl_refusal_text says a refusal in a sentence.
 *
 * REFUSALS
 *
 *      no.  given when                                                       record number
 *       1   job_bytes, or in the slots calls pad_bytes, is 0, not a          0
 *           multiple of 16, or above 1,024; port_bytes is 0, not a
 *           multiple of 4, or above 512; ReadCsv's text has no pads, or
 *           more than 64
 *       2   a weight is above 1,000                                          0
 *       3   the layout list has fewer than n entries, or Draw's list         0
 *           fewer than six floats (for a straight leader too); Page's
 *           page may have any number of entries
 *       4   a field is outside its range                                     first such record
 *       5   a port height is not above the one before                        first such record
 *       6   a name stood in an earlier record                                first such record
 *       7   an x stood in an earlier record                                  first such record
 *       8   a given entry is n or more, in the slots calls p or more, or     first such record
 *           stood earlier
 *       9   a record touches an earlier one: the leader of one meets the     first such record,
 *           leader or the square of the other                                and the earlier one
 *      10   the given layout has no touching pair but is not best            0
 *      11   Draw's record number or port number is n or more                 0
 *      12   a port height is less than 8 above the one before                first such record
 *      13   the table has fewer or more than n * n figures                   0
 *      14   there are fewer ports than pads                                  0
 *      15   no layout is without a touching pair                             0
 *      16   there are more than 1,000,000,000,000,000,000 best layouts       0
 *      17   Place's place is the number of best layouts or more              0
 *      18   the buffer has fewer than 2(n + 2)(n + 2) numbers                0
 *      19   Svg's text is longer than the bytes lent for it                  0
 *      20   ReadCsv's text_bytes is above 16,384                             0
 *      21   a line of ReadCsv's text is not of its form                      first such line,
 *                                                                            counted from 1
 *      22   ReadCsv's pad_bytes is less than 16 for each pad                 0
 *      24   the work list has fewer than 2(n + 1)(p + 2)(p + 2) numbers      0
 *
 * Each call checks for these, in this order, each over the whole job before the next:
 *
 *      First          1, 2, 3, 4, 5, 12, 6, 7, 15
 *      Next           1, 2, 3, 4, 5, 12, 6, 7, 8, 9, 10
 *      Page           1, 2, 3, 4, 5, 12, 6, 7, 8, 9, 10
 *      Count          1, 2, 4, 5, 12, 6, 7, 15, 18, 16
 *      Place          1, 2, 3, 4, 5, 12, 6, 7, 15, 18, 16, 17
 *      Measure        1, 2, 3, 4, 5, 12, 6, 7, 8, 9
 *      Draw           1, 3, 4, 5, 12, 6, 7, 11
 *      Svg            1, 3, 4, 5, 12, 6, 7, 8, 9, 19
 *      ReadCsv        20, 21, 1, 22, 4, 6, 7
 *      TableFirst     1, 13, 3, 4, 5, 12, 6, 7, 15
 *      TableNext      1, 13, 3, 4, 5, 12, 6, 7, 8, 9, 10
 *      TableMeasure   1, 13, 3, 4, 5, 12, 6, 7, 8, 9
 *      SlotsFirst     1, 2, 3, 14, 24, 4, 5, 12, 6, 7, 15
 *      SlotsNext      1, 2, 3, 14, 24, 4, 5, 12, 6, 7, 8, 9, 10
 *      SlotsMeasure   1, 2, 3, 14, 4, 5, 12, 6, 7, 8, 9
 *
 * An input that deserves several refusals gets the one that stands first, with the first record
 * at fault for it: a port that is not above the one before gets 5, not 12. No refusal is given in
 * any other case.
 *
 * In ReadCsv 21 names a line, counted from 1, and 4, 6 and 7 name a pad, counted from 0: the pad of
 * record i stands on line i + 2.
 *
 * In the slots calls 1 and 4 are checked over the pads and then over the ports. 5 and 12 name the
 * port's number there, and so does 4 for a port: it speaks of a port exactly if SlotsMeasure, given
 * as many ports without a fault in their place, does not give it.
 *
 * Refusal 9 names both records, in every call that gives it: record i is the smallest that touches
 * an earlier one, and j the smallest earlier one that it touches, whichever leader meets what.
 * Record 0 is a record, so ask for the refusal's number first: it tells whether a j of 0 names
 * record 0 or none.
 *
 * WHO OWNS WHAT, AND WHAT STAYS UNCHANGED
 *
 * All memory is the caller's, and the library keeps no pointer after a call. Every list is lent
 * as a pointer and the number of its elements (bytes of a job, of pads, of ports or of a text,
 * figures of a table, entries of a layout or of a page, floats, numbers of a work list or of a
 * buffer); all of them must be there. NULL with 0 is an empty list; NULL with another number is not
 * allowed. Job, pads, ports and text may stand at any address; a table is aligned as uint32_t
 * always is, layouts and pages as uint16_t, floats as float, a work list and a buffer as uint64_t.
 * A list that a call writes must not overlap another that it is lent: to go on from the last layout
 * of a page, copy it out first.
 *
 *      the job, pads and ports of    never written
 *      the slots calls, the table,
 *      ReadCsv's text
 *      the layout of Page, Svg,      never written
 *      Measure, TableMeasure,
 *      SlotsMeasure
 *      after a refusal, or the end   nothing was written: every lent list is as it was, but for
 *                                    the work list after the end or refusal 10 or 15, and for the
 *                                    buffer after refusal 16 or 17
 *      each First and Next, and      entries 0 to n - 1 are replaced, those from n on unchanged
 *      Place, with a total
 *      SlotsFirst and SlotsNext      the whole work list may have been written, with anything
 *      with a total, the end or
 *      refusal 10 or 15
 *      Count with a count, Place     the whole buffer may have been written, with anything
 *      with a total, either with
 *      refusal 16 or 17
 *      Page with k layouts           the page's entries 0 to k * n - 1 are replaced, those from
 *                                    k * n on unchanged
 *      Draw with 2 or 3 points       the first 4 or 6 floats are replaced, those after unchanged
 *      Svg with k bytes              the text's bytes 0 to k - 1 are replaced, those from k on
 *                                    unchanged
 *      ReadCsv with n pads           the room's bytes 0 to 16 * n - 1 are replaced, those from
 *                                    16 * n on unchanged
 *
 * Reply and lists depend on the arguments and on what the lists hold, and on nothing else; what a
 * work list or a buffer holds on entry makes no difference. What a work list holds after a total,
 * the end or refusal 10 or 15 is left open, and so is what a buffer holds after a count, a total
 * or refusal 16 or 17.
 *
 * THREADS AND MEMORY
 *
 * The calls keep no state: no static variables, no heap, no locks, no files, no errno. Any
 * number of threads may call at once, on one job and one table too, as long as no list that one of
 * them writes, a work list or a buffer included, is used by another meanwhile. The calls raise no
 * floating-point exception and leave modes and flags as they were, whatever the caller's registers
 * hold; rounding mode and treatment of denormals make no difference to them.
 *
 * Working memory is on the stack, and in the slots calls in the work list, in Count and Place in
 * the buffer: at most 64 KiB of stack in any call (CHEREMYSL_STACK_BYTES). As built, a call takes
 * so many bytes of it at most, whatever it is given, from its return address on:
 *
 *      First 41,944   Next 42,120   Page 42,136   Count 59,032   Place 59,032   Measure 584
 *      Draw 136   Svg 5,496   ReadCsv 1,416   TableFirst 25,496   TableNext 25,672
 *      TableMeasure 568   SlotsFirst 11,688   SlotsNext 11,832   SlotsMeasure 616
 *
 * tests/stack.c measures it at 64 records, and fails if a call takes 48 bytes more.
 *
 * First and Next take time that grows with n cubed, Measure and Svg with n squared, and each table
 * call as its namesake. What grows with n cubed is the finding of least totals, for every run of
 * ports. Page does as Next does, and finds them once for the whole page. Count and Place take time
 * that grows as First's, whatever the place. SlotsFirst and SlotsNext take time that grows with n
 * times p cubed, SlotsMeasure as Measure and with p, ReadCsv with the text and with n squared.
 *
 * COMPILERS AND PLATFORMS
 *
 * The archive is x86-64 code in ELF, with 64-bit pointers and the System V calling convention, and
 * needs nothing but memcpy, memset, memmove and memcmp. This header is C99 or later and C++11 or
 * later. For anything else, x32 included, it is an error; to read the header elsewhere, as an
 * indexer or a generator of bindings does, define CHEREMYSL_ANY_PLATFORM before it.
 *
 * A call throws no C++ exception. Compilers that can are told what each call does with its lists,
 * and warn of an answer that is not looked at, since it alone tells whether the list was filled.
 * GCC from 10 on also warns of a list that is too short for the number lent with it, of NULL with
 * another number than 0, and of a list that was never filled where a call reads it.
 *
 * The version is in CHEREMYSL_VERSION_NUMBER, for #if, and CHEREMYSL_VERSION_TEXT, to be shown. A
 * change of the first number may break a program, one of the second adds something, and one of the
 * third does neither.
 */
#ifndef CHEREMYSL_H
#define CHEREMYSL_H

#ifndef CHEREMYSL_ANY_PLATFORM
/* Not every compiler for Linux says __ELF__. */
#if !defined(__x86_64__) || !defined(__LP64__) || !(defined(__ELF__) || defined(__linux__))
#error "cheremysl is x86-64 ELF code with 64-bit pointers (or define CHEREMYSL_ANY_PLATFORM)"
#endif
#ifdef __cplusplus
#if __cplusplus < 201103L
#error "cheremysl.h is for C++11 or later (or define CHEREMYSL_ANY_PLATFORM)"
#endif
#elif !defined(__STDC_VERSION__) || __STDC_VERSION__ < 199901L
#error "cheremysl.h is for C99 or later (or define CHEREMYSL_ANY_PLATFORM)"
#endif
#endif

#include <stddef.h>
#include <stdint.h>

/* ---- version ----------------------------------------------------------------------------- */

#define CHEREMYSL_VERSION_MAJOR 2
#define CHEREMYSL_VERSION_MINOR 4
#define CHEREMYSL_VERSION_PATCH 0

/* A number to compare, in #if too: 2004000 for 2.4.0. */
#define CHEREMYSL_VERSION_NUMBER \
    (1000000 * CHEREMYSL_VERSION_MAJOR + 1000 * CHEREMYSL_VERSION_MINOR + CHEREMYSL_VERSION_PATCH)

/* A string: "2.4.0". */
#define CHEREMYSL_VERSION_TEXT \
    CHEREMYSL_JOIN(CHEREMYSL_VERSION_MAJOR, CHEREMYSL_VERSION_MINOR, CHEREMYSL_VERSION_PATCH)
#define CHEREMYSL_JOIN(major, minor, patch) CHEREMYSL_JOIN_WORDS(major, minor, patch)
#define CHEREMYSL_JOIN_WORDS(major, minor, patch) #major "." #minor "." #patch

/* ---- what compilers are told; undefined again at the foot -------------------------------- */

#ifdef __has_attribute
#define CHEREMYSL_HAS(attribute) __has_attribute(attribute)
#else
#define CHEREMYSL_HAS(attribute) 0
#endif

/*
 * The list that is argument number list, with as many elements as argument number count says.
 * Writes: what it holds on entry makes no difference to the call, which may yet leave it there.
 */
#if CHEREMYSL_HAS(__access__)
#define CHEREMYSL_READS(list, count) __attribute__((__access__(__read_only__, list, count)))
#define CHEREMYSL_WRITES(list, count) __attribute__((__access__(__write_only__, list, count)))
#define CHEREMYSL_CHANGES(list, count) __attribute__((__access__(__read_write__, list, count)))
#else
#define CHEREMYSL_READS(list, count)
#define CHEREMYSL_WRITES(list, count)
#define CHEREMYSL_CHANGES(list, count)
#endif

#if CHEREMYSL_HAS(__warn_unused_result__)
#define CHEREMYSL_LOOK_AT_ANSWER __attribute__((__warn_unused_result__))
#else
#define CHEREMYSL_LOOK_AT_ANSWER
#endif

#if !defined(__cplusplus) && CHEREMYSL_HAS(__nothrow__)
#define CHEREMYSL_NOTHROW __attribute__((__nothrow__))
#elif !defined(__cplusplus)
#define CHEREMYSL_NOTHROW
#elif __cplusplus < 201103L
#define CHEREMYSL_NOTHROW throw()
#else
#define CHEREMYSL_NOTHROW noexcept
#endif

#ifdef __cplusplus
#define CHEREMYSL_CAST(type, value) static_cast<type>(value)
#else
#define CHEREMYSL_CAST(type, value) ((type)(value))
#endif

/* Of each call; noexcept must stand before the attributes. */
#define CHEREMYSL_CALL CHEREMYSL_NOTHROW CHEREMYSL_LOOK_AT_ANSWER

#ifdef __cplusplus
extern "C" {
#endif

/* ---- limits ------------------------------------------------------------------------------ */

#define CHEREMYSL_RECORD_BYTES 16               /* bytes of a record */
#define CHEREMYSL_MAX_RECORDS 64                /* records of a job, so also entries of a layout */
#define CHEREMYSL_MAX_JOB_BYTES 1024            /* bytes of a job, or of pads */
#define CHEREMYSL_MAX_FIGURES 4096              /* figures of a table, for the largest job */
#define CHEREMYSL_PORT_BYTES 4                  /* bytes of a height in a list of ports */
#define CHEREMYSL_MAX_SLOTS 128                 /* heights of a list of ports */
#define CHEREMYSL_MAX_PORT_BYTES 512            /* bytes of a list of ports */
#define CHEREMYSL_MAX_SLOTS_WORK 2197000        /* numbers of a work list, for the largest job */
#define CHEREMYSL_MAX_BUFFER 8712               /* numbers of a buffer, for the largest job */
#define CHEREMYSL_MAX_WEIGHT 1000               /* a weight; the smallest is 0 */
#define CHEREMYSL_MAX_HALF_SIDE 2000            /* a pad's half-side; the smallest is 0 */
#define CHEREMYSL_MAX_X 1000000                 /* a pad's x; the smallest is 1 */
#define CHEREMYSL_MAX_HEIGHT 1000000            /* a pad's y or a port height, up or down */
#define CHEREMYSL_MIN_RISE 8                    /* from one port height to the next */
#define CHEREMYSL_MAX_TOTAL 192000064000        /* no total by weights is larger */
#define CHEREMYSL_MAX_TABLE_TOTAL 274877906880  /* no total by a table is larger */
#define CHEREMYSL_MAX_COUNT 1000000000000000000 /* of more best layouts none has a place */
#define CHEREMYSL_DRAW_FLOATS 6                 /* floats that Draw must be lent */
#define CHEREMYSL_MAX_SVG_BYTES 4864            /* bytes of Svg's text, for the largest job */
#define CHEREMYSL_MAX_CSV_BYTES 16384           /* bytes of ReadCsv's text */
#define CHEREMYSL_STACK_BYTES 65536             /* no call needs more stack */

/*
 * Numbers of the work list that SlotsFirst and SlotsNext must be lent for n pads and p ports, as a
 * constant where n and p are: 2(n + 1)(p + 2)(p + 2). p is taken twice.
 */
#define CHEREMYSL_SLOTS_WORK(n, p) (UINT64_C(2) * ((n) + 1) * ((p) + 2) * ((p) + 2))

/*
 * Numbers of the buffer that Count and Place must be lent for n records, as a constant where n is:
 * 2(n + 2)(n + 2). n is taken twice.
 */
#define CHEREMYSL_BUFFER(n) (UINT64_C(2) * ((n) + 2) * ((n) + 2))

/*
 * Bytes that will do for Svg's text of n records, as a constant where n is: 76 for each line, which
 * none exceeds.
 */
#define CHEREMYSL_SVG_BYTES(n) (UINT64_C(76) * (n))

/* ---- numbers in answers ------------------------------------------------------------------ */

#define CHEREMYSL_END (-1)

enum cheremysl_refusal {
    CHEREMYSL_BAD_SIZE = 1,        /* bad size of job, pads or ports; a list of 0 or over 64 pads */
    CHEREMYSL_BAD_WEIGHT = 2,      /* a weight is above 1,000 */
    CHEREMYSL_NO_ROOM = 3,         /* a layout of fewer than n entries, fewer than six floats */
    CHEREMYSL_BAD_FIELD = 4,       /* a field is outside its range */
    CHEREMYSL_PORT_NOT_ABOVE = 5,  /* a port height is not above the one before */
    CHEREMYSL_NAME_TWICE = 6,      /* a name stood in an earlier record */
    CHEREMYSL_X_TWICE = 7,         /* an x stood in an earlier record */
    CHEREMYSL_BAD_ENTRY = 8,       /* a given entry is no port's number, or stood earlier */
    CHEREMYSL_TOUCHING = 9,        /* a record touches an earlier one */
    CHEREMYSL_NOT_BEST = 10,       /* the given layout has no touching pair but is not best */
    CHEREMYSL_BAD_NUMBER = 11,     /* Draw's record or port number is n or more */
    CHEREMYSL_PORT_TOO_CLOSE = 12, /* a port height is less than 8 above the one before */
    CHEREMYSL_BAD_TABLE = 13,      /* a table of fewer or more than n * n figures */
    CHEREMYSL_TOO_FEW_PORTS = 14,  /* fewer ports than pads */
    CHEREMYSL_NO_LAYOUT = 15,      /* no layout is without a touching pair */
    CHEREMYSL_TOO_MANY = 16,       /* more than 1,000,000,000,000,000,000 best layouts */
    CHEREMYSL_PAST_COUNT = 17,     /* Place's place is the number of best layouts or more */
    CHEREMYSL_NO_BUFFER_ROOM = 18, /* a buffer of fewer than 2(n + 2)(n + 2) numbers */
    CHEREMYSL_TEXT_TOO_LONG = 19,  /* Svg's text is longer than the bytes lent for it */
    CHEREMYSL_CSV_TOO_LONG = 20,   /* a text of more than 16,384 bytes */
    CHEREMYSL_BAD_LINE = 21,       /* a line of the text is not of its form */
    CHEREMYSL_NO_PAD_ROOM = 22,    /* room of fewer than 16 bytes for each pad of the text */
    CHEREMYSL_NO_WORK_ROOM = 24    /* a work list of fewer than 2(n + 1)(p + 2)(p + 2) numbers */
};

/* ---- the calls --------------------------------------------------------------------------- */

/*
 * First: the earliest best layout.
 *
 *      job, job_bytes   the job; only read
 *      length_weight    0 to 1,000, times the sum of the lengths
 *      bend_weight      0 to 1,000, times the sum of the bends
 *      layout, entries  a lent list of at least n entries, to be filled; what it holds on entry
 *                       makes no difference
 *
 * Answers the layout's total; entries 0 to n - 1 hold the layout and those from n on are
 * unchanged. Or refuses with 1 to 5, 12, 6, 7 or 15, checked in this order, and writes nothing.
 * Never answers the end.
 */
int64_t cheremysl_first(const uint8_t *job, size_t job_bytes, uint32_t length_weight,
                        uint32_t bend_weight, uint16_t *layout, size_t entries)
    CHEREMYSL_CALL CHEREMYSL_READS(1, 2) CHEREMYSL_WRITES(5, 6);

/*
 * Next: the earliest best layout after the given one.
 *
 *      job, job_bytes   the job; only read
 *      length_weight    as for First: best means best for these weights
 *      bend_weight
 *      layout, entries  a lent list of at least n entries, whose first n hold a best layout: from
 *                       First, from Next, or from anywhere; it is checked, not trusted
 *
 * Answers the total of the layout found (all best layouts have the same); entries 0 to n - 1
 * hold it and those from n on are unchanged. Or answers the end, exactly if no best layout
 * comes after the given one, and writes nothing: asked again, it answers the end again. Or
 * refuses with 1 to 5, 12 or 6 to 10, checked in this order, and writes nothing.
 */
int64_t cheremysl_next(const uint8_t *job, size_t job_bytes, uint32_t length_weight,
                       uint32_t bend_weight, uint16_t *layout, size_t entries)
    CHEREMYSL_CALL CHEREMYSL_READS(1, 2) CHEREMYSL_CHANGES(5, 6);

/*
 * Page: the best layouts after the given one, as many as a list has room for.
 *
 *      job, job_bytes      the job; only read
 *      length_weight       as for Next
 *      bend_weight
 *      layout, entries     a list of at least n entries, whose first n hold a best layout, from
 *                          anywhere: checked, not trusted; only read
 *      page, page_entries  a lent list with room for page_entries / n layouts, to be filled; what
 *                          it holds on entry makes no difference
 *
 * Answers how many layouts it wrote: as many as fit, or fewer where the end comes. They are those
 * of that many calls of Next, one after the other, n entries each: number k, counted from 0,
 * begins at page[k * n]. All have the total of the given one. The entries after them are
 * unchanged, a rest too small for one more layout included.
 *
 * Never answers the end, -1. Fewer layouts than fit, page_entries / n, say it: no best layout comes
 * after the last one written, or after the given one if there is none. A page that comes back full
 * may have been the last one too; the page after it then gets 0.
 *
 * Room for none is allowed, NULL with 0 too: the answer is 0, after the same checks, and tells
 * nothing about the end.
 *
 * Or refuses with 1 to 5, 12 or 6 to 10, checked in this order, where Next would and with the same
 * records, and writes nothing. 3 speaks of the layout, never of the page.
 *
 * The page must overlap neither the job nor the layout. From a full page to the next:
 *
 *      memcpy(layout, page + (written - 1) * n, n * sizeof *layout);
 *      written = cheremysl_page(job, job_bytes, 1, 0, layout, n, page, page_entries);
 */
int64_t cheremysl_page(const uint8_t *job, size_t job_bytes, uint32_t length_weight,
                       uint32_t bend_weight, const uint16_t *layout, size_t entries,
                       uint16_t *page, size_t page_entries)
    CHEREMYSL_CALL CHEREMYSL_READS(1, 2) CHEREMYSL_READS(5, 6) CHEREMYSL_WRITES(7, 8);

/*
 * Count: how many best layouts there are.
 *
 *      job, job_bytes   the job; only read
 *      length_weight    as for First: best means best for these weights
 *      bend_weight
 *      buffer, numbers  a lent list of at least CHEREMYSL_BUFFER(n) numbers; what it holds on entry
 *                       makes no difference; it must not overlap the job
 *
 * Answers how many layouts First and then Next until the end give: 1 at least, and at most
 * CHEREMYSL_MAX_COUNT. Or refuses with 1, 2, 4, 5, 12, 6, 7, 15, 18 or 16, checked in this order.
 * What the buffer holds is left open after a count and refusal 16; the other refusals leave it as
 * it was. Never answers the end.
 */
int64_t cheremysl_count(const uint8_t *job, size_t job_bytes, uint32_t length_weight,
                        uint32_t bend_weight, uint64_t *buffer, size_t numbers)
    CHEREMYSL_CALL CHEREMYSL_READS(1, 2) CHEREMYSL_WRITES(5, 6);

/*
 * Place: the best layout at a place, without those before it.
 *
 *      job, job_bytes   the job; only read
 *      length_weight    as for Count
 *      bend_weight
 *      place            counted from 0, in the order of First and Next; below Count's number
 *      layout, entries  a lent list of at least n entries, to be filled; what it holds on entry
 *                       makes no difference
 *      buffer, numbers  as for Count; it may be the same one, and need not be; it must overlap no
 *                       other list
 *
 * Answers the layout's total, as First does; entries 0 to n - 1 hold the layout, the one that First
 * and then so many calls of Next would leave there, and those from n on are unchanged. Or refuses
 * with 1 to 5, 12, 6, 7, 15, 18, 16 or 17, checked in this order, and leaves the layout as it was.
 * What the buffer holds is left open after a total and refusals 16 and 17; the other refusals leave
 * it as it was. Never answers the end.
 *
 * A page of layouts from place k on is Place and then Page:
 *
 *      total = cheremysl_place(job, job_bytes, 1, 0, k, layout, n, buffer, numbers);
 *      if (total >= 0)
 *          written = cheremysl_page(job, job_bytes, 1, 0, layout, n, page, page_entries);
 */
int64_t cheremysl_place(const uint8_t *job, size_t job_bytes, uint32_t length_weight,
                        uint32_t bend_weight, uint64_t place, uint16_t *layout, size_t entries,
                        uint64_t *buffer, size_t numbers)
    CHEREMYSL_CALL CHEREMYSL_READS(1, 2) CHEREMYSL_WRITES(6, 7) CHEREMYSL_WRITES(8, 9);

/*
 * Measure: the total of a layout without a touching pair, best or not.
 *
 *      job, job_bytes   the job; only read
 *      length_weight    0 to 1,000
 *      bend_weight      0 to 1,000
 *      layout, entries  a list of at least n entries, whose first n are the layout; only read
 *
 * Answers the total, or refuses with 1 to 5, 12 or 6 to 9, checked in this order. Writes
 * nothing. Refusal 9 names the first pair of records that touch.
 */
int64_t cheremysl_measure(const uint8_t *job, size_t job_bytes, uint32_t length_weight,
                          uint32_t bend_weight, const uint16_t *layout, size_t entries)
    CHEREMYSL_CALL CHEREMYSL_READS(1, 2) CHEREMYSL_READS(5, 6);

/*
 * Draw: the leader of one pad to one port, for a canvas where one unit is four job units and y
 * grows downward. Pad and port may be any of the job's: no layout is needed.
 *
 *      job, job_bytes   the job; only read
 *      record           the pad's record number, 0 to n - 1
 *      port             the port's number, 0 to n - 1
 *      points, floats   a lent list of at least six floats, to be filled; what it holds on entry
 *                       makes no difference
 *
 * Answers the number of points: 2 for a straight leader (pad, port), exactly if it has no bend,
 * or 3 for a bent one (pad, bend, port). Their coordinates, x before y, stand in the first four
 * or six floats; the floats after those are unchanged, the fifth and the sixth of a straight
 * leader too. Four times each number is exactly x, or exactly -y, of its point; a zero is
 * positive zero. Or refuses with 1, 3, 4, 5, 12, 6, 7 or 11, checked in this order, and writes
 * nothing.
 */
int64_t cheremysl_draw(const uint8_t *job, size_t job_bytes, uint32_t record, uint32_t port,
                       float *points, size_t floats)
    CHEREMYSL_CALL CHEREMYSL_READS(1, 2) CHEREMYSL_WRITES(5, 6);

/*
 * Svg: the leaders of a layout without a touching pair, best or not, as text for a web page: a
 * fragment of SVG, to stand inside an svg element.
 *
 *      job, job_bytes    the job; only read
 *      layout, entries   a list of at least n entries, whose first n are the layout; only read
 *      text, text_bytes  lent bytes, to be filled; what they hold on entry makes no difference
 *
 * The text has a line for each record, in the order of the records, each with a newline at its end:
 * the leader's points, x before y, those of Draw in Draw's order. With the layout {1, 2, 0} of the
 * board at the top of this file:
 *
 *      <polyline points="2.5,-2.5 0,-2.5"/>
 *      <polyline points="5,-5 0,-5"/>
 *      <polyline points="7.5,-7.5 7.5,0 0,0"/>
 *
 * Each number is Draw's, exactly: digits, without a leading zero but the one of 0 and 0.25, and
 * after a point 25, 5 or 75 if it is not whole; a minus before it if it is negative. So what reads
 * the text, strtof or a browser, has the floats of Draw to the bit, a zero positive.
 *
 * Answers the number of bytes written; those after them are unchanged, and no zero byte ends the
 * text. No text of n records has more than CHEREMYSL_SVG_BYTES(n), 76 * n bytes, which some have.
 * Or refuses with 1, 3 to 5, 12, 6 to 9 or 19, checked in this order, and writes nothing: 19
 * exactly if the text does not fit text_bytes. NULL with 0 is allowed. Refusal 9 names the first
 * pair of records that touch. The text must overlap neither the job nor the layout.
 *
 *      char text[CHEREMYSL_MAX_SVG_BYTES];
 *      int64_t bytes = cheremysl_svg(job, job_bytes, layout, n, text, sizeof text);
 *      if (bytes >= 0) {
 *          puts("<svg viewBox=\"-1 -10 10 12\" fill=\"none\" stroke=\"black\">");
 *          fwrite(text, 1, (size_t)bytes, stdout);
 *          puts("</svg>");
 *      }
 */
int64_t cheremysl_svg(const uint8_t *job, size_t job_bytes, const uint16_t *layout, size_t entries,
                      char *text, size_t text_bytes)
    CHEREMYSL_CALL CHEREMYSL_READS(1, 2) CHEREMYSL_READS(3, 4) CHEREMYSL_WRITES(5, 6);

/*
 * ReadCsv: the pads of a list that a board tool saves as comma-separated values, by RFC 4180, as
 * records for the slots calls.
 *
 *      text, text_bytes  the list, at most CHEREMYSL_MAX_CSV_BYTES, 16,384 bytes; only read
 *      pads, pad_bytes   lent bytes, to be filled; what they hold on entry makes no difference. 16
 *                        for each pad will do, CHEREMYSL_MAX_JOB_BYTES, 1,024, for every list
 *
 * The first line of the list is name,x,y and each line after it is a pad:
 *
 *      name,x,y
 *      801,120,330
 *      "802","190","-336"
 *
 * A line ends with CR LF, the bytes 13 and 10, and the last may do without. Every CR LF ends a
 * line, one inside quotes too; a CR or an LF alone is a byte like any other, so a list whose lines
 * end with LF alone is one line, and is refused: 21, line 1. A line is three fields with a comma
 * between two. A field, in the first line too, may be quoted: then it begins and ends with a quote,
 * every quote between these is doubled, and a comma between them is part of it. A field that is not
 * quoted has no quote. Nothing is skipped: a blank belongs to its field, an empty line is a line,
 * and a byte order mark is part of line 1.
 *
 * A number is digits, without a leading zero but for 0 itself; in y a minus may stand before it,
 * but not before 0. There is no plus sign. So a pad is written in one way, but for quotes. A number
 * so written may have any length: outside its field's range, as THE JOB has it, it is refused with
 * 4 and not with 21.
 *
 * Answers the number of pads, n: the first 16 * n bytes hold their records, in the order of the
 * lines, with half-side 0 and last field 0; those after them are unchanged. Or refuses with 20, 21,
 * 1, 22, 4, 6 or 7, checked in this order, and writes nothing. 21 has the number of the first bad
 * line, counted from 1, where the other calls have a record: an empty text has the bad line 1, and
 * with the first line alone there are no pads, which is 1. The record i of 4, 6 and 7 is the pad on
 * line i + 2. NULL with 0 is allowed. Text and pads must not overlap.
 *
 *      uint8_t pads[CHEREMYSL_MAX_JOB_BYTES];
 *      int64_t n = cheremysl_read_csv(text, text_bytes, pads, sizeof pads);
 *      if (n > 0)
 *          answer = cheremysl_slots_first(pads, 16 * (size_t)n, ports, port_bytes, 1, 0, layout,
 *                                         (size_t)n, work, CHEREMYSL_MAX_SLOTS_WORK);
 */
int64_t cheremysl_read_csv(const uint8_t *text, size_t text_bytes, uint8_t *pads, size_t pad_bytes)
    CHEREMYSL_CALL CHEREMYSL_READS(1, 2) CHEREMYSL_WRITES(3, 4);

/*
 * TableFirst: the earliest best layout by a table. As First, with a table in place of the weights.
 *
 *      job, job_bytes   the job; only read
 *      table, figures   n * n figures, that of pad i with port q at table[i * n + q]; only read
 *      layout, entries  a lent list of at least n entries, to be filled; what it holds on entry
 *                       makes no difference; it must overlap neither the job nor the table
 *
 * Answers the layout's total, the sum of its figures; entries 0 to n - 1 hold the layout and those
 * from n on are unchanged. Or refuses with 1, 13, 3 to 5, 12, 6, 7 or 15, checked in this order,
 * and writes nothing. Never answers the end.
 */
int64_t cheremysl_table_first(const uint8_t *job, size_t job_bytes, const uint32_t *table,
                              size_t figures, uint16_t *layout, size_t entries)
    CHEREMYSL_CALL CHEREMYSL_READS(1, 2) CHEREMYSL_READS(3, 4) CHEREMYSL_WRITES(5, 6);

/*
 * TableNext: the earliest best layout by a table after the given one.
 *
 *      job, job_bytes   the job; only read
 *      table, figures   as for TableFirst: best means best for this table
 *      layout, entries  a lent list of at least n entries, whose first n hold a best layout, from
 *                       anywhere: it is checked, not trusted
 *
 * Answers the total of the layout found (all best layouts have the same); entries 0 to n - 1
 * hold it and those from n on are unchanged. Or answers the end, exactly if no best layout
 * comes after the given one, and writes nothing. Or refuses with 1, 13, 3 to 5, 12 or 6 to 10,
 * checked in this order, and writes nothing.
 */
int64_t cheremysl_table_next(const uint8_t *job, size_t job_bytes, const uint32_t *table,
                             size_t figures, uint16_t *layout, size_t entries)
    CHEREMYSL_CALL CHEREMYSL_READS(1, 2) CHEREMYSL_READS(3, 4) CHEREMYSL_CHANGES(5, 6);

/*
 * TableMeasure: the total by a table of a layout without a touching pair, best or not.
 *
 *      job, job_bytes   the job; only read
 *      table, figures   as for TableFirst
 *      layout, entries  a list of at least n entries, whose first n are the layout; only read
 *
 * Answers the total, or refuses with 1, 13, 3 to 5, 12 or 6 to 9, checked in this order. Writes
 * nothing. Refusal 9 names the first pair of records that touch.
 */
int64_t cheremysl_table_measure(const uint8_t *job, size_t job_bytes, const uint32_t *table,
                                size_t figures, const uint16_t *layout, size_t entries)
    CHEREMYSL_CALL CHEREMYSL_READS(1, 2) CHEREMYSL_READS(3, 4) CHEREMYSL_READS(5, 6);

/*
 * SlotsFirst: the earliest best layout on a strip of slots. As First, with a job of the second form
 * and a work list.
 *
 *      pads, pad_bytes    the pads' records, n of them, last field 0; only read
 *      ports, port_bytes  the port heights, p of them, n or more; only read
 *      length_weight      0 to 1,000, times the sum of the lengths
 *      bend_weight        0 to 1,000, times the sum of the bends
 *      layout, entries    a lent list of at least n entries, to be filled; what it holds on entry
 *                         makes no difference
 *      work, numbers      a lent list of at least CHEREMYSL_SLOTS_WORK(n, p) numbers; what it holds
 *                         on entry makes no difference; it must overlap no other list
 *
 * Answers the layout's total; entries 0 to n - 1 hold the layout, port numbers 0 to p - 1, and
 * those from n on are unchanged. Or refuses with 1 to 3, 14, 24, 4, 5, 12, 6, 7 or 15, checked in
 * this order, and leaves the layout as it was. What the work list holds is left open after a total
 * and refusal 15; the other refusals leave it as it was. Never answers the end.
 */
int64_t cheremysl_slots_first(const uint8_t *pads, size_t pad_bytes, const uint8_t *ports,
                              size_t port_bytes, uint32_t length_weight, uint32_t bend_weight,
                              uint16_t *layout, size_t entries, uint64_t *work, size_t numbers)
    CHEREMYSL_CALL CHEREMYSL_READS(1, 2) CHEREMYSL_READS(3, 4) CHEREMYSL_WRITES(7, 8)
    CHEREMYSL_WRITES(9, 10);

/*
 * SlotsNext: the earliest best layout on a strip of slots after the given one.
 *
 *      pads, pad_bytes    as for SlotsFirst
 *      ports, port_bytes
 *      length_weight      as for SlotsFirst: best means best for these weights
 *      bend_weight
 *      layout, entries    a lent list of at least n entries, whose first n hold a best layout, from
 *                         anywhere: it is checked, not trusted
 *      work, numbers      as for SlotsFirst; it may be the same list, and need not be
 *
 * Answers the total of the layout found (all best layouts have the same); entries 0 to n - 1
 * hold it and those from n on are unchanged. Or answers the end, exactly if no best layout
 * comes after the given one, and leaves the layout as it was. Or refuses with 1 to 3, 14, 24, 4, 5,
 * 12 or 6 to 10, checked in this order, and leaves the layout as it was. What the work list holds
 * is left open after a total, the end and refusal 10; the other refusals leave it as it was.
 */
int64_t cheremysl_slots_next(const uint8_t *pads, size_t pad_bytes, const uint8_t *ports,
                             size_t port_bytes, uint32_t length_weight, uint32_t bend_weight,
                             uint16_t *layout, size_t entries, uint64_t *work, size_t numbers)
    CHEREMYSL_CALL CHEREMYSL_READS(1, 2) CHEREMYSL_READS(3, 4) CHEREMYSL_CHANGES(7, 8)
    CHEREMYSL_WRITES(9, 10);

/*
 * SlotsMeasure: the total on a strip of slots of a layout without a touching pair, best or not.
 *
 *      pads, pad_bytes    as for SlotsFirst
 *      ports, port_bytes
 *      length_weight      0 to 1,000
 *      bend_weight        0 to 1,000
 *      layout, entries    a list of at least n entries, whose first n are the layout; only read
 *
 * Answers the total, or refuses with 1 to 3, 14, 4, 5, 12 or 6 to 9, checked in this order. Writes
 * nothing, and needs no work list. Refusal 9 names the first pair of records that touch.
 */
int64_t cheremysl_slots_measure(const uint8_t *pads, size_t pad_bytes, const uint8_t *ports,
                                size_t port_bytes, uint32_t length_weight, uint32_t bend_weight,
                                const uint16_t *layout, size_t entries)
    CHEREMYSL_CALL CHEREMYSL_READS(1, 2) CHEREMYSL_READS(3, 4) CHEREMYSL_READS(7, 8);

/* ---- taking an answer apart -------------------------------------------------------------- */

/* 1 if the answer is a refusal, else 0. */
static inline int cheremysl_is_refusal(int64_t answer) { return answer < CHEREMYSL_END; }

/* 1 if the answer is the end, else 0. */
static inline int cheremysl_is_end(int64_t answer) { return answer == CHEREMYSL_END; }

/* The refusal's number, 1 to 22 or 24; 0 if the answer is not a refusal. */
static inline int cheremysl_refusal_number(int64_t answer) {
    return cheremysl_is_refusal(answer) ? CHEREMYSL_CAST(int, answer / -65536 % 65536) : 0;
}

/* The refusal's record number, or the port's or the line's; 0 if the answer is not a refusal. */
static inline int cheremysl_refusal_record(int64_t answer) {
    return cheremysl_is_refusal(answer) ? CHEREMYSL_CAST(int, -(answer % 65536)) : 0;
}

/* The earlier record of refusal 9; 0 for every other answer. It may be record 0. */
static inline int cheremysl_refusal_earlier(int64_t answer) {
    return cheremysl_is_refusal(answer) ? CHEREMYSL_CAST(int, answer / -4294967296) : 0;
}

/*
 * The refusal in one English sentence, for whoever drew the board: "this record" in it, or "this
 * port" or "this line", is the one whose number cheremysl_refusal_record gives. "" if the answer is
 * not a refusal. A refusal whose number is not in this header, from a later library, gets a
 * sentence that says so. The text is constant: it is there as long as the program runs.
 */
static inline const char *cheremysl_refusal_text(int64_t answer) {
    int number = cheremysl_refusal_number(answer);
    int known = number <= CHEREMYSL_NO_WORK_ROOM ? number : 0; /* within the enum's range */
    switch (CHEREMYSL_CAST(enum cheremysl_refusal, known)) {
    case CHEREMYSL_BAD_SIZE:
        return "The pads are not 1 to 64 records of 16 bytes, or the list of ports, if there is "
               "one, not 1 to 128 heights of 4 bytes.";
    case CHEREMYSL_BAD_WEIGHT:
        return "A weight is above 1,000.";
    case CHEREMYSL_NO_ROOM:
        return "The list of the layout, or of the points, is too short.";
    case CHEREMYSL_BAD_FIELD:
        return "A number of this record, or the height of this port, is outside its range.";
    case CHEREMYSL_PORT_NOT_ABOVE:
        return "This port is not above the port before it.";
    case CHEREMYSL_NAME_TWICE:
        return "The name of this record stands in an earlier record too.";
    case CHEREMYSL_X_TWICE:
        return "The x of this record stands in an earlier record too.";
    case CHEREMYSL_BAD_ENTRY:
        return "The port given to this record is not there, or an earlier record has it.";
    case CHEREMYSL_TOUCHING:
        return "This record and an earlier one touch: the leader of one meets the leader or the "
               "square of the other.";
    case CHEREMYSL_NOT_BEST:
        return "No two records touch, but another sheet has a smaller total.";
    case CHEREMYSL_BAD_NUMBER:
        return "There is no pad, or no port, of the number given.";
    case CHEREMYSL_PORT_TOO_CLOSE:
        return "This port is less than 8 above the port before it.";
    case CHEREMYSL_BAD_TABLE:
        return "The table does not have just one figure for each pad with each port.";
    case CHEREMYSL_TOO_FEW_PORTS:
        return "There are fewer ports than pads.";
    case CHEREMYSL_NO_LAYOUT:
        return "On every sheet of this board a leader meets another leader or the square of "
               "another pad.";
    case CHEREMYSL_TOO_MANY:
        return "This board has more than 1,000,000,000,000,000,000 best sheets.";
    case CHEREMYSL_PAST_COUNT:
        return "There is no best sheet at this place: they are fewer.";
    case CHEREMYSL_NO_BUFFER_ROOM:
        return "The buffer is too short for so many pads.";
    case CHEREMYSL_TEXT_TOO_LONG:
        return "The text of this sheet is longer than the room lent for it.";
    case CHEREMYSL_CSV_TOO_LONG:
        return "The text with the pads is longer than 16,384 bytes.";
    case CHEREMYSL_BAD_LINE:
        return "This line is not name,x,y, if it is the first, or else a name, an x and a y with "
               "commas between them; lines end with CR LF.";
    case CHEREMYSL_NO_PAD_ROOM:
        return "The room for the pads is less than 16 bytes for each.";
    case CHEREMYSL_NO_WORK_ROOM:
        return "The work list is too short for so many pads and ports.";
    }
    return cheremysl_is_refusal(answer)
               ? "The library refuses for a reason that this program does not know."
               : "";
}

#ifdef __cplusplus
}
#endif

#undef CHEREMYSL_HAS
#undef CHEREMYSL_READS
#undef CHEREMYSL_WRITES
#undef CHEREMYSL_CHANGES
#undef CHEREMYSL_LOOK_AT_ANSWER
#undef CHEREMYSL_NOTHROW
#undef CHEREMYSL_CAST
#undef CHEREMYSL_CALL

#endif
