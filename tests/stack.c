/*
 * Measures by paint how much stack each call takes, on boards of points and of squares, and holds
 * each to its stated figure. The stack has 64 KiB, with unreadable memory below it.
 *
 * A figure counts from the caller's stack pointer before the call: the return address, and on down
 * to the lowest byte written. The library is entered from no C function, so the C compiler has no
 * part in it. Paint misses only what the deepest frame reserves below that byte and never writes:
 * a few words, since the lists are set to zero and lie in frames above it.
 */
#define _GNU_SOURCE
#include <signal.h>
#include <stdio.h>
#include <stdlib.h>
#include <string.h>
#include <sys/mman.h>
#include <ucontext.h>
#include <unistd.h>

#include "boards.h"
#include "cheremysl.h"
#include "questions.h"
#include "trial.h"

#define STACK CHEREMYSL_STACK_BYTES
#define BELOW_IT 1048576 /* so much that no frame steps over it */
#define PADS CHEREMYSL_MAX_RECORDS
#define DAMAGED 40 /* questions a board */

typedef void (*function)(void);

/* So many bytes more than stated fail: less than a list of one byte a pad. */
#define SLACK 48

/* No slots call may take more, whatever is stated; nor Count, which recurses, and Place. */
#define SLOTS_STACK 16384
#define BUFFER_STACK 61440

/* The calls, and how many bytes of stack each takes, as the header and the README say. */
static const struct {
    function enter;
    size_t stated;
} calls[CALLS] = {
    [READ_CSV] = {(function)cheremysl_read_csv, 1416},
    [MEASURE] = {(function)cheremysl_measure, 584},
    [DRAW] = {(function)cheremysl_draw, 136},
    [SVG] = {(function)cheremysl_svg, 5496},
    [TABLE_MEASURE] = {(function)cheremysl_table_measure, 568},
    [SLOTS_MEASURE] = {(function)cheremysl_slots_measure, 616},
#ifndef NO_SEARCH
    [FIRST] = {(function)cheremysl_first, 41944},
    [NEXT] = {(function)cheremysl_next, 42120},
    [PAGE] = {(function)cheremysl_page, 42136},
    [TABLE_FIRST] = {(function)cheremysl_table_first, 25496},
    [TABLE_NEXT] = {(function)cheremysl_table_next, 25672},
    [SLOTS_FIRST] = {(function)cheremysl_slots_first, 11688},
    [SLOTS_NEXT] = {(function)cheremysl_slots_next, 11832},
    [COUNT] = {(function)cheremysl_count, 59032},
    [PLACE] = {(function)cheremysl_place, 59032},
#endif
};

static unsigned char *stack; /* STACK bytes */
static ucontext_t home, away;
static struct question question;
static int64_t answer;

static size_t deepest[CALLS];
static long came[CALLS][OUTCOMES]; /* how often each outcome came */

static void overflowed(int number) {
    printf("FAILED: signal %d in %s on a stack of %d bytes\n", number, call_names[question.call],
           STACK);
    printf("0 passed, 1 failed\n");
    fflush(stdout);
    _exit(1);
}

static void prepare(void) {
    static unsigned char handler_stack[65536];
    stack_t other = {.ss_sp = handler_stack, .ss_size = sizeof handler_stack};
    struct sigaction action;
    unsigned char *memory = mmap(NULL, BELOW_IT + STACK, PROT_READ | PROT_WRITE,
                                 MAP_PRIVATE | MAP_ANONYMOUS, -1, 0);
    if (memory == MAP_FAILED || mprotect(memory, BELOW_IT, PROT_NONE) != 0) {
        perror("mmap");
        exit(2);
    }
    stack = memory + BELOW_IT;
    memset(&action, 0, sizeof action);
    action.sa_handler = overflowed;
    action.sa_flags = SA_ONSTACK;
    sigaltstack(&other, NULL);
    sigaction(SIGSEGV, &action, NULL);
    sigaction(SIGBUS, &action, NULL);
}

/*
 * Runs a function as if called from the top of the small stack, with what the question gives, and
 * returns where its return address stood. Every call has its first six arguments in the same
 * registers; the others, which few calls read, lie above the return address. glibc hands on 64 bits
 * of each.
 */
static const unsigned char *run(function enter) {
    uint64_t a[ARGUMENTS] = {0};
    put_arguments(&question, a);
    getcontext(&away);
    away.uc_stack.ss_sp = stack;
    away.uc_stack.ss_size = STACK;
    away.uc_link = &home;
    makecontext(&away, enter, ARGUMENTS, a[0], a[1], a[2], a[3], a[4], a[5], a[6], a[7], a[8],
                a[9]);
    swapcontext(&home, &away);
    return (unsigned char *)away.uc_mcontext.gregs[REG_RSP];
}

/* Asks on the small stack, and returns how many of its bytes the call used. */
static size_t depth(int paint) {
    const unsigned char *lowest = stack;
    memset(stack, paint, STACK);
    const unsigned char *return_address = run(calls[question.call].enter);
    while (lowest < return_address && *lowest == paint) lowest++;
    return (size_t)(return_address + sizeof(function) - lowest);
}

static void call_from_c(void) { answer = call_library(&question); }

/*
 * Asks on the small stack, twice with another paint: a byte of paint may be written by chance. An
 * answer does not get home from there, so C asks as well; refusals are the plain account's.
 */
static void ask_on_small_stack(void) {
    static struct question given, entered;
    enum call call = question.call;
    memcpy(&given, &question, sizeof given);
    for (int paint = 90; paint < 92; paint++) {
        memcpy(&question, &given, sizeof question);
        size_t used = depth(paint);
        if (used > deepest[call]) deepest[call] = used;
    }
    memcpy(&entered, &question, sizeof entered);
    memcpy(&question, &given, sizeof question);
    run(call_from_c);
    check(memcmp(&question, &entered, sizeof question) == 0, &given, "two replies");
    int64_t plain = plain_reply(&given).answer;
    check(answer == plain || plain == PLAIN_UNKNOWN, &given, "another answer");
    came[call][outcome_of(answer)]++;
}

/* A search on slots takes long: the most of them on one board of points, and few on the others. */
static size_t pads_of(enum call call, enum board board, enum squares squares) {
    return !takes_work(call) || (board == CLOSE && squares == POINTS) ? PADS : 16;
}

static void make_job(enum board board, enum squares squares) {
    static uint32_t table[TABLE_ROOM];
    size_t n = pads_of(question.call, board, squares);
    question.job_bytes = 16 * n;
    if (takes_slots(question.call)) {
        question.port_bytes = n < PADS ? 4 * (n + 4) : CHEREMYSL_MAX_PORT_BYTES;
        make_slots(question.job, n, question.ports, ports_of(&question), board);
    } else {
        make_board(question.job, n, board);
    }
    lend_work(&question, 0);
    struct plan plan = plan_of(&question);
    give_squares(question.job, &plan, squares);
    if (!takes_slots(question.call)) lend_table(&question, table, below(FIGURES));
}

/* 64 pads and a layout whose leaders do not touch; Draw gets a leader that is straight. */
static void make_question(enum call call, enum board board, enum squares squares) {
    memset(&question, 0, sizeof question);
    question.call = call;
    question.count = call == DRAW ? CHEREMYSL_DRAW_FLOATS : PADS;
    make_job(board, squares);
    any_weights(&question.a, &question.b);
    struct plan plan = plan_of(&question);
    any_untouching(&plan, question.list.layout);
    lend_page(&question, PAGE_ROOM);
    lend_text(&question, CHEREMYSL_MAX_SVG_BYTES);
    if (call != DRAW) return;
    question.a = PADS - 1;
    question.b = 0;
    put_y(question.job, PADS - 1, get_port(question.job, 0));
}

/* Of the best layouts; 0 if they are too many to have places. */
static uint64_t last_place(void) {
    static struct question counted;
    counted = question;
    counted.call = COUNT;
    int64_t count = plain_reply(&counted).answer;
    return count > 0 ? (uint64_t)count - 1 : 0;
}

/* A best layout for the calls that take one, any place of those; Draw's leader gets a bend. */
static void make_accepted(void) {
    enum call call = question.call;
    if (takes_layout(call) && FIRST < CALLS) {
        turn_to(&question, FIRST);
        call_library(&question);
        question.call = call;
    }
    if (call == DRAW) put_y(question.job, PADS - 1, get_port(question.job, 1));
    if (call == PLACE) question.place = last_place() - last_place() / 3;
}

/* Are there too many best layouts to have places? */
static bool plenty(void) {
    return takes_buffer(question.call) && cheremysl_refusal_number(answer) == 16;
}

/*
 * Accepted or refused with 10, among squares perhaps with 9; accepted, with Next some steps on or
 * up to the end; damaged.
 */
static void on_board(enum call call, enum board board, enum squares squares) {
    static struct question sound;
    make_question(call, board, squares);
    ask_on_small_stack();
    bool touches = squares != POINTS && cheremysl_refusal_number(answer) == 9;
    check(answer >= -1 || answer == refused(10, 0) || touches || plenty(), &question,
          "another refusal");
    make_accepted();
    for (int steps = can_end(call) ? 4 : 1; steps > 0; steps--) {
        ask_on_small_stack();
        check(answer >= -1 || plenty(), &question, "refused");
    }
    sound = question;
    int times = takes_work(call) && records_of(&sound) == PADS ? DAMAGED / 10 : DAMAGED;
    for (int k = 0; k < times; k++) {
        question = sound;
        lend_page(&question, any_room(PADS));
        damage(&question);
        ask_on_small_stack();
    }
}

/* Squares that may leave no layout. */
static void among_squares(enum call call, enum board board) {
    make_question(call, board, GRAZED);
    ask_on_small_stack();
}

/* Texts of up to 64 pads, sound and then damaged more and more. */
static void on_texts(void) {
    for (int k = 0; k < DAMAGED * DAMAGED; k++) {
        sound_question(&question, READ_CSV);
        for (int times = 0; times < 3; times++) {
            ask_on_small_stack();
            damage(&question);
        }
    }
}

static void hold_to_figure(enum call call) {
    size_t used = deepest[call], stated = calls[call].stated;
    char what[80];
    printf("%-12s %zu bytes of stack, %zu stated\n", call_names[call], used, stated);
    snprintf(what, sizeof what, "%s takes %zu bytes of stack, not %zu", call_names[call], used,
             stated);
    check(used < stated + SLACK, NULL, what);
    check(!takes_slots(call) || used <= SLOTS_STACK, NULL, "more than a slots call may take");
    check(!takes_buffer(call) || used <= BUFFER_STACK, NULL, "more than Count and Place may take");
}

int main(void) {
    prepare();
    for (enum call call = 0; call < CALLS; call++) {
        if (call == READ_CSV) on_texts();
        for (enum board board = 0; board < BOARDS && call != READ_CSV; board++) {
            on_board(call, board, POINTS);
            if (FIRST < CALLS) on_board(call, board, FITTED);
            among_squares(call, board);
        }
        report_refusals(call_names[call], call, came[call]);
        check(!can_end(call) || came[call][ENDS] > 0, NULL, "the end never came");
    }
    for (enum call call = 0; call < CALLS; call++) hold_to_figure(call);
    return done();
}
