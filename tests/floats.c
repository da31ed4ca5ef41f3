/*
 * floats [COUNT [SEED]]: no call changes the floating-point state, and none depends on it.
 *
 * A caller may have left anything in the vector registers, and may have asked for traps. So each
 * question is asked with every register full of numbers that an operation on them would tell of:
 * in each rounding mode, denormals taken for zero or not, traps on and off, flags clear and set.
 * The call must not trap, must leave control and status of both units as they were (MXCSR; of the
 * x87 the control, status and tag words), and must reply as it replies to plain C.
 *
 * The library is entered from no C function: between filling the registers and the call nothing is
 * left to the C compiler.
 */
#define _GNU_SOURCE
#include <setjmp.h>
#include <signal.h>
#include <stdio.h>
#include <stdlib.h>
#include <string.h>
#include <ucontext.h>

#include "boards.h"
#include "cheremysl.h"
#include "questions.h"
#include "trial.h"

typedef void (*function)(void);

#define REGISTERS 16
#define WORDS 4 /* of 64 bits in a register; without AVX two */

/* ---- the way in, in assembly: these are its names ---- */

function entrance;                  /* the call to make .. */
uint64_t arguments[ARGUMENTS];      /* .. and what it is given, the last four on the stack */
uint64_t filled[REGISTERS][WORDS];  /* what the vector registers hold */
uint64_t seen[REGISTERS][WORDS];    /* what see_registers finds there */
uint8_t wide;                       /* all their words are there */
uint32_t given_mxcsr, left_mxcsr;   /* before the call and after */
uint32_t given_x87[7], left_x87[7]; /* the same: control, status, tags, and where it was */
const uint32_t calm_mxcsr = 0x1F80; /* as a program starts: no traps, no flags, to nearest */

#define X87_WORDS (3 * sizeof(uint32_t)) /* control, status, tags */

int64_t enter(void);      /* makes the call, with all that as given */
void calm(void);          /* both units as a program starts */
void see_registers(void); /* and two entrances to try the way in by */
void multiply(void);

#define EACH_REGISTER ".irp k,0,1,2,3,4,5,6,7,8,9,10,11,12,13,14,15\n"
#define IF_WIDE "cmpb $0, wide(%rip)\n je 1f\n"

__asm__(".text\n"
        "enter:\n"
        "    subq $8, %rsp\n" /* the stack is aligned at the call */
        "    pushq arguments+72(%rip)\n"
        "    pushq arguments+64(%rip)\n"
        "    pushq arguments+56(%rip)\n"
        "    pushq arguments+48(%rip)\n"
        "    movq arguments+40(%rip), %r9\n"
        "    movq arguments+32(%rip), %r8\n"
        "    movq arguments+24(%rip), %rcx\n"
        "    movq arguments+16(%rip), %rdx\n"
        "    movq arguments+8(%rip), %rsi\n"
        "    movq arguments(%rip), %rdi\n"
        "    fnstenv given_x87(%rip)\n" /* which masks traps .. */
        "    fldenv given_x87(%rip)\n"  /* .. so back to what they were */
        "    " EACH_REGISTER
        "    movups filled+32*\\k(%rip), %xmm\\k\n"
        "    .endr\n"
        "    " IF_WIDE
        "    " EACH_REGISTER
        "    vmovups filled+32*\\k(%rip), %ymm\\k\n"
        "    .endr\n"
        "1:  ldmxcsr given_mxcsr(%rip)\n"
        "    call *entrance(%rip)\n"
        "    stmxcsr left_mxcsr(%rip)\n"
        "    fnstenv left_x87(%rip)\n"
        "    call calm\n"
        "    addq $40, %rsp\n"
        "    ret\n"
        "calm:\n"
        "    fninit\n"
        "    ldmxcsr calm_mxcsr(%rip)\n"
        "    " IF_WIDE
        "    vzeroupper\n"
        "1:  ret\n"
        "see_registers:\n"
        "    " EACH_REGISTER
        "    movups %xmm\\k, seen+32*\\k(%rip)\n"
        "    .endr\n"
        "    " IF_WIDE
        "    " EACH_REGISTER
        "    vmovups %ymm\\k, seen+32*\\k(%rip)\n"
        "    .endr\n"
        "1:  ret\n"
        "multiply:\n"
        "    mulps %xmm1, %xmm0\n"
        "    ret\n");

static sigjmp_buf home;
static int64_t answer;

/* The flag that trapped is in the MXCSR that the system kept. */
static void trapped(int number, siginfo_t *info, void *context) {
    (void)number;
    (void)info;
    left_mxcsr = ((ucontext_t *)context)->uc_mcontext.fpregs->mxcsr;
    siglongjmp(home, 1);
}

/* False if the call trapped. */
static bool came_home(void) {
    if (sigsetjmp(home, 0) != 0) {
        calm();
        return false;
    }
    answer = enter();
    return true;
}

static void prepare(void) {
    struct sigaction action;
    memset(&action, 0, sizeof action);
    action.sa_sigaction = trapped;
    action.sa_flags = SA_SIGINFO | SA_NODEFER; /* it does not return */
    sigaction(SIGFPE, &action, NULL);
    wide = __builtin_cpu_supports("avx") != 0; /* by the machine and by its system */
}

/* ---- what the registers are filled with ---- */

/* Two words that take turns: two floats each, or one double. */
static const struct {
    const char *name;
    uint64_t word[2];
} fillings[] = {
    {"infinities", {0x7F8000007F800000, 0xFF800000FF800000}},
    {"infinities and zeros", {0x7F80000000000000, 0x80000000FF800000}},
    {"signalling NaNs", {0x7F8000017F800001, 0xFFBFFFFFFFBFFFFF}},
    {"quiet NaNs", {0x7FC000007FC00000, 0xFFFFFFFFFFFFFFFF}},
    {"denormals", {0x0000000100000001, 0x807FFFFF807FFFFF}},
    {"smallest normals", {0x0080000000800000, 0x8080000180800001}},
    {"huge numbers", {0x7F7FFFFF7F7FFFFF, 0xFF7FFFFFFF7FFFFF}},
    {"double infinities", {0x7FF0000000000000, 0xFFF0000000000000}},
    {"double signalling NaNs", {0x7FF0000000000001, 0xFFF7FFFFFFFFFFFF}},
    {"double denormals", {0x0000000000000001, 0x800FFFFFFFFFFFFF}},
    {"double huge numbers", {0x7FEFFFFFFFFFFFFF, 0xFFEFFFFFFFFFFFFF}},
};

/* These, a mixture of them, and bits at random: thirteen, so that in turn each meets each mode. */
#define NAMED (sizeof fillings / sizeof *fillings)
enum { MIXTURE = NAMED, RANDOM_BITS, FILLINGS };

static const char *name_of(size_t filling) {
    return filling < NAMED ? fillings[filling].name : filling == MIXTURE ? "a mixture" : "any bits";
}

static uint64_t any_word(void) {
    return fillings[below(NAMED)].word[below(2)] >> 32 << 32 |
           fillings[below(NAMED)].word[below(2)] >> 32;
}

static uint64_t word_of(size_t filling, size_t place) {
    if (filling < NAMED) return fillings[filling].word[place % 2];
    if (filling == MIXTURE) return any_word();
    return (uint64_t)below(UINT32_MAX) << 32 | below(UINT32_MAX);
}

/* The turns begin with another word in the next register. */
static void fill(size_t filling) {
    for (size_t k = 0; k < REGISTERS * WORDS; k++)
        filled[k / WORDS][k % WORDS] = word_of(filling, k % WORDS + k / WORDS);
}

/* ---- modes: rounding, denormals, traps, flags ---- */

#define MODES 64
#define TURNS 16 /* of them for one question */

static bool traps(int mode) { return mode & 1; }
static bool flags(int mode) { return mode >> 1 & 1; }
static bool zero_operands(int mode) { return mode >> 2 & 1; }
static bool zero_results(int mode) { return mode >> 3 & 1; }
static uint32_t rounding(int mode) { return (uint32_t)mode >> 4; }

static uint32_t mxcsr_of(int mode) {
    return rounding(mode) << 13 | (zero_operands(mode) ? 0x40 : 0) |
           (zero_results(mode) ? 0x8000 : 0) | (traps(mode) ? 0 : 0x1F80) |
           (flags(mode) ? 0x3F : 0);
}

/* ---- trying the way in ---- */

static void registers_arrive(size_t filling) {
    size_t bytes = (wide ? WORDS : 2) * sizeof **filled;
    bool arrived = true;
    memset(seen, 0x5A, sizeof seen);
    fill(filling);
    entrance = see_registers;
    came_home();
    for (int k = 0; k < REGISTERS; k++) arrived &= memcmp(seen[k], filled[k], bytes) == 0;
    check(arrived, NULL, "the registers do not arrive");
}

/* An infinity times zero: without traps the flag must show. An emulator may have no traps. */
static void probe(void) {
    for (size_t filling = 0; filling < FILLINGS; filling++) registers_arrive(filling);
    memset(filled, 0, sizeof filled);
    filled[0][1] = 0x7F80000000000000;
    entrance = multiply;
    given_mxcsr = calm_mxcsr;
    check(came_home() && left_mxcsr == (calm_mxcsr | 1), NULL, "an invalid product shows no flag");
    given_mxcsr = 0;
    printf("%s, %s\n", wide ? "registers of 256 bits" : "registers of 128 bits",
           came_home() ? "no traps on this machine: flags alone tell" : "traps");
}

/* ---- asking ---- */

static const function entrances[CALLS] = {
    [READ_CSV] = (function)cheremysl_read_csv,
    [MEASURE] = (function)cheremysl_measure,
    [DRAW] = (function)cheremysl_draw,
    [SVG] = (function)cheremysl_svg,
    [TABLE_MEASURE] = (function)cheremysl_table_measure,
    [SLOTS_MEASURE] = (function)cheremysl_slots_measure,
#ifndef NO_SEARCH
    [FIRST] = (function)cheremysl_first,
    [NEXT] = (function)cheremysl_next,
    [PAGE] = (function)cheremysl_page,
    [TABLE_FIRST] = (function)cheremysl_table_first,
    [TABLE_NEXT] = (function)cheremysl_table_next,
    [SLOTS_FIRST] = (function)cheremysl_slots_first,
    [SLOTS_NEXT] = (function)cheremysl_slots_next,
    [COUNT] = (function)cheremysl_count,
    [PLACE] = (function)cheremysl_place,
#endif
};

static struct question question, given, plain; /* as asked; before it; after a plain call */
static int64_t plain_answer;

static long came[CALLS][OUTCOMES]; /* how often each outcome came */
static long drawn[2];              /* straight leaders, bent leaders */

/* What is wrong with the call; NULL if nothing is. */
static const char *fault(void) {
    if (!came_home()) return "traps";
    if (left_mxcsr != given_mxcsr) return "changes MXCSR";
    if (memcmp(left_x87, given_x87, X87_WORDS) != 0) return "changes the x87 state";
    if (answer != plain_answer) return "answers otherwise";
    return memcmp(&question, &plain, sizeof plain) != 0 ? "leaves other lists" : NULL;
}

static void report(const char *wrong, int mode, size_t filling) {
    static const char *const ways[] = {"to nearest", "down", "up", "to zero"};
    char what[200];
    snprintf(what, sizeof what,
             "%s %s: registers of %s, rounding %s, DAZ %d, FTZ %d, traps %s, flags %s, MXCSR %04x "
             "to %04x",
             call_names[given.call], wrong, name_of(filling), ways[rounding(mode)],
             zero_operands(mode), zero_results(mode), traps(mode) ? "on" : "off",
             flags(mode) ? "set" : "clear", (unsigned)given_mxcsr, (unsigned)left_mxcsr);
    check(false, &given, what);
}

static void ask_in(int mode, size_t filling) {
    memcpy(&question, &given, sizeof question);
    entrance = entrances[question.call];
    put_arguments(&question, arguments);
    fill(filling);
    given_mxcsr = mxcsr_of(mode);
    const char *wrong = fault();
    if (wrong != NULL)
        report(wrong, mode, filling);
    else
        check(true, NULL, NULL);
}

/* Some modes and fillings in turn: 52 questions meet them all, each mode with each filling. */
static void ask_in_turn(void) {
    static size_t turn;
    memcpy(&plain, &given, sizeof plain);
    plain_answer = call_library(&plain);
    came[given.call][outcome_of(plain_answer)]++;
    if (given.call == DRAW && plain_answer > 0) drawn[plain_answer - 2]++;
    for (int k = 0; k < TURNS; k++, turn++) ask_in((int)(turn % MODES), turn % FILLINGS);
}

/* Sound, and then damaged more and more. */
static void one_question(enum call call) {
    sound_question(&given, call);
    if (takes_best(call) && below(2)) {
        turn_to(&given, FIRST);
        call_library(&given);
        given.call = call;
    }
    ask_in_turn();
    for (uint32_t times = below(4); times > 0; times--) {
        damage(&given);
        ask_in_turn();
    }
}

int main(int argc, char **argv) {
    long count = argc > 1 ? atol(argv[1]) : 600;
    seed_random(argc > 2 ? strtoull(argv[2], NULL, 10) : 1);
    begin();
    prepare();
    probe();
    for (enum call call = 0; call < CALLS; call++) {
        for (long k = 0; k < count; k++) one_question(call);
        report_refusals(call_names[call], call, came[call]);
        check(came[call][0] > 0, NULL, "none was accepted");
        check(!can_end(call) || came[call][ENDS] > 0, NULL, "the end never came");
    }
    check(drawn[0] > 0 && drawn[1] > 0, NULL, "no straight leader was drawn, or no bent one");
    return done();
}
