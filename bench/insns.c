/*
 * insns.c: a plugin for qemu-user that prints how many instructions the guest ran from one mark to the next, for every
 * second mark: the same numbers on every run and every machine, which times are not. A mark is the system call getppid.
 * Beside it: how many of these the stretch before last ran too, place by place in the code; two programs that are called
 * in turn are each compared with their own call before. The declarations are those of its plugin interface, which has
 * been the same for these since version 1; a qemu takes a plugin only if VERSION suits it.
 */
#include <inttypes.h>
#include <stddef.h>
#include <stdio.h>

int qemu_plugin_version = VERSION;

struct qemu_plugin_tb; /* a block of instructions, translated once and then run many times */
struct qemu_plugin_insn;
size_t qemu_plugin_tb_n_insns(const struct qemu_plugin_tb *block);
struct qemu_plugin_insn *qemu_plugin_tb_get_insn(const struct qemu_plugin_tb *block, size_t place);
uint64_t qemu_plugin_insn_vaddr(const struct qemu_plugin_insn *one);
void qemu_plugin_register_vcpu_tb_trans_cb(uint64_t id, void (*call)(uint64_t, struct qemu_plugin_tb *));
void qemu_plugin_register_vcpu_insn_exec_cb(struct qemu_plugin_insn *one, void (*call)(unsigned, void *), int flags,
                                            void *data);
typedef void system_call(uint64_t id, unsigned cpu, int64_t number, uint64_t, uint64_t, uint64_t, uint64_t, uint64_t,
                         uint64_t, uint64_t, uint64_t);
void qemu_plugin_register_vcpu_syscall_cb(uint64_t id, system_call *call);

#define GETPPID 110  /* in x86-64 Linux */
#define PLACES 65536 /* several times those that such a program comes to */
#define KEPT 3       /* this stretch and the two before it */

struct place {
    uint64_t address; /* 0: free */
    uint64_t ran[KEPT];
};

static struct place places[PLACES];
static int now; /* of the stretches kept */
static int within;

static struct place *place_at(uint64_t address) {
    size_t k = address % PLACES;
    while (places[k].address != address && places[k].address != 0) k = (k + 1) % PLACES;
    places[k].address = address;
    return &places[k];
}

static void runs(unsigned cpu, void *place) {
    (void)cpu;
    ((struct place *)place)->ran[now]++;
}

/* One by one: a block's size may count an instruction that the next block has again. */
static void translated(uint64_t id, struct qemu_plugin_tb *block) {
    (void)id;
    for (size_t k = 0; k < qemu_plugin_tb_n_insns(block); k++) {
        struct qemu_plugin_insn *one = qemu_plugin_tb_get_insn(block, k);
        qemu_plugin_register_vcpu_insn_exec_cb(one, runs, 0, place_at(qemu_plugin_insn_vaddr(one)));
    }
}

static void begin(void) {
    now = (now + 1) % KEPT;
    for (size_t k = 0; k < PLACES; k++) places[k].ran[now] = 0;
}

static void end(void) {
    uint64_t all = 0, too = 0;
    for (size_t k = 0; k < PLACES; k++) {
        uint64_t here = places[k].ran[now], before = places[k].ran[(now + 1) % KEPT];
        all += here;
        too += here < before ? here : before;
    }
    fprintf(stderr, "%" PRIu64 " %" PRIu64 "\n", all, too);
}

static void marked(uint64_t id, unsigned cpu, int64_t number, uint64_t a, uint64_t b, uint64_t c, uint64_t d, uint64_t e,
                   uint64_t f, uint64_t g, uint64_t h) {
    (void)id, (void)cpu, (void)a, (void)b, (void)c, (void)d, (void)e, (void)f, (void)g, (void)h;
    if (number != GETPPID) return;
    if (within) end(); else begin();
    within = !within;
}

int qemu_plugin_install(uint64_t id, const void *info, int count, char **words) {
    (void)info, (void)count, (void)words;
    qemu_plugin_register_vcpu_tb_trans_cb(id, translated);
    qemu_plugin_register_vcpu_syscall_cb(id, marked);
    return 0;
}
