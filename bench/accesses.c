/* A plug-in for qemu-user that lists the loads and stores of the program that it runs, in order, where they touch the
 * addresses from `begin` to below `end`:   -plugin accesses.so,begin=0x..,end=0x..
 * Each is a line on standard error, `store OFFSET SIZE` or `load OFFSET SIZE`; the offset is from `begin` on, and below
 * 0 where an access begins in front. The few declarations stand here, since not every distribution has qemu's
 * header. */
#include <inttypes.h>
#include <stdbool.h>
#include <stddef.h>
#include <stdint.h>
#include <stdio.h>
#include <stdlib.h>
#include <string.h>

typedef uint64_t qemu_plugin_id_t;
typedef uint32_t qemu_plugin_meminfo_t;
struct qemu_plugin_tb;
struct qemu_plugin_insn;
enum { NO_REGISTERS = 0, LOADS_AND_STORES = 3 };
void qemu_plugin_register_vcpu_tb_trans_cb(qemu_plugin_id_t, void (*)(qemu_plugin_id_t, struct qemu_plugin_tb *));
size_t qemu_plugin_tb_n_insns(const struct qemu_plugin_tb *);
struct qemu_plugin_insn *qemu_plugin_tb_get_insn(const struct qemu_plugin_tb *, size_t);
void qemu_plugin_register_vcpu_insn_exec_cb(struct qemu_plugin_insn *, void (*)(unsigned, void *), int, void *);
void qemu_plugin_register_vcpu_mem_cb(struct qemu_plugin_insn *,
                                      void (*)(unsigned, qemu_plugin_meminfo_t, uint64_t, void *), int, int, void *);
unsigned qemu_plugin_mem_size_shift(qemu_plugin_meminfo_t);
bool qemu_plugin_mem_is_store(qemu_plugin_meminfo_t);

__attribute__((visibility("default"))) int qemu_plugin_version = 1;

static uint64_t begin, end;

/* What the instruction that runs has accessed; size 0 where it is nothing. */
static struct {
    bool store;
    uint64_t address;
    unsigned size;
} last;

/* Another instruction runs: what the one before accessed is written now, not at the end, so that a program that prints
 * between its calls has its own lines at their places. */
static void executed(unsigned cpu, void *unused) {
    (void)cpu, (void)unused;
    if (last.size == 0) return;
    fprintf(stderr, "%s %" PRId64 " %u\n", last.store ? "store" : "load", (int64_t)(last.address - begin), last.size);
    last.size = 0;
}

/* The emulator stores 16 octets as twice 8: what one instruction accesses without a gap is one access. */
static void accessed(unsigned cpu, qemu_plugin_meminfo_t info, uint64_t address, void *unused) {
    bool store = qemu_plugin_mem_is_store(info);
    unsigned size = 1u << qemu_plugin_mem_size_shift(info);
    if (address >= end || address + size <= begin) return;
    if (last.size > 0 && store == last.store && address == last.address + last.size) {
        last.size += size;
        return;
    }
    executed(cpu, unused);
    last.store = store;
    last.address = address;
    last.size = size;
}

/* A block of code that is about to run for the first time: each of its instructions is listened to. */
static void translated(qemu_plugin_id_t id, struct qemu_plugin_tb *block) {
    (void)id;
    for (size_t i = 0; i < qemu_plugin_tb_n_insns(block); i++) {
        struct qemu_plugin_insn *instruction = qemu_plugin_tb_get_insn(block, i);
        qemu_plugin_register_vcpu_insn_exec_cb(instruction, executed, NO_REGISTERS, NULL);
        qemu_plugin_register_vcpu_mem_cb(instruction, accessed, NO_REGISTERS, LOADS_AND_STORES, NULL);
    }
}

/* Takes an argument `NAME=NUMBER` of this name, and says whether it is one. */
static bool taken(const char *argument, const char *name, uint64_t *number) {
    size_t length = strlen(name);
    if (strncmp(argument, name, length) != 0 || argument[length] != '=') return false;
    char *rest;
    *number = strtoull(argument + length + 1, &rest, 0);
    return rest != argument + length + 1 && *rest == '\0';
}

__attribute__((visibility("default"))) int qemu_plugin_install(qemu_plugin_id_t id, const void *info, int argc,
                                                               char **argv) {
    (void)info;
    if (argc != 2 || !taken(argv[0], "begin", &begin) || !taken(argv[1], "end", &end) || begin >= end) {
        fprintf(stderr, "accesses: begin=ADDRESS,end=ADDRESS are needed, the end above the begin\n");
        return 1;
    }
    qemu_plugin_register_vcpu_tb_trans_cb(id, translated);
    return 0;
}
