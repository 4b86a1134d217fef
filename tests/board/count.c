/* For QEMU (-plugin): counts the instructions that a call takes. Words: counts=FILE, to which four bytes are written for each call, the
 * lowest first; begins=A and ends=A, the addresses of the two functions that a program calls before and after; from=A and to=A, where
 * the instructions that count are. Interrupts and the program's own are elsewhere. */
#include <fcntl.h>
#include <stdbool.h>
#include <stddef.h>
#include <stdint.h>
#include <stdlib.h>
#include <string.h>
#include <unistd.h>

/* What of QEMU's interface for plugins, version 1, is used here. */
struct qemu_plugin_tb;
struct qemu_plugin_insn;
extern void qemu_plugin_register_vcpu_tb_trans_cb(uint64_t id, void (*told)(uint64_t id, struct qemu_plugin_tb *block));
extern size_t qemu_plugin_tb_n_insns(const struct qemu_plugin_tb *block);
extern struct qemu_plugin_insn *qemu_plugin_tb_get_insn(const struct qemu_plugin_tb *block, size_t at);
extern uint64_t qemu_plugin_insn_vaddr(const struct qemu_plugin_insn *instruction);
extern void qemu_plugin_register_vcpu_insn_exec_inline(struct qemu_plugin_insn *instruction, int operation, void *number, uint64_t by);
extern void qemu_plugin_register_vcpu_insn_exec_cb(struct qemu_plugin_insn *instruction, void (*told)(unsigned, void *), int flags, void *given);
enum { ADD = 0, NO_REGISTERS = 0 };
__attribute__((visibility("default"))) int qemu_plugin_version = 1;

static uint64_t counted, at_begin, begins, ends, from, to;
static int counts = -1;

static void begun(unsigned processor, void *given) {
    (void)processor, (void)given;
    at_begin = counted;
}

static void ended(unsigned processor, void *given) {
    (void)processor, (void)given;
    uint32_t took = (uint32_t)(counted - at_begin);
    uint8_t bytes[4] = {(uint8_t)took, (uint8_t)(took >> 8), (uint8_t)(took >> 16), (uint8_t)(took >> 24)};
    if (write(counts, bytes, sizeof bytes) != sizeof bytes)
        abort();
}

/* A block of instructions is about to be run for the first time. */
static void translated(uint64_t id, struct qemu_plugin_tb *block) {
    (void)id;
    for (size_t at = 0; at < qemu_plugin_tb_n_insns(block); at++) {
        struct qemu_plugin_insn *instruction = qemu_plugin_tb_get_insn(block, at);
        uint64_t address = qemu_plugin_insn_vaddr(instruction);
        if (address == begins)
            qemu_plugin_register_vcpu_insn_exec_cb(instruction, begun, NO_REGISTERS, NULL);
        if (address == ends)
            qemu_plugin_register_vcpu_insn_exec_cb(instruction, ended, NO_REGISTERS, NULL);
        if (from <= address && address < to)
            qemu_plugin_register_vcpu_insn_exec_inline(instruction, ADD, &counted, 1);
    }
}

__attribute__((visibility("default"))) int qemu_plugin_install(uint64_t id, const void *info, int count, char **words) {
    (void)info;
    for (int at = 0; at < count; at++) {
        char *value = strchr(words[at], '=');
        if (value == NULL)
            return -1;
        *value++ = 0;
        uint64_t number = strtoull(value, NULL, 16);
        if (strcmp(words[at], "counts") == 0)
            counts = open(value, O_WRONLY | O_CREAT | O_TRUNC, 0666);
        else if (strcmp(words[at], "begins") == 0)
            begins = number;
        else if (strcmp(words[at], "ends") == 0)
            ends = number;
        else if (strcmp(words[at], "from") == 0)
            from = number;
        else if (strcmp(words[at], "to") == 0)
            to = number;
        else
            return -1;
    }
    if (counts < 0 || from >= to)
        return -1;
    qemu_plugin_register_vcpu_tb_trans_cb(id, translated);
    return 0;
}
