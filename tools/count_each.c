/* A plugin of qemu's user mode for tools/count-each: adds 1 before each instruction that is run, and prints the sum as the program ends.
 * Not by blocks, which is quicker: qemu 7.2 tells a block that ends before an instruction across two pages with that one among its own,
 * so that it is counted twice.
 * What is declared here is qemu's, interface 1: Debian ships no header for it. */
#include <inttypes.h>
#include <stddef.h>
#include <stdio.h>

struct qemu_info;
struct qemu_plugin_insn;
struct qemu_plugin_tb;
enum operation { ADD };
typedef void translated(uint64_t plugin, struct qemu_plugin_tb *block);
typedef void ended(uint64_t plugin, void *given);

void qemu_plugin_register_vcpu_tb_trans_cb(uint64_t plugin, translated *call);
void qemu_plugin_register_atexit_cb(uint64_t plugin, ended *call, void *given);
size_t qemu_plugin_tb_n_insns(const struct qemu_plugin_tb *block);
struct qemu_plugin_insn *qemu_plugin_tb_get_insn(const struct qemu_plugin_tb *block, size_t at);
void qemu_plugin_register_vcpu_insn_exec_inline(struct qemu_plugin_insn *one, enum operation what, void *to, uint64_t by);

int qemu_plugin_version = 1;
static uint64_t sum;

static void count_block(uint64_t plugin, struct qemu_plugin_tb *block) {
    (void)plugin;
    size_t all = qemu_plugin_tb_n_insns(block);
    for (size_t at = 0; at < all; at++) {
        qemu_plugin_register_vcpu_insn_exec_inline(qemu_plugin_tb_get_insn(block, at), ADD, &sum, 1);
    }
}

static void print_sum(uint64_t plugin, void *given) {
    (void)plugin;
    (void)given;
    fprintf(stderr, "insns: %" PRIu64 "\n", sum);
}

int qemu_plugin_install(uint64_t plugin, const struct qemu_info *info, int count, char **words) {
    (void)info;
    (void)count;
    (void)words;
    qemu_plugin_register_vcpu_tb_trans_cb(plugin, count_block);
    qemu_plugin_register_atexit_cb(plugin, print_sum, NULL);
    return 0;
}
