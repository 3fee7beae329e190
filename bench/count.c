/* A plugin of qemu: counts the instructions that a program executes and prints their number when it ends.
 * Off x86-64 it stands in for callgrind. Of qemu's plugin interface, version 1 (that of Debian's qemu 7.2, which comes without a header), it declares what it needs. */
#include <inttypes.h>
#include <stdio.h>

struct qemu_plugin_tb;
struct qemu_plugin_insn;
struct qemu_info_t;
typedef uint64_t plugin_id;
enum operation { ADD };

extern size_t qemu_plugin_tb_n_insns(const struct qemu_plugin_tb *block);
extern struct qemu_plugin_insn *qemu_plugin_tb_get_insn(const struct qemu_plugin_tb *block, size_t place);
extern void qemu_plugin_register_vcpu_insn_exec_inline(struct qemu_plugin_insn *instruction, enum operation, void *sum, uint64_t summand);
extern void qemu_plugin_register_vcpu_tb_trans_cb(plugin_id, void (*translated)(plugin_id, struct qemu_plugin_tb *));
extern void qemu_plugin_register_atexit_cb(plugin_id, void (*ended)(plugin_id, void *), void *given);

int qemu_plugin_version = 1; /* qemu asks for it */

static uint64_t executed;

/* Every instruction of a block adds one whenever it is executed. */
static void translated(plugin_id id, struct qemu_plugin_tb *block) {
    (void)id;
    for (size_t place = 0; place < qemu_plugin_tb_n_insns(block); place++)
        qemu_plugin_register_vcpu_insn_exec_inline(qemu_plugin_tb_get_insn(block, place), ADD, &executed, 1);
}

static void ended(plugin_id id, void *given) {
    (void)id, (void)given;
    fprintf(stderr, "Collected : %" PRIu64 "\n", executed); /* callgrind's words */
}

int qemu_plugin_install(plugin_id id, const struct qemu_info_t *info, int words, char **word) {
    (void)info, (void)words, (void)word;
    qemu_plugin_register_vcpu_tb_trans_cb(id, translated);
    qemu_plugin_register_atexit_cb(id, ended, NULL);
    return 0;
}
