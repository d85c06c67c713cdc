/* A plugin for qemu-user (plugin API 1) that counts the guest's instructions, and prints at exit how many there were in all and
   then in each function of the program. What is used of qemu-plugin.h is declared here: not every system ships it. */
#include <stddef.h>
#include <stdint.h>
#include <stdio.h>
#include <string.h>

typedef uint64_t qemu_plugin_id_t;
struct qemu_plugin_tb;
struct qemu_plugin_insn;
extern void qemu_plugin_register_vcpu_tb_trans_cb(qemu_plugin_id_t, void (*)(qemu_plugin_id_t, struct qemu_plugin_tb *));
extern size_t qemu_plugin_tb_n_insns(const struct qemu_plugin_tb *);
extern struct qemu_plugin_insn *qemu_plugin_tb_get_insn(const struct qemu_plugin_tb *, size_t);
extern const char *qemu_plugin_insn_symbol(const struct qemu_plugin_insn *);
extern void qemu_plugin_register_vcpu_tb_exec_inline(struct qemu_plugin_tb *, int op, void *ptr, uint64_t by);
extern void qemu_plugin_register_atexit_cb(qemu_plugin_id_t, void (*)(qemu_plugin_id_t, void *), void *);

#define SHOWN __attribute__((visibility("default")))
#define MOST 1024
SHOWN int qemu_plugin_version = 1;
static uint64_t all;
static uint64_t counts[MOST];
static char names[MOST][64];
static size_t known;

/* The counter of a function; past the last one, functions share it. */
static uint64_t *counter(const char *name)
{
    size_t i = 0;
    while (i < known && strncmp(names[i], name, sizeof names[i] - 1) != 0)
        i++;
    if (i == known) {
        if (known == MOST)
            return &counts[MOST - 1];
        strncpy(names[i], name, sizeof names[i] - 1);
        known++;
    }
    return &counts[i];
}

/* Each block of code, as it is translated: a block lies within one function. */
static void block(qemu_plugin_id_t id, struct qemu_plugin_tb *tb)
{
    const char *name = qemu_plugin_insn_symbol(qemu_plugin_tb_get_insn(tb, 0));
    size_t n = qemu_plugin_tb_n_insns(tb);
    qemu_plugin_register_vcpu_tb_exec_inline(tb, 0, &all, n);
    qemu_plugin_register_vcpu_tb_exec_inline(tb, 0, counter(name ? name : "-"), n);
}

static void end(qemu_plugin_id_t id, void *unused)
{
    fprintf(stderr, "instructions %llu\n", (unsigned long long)all);
    for (size_t i = 0; i < known; i++)
        fprintf(stderr, "function %llu %s\n", (unsigned long long)counts[i], names[i]);
}

SHOWN int qemu_plugin_install(qemu_plugin_id_t id, const void *info, int argc, char **argv)
{
    qemu_plugin_register_vcpu_tb_trans_cb(id, block);
    qemu_plugin_register_atexit_cb(id, end, NULL);
    return 0;
}
