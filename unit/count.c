/*
 * A plugin for QEMU's translator: counts what one call executes.
 *   -plugin count.so,entry=ADDRESS,log=FILE     ADDRESS in hexadecimal: the first instruction of a function
 * From the first time that the function is entered until it returns it counts how often each block of instructions,
 * which ends at a branch, is executed. FILE gets a line for each block: the address of its first instruction, the
 * number of its instructions, how often it was executed, and how often another address than the next one followed.
 * Debian has no header for plugins, so what is used of version 1 of the interface (QEMU 7.2) is declared here.
 */
#include <inttypes.h>
#include <stdio.h>
#include <stdlib.h>
#include <string.h>

struct qemu_plugin_tb;
struct qemu_plugin_insn;
void qemu_plugin_register_vcpu_tb_trans_cb(uint64_t, void (*)(uint64_t, struct qemu_plugin_tb *));
void qemu_plugin_register_vcpu_tb_exec_cb(struct qemu_plugin_tb *, void (*)(unsigned, void *), int, void *);
void qemu_plugin_register_atexit_cb(uint64_t, void (*)(uint64_t, void *), void *);
size_t qemu_plugin_tb_n_insns(const struct qemu_plugin_tb *);
uint64_t qemu_plugin_tb_vaddr(const struct qemu_plugin_tb *);
struct qemu_plugin_insn *qemu_plugin_tb_get_insn(const struct qemu_plugin_tb *, size_t);
uint64_t qemu_plugin_insn_vaddr(const struct qemu_plugin_insn *);
size_t qemu_plugin_insn_size(const struct qemu_plugin_insn *);
int qemu_plugin_version = 1;

static struct block {
    uint64_t start, behind, count, left;
    size_t instructions;
    struct block *next;
} *blocks, *last;
static uint64_t entry, back;
static enum { BEFORE, IN, AFTER } state;
static FILE *file;

static void execute(unsigned cpu, void *data)
{
    struct block *block = data;

    (void)cpu;
    if (state == IN && last->behind != block->start) {
        last->left++;
    }
    if (state == BEFORE && block->start == entry) {
        state = IN;
        back = last->behind;
    } else if (state == IN && block->start == back) {
        state = AFTER;
    }
    if (state == IN) {
        block->count++;
    }
    last = block;
}

static void translate(uint64_t id, struct qemu_plugin_tb *tb)
{
    struct block *block = calloc(1, sizeof *block);
    const struct qemu_plugin_insn *final;

    (void)id;
    block->start = qemu_plugin_tb_vaddr(tb);
    block->instructions = qemu_plugin_tb_n_insns(tb);
    final = qemu_plugin_tb_get_insn(tb, block->instructions - 1);
    block->behind = qemu_plugin_insn_vaddr(final) + qemu_plugin_insn_size(final);
    block->next = blocks;
    blocks = block;
    qemu_plugin_register_vcpu_tb_exec_cb(tb, execute, 0, block);
}

static void finish(uint64_t id, void *data)
{
    (void)id;
    (void)data;
    for (const struct block *block = blocks; block; block = block->next) {
        if (block->count) {
            fprintf(file, "%" PRIx64 " %zu %" PRIu64 " %" PRIu64 "\n",
                    block->start, block->instructions, block->count, block->left);
        }
    }
    fclose(file);
}

int qemu_plugin_install(uint64_t id, const void *info, int argc, char **argv)
{
    (void)info;
    for (int i = 0; i < argc; i++) {
        if (strncmp(argv[i], "entry=", 6) == 0) {
            entry = strtoull(argv[i] + 6, NULL, 16);
        } else if (strncmp(argv[i], "log=", 4) == 0) {
            file = fopen(argv[i] + 4, "w");
        }
    }
    if (!file) {
        return 1;
    }
    qemu_plugin_register_vcpu_tb_trans_cb(id, translate);
    qemu_plugin_register_atexit_cb(id, finish, NULL);
    return 0;
}
