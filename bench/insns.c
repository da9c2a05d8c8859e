/* A plugin for QEMU's user-mode emulator: how many instructions a program executes.
 *
 * A block of code that QEMU translates runs from its first instruction to its last, so each time
 * one is entered its number of instructions is added. The sum goes to the file that `out=` names;
 * with `map=FILE` the count of each address goes there too, one to a line.
 *
 * The declarations are those of QEMU's qemu-plugin.h that are used here; Debian has no package of
 * that header. VERSION is the version of the interface (bench/run finds the one that QEMU takes).
 */
#include <inttypes.h>
#include <stdio.h>
#include <stdlib.h>
#include <string.h>

typedef uint64_t qemu_plugin_id_t;
struct qemu_plugin_tb;
struct qemu_plugin_insn;
enum qemu_plugin_cb_flags { QEMU_PLUGIN_CB_NO_REGS };
typedef void (*when_translated)(qemu_plugin_id_t, struct qemu_plugin_tb *);
typedef void (*when_run)(unsigned, void *);
typedef void (*when_over)(qemu_plugin_id_t, void *);
void qemu_plugin_register_vcpu_tb_trans_cb(qemu_plugin_id_t, when_translated);
void qemu_plugin_register_vcpu_tb_exec_cb(struct qemu_plugin_tb *, when_run,
                                          enum qemu_plugin_cb_flags, void *);
void qemu_plugin_register_atexit_cb(qemu_plugin_id_t, when_over, void *);
size_t qemu_plugin_tb_n_insns(const struct qemu_plugin_tb *);
struct qemu_plugin_insn *qemu_plugin_tb_get_insn(const struct qemu_plugin_tb *, size_t);
uint64_t qemu_plugin_insn_vaddr(const struct qemu_plugin_insn *);

__attribute__((visibility("default"))) int qemu_plugin_version = VERSION;

struct block {
    struct block *next;
    uint64_t runs;
    size_t size;
    uint64_t at[];
};

static struct block *blocks;
static const char *out, *map;

static void ran(unsigned cpu, void *block)
{
    (void)cpu;
    ((struct block *)block)->runs++;
}

static void translated(qemu_plugin_id_t id, struct qemu_plugin_tb *tb)
{
    (void)id;
    size_t size = qemu_plugin_tb_n_insns(tb);
    struct block *b = malloc(sizeof *b + size * sizeof b->at[0]);
    if (!b) abort();
    b->runs = 0;
    b->size = size;
    for (size_t i = 0; i < size; i++)
        b->at[i] = qemu_plugin_insn_vaddr(qemu_plugin_tb_get_insn(tb, i));
    b->next = blocks;
    blocks = b;
    qemu_plugin_register_vcpu_tb_exec_cb(tb, ran, QEMU_PLUGIN_CB_NO_REGS, b);
}

static void ended(qemu_plugin_id_t id, void *none)
{
    (void)id, (void)none;
    uint64_t sum = 0;
    FILE *f = map ? fopen(map, "w") : NULL;
    for (struct block *b = blocks; b; b = b->next) {
        sum += b->runs * b->size;
        for (size_t i = 0; f && b->runs && i < b->size; i++)
            fprintf(f, "%" PRIu64 " %" PRIu64 "\n", b->at[i], b->runs);
    }
    if (f) fclose(f);
    f = out ? fopen(out, "w") : stderr;
    if (!f) abort();
    fprintf(f, "%" PRIu64 "\n", sum);
    if (out) fclose(f);
}

__attribute__((visibility("default"))) int
qemu_plugin_install(qemu_plugin_id_t id, const void *info, int argc, char **argv)
{
    (void)info;
    for (int i = 0; i < argc; i++) {
        if (!strncmp(argv[i], "out=", 4)) out = strdup(argv[i] + 4);
        if (!strncmp(argv[i], "map=", 4)) map = strdup(argv[i] + 4);
    }
    qemu_plugin_register_vcpu_tb_trans_cb(id, translated);
    qemu_plugin_register_atexit_cb(id, ended, NULL);
    return 0;
}
