/* A plugin of qemu-user that counts executed instructions. When the program ends it writes to the file named by COUNTS a line for
   each translated run of instructions: its address, its instructions, how often it ran. Declared here is what is used of
   qemu-plugin.h, which Debian doesn't ship. */
#include <stddef.h>
#include <stdint.h>
#include <stdio.h>
#include <stdlib.h>

#define SHOWN __attribute__((visibility("default")))

struct qemu_plugin_tb;
struct qemu_plugin_insn;
typedef struct qemu_info_t qemu_info_t;
typedef uint64_t qemu_plugin_id_t;
void qemu_plugin_register_vcpu_tb_trans_cb(qemu_plugin_id_t id, void (*translated)(qemu_plugin_id_t, struct qemu_plugin_tb *));
void qemu_plugin_register_vcpu_tb_exec_inline(struct qemu_plugin_tb *run, int add, void *counter, uint64_t by);
void qemu_plugin_register_atexit_cb(qemu_plugin_id_t id, void (*ended)(qemu_plugin_id_t, void *), void *given);
size_t qemu_plugin_tb_n_insns(const struct qemu_plugin_tb *run);
uint64_t qemu_plugin_tb_vaddr(const struct qemu_plugin_tb *run);
struct qemu_plugin_insn *qemu_plugin_tb_get_insn(const struct qemu_plugin_tb *run, size_t index);
uint64_t qemu_plugin_insn_vaddr(const struct qemu_plugin_insn *instruction);
size_t qemu_plugin_insn_size(const struct qemu_plugin_insn *instruction);

SHOWN int qemu_plugin_version = 1;

enum { PAGE = 4096 };

/* `last` is the address of the last instruction; `crosses`, whether the first goes on past the end of its page. */
static struct run {
    uint64_t address, instructions, count, last;
    int crosses;
    struct run *next;
} *runs;

static void translated(qemu_plugin_id_t id, struct qemu_plugin_tb *code) {
    (void)id;
    uint64_t address = qemu_plugin_tb_vaddr(code), instructions = qemu_plugin_tb_n_insns(code);
    struct run *run = runs;
    while (run && (run->address != address || run->instructions != instructions))
        run = run->next;
    if (!run) {
        run = calloc(1, sizeof *run);
        if (!run)
            abort();
        run->address = address;
        run->instructions = instructions;
        run->last = qemu_plugin_insn_vaddr(qemu_plugin_tb_get_insn(code, instructions - 1));
        run->crosses = address % PAGE + qemu_plugin_insn_size(qemu_plugin_tb_get_insn(code, 0)) > PAGE;
        run->next = runs;
        runs = run;
    }
    qemu_plugin_register_vcpu_tb_exec_inline(code, 0, &run->count, 1);
}

/* An instruction across the end of a page is the first of its run. qemu names it as the last of the run that leads to it as well,
   where it isn't executed. */
static int named_twice(const struct run *run) {
    const struct run *other = run->last != run->address ? runs : NULL;
    while (other && (other->address != run->last || !other->crosses))
        other = other->next;
    return other != NULL;
}

static void ended(qemu_plugin_id_t id, void *given) {
    (void)id;
    (void)given;
    const char *name = getenv("COUNTS");
    FILE *file = name ? fopen(name, "w") : NULL;
    if (!file)
        abort();
    for (struct run *run = runs; run; run = run->next) {
        uint64_t executed = run->instructions - (uint64_t)named_twice(run);
        fprintf(file, "%lx %lu %lu\n", (unsigned long)run->address, (unsigned long)executed, (unsigned long)run->count);
    }
    fclose(file);
}

SHOWN int qemu_plugin_install(qemu_plugin_id_t id, const qemu_info_t *info, int count, char **words) {
    (void)info;
    (void)count;
    (void)words;
    qemu_plugin_register_vcpu_tb_trans_cb(id, translated);
    qemu_plugin_register_atexit_cb(id, ended, NULL);
    return 0;
}
