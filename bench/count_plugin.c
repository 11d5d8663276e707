/* A plugin of QEMU's emulator that counts the instructions executed inside one function, callees included:
 *   qemu-x86_64 -plugin count_plugin.so,entry=ADDRESS PROGRAM ..
 *
 * A call begins with the function's first instruction, at ADDRESS (hex), and ends where the instruction after the calling one
 * is executed. At the program's end it prints to standard error: the instructions of all calls, how many calls there were, and
 * the instructions of the last one. */
#include <inttypes.h>
#include <stdbool.h>
#include <stdint.h>
#include <stdio.h>
#include <stdlib.h>
#include <string.h>

/* ---- What is used of QEMU's plugin interface, which has no header in Debian ---- */

enum { INTERFACE_VERSION = 1, NO_REGISTERS_READ = 0, INSTALLED = 0, NOT_INSTALLED = 1 };

typedef uint64_t qemu_plugin_id_t;
struct qemu_info;
struct qemu_plugin_tb; /* a row of instructions that is translated at once */
struct qemu_plugin_insn;

typedef void translated_fn(qemu_plugin_id_t id, struct qemu_plugin_tb *row);
typedef void executed_fn(unsigned int processor, void *given);
typedef void ended_fn(qemu_plugin_id_t id, void *given);

void qemu_plugin_register_vcpu_tb_trans_cb(qemu_plugin_id_t id, translated_fn *translated);
void qemu_plugin_register_vcpu_insn_exec_cb(struct qemu_plugin_insn *instruction, executed_fn *executed, int flags, void *given);
void qemu_plugin_register_atexit_cb(qemu_plugin_id_t id, ended_fn *ended, void *given);
size_t qemu_plugin_tb_n_insns(const struct qemu_plugin_tb *row);
struct qemu_plugin_insn *qemu_plugin_tb_get_insn(const struct qemu_plugin_tb *row, size_t i);
uint64_t qemu_plugin_insn_vaddr(const struct qemu_plugin_insn *instruction);
size_t qemu_plugin_insn_size(const struct qemu_plugin_insn *instruction);

/* What QEMU looks for in a plugin. */
#define EXPORTED __attribute__((visibility("default")))
extern EXPORTED int qemu_plugin_version;
EXPORTED int qemu_plugin_install(qemu_plugin_id_t id, const struct qemu_info *info, int argc, char **argv);

/* ---- Counting ----------------------------------------------------------- */

/* Where an instruction stands, and where the one after it does. */
struct place {
    uint64_t address, next;
};

static uint64_t entry;    /* of the function */
static uint64_t after;    /* the instruction that was executed last */
static uint64_t returned; /* the place where the call is over */
static bool inside;
static uint64_t calls, all, last;

static void executed(unsigned int processor, void *given)
{
    (void)processor;
    const struct place *at = given;
    if (!inside && at->address == entry) {
        inside = true;
        returned = after;
        calls++;
        last = 0;
    } else if (inside && at->address == returned) {
        inside = false;
    }
    after = at->next;
    all += inside;
    last += inside;
}

/* The place is not freed: the instruction may be executed until the end. */
static void watch(struct qemu_plugin_insn *instruction)
{
    struct place *at = malloc(sizeof *at);
    at->address = qemu_plugin_insn_vaddr(instruction);
    at->next = at->address + qemu_plugin_insn_size(instruction);
    qemu_plugin_register_vcpu_insn_exec_cb(instruction, executed, NO_REGISTERS_READ, at);
}

static void translated(qemu_plugin_id_t id, struct qemu_plugin_tb *row)
{
    (void)id;
    for (size_t i = 0; i < qemu_plugin_tb_n_insns(row); i++)
        watch(qemu_plugin_tb_get_insn(row, i));
}

static void ended(qemu_plugin_id_t id, void *given)
{
    (void)id;
    (void)given;
    if (inside)
        fprintf(stderr, "count_plugin: the last call did not come back to where it was made\n");
    else
        fprintf(stderr, "%" PRIu64 " %" PRIu64 " %" PRIu64 "\n", all, calls, last);
}

int qemu_plugin_version = INTERFACE_VERSION;

int qemu_plugin_install(qemu_plugin_id_t id, const struct qemu_info *info, int argc, char **argv)
{
    (void)info;
    static const char name[] = "entry=";
    if (argc != 1 || strncmp(argv[0], name, sizeof name - 1) != 0)
        return NOT_INSTALLED;
    entry = strtoull(argv[0] + sizeof name - 1, NULL, 16);
    qemu_plugin_register_vcpu_tb_trans_cb(id, translated);
    qemu_plugin_register_atexit_cb(id, ended, NULL);
    return INSTALLED;
}
