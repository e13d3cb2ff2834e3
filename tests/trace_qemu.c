/*
 * A plugin for qemu's emulators that prints what valgrind's lackey prints: every instruction, load and store with its address and
 * size. So the archive for the other kind of machine is traced too: docs/TRACE.md. What is declared here is of version 1 of qemu's
 * interface for plugins; Debian has no header of it.
 */
#include <inttypes.h>
#include <stdbool.h>
#include <stddef.h>
#include <stdint.h>
#include <stdio.h>

typedef uint64_t plugin_id;
typedef uint32_t memory_info;

struct block;
struct instruction;

extern void qemu_plugin_register_vcpu_tb_trans_cb(plugin_id, void (*)(plugin_id, struct block *));
extern size_t qemu_plugin_tb_n_insns(const struct block *);
extern struct instruction *qemu_plugin_tb_get_insn(const struct block *, size_t);
extern uint64_t qemu_plugin_insn_vaddr(const struct instruction *);
extern void qemu_plugin_register_vcpu_insn_exec_cb(struct instruction *, void (*)(unsigned, void *), int flags, void *);
extern void qemu_plugin_register_vcpu_mem_cb(struct instruction *, void (*)(unsigned, memory_info, uint64_t, void *), int flags,
                                             int which, void *);
extern unsigned qemu_plugin_mem_size_shift(memory_info);
extern bool qemu_plugin_mem_is_store(memory_info);
extern void qemu_plugin_register_atexit_cb(plugin_id, void (*)(plugin_id, void *), void *);

enum { READS_NO_REGISTERS = 0, LOADS_AND_STORES = 3 };

int qemu_plugin_version = 1;

/* An instruction's size is printed as 0: nobody asks for it. */
static void fetched(unsigned cpu, void *address)
{
    (void)cpu;
    fprintf(stderr, "I  %08" PRIxPTR ",0\n", (uintptr_t)address);
}

static void accessed(unsigned cpu, memory_info info, uint64_t address, void *nothing)
{
    (void)cpu;
    (void)nothing;
    fprintf(stderr, " %c %08" PRIx64 ",%u\n", qemu_plugin_mem_is_store(info) ? 'S' : 'L', address,
            1u << qemu_plugin_mem_size_shift(info));
}

static void translated(plugin_id id, struct block *block)
{
    (void)id;
    for (size_t at = 0; at < qemu_plugin_tb_n_insns(block); at++) {
        struct instruction *instruction = qemu_plugin_tb_get_insn(block, at);
        uintptr_t address = (uintptr_t)qemu_plugin_insn_vaddr(instruction);
        qemu_plugin_register_vcpu_insn_exec_cb(instruction, fetched, READS_NO_REGISTERS, (void *)address);
        qemu_plugin_register_vcpu_mem_cb(instruction, accessed, READS_NO_REGISTERS, LOADS_AND_STORES, NULL);
    }
}

/* The emulator leaves without writing what is kept back. */
static void ended(plugin_id id, void *nothing)
{
    (void)id;
    (void)nothing;
    fflush(stderr);
}

int qemu_plugin_install(plugin_id id, const void *about, int count, char **words)
{
    (void)about;
    (void)count;
    (void)words;
    setvbuf(stderr, NULL, _IOFBF, 1 << 16);
    qemu_plugin_register_vcpu_tb_trans_cb(id, translated);
    qemu_plugin_register_atexit_cb(id, ended, NULL);
    return 0;
}
