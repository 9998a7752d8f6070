// Counts the instructions that an x86-64 program runs: a plugin for qemu-user, with the argument out=FILE.
// FILE gets one line for each file that is mapped (`map START PATH`), and one for each block of instructions that ran
// (`ran ADDRESS INSTRUCTIONS TURNS`). The emulator runs a repeated instruction (`rep movs`, `rep stos`) a turn at a time; it
// is counted once, as a processor counts it, and its further turns are told apart.
#include <stddef.h>
#include <stdint.h>
#include <stdio.h>
#include <stdlib.h>
#include <string.h>

// The part of the plugin interface that is used here; Debian has no package with the header.
typedef uint64_t Id;
typedef struct qemu_plugin_tb Piece;
typedef struct qemu_plugin_insn Instruction;
extern void qemu_plugin_register_vcpu_tb_trans_cb(Id id, void (*translated)(Id, Piece *));
extern void qemu_plugin_register_vcpu_tb_exec_cb(Piece *piece, void (*runs)(unsigned, void *), int flags, void *data);
extern void qemu_plugin_register_atexit_cb(Id id, void (*ends)(Id, void *), void *data);
extern size_t qemu_plugin_tb_n_insns(const Piece *piece);
extern Instruction *qemu_plugin_tb_get_insn(const Piece *piece, size_t place);
extern void *qemu_plugin_insn_haddr(const Instruction *instruction);
int qemu_plugin_version = PLUGIN_VERSION;

typedef struct Block {
    struct Block *next;
    void *first, *last; // the addresses of its first and last instruction
    uint64_t size, runs, turns;
} Block;

static Block *blocks;
static void *before; // the address of the last instruction that ran
static char *out;

// A block that begins with the instruction that ran last is a further turn of it.
static void block_runs(unsigned processor, void *data) {
    Block *block = data;
    block->runs++;
    block->turns += block->first == before;
    before = block->last;
}

static void block_translated(Id id, Piece *piece) {
    Block *block = calloc(1, sizeof *block);
    block->next = blocks;
    block->size = qemu_plugin_tb_n_insns(piece);
    block->first = qemu_plugin_insn_haddr(qemu_plugin_tb_get_insn(piece, 0));
    block->last = qemu_plugin_insn_haddr(qemu_plugin_tb_get_insn(piece, block->size - 1));
    blocks = block;
    qemu_plugin_register_vcpu_tb_exec_cb(piece, block_runs, 0, block);
}

static void program_ends(Id id, void *data) {
    FILE *file = fopen(out, "w"), *maps = fopen("/proc/self/maps", "r");
    char line[4096], path[4096];
    unsigned long start;
    while (fgets(line, sizeof line, maps))
        if (sscanf(line, "%lx-%*x %*s %*s %*s %*s /%4095[^\n]", &start, path) == 2)
            fprintf(file, "map %lx /%s\n", start, path);
    for (Block *block = blocks; block; block = block->next)
        if (block->runs)
            fprintf(file, "ran %lx %lu %lu\n", (unsigned long) block->first,
                    block->runs * block->size - block->turns, block->turns);
    fclose(maps);
    fclose(file);
}

int qemu_plugin_install(Id id, const void *info, int count, char **arguments) {
    if (count != 1 || strncmp(arguments[0], "out=", 4) != 0) return 1;
    out = strdup(arguments[0] + 4);
    qemu_plugin_register_vcpu_tb_trans_cb(id, block_translated);
    qemu_plugin_register_atexit_cb(id, program_ends, NULL);
    return 0;
}
