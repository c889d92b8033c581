/* A plugin of QEMU: counts what each call of the library executes on the emulated Cortex-M0.
 *
 *     -plugin tracer.so,out=FILE,NAME=ADDRESS,...    NAME: a function whose calls are counted
 *
 * A line of FILE is one call, in order: NAME INSTRUCTIONS CYCLES STACK TRAFFIC, and FUNCTION=INSTRUCTIONS for each function that it went through.
 * Counted is from the function's first instruction to its return. Cycles are those of the Cortex-M0's instruction table (Technical Reference
 * Manual r0p0, table 3-1), with the single-cycle multiplier and memory without wait states. Stack is the bytes below the caller's stack
 * pointer, where it is lowest; traffic is the instructions that load from the stack or store to it. */
#include <stdint.h>
#include <stdio.h>
#include <stdlib.h>
#include <string.h>

/* No package of Debian 12 has QEMU's header, so what is used of it is declared here: version 1 of its interface. */
typedef uint64_t qemu_plugin_id_t;
struct qemu_plugin_tb;
struct qemu_plugin_insn;
enum qemu_plugin_cb_flags { QEMU_PLUGIN_CB_NO_REGS };
size_t qemu_plugin_tb_n_insns(const struct qemu_plugin_tb *);
struct qemu_plugin_insn *qemu_plugin_tb_get_insn(const struct qemu_plugin_tb *, size_t);
const void *qemu_plugin_insn_data(const struct qemu_plugin_insn *);
size_t qemu_plugin_insn_size(const struct qemu_plugin_insn *);
uint64_t qemu_plugin_insn_vaddr(const struct qemu_plugin_insn *);
const char *qemu_plugin_insn_symbol(const struct qemu_plugin_insn *);
void qemu_plugin_register_vcpu_tb_trans_cb(qemu_plugin_id_t, void (*)(qemu_plugin_id_t, struct qemu_plugin_tb *));
void qemu_plugin_register_vcpu_insn_exec_cb(struct qemu_plugin_insn *, void (*)(unsigned, void *), enum qemu_plugin_cb_flags, void *);

#define EXPORT __attribute__((visibility("default")))
#define FLASH (256 * 1024)
#define FUNCTIONS 1024
#define CALLS 8

EXPORT extern const int qemu_plugin_version;
const int qemu_plugin_version = 1;

/* What is known of the instruction at an address. */
struct place {
    uint32_t next;    /* the address after it; 0: not translated yet */
    int cycles;       /* of a branch: when it is not taken */
    int taken;        /* more cycles when it is */
    int stack;        /* bytes that it takes from the stack */
    int traffic;      /* it loads from the stack or stores to it */
    int unknown;      /* the stack pointer after it depends on a register */
    int function;
    const char *call; /* a counted function begins here */
};

static struct place places[FLASH / 2];
static const char *functions[FUNCTIONS];
static int function_count = 1; /* function 0 has no symbol */
static struct { const char *name; uint32_t address; } calls[CALLS];
static int call_count;
static FILE *out;

/* The call that is being counted, if any. */
static const char *call;
static uint32_t back;
static int instructions, cycles, stack, deepest, traffic;
static int counts[FUNCTIONS], touched[FUNCTIONS], touched_count;
static const struct place *before;

static void fail(const char *why, uint32_t address)
{
    fprintf(stderr, "tracer: %s (address %x)\n", why, (unsigned)address);
    exit(1);
}

static void decode(struct place *p, unsigned op)
{
    const int registers = __builtin_popcount(op & ((op & 0xF000) == 0xC000 ? 0xFF : 0x1FF));

    p->cycles = 1;
    if ((op & 0xF800) == 0xF000) { /* BL; MSR, MRS and barriers have as many */
        p->cycles = 4;
    } else if ((op & 0xF000) == 0xD000) { /* B with a condition */
        p->taken = 2;
    } else if ((op & 0xF800) == 0xE000 || (op & 0xFF00) == 0x4700 || (op & 0xFD87) == 0x4487) { /* B; BX, BLX; ADD, MOV to PC */
        p->cycles = 3;
    } else if ((op & 0xFD87) == 0x4485) { /* ADD and MOV to SP */
        p->unknown = 1;
    } else if ((op & 0xF800) == 0x4800 || (op >= 0x5000 && op < 0xA000)) { /* LDR, STR and their like */
        p->cycles = 2;
        p->traffic = (op & 0xF000) == 0x9000;
    } else if ((op & 0xF000) == 0xC000) { /* LDM, STM */
        p->cycles = 1 + registers;
    } else if ((op & 0xF600) == 0xB400) { /* PUSH, POP; the registers of a POP to PC are counted with PC */
        p->cycles = (op & 0x0900) == 0x0900 ? 4 + registers : 1 + registers;
        p->stack = (op & 0x0800 ? -4 : 4) * registers;
        p->traffic = 1;
    } else if ((op & 0xFF00) == 0xB000) { /* ADD and SUB of a number to SP */
        p->stack = (op & 0x80 ? 4 : -4) * (int)(op & 0x7F);
    }
}

static int intern(const char *symbol)
{
    int i = 1;

    if (symbol == NULL)
        return 0;
    while (i < function_count && strcmp(functions[i], symbol) != 0)
        i++;
    if (i == FUNCTIONS)
        fail("too many functions", 0);
    if (i == function_count)
        functions[function_count++] = strdup(symbol);
    return i;
}

static void begin(const struct place *p)
{
    call = p->call;
    back = before->next;
    instructions = cycles = stack = deepest = traffic = touched_count = 0;
}

static void count(const struct place *p, uint32_t next)
{
    instructions++;
    cycles += p->cycles + (next == p->next ? 0 : p->taken);
    traffic += p->traffic;
    stack += p->stack;
    if (stack > deepest)
        deepest = stack;
    if (p->unknown)
        fail("the stack pointer is set from a register", p->next);
    if (counts[p->function]++ == 0)
        touched[touched_count++] = p->function;
}

static void end(void)
{
    if (stack != 0)
        fail("a call returns with another stack pointer", back);
    fprintf(out, "%s %d %d %d %d", call, instructions, cycles, deepest, traffic);
    for (int i = 0; i < touched_count; i++) {
        const int function = touched[i];

        fprintf(out, " %s=%d", function == 0 ? "?" : functions[function], counts[function]);
        counts[function] = 0;
    }
    fprintf(out, "\n");
    call = NULL;
}

/* Called before each instruction is executed; only now is it known where the one before it led. */
static void step(unsigned processor, void *data)
{
    const struct place *p = data;
    const uint32_t address = (uint32_t)(p - places) * 2;

    (void)processor;
    if (call != NULL) {
        count(before, address);
        if (address == back)
            end();
    }
    if (call == NULL && p->call != NULL && before != NULL)
        begin(p);
    before = p;
}

static void translate(qemu_plugin_id_t id, struct qemu_plugin_tb *block)
{
    (void)id;
    for (size_t i = 0; i < qemu_plugin_tb_n_insns(block); i++) {
        struct qemu_plugin_insn *instruction = qemu_plugin_tb_get_insn(block, i);
        const uint64_t address = qemu_plugin_insn_vaddr(instruction);
        struct place *p;

        if (address >= FLASH)
            fail("an instruction outside of the flash", (uint32_t)address);
        p = &places[address / 2];
        if (p->next == 0) {
            uint16_t op;

            memcpy(&op, qemu_plugin_insn_data(instruction), sizeof op);
            decode(p, op);
            p->next = (uint32_t)(address + qemu_plugin_insn_size(instruction));
            p->function = intern(qemu_plugin_insn_symbol(instruction));
            for (int k = 0; k < call_count; k++)
                if (calls[k].address == address)
                    p->call = calls[k].name;
        }
        qemu_plugin_register_vcpu_insn_exec_cb(instruction, step, QEMU_PLUGIN_CB_NO_REGS, p);
    }
}

EXPORT int qemu_plugin_install(qemu_plugin_id_t id, const void *info, int argc, char **argv)
{
    (void)info;
    for (int i = 0; i < argc; i++) {
        char *value = strchr(argv[i], '=');

        if (value == NULL || call_count == CALLS)
            return -1;
        *value++ = 0;
        if (strcmp(argv[i], "out") == 0) {
            out = fopen(value, "w");
        } else {
            calls[call_count].name = strdup(argv[i]);
            calls[call_count++].address = (uint32_t)strtoul(value, NULL, 16) & ~1u;
        }
    }
    if (out == NULL)
        return -1;
    qemu_plugin_register_vcpu_tb_trans_cb(id, translate);
    return 0;
}
