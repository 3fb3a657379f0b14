/*
 * core.c - Unicorn's PowerPC core, every address translated by the supervisor.
 *
 * The core sees one region of 4 GB, the window: host addresses, one for each effective address. Hooks before each
 * instruction, load and store ask the supervisor and lay the frame that was answered behind the effective page. What is
 * laid, with the kinds of access that were answered, is the core's own TLB; the supervisor's lift takes a page out of
 * it, as tlbie does. So R and C are marked as in a machine. Unicorn itself never sees a page come or go.
 */
#define _GNU_SOURCE
#include "runner.h"

#include <stdlib.h>
#include <string.h>
#include <sys/mman.h>
#include <unicorn/unicorn.h>
#include <unistd.h>

#define PAGE MMU_PAGE_SIZE
#define WINDOW ((size_t)SV_PAGES * PAGE)
#define BLOCK 32u           /* bytes that dcbz zeroes */
#define CODE_PAGES 1000u    /* Unicorn 2.0.1 breaks when its buffer of compiled code is full: emptied before */
#define SYSTEM_CALL 8u      /* interrupt numbers of Unicorn's core */
#define MSR_FP 0x2000u

static uc_engine *uc;
static struct process *now;
static bool ask_every, stop_due;
static unsigned turn_left, code_pages;
static uint8_t *window;
static int memory_file;
static uint32_t new_code = SV_PAGES; /* the page that was laid for fetching and stopped the core */
static uint32_t half_at, halves;     /* what Unicorn tells again of a load over a page edge */
/* kinds: bit MMU_FETCH .. where it was answered, if laying is the present one. */
static struct { uint32_t frame, kinds, laying; } tlb[SV_PAGES];
static uint32_t laying = 1; /* counts how often the whole TLB was emptied */

static void check(uc_err error, const char *what)
{
    if (error != UC_ERR_OK) {
        fprintf(stderr, "runner: the core, %s: %s\n", what, uc_strerror(error));
        exit(3);
    }
}

static uint32_t get(int name)
{
    uint32_t value = 0;
    check(uc_reg_read(uc, name, &value), "a register");
    return value;
}

static void put(int name, uint32_t value)
{
    check(uc_reg_write(uc, name, &value), "a register");
}

/* ---- The window ---------------------------------------------------------------------------------- */

static void place(uint32_t page, size_t size, int file, off_t offset)
{
    int flags = MAP_FIXED | (file < 0 ? MAP_PRIVATE | MAP_ANONYMOUS | MAP_NORESERVE : MAP_SHARED);
    if (mmap(window + (size_t)page * PAGE, size, PROT_READ | PROT_WRITE, flags, file, offset) == MAP_FAILED) {
        perror("runner: the window");
        exit(3);
    }
}

static uint32_t kinds_of(uint32_t page)
{
    return tlb[page].laying == laying ? tlb[page].kinds : 0u;
}

static void lift(uint32_t page)
{
    if (kinds_of(page))
        place(page, PAGE, -1, 0);
    tlb[page].kinds = 0;
}

static void lift_all(void)
{
    place(0, WINDOW, -1, 0);
    laying++;
}

/* Lays the frame of a physical address behind a page; what is compiled from the page is from other bytes then. */
static void lay(uint32_t page, uint32_t physical, uint32_t kind)
{
    uint32_t frame = physical / PAGE, kinds = kinds_of(page);
    if (kinds && tlb[page].frame != frame)
        sv_fail("a page lies in another frame than mmu_access says", MMU_DONE, now->space.number, page);
    if (!kinds)
        place(page, PAGE, memory_file, (off_t)frame * PAGE);
    if (kind == MMU_FETCH && !(kinds & 1u << MMU_FETCH))
        new_code = page;
    tlb[page].frame = frame;
    tlb[page].kinds = kinds | 1u << kind;
    tlb[page].laying = laying;
}

static bool laid(uint32_t kind, uint32_t address, uint32_t length)
{
    return (kinds_of(address / PAGE) & kinds_of((address + length - 1u) / PAGE)) >> kind & 1u;
}

/* ---- Hooks --------------------------------------------------------------------------------------- */

/* Asks for a whole operand. A program that may not do it ends, and what the core still does meets an empty window. */
static void ask(uint32_t kind, uint32_t address, uint32_t length)
{
    bool known = laid(kind, address, length);
    struct mmu_answer answer;
    if (now->status >= 0 || (known && !ask_every))
        return;
    answer = sv_access(&supervisor, kind, address, length);
    if (answer.result != MMU_DONE) {
        char text[200];
        sv_explain(text, sizeof text, kind, &answer);
        end_process(now, 139, "%s, instruction at %08X", text, (unsigned)now->pc);
        lift_all();
        uc_emu_stop(uc);
        return;
    }
    lay(address / PAGE, answer.physical, kind);
    if (answer.second_bytes)
        lay(address / PAGE + 1u, answer.second_physical, kind);
    if (!known && turn_left && --turn_left == 0)
        stop_due = true;
}

/* rA of an address: 0 stands for the number 0. */
static uint32_t base(uint32_t a)
{
    return a ? get(UC_PPC_REG_0 + (int)a) : 0u;
}

/* Unicorn calls no hook for lmw, stmw, the string instructions and dcbz: the whole operand is asked for beforehand. */
static void ask_untold(uint32_t at)
{
    enum { LMW = 46, STMW, LSWX = 533, LSWI = 597, STSWX = 661, STSWI = 725, DCBZ = 1014 };
    uint32_t word = mmu_get_word(window, at), code = word >> 26 == 31u ? word >> 1 & 0x3FFu : word >> 26;
    uint32_t kind = code == LMW || code == LSWX || code == LSWI ? MMU_LOAD : MMU_STORE;
    uint32_t a = word >> 16 & 31u, b = word >> 11 & 31u, length;
    switch (code) {
    case LMW: case STMW:
        if (word >> 26 != 31u)
            ask(kind, base(a) + (uint32_t)(int16_t)(word & 0xFFFFu), 4u * (32u - (word >> 21 & 31u)));
        return;
    case LSWI: case STSWI:
        ask(kind, base(a), b ? b : 32u);
        return;
    case LSWX: case STSWX:
        length = get(UC_PPC_REG_XER) & 127u;
        if (length)
            ask(kind, base(a) + get(UC_PPC_REG_0 + (int)b), length);
        return;
    case DCBZ:
        ask(kind, (base(a) + get(UC_PPC_REG_0 + (int)b)) & ~(BLOCK - 1u), BLOCK);
    }
}

/* Before each instruction, and only here and at a system call, the core can stop and go on later. */
static void on_code(uc_engine *engine, uint64_t address, uint32_t size, void *data)
{
    (void)size, (void)data;
    now->pc = (uint32_t)address;
    if (!stop_due)
        ask(MMU_FETCH, (uint32_t)address, 4);
    if (now->status < 0 && !stop_due && new_code == SV_PAGES)
        ask_untold((uint32_t)address);
    if (now->status >= 0 || stop_due || new_code != SV_PAGES)
        uc_emu_stop(engine);
}

/* Unicorn tells a load over a page edge whole, then as two aligned loads: these were asked for already. */
static void on_data(uc_engine *engine, uc_mem_type type, uint64_t address, int size, int64_t value, void *data)
{
    uint32_t at = (uint32_t)address, length = (uint32_t)size;
    (void)engine, (void)value, (void)data;
    if (halves && type == UC_MEM_READ && at == half_at) {
        half_at += length;
        halves--;
        return;
    }
    ask(type == UC_MEM_WRITE ? MMU_STORE : MMU_LOAD, at, length);
    halves = type == UC_MEM_READ && at % PAGE + length > PAGE ? 2u : 0u;
    half_at = at & ~(length - 1u);
}

static void on_interrupt(uc_engine *engine, uint32_t number, void *data)
{
    uint32_t argument[6], answer;
    (void)data;
    if (number == SYSTEM_CALL) {
        for (int i = 0; i < 6; i++)
            argument[i] = get(UC_PPC_REG_3 + i);
        answer = system_call(now, get(UC_PPC_REG_0), argument);
        /* An error is told by CR0's summary overflow bit, and r3 has its number. */
        put(UC_PPC_REG_CR0, (get(UC_PPC_REG_CR0) & ~1u) | (answer > 0xFFFFF000u ? 1u : 0u));
        put(UC_PPC_REG_3, answer > 0xFFFFF000u ? -answer : answer);
    } else if (now->status < 0) {
        end_process(now, 132, "exception %u of the core, instruction at %08X", (unsigned)number, (unsigned)now->pc);
    }
    now->pc = get(UC_PPC_REG_PC);
    stop_due = stop_due || turn_left;
    if (now->status >= 0 || stop_due)
        uc_emu_stop(engine);
}

/* ---- The core ------------------------------------------------------------------------------------ */

/* Forgets what was compiled from the page that was laid for fetching. */
static void forget_code(void)
{
    uint64_t start = (uint64_t)new_code * PAGE;
    check(uc_ctl_remove_cache(uc, start, start + PAGE), "compiled code");
    new_code = SV_PAGES;
    if (++code_pages == CODE_PAGES) {
        check(uc_ctl_flush_tlb(uc), "compiled code");
        code_pages = 0;
    }
}

void core_run(struct process *process, unsigned turn)
{
    if (now != process) {
        lift_all();
        check(uc_context_restore(uc, process->context), "its registers");
        now = process;
        sv_run(&supervisor, &process->space);
    }
    turn_left = turn;
    stop_due = false;
    while (process->status < 0 && !stop_due) {
        uc_err error = uc_emu_start(uc, process->pc, ~UINT64_C(0), 0, 0);
        if (error != UC_ERR_OK && process->status < 0)
            end_process(process, 134, "the core: %s, instruction at %08X", uc_strerror(error), (unsigned)process->pc);
        if (new_code != SV_PAGES)
            forget_code();
    }
    check(uc_context_save(uc, process->context), "its registers");
}

void core_prepare(struct process *process)
{
    put(UC_PPC_REG_MSR, get(UC_PPC_REG_MSR) | MSR_FP);
    put(UC_PPC_REG_1, process->stack);
    check(uc_context_alloc(uc, (uc_context **)&process->context), "registers");
    check(uc_context_save(uc, process->context), "registers");
}

static void add_hook(int type, void (*function)(void))
{
    uc_hook hook;
    void *pointer;
    memcpy(&pointer, &function, sizeof pointer); /* C has no conversion for what uc_hook_add wants */
    check(uc_hook_add(uc, &hook, type, pointer, NULL, 1, 0), "a hook");
}

uint8_t *core_open(size_t memory_size, bool every)
{
    uint8_t *memory;
    ask_every = every;
    memory_file = memfd_create("memory", 0);
    if (memory_file < 0 || ftruncate(memory_file, (off_t)memory_size) != 0)
        bad_input("no memory for so many frames");
    memory = mmap(NULL, memory_size, PROT_READ | PROT_WRITE, MAP_SHARED, memory_file, 0);
    window = mmap(NULL, WINDOW, PROT_NONE, MAP_PRIVATE | MAP_ANONYMOUS | MAP_NORESERVE, -1, 0);
    if (memory == MAP_FAILED || window == MAP_FAILED)
        bad_input("no memory for so many frames");
    supervisor.lift = lift;
    check(uc_open(UC_ARCH_PPC, UC_MODE_PPC32 | UC_MODE_BIG_ENDIAN, &uc), "open");
    check(uc_mem_map_ptr(uc, 0, WINDOW, UC_PROT_ALL, window), "the window");
    add_hook(UC_HOOK_CODE, (void (*)(void))on_code);
    add_hook(UC_HOOK_MEM_READ | UC_HOOK_MEM_WRITE, (void (*)(void))on_data);
    add_hook(UC_HOOK_INTR, (void (*)(void))on_interrupt);
    return memory;
}
