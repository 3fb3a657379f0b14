/*
 * The smallest processor core on the library: it fetches, loads and stores through mmu_access and takes data and
 * instruction storage faults (DSI, ISI). The supervisor's part, which maps a page on its first use, is C too.
 *
 * An instruction is a word: 1 load, 2 store, 3 jump, 0 halt in its first byte, an effective address in the rest: bits 8
 * to 11 are the segment, bits 12 to 27 the page, bits 28 to 31 how many bytes before that page's first one the address
 * lies. So a load or store, of four bytes, can go over a page edge.
 */
#include "mmu.h"

#include <stdio.h>
#include <stdlib.h>
#include <string.h>

enum { MEMORY_SIZE = 1 << 18 };
enum { HALT, LOAD, STORE, JUMP };

/* Physical memory: the table in its second 64 KB, the program and its data above. */
#define SDR1 0x00010000u
#define TABLE 0x00010000u
#define VSID 0x123456u
#define PROGRAM_FRAME 0x20u
#define DATA_FRAME 0x21u
#define READ_ONLY_FRAME 0x23u
#define FREE_FRAME 0x30u

struct core {
    uint8_t registers[MMU_REGISTERS_SIZE_SHORT];
    uint8_t memory[MEMORY_SIZE];
    uint32_t mode, pc, value;
    uint32_t srr0, srr1, dsisr, dar; /* What an interrupt leaves for the supervisor. */
    unsigned faults;
    uint32_t rules[MMU_RULE_DONE + 1]; /* How many faults each rule decided. */
};

static struct core core;

/* What the core cannot go on from: a refusal, or an address without memory. */
static void stop(const char *what, const char *why)
{
    fprintf(stderr, "core: %s: %s\n", what, why);
    exit(EXIT_FAILURE);
}

static void must(const char *what, uint32_t result)
{
    if (result != MMU_DONE)
        stop(what, mmu_result_name(result));
}

/* ---- Translation ------------------------------------------------------------------------------ */

/* The rule that decided; where a page's protection did, the key, the PP and the entry's place in the table. */
static void print_rule(const struct mmu_answer *answer)
{
    printf("%s", mmu_rule_name(answer->rule));
    if (answer->rule == MMU_RULE_PROTECTION)
        printf(", key %u, PP %u, entry %u of group %03X", (unsigned)mmu_detail_key(answer->detail),
               (unsigned)mmu_detail_pp(answer->detail), (unsigned)answer->entry, (unsigned)answer->group);
    printf("\n");
}

/* A fault becomes an interrupt: DSI keeps its word in DSISR and its address in DAR, ISI its word in SRR1. */
static void take_fault(const struct mmu_answer *answer)
{
    core.srr0 = core.pc;
    core.srr1 = 0; /* Of the MSR this core has the mode alone, and only the user faults. */
    if (answer->result == MMU_DATA_STORAGE_FAULT) {
        core.dsisr = answer->fault;
        core.dar = answer->effective;
    } else {
        core.srr1 = answer->fault;
    }
    core.pc = answer->offset;
    core.mode = 0;
    core.faults++;
    core.rules[answer->rule]++;
    printf("  %s at %08X: ", mmu_result_name(answer->result), (unsigned)answer->effective);
    print_rule(answer);
}

/* Translates the four bytes of a word; 0 after a fault. */
static int translated(uint32_t kind, uint32_t address, struct mmu_answer *answer)
{
    uint8_t bytes[MMU_ACCESS_ANSWER_SIZE];
    uint32_t result = mmu_access(core.registers, sizeof core.registers, core.mode, kind, address, 4,
                                 core.memory + TABLE, MMU_TABLE_SIZE(SDR1), bytes, sizeof bytes);
    if (result != MMU_DATA_STORAGE_FAULT && result != MMU_INSTRUCTION_STORAGE_FAULT)
        must("access", result);
    *answer = mmu_read_answer(bytes);
    if (answer->result == MMU_DONE)
        return 1;
    take_fault(answer);
    return 0;
}

/* So many bytes of memory from a physical address on. */
static uint8_t *memory_at(uint32_t physical, uint32_t bytes)
{
    if (bytes > MEMORY_SIZE || physical > MEMORY_SIZE - bytes)
        stop("access", "no memory at this physical address");
    return core.memory + physical;
}

/* The word of a done access: its bytes before a page edge, then those after it, of which there may be none. */
static uint32_t read_word(const struct mmu_answer *answer)
{
    uint8_t bytes[4];
    memcpy(bytes, memory_at(answer->physical, answer->bytes), answer->bytes);
    memcpy(bytes + answer->bytes, memory_at(answer->second_physical, answer->second_bytes), answer->second_bytes);
    return mmu_get_word(bytes, 0);
}

static void write_word(const struct mmu_answer *answer, uint32_t word)
{
    uint8_t bytes[4];
    mmu_put_word(bytes, 0, word);
    memcpy(memory_at(answer->physical, answer->bytes), bytes, answer->bytes);
    memcpy(memory_at(answer->second_physical, answer->second_bytes), bytes + answer->bytes, answer->second_bytes);
}

/* ---- Instructions ----------------------------------------------------------------------------- */

static int load(uint32_t address)
{
    struct mmu_answer answer;
    if (!translated(MMU_LOAD, address, &answer))
        return 0;
    core.value = read_word(&answer);
    printf("  load  %08X: %08X\n", (unsigned)address, (unsigned)core.value);
    return 1;
}

static int store(uint32_t address)
{
    struct mmu_answer answer;
    if (!translated(MMU_STORE, address, &answer))
        return 0;
    write_word(&answer, core.value);
    printf("  store %08X: %08X\n", (unsigned)address, (unsigned)core.value);
    return 1;
}

/* Runs one instruction; 0 at the end of the program. A fault leaves the instruction undone and moves pc. */
static int step(void)
{
    struct mmu_answer answer;
    uint32_t instruction, address;
    int done = 1;
    if (!translated(MMU_FETCH, core.pc, &answer))
        return 1;
    instruction = read_word(&answer);
    address = ((instruction & 0x00FFFFF0u) << 8) - (instruction & 0xFu);
    switch (instruction >> 24) {
    case HALT:
        return 0;
    case LOAD:
        done = load(address);
        break;
    case STORE:
        done = store(address);
        break;
    case JUMP:
        core.pc = address;
        return 1;
    default:
        stop("step", "unknown instruction");
    }
    if (done)
        core.pc += 4;
    return 1;
}

/* ---- The supervisor's part -------------------------------------------------------------------- */

static void map_page(uint32_t address, uint32_t frame, uint32_t pp)
{
    must("map", mmu_map(SDR1, VSID, address >> 12 & 0xFFFF, frame, MMU_ATTRIBUTE_M, pp, core.memory + TABLE,
                        MMU_TABLE_SIZE(SDR1)));
}

static void return_to_user(uint32_t pc)
{
    core.mode = MMU_MODE_PR | MMU_MODE_IR | MMU_MODE_DR;
    core.pc = pc;
}

/* A page's first use maps it; a store that is not allowed is skipped; a fetch that is not allowed ends the program. */
static int handle_interrupt(void)
{
    if (core.pc == MMU_OFFSET_INSTRUCTION)
        return 0;
    if (core.dsisr & MMU_FAULT_NO_MATCH) {
        map_page(core.dar, FREE_FRAME, 2);
        return_to_user(core.srr0);
    } else {
        return_to_user(core.srr0 + 4);
    }
    return 1;
}

/* ---- Start ------------------------------------------------------------------------------------ */

static void set_registers(void)
{
    static const uint32_t words[3][2] = {
        { MMU_REGISTER_SDR1, SDR1 },
        { MMU_REGISTER_SEGMENT(0), MMU_SEGMENT_KP | VSID },
        { MMU_REGISTER_SEGMENT(1), MMU_SEGMENT_KP | MMU_SEGMENT_N | VSID },
    };
    size_t i;
    for (i = 0; i < 3; i++)
        must("set register", mmu_set_register(core.registers, sizeof core.registers, words[i][0], words[i][1]));
}

static void load_program(void)
{
    static const uint32_t program[] = {
        (uint32_t)LOAD << 24 | 0x20,     /* load  00002000: mapped */
        (uint32_t)STORE << 24 | 0x30,    /* store 00003000: not mapped before its first use */
        (uint32_t)LOAD << 24 | 0x30,     /* load  00003000: what was stored */
        (uint32_t)STORE << 24 | 0x32,    /* store 00002FFE: two bytes in each of two frames */
        (uint32_t)LOAD << 24 | 0x32,     /* load  00002FFE: what was stored */
        (uint32_t)STORE << 24 | 0x42,    /* store 00003FFE: the second page is read-only, and no byte is stored */
        (uint32_t)STORE << 24 | 0x40,    /* store 00004000: read-only */
        (uint32_t)JUMP << 24 | 0x100010, /* jump  10001000: a no-execute segment */
        (uint32_t)HALT << 24,
    };
    size_t i;
    for (i = 0; i < sizeof program / sizeof program[0]; i++)
        mmu_put_word(core.memory, (PROGRAM_FRAME << 12) + 4 * i, program[i]);
    mmu_put_word(core.memory, DATA_FRAME << 12, 0xCAFE0001u);
    must("clear", mmu_clear(SDR1, core.memory + TABLE, MMU_TABLE_SIZE(SDR1)));
    map_page(0x00001000u, PROGRAM_FRAME, 2);
    map_page(0x00002000u, DATA_FRAME, 2);
    map_page(0x00004000u, READ_ONLY_FRAME, 3);
}

/* The last two bytes of the data frame and the first two of the next page's are the word stored over the edge. */
static void check_memory(void)
{
    static const uint8_t stored[4] = { 0xCA, 0xFE, 0x00, 0x01 };
    const uint8_t *before = core.memory + (DATA_FRAME << 12) + MMU_PAGE_SIZE - 2;
    const uint8_t *after = core.memory + (FREE_FRAME << 12);
    if (memcmp(before, stored, 2) != 0 || memcmp(after, stored + 2, 2) != 0 || mmu_get_word(after, 2) != 0x00010000u)
        stop("end", "not what was stored over the page edge");
    if (mmu_get_word(after, MMU_PAGE_SIZE - 4) != 0)
        stop("end", "a store that faulted left bytes");
}

int main(void)
{
    int running = 1;
    set_registers();
    load_program();
    return_to_user(0x00001000u);
    while (running)
        running = core.mode == 0 ? handle_interrupt() : step();
    printf("%u faults taken; the last word loaded is %08X\n", core.faults, (unsigned)core.value);
    if (core.faults != 4 || core.dar != 0x00004000u || core.dsisr != (MMU_FAULT_PROTECTION | MMU_FAULT_STORE)
        || core.srr1 != MMU_FAULT_NO_EXECUTE || core.value != 0xCAFE0001u)
        stop("end", "not what the program should have left");
    if (core.rules[MMU_RULE_NO_MATCH] != 1 || core.rules[MMU_RULE_PROTECTION] != 2
        || core.rules[MMU_RULE_NO_EXECUTE] != 1)
        stop("end", "not the rules that should have decided");
    check_memory();
    return EXIT_SUCCESS;
}
