/* Operands over a page edge: two pages in frames far apart, a page that is not there, strings of every length. */
#include "expect.h"

#include "core.inc"
#include "access.inc"
#include "fault.inc"

static void stop(const char *why)
{
    printf("stopped: %s\n", why);
    exit(1);
}

#include "store.inc"
#include "operand.inc"
#include "strings.inc"

#define SDR1 0x00010000u
#define TABLE 0x10000u
#define VSID 0x0C701Cu
#define EDGE 0x00FFB000u /* Page 0FFA lies before it, page 0FFB after it. */
#define BEFORE 0x21000u  /* Their frames. */
#define AFTER 0x35000u

static uint8_t memory[0x40000];

static void map(uint32_t page_index, uint32_t frame, uint32_t pp)
{
    EXPECT(mmu_map(SDR1, VSID, page_index, frame >> 12, 2, pp, memory + TABLE, 65536) == MMU_DONE);
}

/* A page's R and C. */
static uint32_t marks(uint32_t page_index)
{
    uint8_t answer[MMU_ANSWER_SIZE];
    EXPECT(mmu_look(SDR1, VSID, page_index, memory + TABLE, 65536, answer, sizeof answer) == MMU_DONE);
    return mmu_get_word(answer, MMU_ANSWER_SECOND) & (MMU_SECOND_R | MMU_SECOND_C);
}

/* Segments 0 and 15 of one VSID, data translated; memory of bytes that tell their address. */
static struct core new_core(void)
{
    struct core core = { .memory = memory, .memory_size = sizeof memory, .msr = 0x10, .pc = 0x1234 };
    uint32_t i;
    for (i = 0; i < sizeof memory; i++)
        memory[i] = (uint8_t)(i ^ i >> 8);
    EXPECT(mmu_set_register(core.registers, sizeof core.registers, MMU_REGISTER_SDR1, SDR1) == MMU_DONE);
    EXPECT(mmu_set_register(core.registers, sizeof core.registers, MMU_REGISTER_SEGMENT(0), VSID) == MMU_DONE);
    EXPECT(mmu_set_register(core.registers, sizeof core.registers, MMU_REGISTER_SEGMENT(15), VSID) == MMU_DONE);
    EXPECT(mmu_clear(SDR1, memory + TABLE, 65536) == MMU_DONE);
    map(0x0FFA, BEFORE, 2);
    for (i = 0; i < 32; i++)
        core.gpr[i] = 0x01020304u * (i + 1);
    return core;
}

/* Three bytes before the edge and five after it come from the two frames. */
static void test_load(void)
{
    struct core core = new_core();
    uint64_t value = 0, wanted = 0;
    uint32_t i;
    EXPECT(lfd(&core, EDGE - 3, &value) == 0 && value == 0);
    EXPECT(core.dsisr == 0x40000000 && core.dar == EDGE && core.pc == 0x300 && marks(0x0FFA) == 0);
    map(0x0FFB, AFTER, 3);
    core.msr = 0x10;
    for (i = 0; i < 8; i++)
        wanted = wanted << 8 | memory[i < 3 ? BEFORE + 0xFFD + i : AFTER + i - 3];
    EXPECT(lfd(&core, EDGE - 3, &value) == 1 && value == wanted);
    EXPECT(marks(0x0FFA) == MMU_SECOND_R && marks(0x0FFB) == MMU_SECOND_R);
}

/* A store whose second page is read-only changes no byte, no register and no mark. */
static void test_store_faults(void)
{
    struct core core = new_core();
    static uint8_t memory_before[sizeof memory];
    struct core before;
    map(0x0FFB, AFTER, 3);
    memcpy(memory_before, memory, sizeof memory);
    before = core;
    core.xer = before.xer = 100;
    EXPECT(stswx(&core, 5, EDGE - 50) == 0);
    EXPECT(core.dsisr == 0x0A000000 && core.dar == EDGE && core.srr0 == 0x1234);
    EXPECT(memcmp(memory, memory_before, sizeof memory) == 0);
    EXPECT(memcmp(core.gpr, before.gpr, sizeof core.gpr) == 0);
}

/* Real mode, the last three bytes of memory: the second part, past its end, reads as zeros and takes no store. */
static void test_end_of_memory(void)
{
    struct core core = new_core();
    uint64_t value = 7;
    core.msr = 0;
    EXPECT(lfd(&core, sizeof memory - 3, &value) == 1);
    EXPECT(value == (uint64_t)(mmu_get_word(memory, sizeof memory - 4) & 0xFFFFFFu) << 40);
    core.xer = 8;
    EXPECT(stswx(&core, 0, sizeof memory - 3) == 1 && memory[sizeof memory - 1] == 3);
}

/* lmw of r0: all 128 bytes; of r31: one word. A fault in the first page has the operand's own address. */
static void test_multiple(void)
{
    struct core core = new_core();
    uint32_t i, rd;
    map(0x0FFB, AFTER, 2);
    for (rd = 0; rd < 32; rd += 31) {
        EXPECT(lmw(&core, rd, EDGE - 2) == 1);
        EXPECT(core.gpr[rd] == (mmu_get_word(memory, BEFORE + 0xFFC) << 16 | mmu_get_word(memory, AFTER) >> 16));
        for (i = rd + 1; i < 32; i++)
            EXPECT(core.gpr[i] == mmu_get_word(memory, AFTER + 4 * (i - rd) - 2));
    }
    EXPECT(lmw(&core, 0, EDGE - 0x1002) == 0 && core.dar == EDGE - 0x1002);
}

/* Strings of every length over the edge; of length 0 nothing is asked, so that nothing faults. */
static void test_strings(void)
{
    struct core core = new_core();
    uint32_t i;
    map(0x0FFB, AFTER, 2);
    for (core.xer = 1; core.xer < 128; core.xer++) {
        EXPECT(stswx(&core, 20, EDGE - 60) == 1);
        for (i = 0; i < core.xer; i++) {
            uint8_t byte = memory[i < 60 ? BEFORE + 0xFC4 + i : AFTER + i - 60];
            EXPECT(byte == (uint8_t)(core.gpr[(20 + i / 4) % 32] >> (24 - 8 * (i % 4))));
        }
        EXPECT((marks(0x0FFB) != 0) == (core.xer > 60));
    }
    core.xer = 0x80;
    EXPECT(stswx(&core, 0, 0x00123456) == 1 && core.pc == 0x1234);
}

/* After FFFFFFFF comes 00000000: page FFFF of segment 15, then page 0 of segment 0; and real mode. */
static void test_last_address(void)
{
    struct core core = new_core();
    uint64_t value;
    map(0xFFFF, AFTER, 2);
    EXPECT(lfd(&core, 0xFFFFFFFC, &value) == 0 && core.dar == 0 && marks(0xFFFF) == 0);
    map(0x0000, BEFORE, 2);
    core.msr = 0x10;
    EXPECT(lfd(&core, 0xFFFFFFFC, &value) == 1);
    EXPECT(value == ((uint64_t)mmu_get_word(memory, AFTER + 0xFFC) << 32 | mmu_get_word(memory, BEFORE)));
    core.msr = 0;
    EXPECT(store_byte(&core, EDGE, 7) == 1 && lfd(&core, 0x00000FFF, &value) == 1);
    EXPECT(value == ((uint64_t)mmu_get_word(memory, 0xFFF) << 32 | mmu_get_word(memory, 0x1003)));
}

int main(void)
{
    test_load();
    test_store_faults();
    test_end_of_memory();
    test_multiple();
    test_strings();
    test_last_address();
    return 0;
}
