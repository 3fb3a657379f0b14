/* One access and the taking of its faults; the wanted words are the manual's Tables 6-10 and 6-11, bit by bit. */
#include "expect.h"

#include <setjmp.h>
#include <string.h>

#include "core.inc"
#include "access.inc"
#include "fault.inc"

static jmp_buf before;
static const char *stopped;

static void stop(const char *why)
{
    stopped = why;
    longjmp(before, 1);
}

#include "store.inc"

#define SDR1 0x00010000u
#define VSID 0x0C701Cu
#define PR 0x4000u
#define IR 0x20u
#define DR 0x10u
#define EE 0x8000u
#define ME 0x1000u

static uint8_t memory[0x40000];

static struct core new_core(void)
{
    struct core core = { .memory = memory, .memory_size = sizeof memory };
    EXPECT(mmu_set_register(core.registers, sizeof core.registers, MMU_REGISTER_SDR1, SDR1) == MMU_DONE);
    EXPECT(mmu_set_register(core.registers, sizeof core.registers, MMU_REGISTER_SEGMENT(0), VSID | MMU_SEGMENT_N) == 0);
    EXPECT(mmu_clear(SDR1, memory + 0x10000, 65536) == MMU_DONE);
    EXPECT(mmu_map(SDR1, VSID, 0x0FFA, 0x21, 2, 2, memory + 0x10000, 65536) == MMU_DONE);
    EXPECT(mmu_map(SDR1, VSID, 0x0FFB, 0x22, 2, 3, memory + 0x10000, 65536) == MMU_DONE);
    core.pc = 0x00001234;
    return core;
}

static void test_modes(void)
{
    EXPECT(mode_of(0) == 0);
    EXPECT(mode_of(PR) == MMU_MODE_PR);
    EXPECT(mode_of(IR) == MMU_MODE_IR);
    EXPECT(mode_of(DR) == MMU_MODE_DR);
    EXPECT(mode_of(0xFFFFFFFFu) == 7);
    EXPECT(mode_of(~(PR | IR | DR)) == 0);
}

static void test_done(void)
{
    struct core core = new_core();
    core.msr = EE | DR;
    EXPECT(store_byte(&core, 0x00FFA01B, 0x5A) == 1);
    EXPECT(memory[0x2101B] == 0x5A);
    EXPECT(core.pc == 0x1234 && core.msr == (EE | DR));
    core.msr = 0;
    EXPECT(store_byte(&core, 0x0002101C, 0xA5) == 1 && memory[0x2101C] == 0xA5);
    EXPECT(store_byte(&core, 0xFFFFFFFF, 0xA5) == 1);
    EXPECT(stopped == NULL);
}

static void test_data_faults(void)
{
    struct core core = new_core();
    core.msr = EE | ME | DR | 2;
    EXPECT(store_byte(&core, 0x00FFC01B, 1) == 0);
    EXPECT(core.dsisr == 0x42000000 && core.dar == 0x00FFC01B);
    EXPECT(core.srr0 == 0x1234 && core.srr1 == (EE | ME | DR | 2));
    EXPECT(core.pc == 0x300 && core.msr == ME);
    core.msr = PR | DR | 0x40 | 0x10000 | 0x40000;
    EXPECT(store_byte(&core, 0x00FFB01B, 1) == 0);
    EXPECT(core.dsisr == 0x0A000000 && core.dar == 0x00FFB01B);
    EXPECT(core.srr0 == 0x300 && core.srr1 == (PR | DR | 0x40));
    EXPECT(core.pc == 0xFFF00300 && core.msr == (0x40 | 0x10000 | 1));
}

/* Every bit of the MSR one: SRR1 has bits 16 to 23, 25 to 27, 30 and 31; the MSR keeps ILE, ME, IP, and LE is ILE. */
static void test_every_msr_bit(void)
{
    struct core core = new_core();
    core.msr = 0xFFFFFFFF;
    EXPECT(store_byte(&core, 0x00FFC01B, 1) == 0);
    EXPECT(core.srr1 == 0x0000FF73 && core.msr == 0x00011041);
}

static void test_instruction_fault(void)
{
    struct core core = new_core();
    struct mmu_answer answer;
    core.msr = PR | IR;
    core.dsisr = core.dar = 7;
    answer = translate(&core, MMU_FETCH, core.pc, 4);
    EXPECT(answer.result == MMU_INSTRUCTION_STORAGE_FAULT);
    take_fault(&core, &answer);
    EXPECT(core.srr0 == 0x1234 && core.srr1 == (0x10000000 | PR | IR));
    EXPECT(core.dsisr == 7 && core.dar == 7);
    EXPECT(core.pc == 0x400 && core.msr == 0);
}

static void test_refusal(void)
{
    static struct core core;
    core = new_core();
    mmu_put_word(core.registers, MMU_REGISTER_OFFSET(MMU_REGISTER_SEGMENT(9)), MMU_SEGMENT_T);
    if (setjmp(before) == 0) {
        store_byte(&core, 0x00FFA01B, 0x77);
        EXPECT(stopped != NULL);
    }
    EXPECT(strcmp(stopped, mmu_result_name(MMU_REFUSED_SEGMENT)) == 0);
    EXPECT(core.pc == 0x1234);
}

int main(void)
{
    test_modes();
    test_done();
    test_data_faults();
    test_every_msr_bit();
    test_instruction_fault();
    test_refusal();
    return 0;
}
