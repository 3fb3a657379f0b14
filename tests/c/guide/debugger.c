/* A debugger's look answers what an access would, also over a page edge, and leaves every byte of memory. */
#include "expect.h"

#include "core.inc"
#include "access.inc"
#include "debugger.inc"

#include <string.h>

static uint8_t memory[0x40000], before[0x40000];

int main(void)
{
    static const uint32_t addresses[] = { 0x00FFA01B, 0x00FFAFFD, 0x00FFB000, 0x00FFBFFD, 0x00FFC000, 0x10FFA01B };
    struct core core = { .memory = memory, .memory_size = sizeof memory };
    uint32_t kind, i, marked = 0;
    EXPECT(mmu_set_register(core.registers, sizeof core.registers, MMU_REGISTER_SDR1, 0x10000) == MMU_DONE);
    EXPECT(mmu_set_register(core.registers, sizeof core.registers, MMU_REGISTER_SEGMENT(0), 77) == MMU_DONE);
    EXPECT(mmu_map(0x10000, 77, 0x0FFA, 0x21, 2, 2, memory + 0x10000, 65536) == MMU_DONE);
    EXPECT(mmu_map(0x10000, 77, 0x0FFB, 0x22, 2, 3, memory + 0x10000, 65536) == MMU_DONE);
    for (core.msr = 0; core.msr <= 0x30; core.msr += 0x10)
        for (kind = MMU_FETCH; kind <= MMU_STORE; kind++)
            for (i = 0; i < sizeof addresses / sizeof addresses[0]; i++) {
                struct mmu_answer looked, answered;
                memcpy(before, memory, sizeof memory);
                looked = peek(&core, kind, addresses[i], 8);
                EXPECT(memcmp(before, memory, sizeof memory) == 0);
                answered = translate(&core, kind, addresses[i], 8);
                EXPECT(same_answer(&looked, &answered) && same_rule(&looked, &answered));
                marked += memcmp(before, memory, sizeof memory) != 0;
            }
    EXPECT(marked > 0);
    return 0;
}
