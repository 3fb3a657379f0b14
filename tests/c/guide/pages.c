/* The calls on pages: C comes back with the unmap where the guest has stored, and only then. */
#include "expect.h"

#include "core.inc"
#include "access.inc"

static uint32_t guest_kind;

/* The guest of this test makes one access. */
static void run_guest(struct core *core, uint32_t address)
{
    EXPECT(translate(core, guest_kind, address, 1).physical == (0x23000 | (address & 0xFFF)));
}

#include "pages.inc"

int main(void)
{
    static uint8_t memory[0x40000];
    struct core core = { .memory = memory, .memory_size = sizeof memory, .msr = 0x10 };
    EXPECT(mmu_set_register(core.registers, sizeof core.registers, MMU_REGISTER_SDR1, 0x10000) == MMU_DONE);
    EXPECT(mmu_set_register(core.registers, sizeof core.registers, MMU_REGISTER_SEGMENT(5), 77) == MMU_DONE);
    guest_kind = MMU_LOAD;
    EXPECT(page_was_changed(&core, 0x10000, 77, 0x51234567, 0x23) == 0);
    guest_kind = MMU_STORE;
    EXPECT(page_was_changed(&core, 0x10000, 77, 0x51234567, 0x23) == 1);
    EXPECT(translate(&core, MMU_LOAD, 0x51234567, 1).fault == MMU_FAULT_NO_MATCH);
    return 0;
}
