/* What QEMU calls of the glue. hook.py puts the calls in, and this file beside QEMU's own. */
#ifndef MMU_GLUE_H
#define MMU_GLUE_H

#include "cpu.h"

/* Which register a guest stored into; a block pair has its upper and its lower word. */
enum mmu_glue_register {
    MMU_GLUE_SDR1,
    MMU_GLUE_SEGMENT,
    MMU_GLUE_IBATU,
    MMU_GLUE_IBATL,
    MMU_GLUE_DBATU,
    MMU_GLUE_DBATL
};

/* Instead of ppc_hash32_xlate, with its parameters. */
bool mmu_glue_xlate(PowerPCCPU *cpu, vaddr address, MMUAccessType type, hwaddr *physical, int *page_bits, int *rights,
                    int mmu_idx, bool guest_visible);

/* After a guest's store of a word into a register, of which `index` is the number among its like. */
void mmu_glue_stored(CPUPPCState *env, enum mmu_glue_register which, uint32_t index, uint32_t word);

/* After registers were changed by anybody but the guest: a reset, or a machine's saved state. */
void mmu_glue_forget(void);

#endif
