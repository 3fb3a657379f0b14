/* QEMU's own translation, which the glue falls back to. */
#include "cpu.h"

bool ppc_hash32_xlate(PowerPCCPU *cpu, vaddr address, MMUAccessType type, hwaddr *physical, int *page_bits, int *rights,
                      int mmu_idx, bool guest_visible);
