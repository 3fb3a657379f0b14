/* A program outside the repository: it takes header and archive from where they were installed. */
#include <mmu.h>

int main(void)
{
    uint8_t registers[MMU_REGISTERS_SIZE_SHORT] = {0};
    return mmu_check(registers, sizeof registers) == MMU_DONE ? 0 : 1;
}
