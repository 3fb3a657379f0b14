/*
 * A loop of loads and stores with the library's translation cache in front of the page table, then an unmap, its
 * invalidate, and the load again. Each line says by what the access was answered: the answer's entry number is
 * MMU_HIT_ENTRY where it was the cache.
 */
#include "mmu.h"

#include <stdio.h>

#define SDR1 0x00100000u
#define VSID 0x000123u
#define DATA 0x00400000u /* The page index is 0400. */

static uint8_t registers[MMU_REGISTERS_SIZE], table[65536], cache[MMU_CACHE_SIZE];

static uint32_t access_to(const char *what, uint32_t kind, uint32_t address)
{
    uint8_t bytes[MMU_ACCESS_ANSWER_SIZE];
    struct mmu_answer answer;
    mmu_access_cached(registers, sizeof registers, MMU_MODE_DR, kind, address, 4, table, sizeof table, cache,
                      sizeof cache, bytes, sizeof bytes);
    answer = mmu_read_answer(bytes);
    printf("%-26s %08X: ", what, address);
    if (answer.result != MMU_DONE)
        printf("%s, %s\n", mmu_result_name(answer.result), mmu_cause_name(answer.fault));
    else
        printf("physical %08X, by the %s\n", answer.physical, answer.entry == MMU_HIT_ENTRY ? "cache" : "table");
    return answer.result;
}

static int done(uint32_t result)
{
    if (result != MMU_DONE)
        printf("%s\n", mmu_result_name(result));
    return result == MMU_DONE;
}

int main(void)
{
    uint8_t second[MMU_ANSWER_SIZE];
    uint32_t i, results = 0;
    if (!done(mmu_set_register(registers, sizeof registers, MMU_REGISTER_SDR1, SDR1))
        || !done(mmu_set_register(registers, sizeof registers, MMU_REGISTER_SEGMENT(0), VSID))
        || !done(mmu_clear(SDR1, table, sizeof table)))
        return 1;

    /* The cache is zeros by now. A page that is mapped needs no invalidate. */
    for (i = 0; i < 2; i++)
        if (!done(mmu_map(SDR1, VSID, 0x0400 + i, 0x00800 + i, MMU_ATTRIBUTE_M, 2, table, sizeof table)))
            return 1;
    results |= access_to("first load of a page", MMU_LOAD, DATA);
    for (i = 1; i < 4; i++)
        results |= access_to("load", MMU_LOAD, DATA + 4 * i);
    results |= access_to("first store, which sets C", MMU_STORE, DATA + 16);
    results |= access_to("store", MMU_STORE, DATA + 20);
    results |= access_to("load of the next page", MMU_LOAD, DATA + MMU_PAGE_SIZE);
    if (results != MMU_DONE)
        return 1;

    /* The frame is taken away: unmap, then invalidate, then the next access. */
    if (!done(mmu_unmap(SDR1, VSID, 0x0400, table, sizeof table, second, sizeof second))
        || !done(mmu_invalidate(0x0400, cache, sizeof cache)))
        return 1;
    printf("unmapped, changed: %s\n", mmu_get_word(second, MMU_ANSWER_SECOND) & MMU_SECOND_C ? "yes" : "no");
    if (access_to("load after the unmap", MMU_LOAD, DATA) != MMU_DATA_STORAGE_FAULT)
        return 1;
    return access_to("load of the next page", MMU_LOAD, DATA + MMU_PAGE_SIZE) != MMU_DONE;
}
