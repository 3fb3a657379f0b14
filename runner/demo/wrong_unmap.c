/*
 * wrong_unmap.c - an unmap that empties the primary group alone, put in the library's place by the linker (--wrap).
 *
 * With TAKE_MAPPED map's 7 (the page matches already) is taken for good as well: the old entry gets the new PP.
 */
#include "mmu.h"

uint32_t __wrap_mmu_unmap(uint32_t sdr1, uint32_t vsid, uint32_t page_index, uint8_t *table, size_t table_len,
                          uint8_t *answer, size_t answer_len);

uint32_t __wrap_mmu_unmap(uint32_t sdr1, uint32_t vsid, uint32_t page_index, uint8_t *table, size_t table_len,
                          uint8_t *answer, size_t answer_len)
{
    uint32_t group = ((vsid & 0x7FFFFu) ^ page_index) & ((sdr1 & MMU_SDR1_MASK) << 10 | 0x3FFu), i;
    uint32_t wanted = MMU_FIRST_V | vsid << MMU_FIRST_VSID_SHIFT | page_index >> 10;
    uint32_t result = mmu_look(sdr1, vsid, page_index, table, table_len, answer, answer_len);
    for (i = 0; i < MMU_GROUP_ENTRIES; i++) {
        uint8_t *entry = table + MMU_ENTRY_OFFSET(group, i);
        if (mmu_get_word(entry, MMU_ENTRY_FIRST) == wanted) {
            mmu_put_word(entry, MMU_ENTRY_FIRST, 0);
            mmu_put_word(entry, MMU_ENTRY_SECOND, 0);
        }
    }
    return result;
}

#ifdef TAKE_MAPPED
uint32_t __real_mmu_map(uint32_t sdr1, uint32_t vsid, uint32_t page_index, uint32_t rpn, uint32_t wimg, uint32_t pp,
                        uint8_t *table, size_t table_len);
uint32_t __wrap_mmu_map(uint32_t sdr1, uint32_t vsid, uint32_t page_index, uint32_t rpn, uint32_t wimg, uint32_t pp,
                        uint8_t *table, size_t table_len);

uint32_t __wrap_mmu_map(uint32_t sdr1, uint32_t vsid, uint32_t page_index, uint32_t rpn, uint32_t wimg, uint32_t pp,
                        uint8_t *table, size_t table_len)
{
    uint32_t result = __real_mmu_map(sdr1, vsid, page_index, rpn, wimg, pp, table, table_len);
    return result == MMU_REFUSED_MAPPED ? mmu_protect(sdr1, vsid, page_index, pp, table, table_len) : result;
}
#endif
