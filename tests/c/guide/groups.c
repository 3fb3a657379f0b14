/* From a page to its groups and back: the twelve cases, and every entry of a table with many pages in it. */
#include "expect.h"
#include "mmu.h"

#include "groups.inc"

static uint8_t table[0x20000];

/* Cases 1 and 6: groups at 0F9FF980 and 0F980640 under 0F980007, groups 0x3E6 and 0x019 under 0F980000. */
static void test_cases(void)
{
    EXPECT(group_of(0x0F980007, 0x0C701C, 0x0FFA, 0) == (0x0F9FF980 - 0x0F980000) / 64);
    EXPECT(group_of(0x0F980007, 0x0C701C, 0x0FFA, 1) == (0x0F980640 - 0x0F980000) / 64);
    EXPECT(group_of(0x0F980000, 0x0C701C, 0x0FFA, 0) == 0x3E6);
    EXPECT(group_of(0x0F980000, 0x0C701C, 0x0FFA, 1) == 0x019);
}

/* Page number i of the test: bits mixed well enough that groups fill unevenly. */
static uint32_t mixed(uint32_t i)
{
    i = (i ^ i >> 15) * 0x85EBCA6Bu;
    return i ^ i >> 13;
}

static uint32_t vsid_of(uint32_t i)
{
    return mixed(i) >> 8;
}

static uint32_t index_of(uint32_t i)
{
    return mixed(i + 0x10000) >> 16;
}

/* The frame of a mapped page is its number here, so that an entry found tells which page it must be. */
static void test_every_entry(uint32_t sdr1, uint32_t pages)
{
    size_t size = MMU_TABLE_SIZE(sdr1);
    uint32_t i, at, mapped = 0, found = 0, in_secondary = 0;
    EXPECT(mmu_clear(sdr1, table, size) == MMU_DONE);
    for (i = 0; i < pages; i++)
        mapped += mmu_map(sdr1, vsid_of(i), index_of(i), i, 2, 2, table, size) == MMU_DONE;
    for (at = 0; at < size; at += MMU_ENTRY_SIZE) {
        uint32_t vsid, page_index, h = (mmu_get_word(table, at) & MMU_FIRST_H) != 0;
        if (!(mmu_get_word(table, at) & MMU_FIRST_V))
            continue;
        page_of_entry(at / MMU_GROUP_SIZE, table + at, &vsid, &page_index);
        i = mmu_get_word(table, at + MMU_ENTRY_SECOND) >> 12;
        EXPECT(vsid == vsid_of(i) && page_index == index_of(i));
        EXPECT(at / MMU_GROUP_SIZE == group_of(sdr1, vsid, page_index, h));
        in_secondary += h;
        found++;
    }
    EXPECT(found == mapped && mapped > pages / 2 && in_secondary > 100);
}

int main(void)
{
    test_cases();
    test_every_entry(0x00000000, 6000);
    test_every_entry(0x00020001, 12000);
    return 0;
}
