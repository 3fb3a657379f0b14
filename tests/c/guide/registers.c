/* The guest's register words: sets that are refused for a while, and the last right set in the meantime. */
#include "expect.h"

#include "core.inc"
#include "access.inc"
#include "registers.inc"
#include "lengths.inc"

static uint8_t memory[0x40000];

/* Case 8 of the twelve: DBAT0 80001FFE 10000002 takes 8FFFFFFF to 1FFFFFFF. */
static void test_upper_word_first(void)
{
    struct core core = { .memory = memory, .memory_size = sizeof memory, .msr = 0x10 };
    uint8_t alone[MMU_REGISTERS_SIZE_LONG];
    EXPECT(mtspr(&core, 537, 0x00020002) && core.refused == MMU_DONE);
    EXPECT(mtspr(&core, 536, 0x80000002) && core.refused == MMU_DONE);
    EXPECT(translate(&core, MMU_LOAD, 0x8001FFFF, 1).physical == 0x0003FFFF);
    memcpy(alone, core.registers, sizeof alone);

    EXPECT(mtspr(&core, 536, 0x80001FFE) && core.refused == MMU_REFUSED_BLOCK);
    EXPECT(core.words[33] == 0x80001FFE);
    EXPECT(translate(&core, MMU_LOAD, 0x8001FFFF, 1).physical == 0x0003FFFF);
    EXPECT(mtspr(&core, 537, 0x10000002) && core.refused == MMU_DONE);
    EXPECT(translate(&core, MMU_LOAD, 0x8FFFFFFF, 1).physical == 0x1FFFFFFF);

    /* What the guide warns of: a core that drops the refused word has the small block still. */
    EXPECT(mmu_set_register(alone, sizeof alone, 33, 0x80001FFE) == MMU_REFUSED_BLOCK);
    EXPECT(mmu_set_register(alone, sizeof alone, 34, 0x10000002) == MMU_DONE);
    EXPECT(mmu_get_word(alone, MMU_REGISTER_OFFSET(33)) == 0x80000002);
}

/* DBAT1 is put where DBAT0 is before that goes away. */
static void test_block_moved_over_another(void)
{
    struct core core = { .memory = memory, .memory_size = sizeof memory, .msr = 0x10 };
    EXPECT(mtspr(&core, 537, 0x00020002) && mtspr(&core, 536, 0x80000002) && core.refused == MMU_DONE);
    EXPECT(mtspr(&core, 539, 0x00000002) && mtspr(&core, 538, 0x80000002));
    EXPECT(core.refused == MMU_REFUSED_BLOCKS_SHARE);
    EXPECT(translate(&core, MMU_LOAD, 0x80000000, 1).physical == 0x00020000);
    EXPECT(mtspr(&core, 536, 0) && core.refused == MMU_DONE);
    EXPECT(translate(&core, MMU_LOAD, 0x80000000, 1).physical == 0);
}

/* One bad word in the page refuses every access; kept beside the page it does not. */
static void test_bad_segment(void)
{
    struct core core = { .memory = memory, .memory_size = sizeof memory };
    mtsrin(&core, 0x9FFFFFFF, MMU_SEGMENT_T | 5);
    EXPECT(core.refused == MMU_REFUSED_SEGMENT && core.words[10] == (MMU_SEGMENT_T | 5));
    EXPECT(translate(&core, MMU_FETCH, 0x12345678, 4).physical == 0x12345678);
    EXPECT(write_register(&core, MMU_REGISTER_SEGMENT(9), 5) == 1 && core.refused == MMU_DONE);
    mmu_put_word(core.registers, MMU_REGISTER_OFFSET(10), MMU_SEGMENT_T | 5);
    EXPECT(translate(&core, MMU_FETCH, 0x12345678, 4).result == MMU_REFUSED_SEGMENT);
}

static void test_table_outside_memory(void)
{
    struct core core = { .memory = memory, .memory_size = sizeof memory };
    EXPECT(mtspr(&core, 25, 0x00030000) && core.refused == MMU_DONE);
    EXPECT(mtspr(&core, 25, 0x00040000) && core.refused == MMU_REFUSED_TABLE_LENGTH);
    EXPECT(mtspr(&core, 25, 0xFFFF0000) && core.refused == MMU_REFUSED_TABLE_LENGTH);
    EXPECT(mtspr(&core, 25, 0x00000007) && core.refused == MMU_REFUSED_TABLE_LENGTH);
    EXPECT(mtspr(&core, 25, 0x00020001) && core.refused == MMU_DONE);
    EXPECT(mtspr(&core, 25, 0x00020002) && core.refused == MMU_REFUSED_SDR1);
    EXPECT(mtspr(&core, 26, 0) == 0);
}

/*
 * The manual's Table 7-7 has the lengths to 256 MB, later cores those to 4 GB; a block of each is in up to its last
 * byte and not beyond.
 */
static void test_lengths(void)
{
    uint32_t k;
    for (k = 0; k < 15; k++) {
        struct core core = { .memory = memory, .memory_size = sizeof memory, .msr = 0x10 };
        uint32_t length = 0x20000u << k, physical = k < 14 ? 0x40000000 : 0;
        EXPECT(upper_word(0x80000000, length) == (0x80000003u | ((1u << k) - 1) << 2));
        EXPECT(write_register(&core, MMU_REGISTER_DATA_LOWER_LONG(6), physical | 2) == 1);
        EXPECT(write_register(&core, MMU_REGISTER_DATA_UPPER_LONG(6), upper_word(0x80000000, length)) == 1);
        EXPECT(translate(&core, MMU_LOAD, 0x80000000 + length - 1, 1).physical == physical + length - 1);
        EXPECT(translate(&core, MMU_LOAD, 0x80000000 + length, 1).result == MMU_DATA_STORAGE_FAULT);
    }
}

/* DBAT7 as a block of 4 GB, by the numbers of its SPRs; IBAT4 beside it, and no other data block. */
static void test_later_cores(void)
{
    struct core core = { .memory = memory, .memory_size = sizeof memory, .msr = 0x30 };
    EXPECT(upper_word(0, UINT64_C(0x100000000)) == 0x0001FFFFu);
    EXPECT(mtspr(&core, 575, 2) && mtspr(&core, 574, 0x0001FFFF) && core.refused == MMU_DONE);
    EXPECT(core.words[47] == 0x0001FFFF && core.words[48] == 2);
    EXPECT(translate(&core, MMU_STORE, 0xFFFFFFFC, 4).physical == 0xFFFFFFFC);
    EXPECT(translate(&core, MMU_STORE, 0xFFFFFFFC, 4).detail == 7);
    EXPECT(mtspr(&core, 561, 0x10000002) && mtspr(&core, 560, 0x80000003) && core.refused == MMU_DONE);
    EXPECT(translate(&core, MMU_FETCH, 0x80001234, 4).physical == 0x10001234);
    EXPECT(translate(&core, MMU_FETCH, 0x80001234, 4).detail == 4);
    EXPECT(mtspr(&core, 536, 0x80000002) && core.refused == MMU_REFUSED_BLOCKS_SHARE);
}

/* A set of the short page moved to the long one, as the guide says: words 25 to 32 go to 33 to 40. */
static void test_widened(void)
{
    uint8_t page[MMU_REGISTERS_SIZE_SHORT] = { 0 }, wide[MMU_REGISTERS_SIZE_LONG] = { 0 };
    uint8_t answers[2][MMU_ACCESS_ANSWER_SIZE];
    EXPECT(mmu_set_register(page, sizeof page, MMU_REGISTER_DATA_LOWER(3), 0x10000002) == MMU_DONE);
    EXPECT(mmu_set_register(page, sizeof page, MMU_REGISTER_DATA_UPPER(3), 0x80001FFE) == MMU_DONE);
    memcpy(wide, page, MMU_REGISTER_OFFSET(25));
    memcpy(wide + MMU_REGISTER_OFFSET(33), page + MMU_REGISTER_OFFSET(25), MMU_REGISTER_OFFSET(8));
    EXPECT(mmu_check(wide, sizeof wide) == MMU_DONE);
    EXPECT(mmu_access(page, sizeof page, MMU_MODE_DR, MMU_LOAD, 0x8FFFFFFF, 1, memory, 65536, answers[0],
                      MMU_ACCESS_ANSWER_SIZE) == MMU_DONE);
    EXPECT(mmu_access(wide, sizeof wide, MMU_MODE_DR, MMU_LOAD, 0x8FFFFFFF, 1, memory, 65536, answers[1],
                      MMU_ACCESS_ANSWER_SIZE) == MMU_DONE);
    EXPECT(memcmp(answers[0], answers[1], MMU_ACCESS_ANSWER_SIZE) == 0);
}

int main(void)
{
    test_upper_word_first();
    test_block_moved_over_another();
    test_bad_segment();
    test_table_outside_memory();
    test_lengths();
    test_later_cores();
    test_widened();
    return 0;
}
