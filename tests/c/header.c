/*
 * The header's own functions, and a call by its C name: C and C++ both, so that one text is compiled as each language
 * version. Wanted values are written out from the manual's tables and docs/RULES.md.
 */
#include "mmu.h"
#include "mmu.h" /* Twice does no harm. */

#include <stdio.h>
#include <string.h>

#if MMU_VERSION_MAJOR * 1000 + MMU_VERSION_MINOR < 8
#error "the version cannot be compared by the preprocessor"
#endif

static unsigned failures;

static void expect(int right, const char *what, uint32_t number)
{
    if (!right) {
        failures++;
        printf("bad: %s (%u)\n", what, (unsigned)number);
    }
}

/* Table 8-16 of the 32-bit manual beside the order of the register page in docs/RULES.md. */
static const uint32_t sprs[17][2] = {
    { 25, 0 },   /* SDR1 */
    { 528, 17 }, /* IBAT0U */
    { 529, 18 }, /* IBAT0L */
    { 530, 19 }, /* IBAT1U */
    { 531, 20 }, /* IBAT1L */
    { 532, 21 }, /* IBAT2U */
    { 533, 22 }, /* IBAT2L */
    { 534, 23 }, /* IBAT3U */
    { 535, 24 }, /* IBAT3L */
    { 536, 25 }, /* DBAT0U */
    { 537, 26 }, /* DBAT0L */
    { 538, 27 }, /* DBAT1U */
    { 539, 28 }, /* DBAT1L */
    { 540, 29 }, /* DBAT2U */
    { 541, 30 }, /* DBAT2L */
    { 542, 31 }, /* DBAT3U */
    { 543, 32 }, /* DBAT3L */
};

/* The same SPRs in the order of the long page, and those of pairs 4 to 7 of later cores. */
static const uint32_t long_sprs[33][2] = {
    { 25, 0 },   /* SDR1 */
    { 528, 17 }, /* IBAT0U */
    { 529, 18 }, /* IBAT0L */
    { 530, 19 }, /* IBAT1U */
    { 531, 20 }, /* IBAT1L */
    { 532, 21 }, /* IBAT2U */
    { 533, 22 }, /* IBAT2L */
    { 534, 23 }, /* IBAT3U */
    { 535, 24 }, /* IBAT3L */
    { 536, 33 }, /* DBAT0U */
    { 537, 34 }, /* DBAT0L */
    { 538, 35 }, /* DBAT1U */
    { 539, 36 }, /* DBAT1L */
    { 540, 37 }, /* DBAT2U */
    { 541, 38 }, /* DBAT2L */
    { 542, 39 }, /* DBAT3U */
    { 543, 40 }, /* DBAT3L */
    { 560, 25 }, /* IBAT4U */
    { 561, 26 }, /* IBAT4L */
    { 562, 27 }, /* IBAT5U */
    { 563, 28 }, /* IBAT5L */
    { 564, 29 }, /* IBAT6U */
    { 565, 30 }, /* IBAT6L */
    { 566, 31 }, /* IBAT7U */
    { 567, 32 }, /* IBAT7L */
    { 568, 41 }, /* DBAT4U */
    { 569, 42 }, /* DBAT4L */
    { 570, 43 }, /* DBAT5U */
    { 571, 44 }, /* DBAT5L */
    { 572, 45 }, /* DBAT6U */
    { 573, 46 }, /* DBAT6L */
    { 574, 47 }, /* DBAT7U */
    { 575, 48 }, /* DBAT7L */
};

static void test_long_sprs(void)
{
    uint8_t registers[MMU_REGISTERS_SIZE_LONG];
    uint32_t spr;
    memset(registers, 0, sizeof registers);
    for (spr = 0; spr < 1024; spr++) {
        uint32_t wanted = MMU_REGISTER_NONE;
        size_t i;
        for (i = 0; i < 33; i++)
            if (long_sprs[i][0] == spr)
                wanted = long_sprs[i][1];
        expect(mmu_register_of_spr_long(spr) == wanted, "register word of an SPR on the long page", spr);
        if (wanted != MMU_REGISTER_NONE)
            expect(mmu_set_register(registers, sizeof registers, wanted, 0) == MMU_DONE, "set_register of an SPR", spr);
    }
    expect(mmu_set_register(registers, sizeof registers, mmu_register_of_spr_long(576), 0) == MMU_REFUSED_ARGUMENT,
           "set_register of an SPR that is not here", 576);
}

static void test_sprs(void)
{
    uint8_t registers[MMU_REGISTERS_SIZE];
    uint32_t spr;
    memset(registers, 0, sizeof registers);
    for (spr = 0; spr < 1024; spr++) {
        uint32_t wanted = MMU_REGISTER_NONE;
        size_t i;
        for (i = 0; i < 17; i++)
            if (sprs[i][0] == spr)
                wanted = sprs[i][1];
        expect(mmu_register_of_spr(spr) == wanted, "register word of an SPR", spr);
    }
    expect(mmu_set_register(registers, sizeof registers, mmu_register_of_spr(26), 0) == MMU_REFUSED_ARGUMENT,
           "set_register of an SPR that is not here", 26);
}

static void test_register_numbers(void)
{
    expect(MMU_REGISTER_SEGMENT(0u) == 1 && MMU_REGISTER_SEGMENT(15u) == 16, "segment numbers", 0);
    expect(MMU_REGISTER_INSTRUCTION_UPPER(1u) == mmu_register_of_spr(MMU_SPR_IBAT0U + 2), "IBAT1U", 0);
    expect(MMU_REGISTER_INSTRUCTION_LOWER(3u) == mmu_register_of_spr(MMU_SPR_IBAT0U + 7), "IBAT3L", 0);
    expect(MMU_REGISTER_DATA_UPPER(0u) == mmu_register_of_spr(MMU_SPR_DBAT0U), "DBAT0U", 0);
    expect(MMU_REGISTER_DATA_LOWER(3u) == mmu_register_of_spr(MMU_SPR_DBAT3L), "DBAT3L", 0);
    expect(MMU_REGISTER_DATA_UPPER_LONG(0u) == mmu_register_of_spr_long(MMU_SPR_DBAT0U), "DBAT0U, long", 0);
    expect(MMU_REGISTER_DATA_LOWER_LONG(7u) == mmu_register_of_spr_long(MMU_SPR_DBAT7L), "DBAT7L, long", 0);
    expect(MMU_REGISTER_INSTRUCTION_UPPER(4u) == mmu_register_of_spr_long(MMU_SPR_IBAT4U), "IBAT4U, long", 0);
    expect(MMU_REGISTERS_SIZE == 132 && MMU_REGISTER_COUNT == 33, "the names of 0.6 are the short page's", 0);
    expect(MMU_REGISTER_OFFSET(MMU_REGISTER_COUNT_SHORT) == MMU_REGISTERS_SIZE_SHORT, "length of the short page", 0);
    expect(MMU_REGISTER_OFFSET(MMU_REGISTER_COUNT_LONG) == MMU_REGISTERS_SIZE_LONG, "length of the long page", 0);
    expect(MMU_TABLE_SIZE(0x0F980007u) == 524288, "length of a table", 0);
    expect(MMU_ENTRY_OFFSET(0u, 1u) == 8 && MMU_ENTRY_OFFSET(0x3E6u, 7u) == 63928, "place of an entry", 0);
}

/* The manual's block lengths, 128 KB to 256 MB, and those of the long page, to 4 GB; of numbers of any type. */
static void test_block_lengths(void)
{
    uint32_t k;
    for (k = 0; k <= 15; k++) {
        uint32_t bl = ((1u << k) - 1u) << 2;
        expect(MMU_BLOCK_BL_OF(UINT64_C(0x20000) << k) == bl, "BL of a length", k);
        expect((bl & ~MMU_BLOCK_BL_LONG) == 0 && ((bl & ~MMU_BLOCK_BL) == 0) == (k <= 11), "BL in its place", k);
    }
    expect(MMU_BLOCK_BL_OF(0x10000000u) == 0x1FFC && MMU_BLOCK_BL_OF(128 * 1024) == 0, "BL of 32 bits", 0);
    expect(MMU_BLOCK_BL_OF(0x80000000u) == 0xFFFC && MMU_BLOCK_BL_OF(0u) == 0x1FFFC, "BL of 2 GB and of 4 GB", 0);
}

/* Results 0 to 12, 64 and 65 have a name each, every other number the same one. */
static int is_result(uint32_t number)
{
    return number <= 12 || number == 64 || number == 65;
}

static void test_result_names(void)
{
    uint32_t a, b;
    for (a = 0; a < 80; a++) {
        const char *name = mmu_result_name(a);
        int refused = strncmp(name, "refused: ", 9) == 0;
        expect(refused == (a >= 1 && a <= 12), "refusals are called so", a);
        expect((strcmp(name, mmu_result_name(1000)) == 0) == !is_result(a), "an unknown result", a);
        for (b = 0; b < a && is_result(a); b++)
            expect(strcmp(name, mmu_result_name(b)) != 0, "results of one name", a);
    }
    expect(strcmp(mmu_result_name(MMU_DONE), "done") == 0, "the name of done", 0);
    expect(strcmp(mmu_result_name(65), "instruction storage fault") == 0, "the name of 65", 65);
    expect(strcmp(mmu_result_name(9), "refused: both groups are full") == 0, "the name of 9", 9);
}

/* Document 01's fault words, data and instruction. */
static void test_cause_names(void)
{
    expect(strcmp(mmu_cause_name(0x40000000u), "no match") == 0, "cause", 1);
    expect(strcmp(mmu_cause_name(0x42000000u), "no match") == 0, "cause of a store", 2);
    expect(strcmp(mmu_cause_name(0x08000000u), "protection") == 0, "cause", 3);
    expect(strcmp(mmu_cause_name(0x0A000000u), "protection") == 0, "cause of a store", 4);
    expect(strcmp(mmu_cause_name(0x10000000u), "no execute or guarded") == 0, "cause", 5);
    expect(strcmp(mmu_cause_name(0), "unknown cause") == 0, "no cause", 6);
    expect(strcmp(mmu_cause_name(0x48000000u), "unknown cause") == 0, "two causes", 7);
}

/* Request 2's seven rules have a name each, every other number the same one. */
static void test_rule_names(void)
{
    static const char *const names[7] = { "real mode", "block", "no-execute", "no match", "guarded", "page protection",
                                          "page done" };
    uint32_t rule;
    for (rule = 0; rule < 16; rule++)
        expect(strcmp(mmu_rule_name(rule), rule < 7 ? names[rule] : "unknown rule") == 0, "the name of a rule", rule);
}

/* Key * 4 + PP taken apart. */
static void test_details(void)
{
    uint32_t key, pp;
    for (key = 0; key < 2; key++)
        for (pp = 0; pp < 4; pp++)
            expect(mmu_detail_key(key * 4 + pp) == key && mmu_detail_pp(key * 4 + pp) == pp, "key and PP", pp);
}

/* What an access wrote, all twelve words. */
static struct mmu_answer answer_of(const uint32_t words[12])
{
    uint8_t bytes[MMU_ACCESS_ANSWER_SIZE];
    uint32_t i;
    for (i = 0; i < 12; i++)
        mmu_put_word(bytes, 4 * i, words[i]);
    return mmu_read_answer(bytes);
}

static int rule_is(const struct mmu_answer *a, uint32_t rule, uint32_t detail, uint32_t group, uint32_t entry)
{
    return a->rule == rule && a->detail == detail && a->group == group && a->entry == entry;
}

static int no_second(const struct mmu_answer *a)
{
    return a->second_physical == 0 && a->second_attributes == 0 && a->second_bytes == 0;
}

static void test_done_answers(void)
{
    static const uint32_t within[12] = { 0, 0x1234501Bu, 2, 0x00FFA01Bu, 0, 0, 4, 0, 6, 5, 0x3E6, 7 };
    static const uint32_t over[12] = { 0, 0x12345FFEu, 2, 0x00FFAFFEu, 0x6789A000u, 5, 2, 6, 1, 3, 0, 0 };
    struct mmu_answer a = answer_of(within);
    expect(a.result == 0 && a.physical == 0x1234501Bu && a.attributes == 2 && a.effective == 0x00FFA01Bu, "done", 0);
    expect(a.bytes == 4 && no_second(&a), "done within one page", 0);
    expect(a.fault == 0 && a.offset == 0, "done has no fault", 0);
    expect(rule_is(&a, MMU_RULE_DONE, 5, 0x3E6, 7), "the rule of a page that is done", 6);
    a = answer_of(over);
    expect(a.physical == 0x12345FFEu && a.attributes == 2 && a.effective == 0x00FFAFFEu, "first part", 0);
    expect(a.bytes == 2, "bytes of the first part", 0);
    expect(a.second_physical == 0x6789A000u && a.second_attributes == 5 && a.second_bytes == 6, "second part", 0);
    expect(rule_is(&a, MMU_RULE_BLOCK, 3, 0, 0), "the rule of a block", 1);
}

static void test_other_answers(void)
{
    static const uint32_t fault[12] = { 65, 0x10000000u, 0x400, 0x00FFB000u, 0, 0, 0, 0, 4, 0, 0x018, 1 };
    static const uint32_t refusal[12] = { 10, 0, 0, 0, 0, 0, 0, 0, 0, 0, 0, 0 };
    struct mmu_answer a = answer_of(fault);
    expect(a.result == 65 && a.fault == 0x10000000u && a.offset == 0x400 && a.effective == 0x00FFB000u, "a fault", 65);
    expect(a.physical == 0 && a.attributes == 0 && a.bytes == 0 && no_second(&a), "a fault has no address", 65);
    expect(rule_is(&a, MMU_RULE_GUARDED, 0, 0x018, 1), "the rule of a guarded page", 4);
    a = answer_of(refusal);
    expect(a.result == 10 && !a.physical && !a.attributes && !a.fault && !a.offset && !a.effective, "a refusal", 10);
    expect(a.bytes == 0 && no_second(&a) && rule_is(&a, 0, 0, 0, 0), "a refusal has no bytes and no rule", 10);
}

/* The answer's names beside an access over the last address: real mode, one byte before it and two after. */
static void test_access(void)
{
    static uint8_t table[65536];
    uint8_t registers[MMU_REGISTERS_SIZE], bytes[MMU_ACCESS_ANSWER_SIZE];
    struct mmu_answer a;
    memset(registers, 0, sizeof registers);
    expect(mmu_access(registers, sizeof registers, 0, MMU_LOAD, 0xFFFFFFFFu, 3, table, sizeof table, bytes,
                      sizeof bytes) == MMU_DONE, "access", 0);
    a = mmu_read_answer(bytes);
    expect(a.physical == 0xFFFFFFFFu && a.attributes == MMU_ATTRIBUTES_REAL && a.bytes == 1, "first part", 1);
    expect(a.second_physical == 0 && a.second_attributes == MMU_ATTRIBUTES_REAL, "second part", 2);
    expect(a.second_bytes == 2 && a.effective == 0xFFFFFFFFu, "bytes of the second part", 2);
    expect(rule_is(&a, MMU_RULE_REAL, 0, 0, 0), "the rule of real mode", 0);
    expect(mmu_access(registers, sizeof registers, 0, MMU_LOAD, 0, MMU_LONGEST_OPERAND + 1, table, sizeof table, bytes,
                      sizeof bytes) == MMU_REFUSED_OPERAND_LENGTH, "access to too many bytes", 129);
}

/* A long page whose eighth data pair is a block of 4 GB: it holds the last address too. */
static void test_long_page(void)
{
    static uint8_t table[65536];
    uint8_t registers[MMU_REGISTERS_SIZE_LONG], bytes[MMU_ACCESS_ANSWER_SIZE];
    struct mmu_answer a;
    memset(registers, 0, sizeof registers);
    expect(mmu_set_register(registers, sizeof registers, MMU_REGISTER_DATA_LOWER_LONG(7u), 2) == MMU_DONE,
           "DBAT7L", 48);
    expect(mmu_set_register(registers, sizeof registers, MMU_REGISTER_DATA_UPPER_LONG(7u),
                            MMU_BLOCK_BL_OF(UINT64_C(1) << 32) | MMU_BLOCK_VS) == MMU_DONE, "DBAT7U", 47);
    expect(mmu_access(registers, sizeof registers, MMU_MODE_DR, MMU_STORE, 0xFFFFFFFCu, 4, table, sizeof table, bytes,
                      sizeof bytes) == MMU_DONE, "access by a block of 4 GB", 0);
    a = mmu_read_answer(bytes);
    expect(a.physical == 0xFFFFFFFCu && rule_is(&a, MMU_RULE_BLOCK, 7, 0, 0), "the eighth block", 7);
    expect(mmu_access(registers, MMU_REGISTERS_SIZE_SHORT, MMU_MODE_DR, MMU_STORE, 0xFFFFFFFCu, 4, table, sizeof table,
                      bytes, sizeof bytes) == MMU_DATA_STORAGE_FAULT, "the same page, lent short", 64);
}

/* The names of the record beside a store of the supervisor, whose key is 0, to a page of PP 3. */
static void test_access_by_page(void)
{
    static uint8_t table[65536];
    uint8_t registers[MMU_REGISTERS_SIZE], bytes[MMU_ACCESS_ANSWER_SIZE];
    struct mmu_answer a;
    memset(registers, 0, sizeof registers);
    mmu_put_word(registers, MMU_REGISTER_OFFSET(MMU_REGISTER_SDR1), 0x0F980000u);
    mmu_put_word(registers, MMU_REGISTER_OFFSET(MMU_REGISTER_SEGMENT(0u)), MMU_SEGMENT_KP | 0x0C701Cu);
    expect(mmu_map(0x0F980000u, 0x0C701Cu, 0x0FFA, 0x12345, 2, 3, table, sizeof table) == MMU_DONE, "map", 0);
    expect(mmu_access(registers, sizeof registers, MMU_MODE_DR, MMU_STORE, 0x00FFA01Bu, 4, table, sizeof table, bytes,
                      sizeof bytes) == MMU_DATA_STORAGE_FAULT, "access", 64);
    a = mmu_read_answer(bytes);
    expect(rule_is(&a, MMU_RULE_PROTECTION, 3, 0x3E6, 0), "the rule of page protection", 5);
    expect(mmu_get_word(table, MMU_ENTRY_OFFSET(a.group, a.entry)) == 0x86380E03u, "the entry used", 5);
}

/* The names of the cache beside a load, the same again by the cache, an unmap and its invalidate. */
static void test_access_cached(void)
{
    static uint8_t table[65536], cache[MMU_CACHE_SIZE];
    uint8_t registers[MMU_REGISTERS_SIZE], bytes[MMU_ACCESS_ANSWER_SIZE], second[MMU_ANSWER_SIZE];
    uint32_t number, wanted[4] = { MMU_DONE, MMU_DONE, MMU_DONE, MMU_DATA_STORAGE_FAULT };
    size_t at = MMU_CACHE_SET_SIZE * (0x0FFAu % MMU_CACHE_SETS);
    struct mmu_answer a;
    memset(registers, 0, sizeof registers);
    memset(cache, 0, sizeof cache);
    mmu_put_word(registers, MMU_REGISTER_OFFSET(MMU_REGISTER_SDR1), 0x0F980000u);
    mmu_put_word(registers, MMU_REGISTER_OFFSET(MMU_REGISTER_SEGMENT(0u)), 0x0C701Cu);
    expect(mmu_map(0x0F980000u, 0x0C701Cu, 0x0FFA, 0x12345, 2, 2, table, sizeof table) == MMU_DONE, "map", 0);
    for (number = 0; number < 4; number++) {
        if (number == 2)
            expect(mmu_unmap(0x0F980000u, 0x0C701Cu, 0x0FFA, table, sizeof table, second, sizeof second) == MMU_DONE,
                   "unmap", 0);
        if (number == 3)
            expect(mmu_invalidate(0x0FFA, cache, sizeof cache) == MMU_DONE, "invalidate", 0);
        expect(mmu_access_cached(registers, sizeof registers, MMU_MODE_DR, MMU_LOAD, 0x00FFA01Bu, 4, table,
                                 sizeof table, cache, sizeof cache, bytes, sizeof bytes) == wanted[number],
               "access with a cache", number);
        a = mmu_read_answer(bytes);
        if (number < 3)
            expect(a.physical == 0x1234501Bu && rule_is(&a, MMU_RULE_DONE, 2, 0x3E6, number ? MMU_HIT_ENTRY : 0),
                   "by the table, then by the cache", number);
        if (number < 3)
            expect(mmu_get_word(cache, at) == 0x86380E03u && mmu_get_word(cache, at + 4) == 0x12345112u
                       && mmu_get_word(cache, at + 8) == 0x0FFA && mmu_get_word(cache, at + 12) == 1, "place", number);
    }
    expect(mmu_get_word(cache, at) == 0 && mmu_get_word(cache, at + MMU_CACHE_PLACE_SIZE) == 0, "an empty set", 0);
    expect(MMU_CACHE_SETS * MMU_CACHE_SET_SIZE == MMU_CACHE_SIZE, "sets of the cache", 64);
    expect(MMU_CACHE_SET_SIZE == 2 * MMU_CACHE_PLACE_SIZE, "places of a set", 2);
    expect(mmu_invalidate(0x10000, cache, sizeof cache) == MMU_REFUSED_ARGUMENT, "invalidate of no page index", 6);
}

/* The names of rights beside a page of PP 2 that was loaded from: a store would still set C. */
static void test_rights(void)
{
    static const uint32_t marks[3] = { 0, 0, MMU_SECOND_C };
    static uint8_t table[65536];
    uint8_t registers[MMU_REGISTERS_SIZE], bytes[MMU_ACCESS_ANSWER_SIZE], rights[MMU_RIGHTS_SIZE];
    uint32_t kind;
    memset(registers, 0, sizeof registers);
    mmu_put_word(registers, MMU_REGISTER_OFFSET(MMU_REGISTER_SDR1), 0x0F980000u);
    mmu_put_word(registers, MMU_REGISTER_OFFSET(MMU_REGISTER_SEGMENT(0u)), 0x0C701Cu);
    expect(mmu_map(0x0F980000u, 0x0C701Cu, 0x0FFA, 0x12345, 2, 2, table, sizeof table) == MMU_DONE, "map", 0);
    expect(mmu_access(registers, sizeof registers, MMU_MODE_DR, MMU_LOAD, 0x00FFA01Bu, 1, table, sizeof table, bytes,
                      sizeof bytes) == MMU_DONE, "access", 0);
    expect(mmu_rights(registers, sizeof registers, MMU_MODE_IR | MMU_MODE_DR, 0x00FFA01Bu, table, sizeof table, rights,
                      sizeof rights) == MMU_DONE, "rights", 0);
    for (kind = MMU_FETCH; kind <= MMU_STORE; kind++) {
        struct mmu_answer a = mmu_read_answer(rights + MMU_RIGHTS_ANSWER(kind));
        expect(a.result == MMU_DONE && a.physical == 0x1234501Bu && a.bytes == 1, "a kind that would be done", kind);
        expect(rule_is(&a, MMU_RULE_DONE, 2, 0x3E6, 0), "its rule", kind);
        expect(mmu_get_word(rights, MMU_RIGHTS_MARKS(kind)) == marks[kind], "its marks", kind);
    }
    expect(MMU_RIGHTS_ANSWER(3u) == MMU_RIGHTS_MARKS(0u), "the marks follow the answers", 0);
    expect(MMU_RIGHTS_MARKS(3u) == MMU_RIGHTS_SIZE, "the marks end the answer", 0);
    expect(mmu_rights(registers, sizeof registers, 8, 0, table, sizeof table, rights, sizeof rights)
               == MMU_REFUSED_ARGUMENT, "rights of no mode", 6);
}

int main(void)
{
    uint8_t fields[MMU_FIELDS_SIZE];
    expect(mmu_unpack(0x86380E03u, 0x12345012u, fields, sizeof fields) == MMU_DONE, "unpack", 0);
    expect(mmu_get_word(fields, MMU_FIELD_RPN) == 0x12345u, "a field", 0);
    test_sprs();
    test_long_sprs();
    test_register_numbers();
    test_block_lengths();
    test_result_names();
    test_cause_names();
    test_rule_names();
    test_details();
    test_done_answers();
    test_other_answers();
    test_access();
    test_long_page();
    test_access_by_page();
    test_access_cached();
    test_rights();
    return failures ? 1 : 0;
}
