/*
 * The library's cache in front: two cores run the same random calls, one of them with a cache. Their answers but the
 * entry number, and the bytes of their tables, must stay equal; and they must not where one line of the guide's table
 * of what a core does is left out. Registers change, and nothing of the cache goes.
 */
#include "expect.h"
#include "random.h"

#include "core.inc"
#include "access.inc"
#include "cache.inc"

enum { SIZE = 0x20000, CALLS = 40000 };
enum left_out { NOTHING, UNMAP, PROTECT, CLEAR, NEW_TABLE, OTHER_WRITER, EARLY, REFUSED, NOT_ZEROS, FLAWS };

/* Two tables, in the two halves of memory. */
static const uint32_t sdr1s[2] = { 0x00000000u, 0x00010000u };

static uint8_t memories[2][SIZE];
static struct core cores[2];
static uint8_t cache[MMU_CACHE_SIZE];
static uint32_t now; /* Which table is in use. */
static unsigned long hits, hit_faults, over_edge;

/* Registers of both cores: a segment's VSID, keys and N, or a data block on and off. The cache stays as it is. */
static void change_registers(void)
{
    uint32_t number = MMU_REGISTER_SEGMENT(below(3)), word = some_vsid() | below(8) << 28, i;
    word &= ~MMU_SEGMENT_T;
    if (below(4) == 0) {
        number = MMU_REGISTER_DATA_UPPER_LONG(0);
        word = below(2) ? 0x00000003u : 0;
    }
    for (i = 0; i < 2; i++)
        EXPECT(mmu_set_register(cores[i].registers, sizeof cores[i].registers, number, word) == MMU_DONE);
}

/* The other table. */
static void change_table_in_use(enum left_out flaw)
{
    uint32_t i;
    now = 1 - now;
    for (i = 0; i < 2; i++)
        EXPECT(mmu_set_register(cores[i].registers, sizeof cores[i].registers, MMU_REGISTER_SDR1, sdr1s[now]) == 0);
    if (flaw != NEW_TABLE)
        tlbia(cache);
}

/* Another writer of both tables: an entry's frame. */
static void write_table(enum left_out flaw)
{
    uint32_t vsid = some_vsid(), page = some_page(), i;
    for (i = 0; i < 2; i++) {
        uint8_t *table = memories[i] + sdr1s[now];
        size_t at = MMU_ENTRY_OFFSET((vsid ^ page) & 0x3FFu, 0);
        if (mmu_get_word(table, at) == (MMU_FIRST_V | vsid << MMU_FIRST_VSID_SHIFT | page >> 10))
            table[at + MMU_ENTRY_SECOND] ^= 0x10;
    }
    if (flaw != OTHER_WRITER)
        tlbie(cache, page << 12);
}

/* One call on the pages of both tables; both must answer the same. */
static void change_table(enum left_out flaw)
{
    uint32_t call = below(40), vsid = some_vsid(), page = some_page(), rpn = below(8), pp = below(4), results[2], i;
    int drops = (call >= 20 && call < 30 && flaw != UNMAP) || (call >= 30 && call < 39 && flaw != PROTECT);
    if (drops && flaw == EARLY) {
        tlbie(cache, page << 12);
        cores[1].msr = 0x30;
        translate_cached(cache, &cores[1], MMU_LOAD, page << 12, 1);
    }
    for (i = 0; i < 2; i++) {
        uint8_t *table = memories[i] + sdr1s[now], answer[MMU_ANSWER_SIZE];
        if (call < 20)
            results[i] = mmu_map(sdr1s[now], vsid, page, rpn, 2, pp, table, 65536);
        else if (call < 30)
            results[i] = mmu_unmap(sdr1s[now], vsid, page, table, 65536, answer, sizeof answer);
        else if (call < 39)
            results[i] = mmu_protect(sdr1s[now], vsid, page, pp, table, 65536);
        else
            results[i] = mmu_clear(sdr1s[now], table, 65536);
    }
    EXPECT(results[0] == results[1] || flaw != NOTHING);
    if (drops && flaw == REFUSED)
        EXPECT(mmu_invalidate(page + 0x10000u, cache, sizeof cache) == MMU_REFUSED_ARGUMENT);
    else if (drops && flaw != EARLY && results[0] == MMU_DONE)
        tlbie(cache, below(16) << 28 | page << 12 | below(4096));
    if (call == 39 && flaw != CLEAR)
        tlbia(cache);
}

/* One access of both cores, every other one over or up to a page's end; whether they answer the same. */
static int access_agrees(void)
{
    uint32_t length = 1 + below(MMU_LONGEST_OPERAND + 1), kind = below(3);
    uint32_t in_page = below(2) ? below(4096) : 4095 - below(length);
    uint32_t address = below(3) << 28 | some_page() << 12 | in_page;
    struct mmu_answer a, b;
    cores[0].msr = cores[1].msr = below(2) << 14 | (below(4) ? 0x30 : below(4) << 4);
    a = translate(&cores[0], kind, address, length);
    b = translate_cached(cache, &cores[1], kind, address, length);
    over_edge += a.second_bytes != 0;
    if (b.entry == MMU_HIT_ENTRY && a.entry != MMU_HIT_ENTRY) {
        hits++;
        hit_faults += b.result != MMU_DONE;
        b.entry = a.entry;
    }
    return same_answer(&a, &b) && same_rule(&a, &b);
}

static void start(enum left_out flaw)
{
    uint32_t i;
    state = 2463534242u;
    now = 1;
    tlbia(cache);
    if (flaw == NOT_ZEROS) {
        mmu_put_word(cache, 0, MMU_FIRST_V); /* Page 0 of VSID 0, which every segment register has at the start. */
        mmu_put_word(cache, 4, 0x00001192u);
    }
    for (i = 0; i < 2; i++) {
        memset(memories[i], 0, SIZE);
        memset(&cores[i], 0, sizeof cores[i]);
        cores[i].memory = memories[i];
        cores[i].memory_size = SIZE;
        EXPECT(mmu_set_register(cores[i].registers, sizeof cores[i].registers, MMU_REGISTER_SDR1, sdr1s[now]) == 0);
        EXPECT(mmu_set_register(cores[i].registers, sizeof cores[i].registers, MMU_REGISTER_DATA_LOWER_LONG(0),
                                0x00040002) == 0);
    }
}

/* How many calls the two agree on, CALLS if they never differ. */
static int run(enum left_out flaw)
{
    int call;
    start(flaw);
    for (call = 0; call < CALLS; call++) {
        uint32_t choice = below(512);
        if (choice < 4)
            change_registers();
        else if (choice == 4)
            change_table_in_use(flaw);
        else if (choice < 8)
            write_table(flaw);
        else if (choice < 40)
            change_table(flaw);
        else if (!access_agrees())
            return call;
        if (memcmp(memories[0], memories[1], SIZE) != 0)
            return call;
    }
    return CALLS;
}

/* Zeros in all bytes are what invalidates of 0 to 63 leave. */
static void test_all_sets(void)
{
    uint8_t other[MMU_CACHE_SIZE];
    uint32_t i;
    memset(cache, 0xA5, sizeof cache);
    memset(other, 0xA5, sizeof other);
    tlbia(cache);
    for (i = 0; i < MMU_CACHE_SETS; i++)
        EXPECT(mmu_invalidate(i, other, sizeof other) == MMU_DONE);
    EXPECT(memcmp(cache, other, sizeof cache) == 0);
}

int main(void)
{
    int flaw;
    test_all_sets();
    EXPECT(run(NOTHING) == CALLS && over_edge > 100 && hits > 1000 && hit_faults > 100);
    for (flaw = UNMAP; flaw < FLAWS; flaw++)
        EXPECT(run((enum left_out)flaw) < CALLS);
    return 0;
}
