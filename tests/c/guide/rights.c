/*
 * Rights for a TLB: two cores run the same random calls, one of them by the guide's entries, one for a page and all
 * kinds. Their answers and the bytes of their tables must stay equal; and they must not where an invalidate is left
 * out, or one of the three conditions, which is made true in what the entries are filled by.
 */
#include "expect.h"
#include "random.h"

#include "core.inc"
#include "access.inc"

enum { SIZE = 0x20000, TABLE = 0x10000, CALLS = 40000 };
enum left_out { NOTHING, UNMAP, PROTECT, CLEAR, REGISTERS, IS_DONE, NO_MARKS, SAME_FRAME, FLAWS };

#define SDR1 0x00010000u

static enum left_out flaw;
static struct mmu_answer last;  /* What the access before the rights answered. */
static unsigned long answered[3], over_edge; /* Accesses that an entry did, by kind, and those done in two parts. */

/* The rights, spoiled where a condition is left out. */
static uint32_t rights_for_entry(const uint8_t *registers, size_t registers_len, uint32_t mode, uint32_t address,
                                 const uint8_t *table, size_t table_len, uint8_t *answer, size_t answer_len)
{
    uint32_t got = mmu_rights(registers, registers_len, mode, address, table, table_len, answer, answer_len), kind;
    for (kind = MMU_FETCH; kind <= MMU_STORE; kind++) {
        uint8_t *of_kind = answer + MMU_RIGHTS_ANSWER(kind);
        int done = mmu_get_word(of_kind, MMU_ANSWER_RESULT) == MMU_DONE;
        if (flaw == NO_MARKS)
            mmu_put_word(answer, MMU_RIGHTS_MARKS(kind), 0);
        if (flaw == IS_DONE)
            mmu_put_word(of_kind, MMU_ANSWER_RESULT, MMU_DONE);
        if ((flaw == SAME_FRAME && done) || (flaw == IS_DONE && !done)) {
            mmu_put_word(of_kind, MMU_ANSWER_PHYSICAL, last.physical);
            mmu_put_word(of_kind, MMU_ANSWER_ATTRIBUTES, last.attributes);
        }
    }
    return got;
}

#define mmu_rights rights_for_entry
#define translate(core, kind, address, length) (last = translate(core, kind, address, length))
#include "rights.inc"
#undef mmu_rights
#undef translate

static uint8_t memories[2][SIZE];
static struct core cores[2];
static struct page_entry entries[PAGES];
static uint32_t used; /* The page that is accessed now, by its first address. */

static void drop_entries(void)
{
    memset(entries, 0, sizeof entries);
}

/* Registers of both cores: a segment's VSID, keys and N, or a block of either side on and off. */
static void change_registers(void)
{
    uint32_t number = MMU_REGISTER_SEGMENT(below(3)), word = some_vsid() | below(8) << 28, i;
    word &= ~MMU_SEGMENT_T;
    if (below(2) == 0) {
        number = below(2) ? MMU_REGISTER_DATA_UPPER_LONG(0) : MMU_REGISTER_INSTRUCTION_UPPER(0);
        word = below(2) ? 0x00000003u : 0;
    }
    for (i = 0; i < 2; i++)
        EXPECT(mmu_set_register(cores[i].registers, sizeof cores[i].registers, number, word) == MMU_DONE);
    if (flaw != REGISTERS)
        drop_entries();
}

/* One call on the pages of both tables, often on the page in use; both must answer the same. */
static void change_table(void)
{
    uint32_t segment = mmu_get_word(cores[0].registers, MMU_REGISTER_OFFSET(MMU_REGISTER_SEGMENT(used >> 28)));
    int in_use = below(2) == 0;
    uint32_t vsid = in_use ? segment & MMU_SEGMENT_VSID : some_vsid();
    uint32_t page = in_use ? used >> 12 & 0xFFFFu : some_page();
    uint32_t call = below(40), rpn = below(8), wimg = below(4), pp = below(4), results[2], i;
    for (i = 0; i < 2; i++) {
        uint8_t *table = memories[i] + TABLE, answer[MMU_ANSWER_SIZE];
        if (call < 20)
            results[i] = mmu_map(SDR1, vsid, page, rpn, wimg, pp, table, 65536);
        else if (call < 30)
            results[i] = mmu_unmap(SDR1, vsid, page, table, 65536, answer, sizeof answer);
        else if (call < 39)
            results[i] = mmu_protect(SDR1, vsid, page, pp, table, 65536);
        else
            results[i] = mmu_clear(SDR1, table, 65536);
    }
    EXPECT(results[0] == results[1] || flaw != NOTHING);
    if ((call >= 20 && call < 30 && flaw != UNMAP) || (call >= 30 && call < 39 && flaw != PROTECT))
        entries[page & (PAGES - 1)].tag = 0;
    if (call == 39 && flaw != CLEAR)
        drop_entries();
}

/* One access of both cores, often in the page of the one before and to its end or over it; whether they agree. */
static int access_agrees(void)
{
    uint32_t length = 1 + below(MMU_LONGEST_OPERAND + 1), kind = below(3), address;
    struct mmu_answer a, b;
    if (below(4) == 0) {
        used = below(3) << 28 | some_page() << 12;
        cores[0].msr = cores[1].msr = below(2) << 14 | (below(4) ? 0x30 : below(4) << 4);
    }
    address = used | (below(4) ? below(4096) : 4095 - below(length));
    a = translate(&cores[0], kind, address, length);
    memset(&last, 0, sizeof last);
    b = translate_by_entry(entries, &cores[1], kind, address, length);
    answered[kind] += b.result == MMU_DONE && last.bytes == 0;
    over_edge += b.second_bytes != 0;
    return same_answer(&a, &b) && (a.result == MMU_DONE || same_rule(&a, &b));
}

static void start(void)
{
    uint32_t i;
    state = 2463534242u;
    drop_entries();
    for (i = 0; i < 2; i++) {
        uint8_t *registers = cores[i].registers;
        memset(memories[i], 0, SIZE);
        memset(&cores[i], 0, sizeof cores[i]);
        cores[i].memory = memories[i];
        cores[i].memory_size = SIZE;
        EXPECT(mmu_set_register(registers, sizeof cores[i].registers, MMU_REGISTER_SDR1, SDR1) == 0);
        EXPECT(mmu_set_register(registers, sizeof cores[i].registers, MMU_REGISTER_DATA_LOWER_LONG(0), 0x40002) == 0);
        EXPECT(mmu_set_register(registers, sizeof cores[i].registers, MMU_REGISTER_INSTRUCTION_LOWER(0), 0x60001) == 0);
    }
}

/* How many calls the two agree on, CALLS if they never differ. */
static int run(void)
{
    int call;
    start();
    for (call = 0; call < CALLS; call++) {
        uint32_t choice = below(512);
        if (choice < 2)
            change_registers();
        else if (choice < 16)
            change_table();
        else if (!access_agrees())
            return call;
        if (memcmp(memories[0], memories[1], SIZE) != 0)
            return call;
    }
    return CALLS;
}

int main(void)
{
    int i;
    flaw = NOTHING;
    EXPECT(run() == CALLS && over_edge > 100);
    EXPECT(answered[MMU_FETCH] > 1000 && answered[MMU_LOAD] > 1000 && answered[MMU_STORE] > 1000);
    for (i = UNMAP; i < FLAWS; i++) {
        flaw = (enum left_out)i;
        EXPECT(run() < CALLS);
    }
    return 0;
}
