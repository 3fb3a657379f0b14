/*
 * A TLB in front: two cores run the same random calls, one of them by the guide's TLB. Their answers and the bytes of
 * their tables must stay equal; and they must not where one line of the guide's table of what must go is left out, or a
 * store is answered by what a load left.
 */
#include "expect.h"
#include "random.h"

#include "core.inc"
#include "access.inc"
#include "tlb.inc"

enum { SIZE = 0x20000, TABLE = 0x10000, CALLS = 40000 };
enum left_out { NOTHING, UNMAP, PROTECT, CLEAR, REGISTERS, KIND, FLAWS };

#define SDR1 0x00010000u

static uint8_t memories[2][SIZE];
static struct core cores[2];
static struct tlb tlb;
static unsigned long over_edge; /* Accesses that were done in two parts. */

/* Registers of both cores: a segment's VSID, keys and N, or a data block on and off. */
static void change_registers(enum left_out flaw)
{
    uint32_t number = MMU_REGISTER_SEGMENT(below(3)), word = some_vsid() | below(8) << 28, i;
    if (below(4) == 0) {
        number = MMU_REGISTER_DATA_UPPER_LONG(0);
        word = below(2) ? 0x00000003u : 0;
    }
    word &= number == MMU_REGISTER_DATA_UPPER_LONG(0) ? 0xFFFFFFFFu : ~MMU_SEGMENT_T;
    for (i = 0; i < 2; i++)
        EXPECT(mmu_set_register(cores[i].registers, sizeof cores[i].registers, number, word) == MMU_DONE);
    if (flaw != REGISTERS)
        drop_all(&tlb);
}

/* One call on the pages of both tables; both must answer the same. */
static void change_table(enum left_out flaw)
{
    uint32_t call = below(40), vsid = some_vsid(), page = some_page(), rpn = below(8), pp = below(4), results[2], i;
    for (i = 0; i < 2; i++) {
        uint8_t *table = memories[i] + TABLE, answer[MMU_ANSWER_SIZE];
        if (call < 20)
            results[i] = mmu_map(SDR1, vsid, page, rpn, 2, pp, table, 65536);
        else if (call < 30)
            results[i] = mmu_unmap(SDR1, vsid, page, table, 65536, answer, sizeof answer);
        else if (call < 39)
            results[i] = mmu_protect(SDR1, vsid, page, pp, table, 65536);
        else
            results[i] = mmu_clear(SDR1, table, 65536);
    }
    EXPECT(results[0] == results[1] || flaw != NOTHING);
    if ((call >= 20 && call < 30 && flaw != UNMAP) || (call >= 30 && call < 39 && flaw != PROTECT))
        drop_page(&tlb, page);
    if (call == 39 && flaw != CLEAR)
        drop_all(&tlb);
}

/* One access of both cores, every other one over or up to a page's end; whether they answer the same. */
static int access_agrees(enum left_out flaw)
{
    uint32_t length = 1 + below(MMU_LONGEST_OPERAND + 1), kind = below(3);
    uint32_t in_page = below(2) ? below(4096) : 4095 - below(length);
    uint32_t address = below(3) << 28 | some_page() << 12 | in_page;
    struct mmu_answer a, b;
    cores[0].msr = cores[1].msr = below(2) << 14 | (below(4) ? 0x30 : below(4) << 4);
    a = translate(&cores[0], kind, address, length);
    b = translate_by_tlb(&tlb, &cores[1], flaw == KIND && kind == MMU_STORE ? MMU_LOAD : kind, address, length);
    over_edge += a.second_bytes != 0;
    return same_answer(&a, &b) && (a.result == MMU_DONE || same_rule(&a, &b));
}

/* How many calls the two agree on, CALLS if they never differ. */
static int run(enum left_out flaw)
{
    int call, i;
    state = 2463534242u;
    drop_all(&tlb);
    for (i = 0; i < 2; i++) {
        memset(memories[i], 0, SIZE);
        memset(&cores[i], 0, sizeof cores[i]);
        cores[i].memory = memories[i];
        cores[i].memory_size = SIZE;
        EXPECT(mmu_set_register(cores[i].registers, sizeof cores[i].registers, MMU_REGISTER_SDR1, SDR1) == MMU_DONE);
        EXPECT(mmu_set_register(cores[i].registers, sizeof cores[i].registers, MMU_REGISTER_DATA_LOWER_LONG(0),
                                0x00040002) == 0);
    }
    for (call = 0; call < CALLS; call++) {
        uint32_t choice = below(256);
        if (choice == 0)
            change_registers(flaw);
        else if (choice < 16)
            change_table(flaw);
        else if (!access_agrees(flaw))
            return call;
        if (memcmp(memories[0], memories[1], SIZE) != 0)
            return call;
    }
    return CALLS;
}

int main(void)
{
    int flaw;
    EXPECT(run(NOTHING) == CALLS && over_edge > 100);
    for (flaw = UNMAP; flaw < FLAWS; flaw++)
        EXPECT(run((enum left_out)flaw) < CALLS);
    return 0;
}
