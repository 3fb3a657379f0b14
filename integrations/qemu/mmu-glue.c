/*
 * libmmu as the MMU of qemu-system-ppc. QEMU asks for a translation when its own TLB has none; the glue lends the
 * library the register page and the guest's page table, and gives QEMU what the library answers.
 *
 * PPC_MMU=own      QEMU's code; the library is not asked
 * PPC_MMU=library  the library; a refusal is counted and falls back to QEMU's code
 * PPC_MMU=both     as library, and QEMU's code answers each access first on the same table; differences are counted
 */
#include "qemu/osdep.h"
#include "cpu.h"
#include "exec/exec-all.h"
#include "internal.h"
#include "mmu-hash32.h"
#include "mmu-books.h"
#include "mmu-glue.h"
#include "mmu-counts.h"
#include "mmu-question.h"

const int mmu_right_of[KINDS] = { PAGE_EXEC, PAGE_READ, PAGE_WRITE };

static enum { NOT_STARTED, OWN, LIBRARY, BOTH } setting;

/* The register page of the processor page_of; it has to be filled anew where that is NULL or another. */
static uint8_t page[MMU_REGISTERS_SIZE_LONG];
static size_t page_size;
static const CPUPPCState *page_of;

static void start(void)
{
    const char *name = getenv("PPC_MMU");
    setting = OWN;
    if (name == NULL || strcmp(name, "own") == 0)
        return;
    if (strcmp(name, "library") != 0 && strcmp(name, "both") != 0) {
        fprintf(stderr, "PPC_MMU is own, library or both, not %s\n", name);
        exit(2);
    }
    setting = name[0] == 'l' ? LIBRARY : BOTH;
    atexit(mmu_report);
}

/* ---- Register page ---------------------------------------------------------------------------- */

size_t mmu_fill_page(const CPUPPCState *env, uint8_t *to)
{
    bool wide = env->nb_BATs > 4;
    uint32_t i, pairs = wide ? 8 : 4;
    uint32_t data = wide ? MMU_REGISTER_DATA_UPPER_LONG(0) : MMU_REGISTER_DATA_UPPER(0);
    mmu_put_word(to, MMU_REGISTER_OFFSET(MMU_REGISTER_SDR1), env->spr[SPR_SDR1]);
    for (i = 0; i < 16; i++)
        mmu_put_word(to, MMU_REGISTER_OFFSET(MMU_REGISTER_SEGMENT(i)), env->sr[i]);
    for (i = 0; i < pairs; i++) {
        mmu_put_word(to, MMU_REGISTER_OFFSET(MMU_REGISTER_INSTRUCTION_UPPER(i)), env->IBAT[0][i]);
        mmu_put_word(to, MMU_REGISTER_OFFSET(MMU_REGISTER_INSTRUCTION_LOWER(i)), env->IBAT[1][i]);
        mmu_put_word(to, MMU_REGISTER_OFFSET(data + 2 * i), env->DBAT[0][i]);
        mmu_put_word(to, MMU_REGISTER_OFFSET(data + 2 * i + 1), env->DBAT[1][i]);
    }
    return wide ? MMU_REGISTERS_SIZE_LONG : MMU_REGISTERS_SIZE_SHORT;
}

static void current_page(const CPUPPCState *env)
{
    if (page_of != env)
        page_size = mmu_fill_page(env, page);
    page_of = env;
}

static uint32_t register_number(enum mmu_glue_register which, uint32_t index)
{
    bool wide = page_size == MMU_REGISTERS_SIZE_LONG;
    uint32_t data = wide ? MMU_REGISTER_DATA_UPPER_LONG(index) : MMU_REGISTER_DATA_UPPER(index);
    switch (which) {
    case MMU_GLUE_SDR1: return MMU_REGISTER_SDR1;
    case MMU_GLUE_SEGMENT: return MMU_REGISTER_SEGMENT(index);
    case MMU_GLUE_IBATU: return MMU_REGISTER_INSTRUCTION_UPPER(index);
    case MMU_GLUE_IBATL: return MMU_REGISTER_INSTRUCTION_LOWER(index);
    case MMU_GLUE_DBATU: return data;
    default: return data + 1;
    }
}

void mmu_glue_forget(void)
{
    page_of = NULL;
}

void mmu_glue_stored(CPUPPCState *env, enum mmu_glue_register which, uint32_t index, uint32_t word)
{
    uint32_t result;
    if (setting != LIBRARY && setting != BOTH)
        return;
    /* A page filled after the store is no less right: the result tells of the set with the new word in it. */
    current_page(env);
    result = mmu_set_register(page, page_size, register_number(which, index), word);
    mmu_counts.stores++;
    if (result != MMU_DONE)
        mmu_counts.stores_refused[result % RESULTS]++;
    /* QEMU keeps segment registers as they were stored; it clears bits of the others, also of a pair's other word. */
    if (result != MMU_DONE || which != MMU_GLUE_SEGMENT)
        page_of = NULL;
}

/* ---- The library asked ------------------------------------------------------------------------ */

static uint32_t marks_of(const struct question *q, uint32_t kind)
{
    return mmu_get_word(q->rights, MMU_RIGHTS_MARKS(kind));
}

/* A table that is not in one piece of the guest's memory cannot be lent. */
static bool lend_table(struct question *q)
{
    AddressSpace *space = CPU(q->cpu)->as;
    uint32_t sdr1 = q->cpu->env.spr[SPR_SDR1];
    hwaddr length = q->table_size = MMU_TABLE_SIZE(sdr1);
    q->table = address_space_map(space, sdr1 & MMU_SDR1_ORIGIN, &length, true, MEMTXATTRS_UNSPECIFIED);
    if (q->table != NULL && length < q->table_size) {
        address_space_unmap(space, q->table, length, true, 0);
        q->table = NULL;
    }
    return q->table != NULL;
}

/* Which entry was marked is in the answer's record; QEMU's dirty log wants to know it. */
static void tell_dirty(const struct question *q)
{
    AddressSpace *space = CPU(q->cpu)->as;
    hwaddr length = MMU_ENTRY_SIZE, origin = q->cpu->env.spr[SPR_SDR1] & MMU_SDR1_ORIGIN;
    void *entry = address_space_map(space, origin + MMU_ENTRY_OFFSET(q->answer.group, q->answer.entry), &length, true,
                                    MEMTXATTRS_UNSPECIFIED);
    mmu_counts.told_dirty++;
    mmu_counts.set_r += (q->marks & MMU_SECOND_R) != 0;
    mmu_counts.set_c += (q->marks & MMU_SECOND_C) != 0;
    address_space_unmap(space, entry, length, true, length);
}

/* All three rights at once, and nothing is marked; the access itself is made where it would mark, or is compared. */
static void ask(struct question *q, bool guest_visible)
{
    uint8_t bytes[MMU_ACCESS_ANSWER_SIZE];
    uint32_t refusal = mmu_rights(q->page, q->page_size, q->mode, q->address, q->table, q->table_size, q->rights,
                                  sizeof q->rights);
    q->answer = mmu_read_answer(mmu_question_answer(q, q->kind));
    q->result = refusal != MMU_DONE ? refusal : q->answer.result;
    q->marks = guest_visible && q->result == MMU_DONE ? marks_of(q, q->kind) : 0;
    if (q->marks == 0 && (setting != BOTH || !guest_visible))
        return;
    mmu_access(q->page, q->page_size, q->mode, q->kind, q->address, 1, q->table, q->table_size, bytes, sizeof bytes);
    if (memcmp(bytes, mmu_question_answer(q, q->kind), sizeof bytes) != 0)
        mmu_count_class(CLASS_UNEXPLAINED, "mmu_rights and mmu_access differ");
    if (q->marks != 0)
        tell_dirty(q);
}

/* Rights that may go into QEMU's TLB: those that the same page gives without a further mark. */
int mmu_question_rights(const struct question *q)
{
    int rights = 0;
    uint32_t kind;
    for (kind = 0; kind < KINDS; kind++) {
        struct mmu_answer answer = mmu_read_answer(mmu_question_answer(q, kind));
        if (answer.result == MMU_DONE && answer.physical == q->answer.physical && !(marks_of(q, kind) & ~q->marks))
            rights |= mmu_right_of[kind];
    }
    return rights;
}

/* ---- What QEMU calls -------------------------------------------------------------------------- */

static void count(const struct question *q)
{
    char name[120];
    if (mmu_question_refused(q)) {
        mmu_counts.refused[q->result]++;
        return;
    }
    mmu_counts.rules[q->answer.rule % RULES]++;
    mmu_counts.high_pairs += q->answer.rule == MMU_RULE_BLOCK && q->answer.detail >= 4;
    if (q->result == MMU_DONE)
        return;
    mmu_counts.faults++;
    snprintf(name, sizeof name, "%u %08x, %s, %s", q->result, q->answer.fault, mmu_rule_name(q->answer.rule),
             q->mode & MMU_MODE_PR ? "user" : "supervisor");
    mmu_count_class(CLASS_FAULT, name);
}

static void raise_fault(const struct question *q)
{
    CPUPPCState *env = &q->cpu->env;
    bool fetch = q->result == MMU_INSTRUCTION_STORAGE_FAULT;
    CPU(q->cpu)->exception_index = fetch ? POWERPC_EXCP_ISI : POWERPC_EXCP_DSI;
    env->error_code = fetch ? (int)q->answer.fault : 0;
    if (!fetch) {
        env->spr[SPR_DAR] = q->answer.effective;
        env->spr[SPR_DSISR] = q->answer.fault;
    }
}

/* False where the library could not answer; else q has its answer, and the table its marks. */
static bool ask_library(struct question *q, MMUAccessType type, int mmu_idx, bool guest_visible)
{
    struct own_answer own;
    mmu_counts.accesses[q->kind]++;
    mmu_counts.unseen += !guest_visible;
    current_page(&q->cpu->env);
    q->page = page;
    q->page_size = page_size;
    if (!lend_table(q)) {
        mmu_counts.not_lent++;
        return false;
    }
    if (setting == BOTH)
        mmu_ask_own(q, type, mmu_idx, &own);
    ask(q, guest_visible);
    if (setting == BOTH)
        mmu_compare(q, &own, guest_visible);
    count(q);
    address_space_unmap(CPU(q->cpu)->as, q->table, q->table_size, true, 0);
    return !mmu_question_refused(q);
}

bool mmu_glue_xlate(PowerPCCPU *cpu, vaddr address, MMUAccessType type, hwaddr *physical, int *page_bits, int *rights,
                    int mmu_idx, bool guest_visible)
{
    struct question q = { .cpu = cpu, .address = (uint32_t)address };
    if (setting == NOT_STARTED)
        start();
    /* One of QEMU's TLBs has the same mode for fetches and for data. */
    q.mode = (mmuidx_pr(mmu_idx) ? MMU_MODE_PR : 0) | (mmuidx_real(mmu_idx) ? 0 : MMU_MODE_IR | MMU_MODE_DR);
    q.kind = type == MMU_INST_FETCH ? MMU_FETCH : type == MMU_DATA_STORE ? MMU_STORE : MMU_LOAD;
    if (setting == OWN || !ask_library(&q, type, mmu_idx, guest_visible))
        return ppc_hash32_xlate(cpu, address, type, physical, page_bits, rights, mmu_idx, guest_visible);
    if (q.result != MMU_DONE) {
        if (guest_visible)
            raise_fault(&q);
        return false;
    }
    *physical = q.answer.physical;
    *page_bits = TARGET_PAGE_BITS;
    *rights = mmu_question_rights(&q);
    return true;
}
