/* What the two files of the glue share: one access asked of the library. */
#ifndef MMU_QUESTION_H
#define MMU_QUESTION_H

#include "cpu.h"
#include "mmu.h"

#define KINDS 3u

struct question {
    PowerPCCPU *cpu;
    uint32_t address, mode, kind;
    const uint8_t *page; /* The register page, of page_size bytes. */
    size_t page_size;
    uint8_t *table;
    size_t table_size;
    uint8_t rights[MMU_RIGHTS_SIZE];
    uint32_t result;          /* Of the access asked for: done, a fault or a refusal. */
    struct mmu_answer answer; /* The same access's answer. */
    uint32_t marks;           /* Marks that it newly set. */
};

/* What QEMU's code answered, and what it made of the page's two groups. */
struct own_answer {
    bool done;
    hwaddr physical;
    int rights;
    uint32_t result, fault, effective;
    size_t groups[2];
    uint8_t before[2][MMU_GROUP_SIZE], after[2][MMU_GROUP_SIZE];
    uint8_t *whole;
};

static inline bool mmu_question_refused(const struct question *q)
{
    return q->result != MMU_DONE && q->result < MMU_DATA_STORAGE_FAULT;
}

/* The answer to the same access of another kind. */
static inline const uint8_t *mmu_question_answer(const struct question *q, uint32_t kind)
{
    return q->rights + MMU_RIGHTS_ANSWER(kind);
}

/* Puts the processor's registers into a page, and returns the page's length. */
size_t mmu_fill_page(const CPUPPCState *env, uint8_t *to);

/* Rights of QEMU's TLB, PAGE_READ, PAGE_WRITE and PAGE_EXEC: by kind, and those that an answered question gives. */
extern const int mmu_right_of[KINDS];
int mmu_question_rights(const struct question *q);

/* QEMU's code asked first: what it answers, and its marks taken back. */
void mmu_ask_own(const struct question *q, MMUAccessType type, int mmu_idx, struct own_answer *own);

/* Counts the differences between the answered question and QEMU's answer. */
void mmu_compare(const struct question *q, struct own_answer *own, bool guest_visible);

#endif
