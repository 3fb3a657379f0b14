/* What the programs of this folder share: each holds blocks of docs/C-GUIDE.md to what they must do. */
#ifndef EXPECT_H
#define EXPECT_H

#include "mmu.h"

#include <stdio.h>
#include <stdlib.h>

/* Ends the program where a block did something else. */
#define EXPECT(condition) \
    do { \
        if (!(condition)) { \
            printf("%s:%d: not so: %s\n", __FILE__, __LINE__, #condition); \
            exit(1); \
        } \
    } while (0)

/* Whether two answers of an access say the same of the operand, the rule that decided aside. */
static inline int same_answer(const struct mmu_answer *a, const struct mmu_answer *b)
{
    return a->result == b->result && a->physical == b->physical && a->attributes == b->attributes
        && a->fault == b->fault && a->offset == b->offset && a->effective == b->effective && a->bytes == b->bytes
        && a->second_physical == b->second_physical && a->second_attributes == b->second_attributes
        && a->second_bytes == b->second_bytes;
}

/* Whether they say the same of the rule that decided. */
static inline int same_rule(const struct mmu_answer *a, const struct mmu_answer *b)
{
    return a->rule == b->rule && a->detail == b->detail && a->group == b->group && a->entry == b->entry;
}

#endif
