/* The steps of an access, for display, each held to the record that the library gives. */
#include "dump.h"

#include <stdlib.h>
#include <string.h>

struct mmu_answer ask(const struct dump *dump, const struct access *access, uint8_t **copy)
{
    uint8_t answer[MMU_ACCESS_ANSWER_SIZE];
    *copy = claim(NULL, dump->table.length);
    memcpy(*copy, dump->table.bytes, dump->table.length);
    mmu_access(dump->registers.bytes, dump->registers.length, access->mode, access->kind, access->address,
               access->length, *copy, dump->table.length, answer, sizeof answer);
    return mmu_read_answer(answer);
}

uint32_t parts_of(const struct access *access, struct access *parts)
{
    uint32_t in_page = MMU_PAGE_SIZE - access->address % MMU_PAGE_SIZE;
    parts[0] = parts[1] = *access;
    if (access->length <= in_page)
        return 1;
    parts[0].length = in_page;
    parts[1].length = access->length - in_page;
    parts[1].address = access->address + in_page;
    return 2;
}

static enum cover cover_of(const struct block *block, const struct access *part)
{
    if (!block->on)
        return OFF;
    if (!(block->upper & (part->mode & MMU_MODE_PR ? MMU_BLOCK_VP : MMU_BLOCK_VS)))
        return OTHER_STATE;
    return part->address >= block->start && part->address - block->start < block->length ? COVERS : ELSEWHERE;
}

/* Step 2; whether a block covers the address. */
static int by_block(const struct dump *dump, struct steps *steps)
{
    uint32_t pair;
    int covered = 0;
    for (pair = 0; pair < dump->registers.pairs; pair++) {
        struct block block = block_of(&dump->registers, steps->part.kind == MMU_FETCH ? INSTRUCTION : DATA, pair);
        steps->covers[pair] = cover_of(&block, &steps->part);
        if (steps->covers[pair] != COVERS)
            continue;
        covered = 1;
        steps->rule = MMU_RULE_BLOCK;
        steps->detail = pair;
    }
    return covered;
}

/* Whether two matches differ in what the rules compare. */
static int differ(const struct entry *one, const struct entry *other)
{
    return one->rpn != other->rpn || one->wimg != other->wimg || one->pp != other->pp;
}

/* Step 4; whether it goes on. */
static int by_search(const struct dump *dump, struct steps *steps)
{
    uint32_t i;
    steps->page_index = steps->part.address >> 12 & 0xFFFFu;
    steps->hash = hash_of(steps->vsid, steps->page_index);
    steps->primary = primary_group(&dump->table, steps->vsid, steps->page_index);
    steps->secondary = other_group(&dump->table, steps->primary);
    steps->match_count = matches_of(&dump->table, steps->vsid, steps->page_index, steps->matches);
    for (i = 1; i < steps->match_count; i++)
        steps->contradicts |= differ(&steps->matches[0], &steps->matches[i]);
    if (!steps->match_count)
        steps->rule = MMU_RULE_NO_MATCH;
    return steps->match_count && !steps->contradicts;
}

/* Steps 5 and 6. */
static void by_match(struct steps *steps)
{
    const struct entry *match = &steps->matches[0];
    enum rights rights = page_rights(steps->key, match->pp);
    int allowed = steps->part.kind == MMU_STORE ? rights == WRITE : rights != NOTHING;
    steps->group = match->group;
    steps->entry = match->number;
    if (steps->part.kind == MMU_FETCH && match->wimg & MMU_ATTRIBUTE_G) {
        steps->rule = MMU_RULE_GUARDED;
        return;
    }
    steps->rule = allowed ? MMU_RULE_DONE : MMU_RULE_PROTECTION;
    steps->detail = steps->key * 4 + match->pp;
}

static void walk(const struct dump *dump, struct steps *steps)
{
    uint32_t on = steps->part.kind == MMU_FETCH ? MMU_MODE_IR : MMU_MODE_DR;
    uint32_t key = steps->part.mode & MMU_MODE_PR ? MMU_SEGMENT_KP : MMU_SEGMENT_KS;
    if (!(steps->part.mode & on) || by_block(dump, steps))
        return;
    steps->segment = register_word(&dump->registers, MMU_REGISTER_SEGMENT(steps->part.address >> 28));
    steps->vsid = steps->segment & MMU_SEGMENT_VSID;
    steps->key = (steps->segment & key) != 0;
    if (steps->part.kind == MMU_FETCH && steps->segment & MMU_SEGMENT_N)
        steps->rule = MMU_RULE_NO_EXECUTE;
    else if (by_search(dump, steps))
        by_match(steps);
}

struct steps steps_of(const struct dump *dump, const struct access *part)
{
    struct steps steps;
    uint8_t *copy;
    memset(&steps, 0, sizeof steps);
    steps.part = *part;
    steps.answer = ask(dump, part, &copy);
    free(copy);
    walk(dump, &steps);
    if (steps.contradicts != (steps.answer.result == MMU_REFUSED_CONTRADICTION) || steps.rule != steps.answer.rule
        || steps.detail != steps.answer.detail || steps.group != steps.answer.group
        || steps.entry != steps.answer.entry)
        fail("the steps of %08X are not those of the library's record; expected rule %u, got %u: please report this",
             (unsigned)part->address, (unsigned)steps.answer.rule, (unsigned)steps.rule);
    return steps;
}
