/* Block pairs, and the rules that register words break. The library alone says whether a page is refused. */
#include "dump.h"

#include <string.h>

static int ones_at_low_end(uint32_t field)
{
    return (field & (field + 1)) == 0;
}

static uint32_t upper_number(const struct registers *registers, enum side side, uint32_t pair)
{
    uint32_t first = side == INSTRUCTION ? 0 : 2 * registers->pairs;
    return MMU_REGISTER_INSTRUCTION_UPPER(0) + first + 2 * pair;
}

/* ---- The shape of a pair that is on ------------------------------------------------------------- */

#define UPPER_RESERVED (MMU_BLOCK_BL_LONG & ~MMU_BLOCK_BL)
#define LOWER_RESERVED 0x0001FF84u

enum { SHAPE_RULES = 7 };

struct shape_rule {
    int broken, lower;
    const char *what;
};

static void shape_of(const struct block *block, int is_long, struct shape_rule *rules)
{
    uint32_t bl = (block->upper & (is_long ? MMU_BLOCK_BL_LONG : MMU_BLOCK_BL)) >> 2;
    int instruction = block->side == INSTRUCTION;
    const struct shape_rule all[SHAPE_RULES] = {
        {!is_long && (block->upper & UPPER_RESERVED), 0, "bits 15 to 18 must be zero on a page of 132 bytes"},
        {!ones_at_low_end(bl), 0, "BL must be ones only at its low end"},
        {(block->upper >> 17 & bl) != 0, 0, "BEPI must be zero under the ones of BL"},
        {(block->lower & LOWER_RESERVED) != 0, 1, "bits 15 to 24 and 29 must be zero"},
        {(block->lower >> 17 & bl) != 0, 1, "BRPN must be zero under the ones of BL"},
        {(block->wimg & 12u) == 12u, 1, "W and I must not both be one"},
        {instruction && (block->wimg & 9u), 1, "W and G must be zero in an instruction block"},
    };
    memcpy(rules, all, sizeof all);
}

struct block block_of(const struct registers *registers, enum side side, uint32_t pair)
{
    struct block block;
    struct shape_rule rules[SHAPE_RULES];
    int is_long = registers->length == MMU_REGISTERS_SIZE_LONG, i;
    memset(&block, 0, sizeof block);
    block.side = side;
    block.pair = pair;
    block.number = upper_number(registers, side, pair);
    block.upper = register_word(registers, block.number);
    block.lower = register_word(registers, block.number + 1);
    block.on = (block.upper & (MMU_BLOCK_VS | MMU_BLOCK_VP)) != 0;
    block.start = block.upper & MMU_BLOCK_BEPI;
    block.length = ((uint64_t)((block.upper & (is_long ? MMU_BLOCK_BL_LONG : MMU_BLOCK_BL)) >> 2) + 1) << 17;
    block.physical = block.lower & MMU_BLOCK_BRPN;
    block.wimg = block.lower >> MMU_BLOCK_WIMG_SHIFT & 15u;
    block.pp = block.lower & MMU_BLOCK_PP;
    shape_of(&block, is_long, rules);
    block.shaped = 1;
    for (i = 0; i < SHAPE_RULES; i++)
        block.shaped &= !rules[i].broken;
    return block;
}

const char *block_users(const struct block *block)
{
    switch (block->upper & (MMU_BLOCK_VS | MMU_BLOCK_VP)) {
    case MMU_BLOCK_VS: return "supervisor";
    case MMU_BLOCK_VP: return "user";
    case MMU_BLOCK_VS | MMU_BLOCK_VP: return "supervisor and user";
    default: return "nobody";
    }
}

uint32_t block_last(const struct block *block)
{
    return block->start + (uint32_t)(block->length - 1);
}

/* ---- Broken rules -------------------------------------------------------------------------------- */

static void add(struct broken *list, size_t *count, uint32_t refusal, uint32_t number, const char *what)
{
    struct broken *broken = &list[*count];
    broken->refusal = refusal;
    broken->number = number;
    broken->other = MMU_REGISTER_NONE;
    sprintf(broken->what, "%.*s", (int)sizeof broken->what - 1, what);
    (*count)++;
}

static void sdr1_rules(const struct registers *registers, struct broken *list, size_t *count)
{
    uint32_t sdr1 = register_word(registers, MMU_REGISTER_SDR1), mask = sdr1 & MMU_SDR1_MASK;
    if (sdr1 & ~(MMU_SDR1_ORIGIN | MMU_SDR1_MASK))
        add(list, count, MMU_REFUSED_SDR1, MMU_REGISTER_SDR1, "bits 16 to 22 must be zero");
    if (!ones_at_low_end(mask))
        add(list, count, MMU_REFUSED_SDR1, MMU_REGISTER_SDR1, "the mask must be ones only at its low end");
    if (sdr1 >> 16 & mask)
        add(list, count, MMU_REFUSED_SDR1, MMU_REGISTER_SDR1, "the origin must be zero under the ones of the mask");
}

static void block_rules(const struct registers *registers, enum side side, struct broken *list, size_t *count)
{
    uint32_t pair;
    for (pair = 0; pair < registers->pairs; pair++) {
        struct block block = block_of(registers, side, pair);
        struct shape_rule rules[SHAPE_RULES];
        int i;
        shape_of(&block, registers->length == MMU_REGISTERS_SIZE_LONG, rules);
        for (i = 0; block.on && i < SHAPE_RULES; i++)
            if (rules[i].broken)
                add(list, count, MMU_REFUSED_BLOCK, block.number + (rules[i].lower ? 1 : 0), rules[i].what);
    }
}

static int share(const struct block *one, const struct block *other)
{
    return one->on && other->on && one->shaped && other->shaped
        && (one->upper & other->upper & (MMU_BLOCK_VS | MMU_BLOCK_VP))
        && one->start < other->start + other->length && other->start < one->start + one->length;
}

static void sharing_rules(const struct registers *registers, enum side side, struct broken *list, size_t *count)
{
    uint32_t first, second;
    char room[REGISTER_NAME], what[72];
    for (second = 1; second < registers->pairs; second++)
        for (first = 0; first < second; first++) {
            struct block one = block_of(registers, side, first), other = block_of(registers, side, second);
            if (!share(&one, &other))
                continue;
            sprintf(what, "shares an address and a V bit with %s", register_name(registers, one.number, room));
            add(list, count, MMU_REFUSED_BLOCKS_SHARE, other.number, what);
            list[*count - 1].other = one.number;
        }
}

static void segment_rules(const struct registers *registers, struct broken *list, size_t *count)
{
    uint32_t n;
    for (n = 0; n < SEGMENTS; n++) {
        uint32_t word = register_word(registers, MMU_REGISTER_SEGMENT(n));
        if (word & MMU_SEGMENT_T)
            add(list, count, MMU_REFUSED_SEGMENT, MMU_REGISTER_SEGMENT(n), "T must be zero");
        if (word & 0x0F000000u)
            add(list, count, MMU_REFUSED_SEGMENT, MMU_REGISTER_SEGMENT(n), "bits 4 to 7 must be zero");
    }
}

size_t broken_rules(const struct registers *registers, struct broken *list)
{
    size_t count = 0;
    sdr1_rules(registers, list, &count);
    block_rules(registers, INSTRUCTION, list, &count);
    block_rules(registers, DATA, list, &count);
    sharing_rules(registers, INSTRUCTION, list, &count);
    sharing_rules(registers, DATA, list, &count);
    segment_rules(registers, list, &count);
    return count;
}

void put_broken(struct sink *sink, const struct registers *registers)
{
    static struct broken list[MOST_BROKEN];
    size_t count = broken_rules(registers, list), i;
    char room[REGISTER_NAME];
    for (i = 0; i < count; i++)
        put(sink, "  refusal %u  word %2u, byte %3u, %-6s %08X: %s\n", (unsigned)list[i].refusal,
            (unsigned)list[i].number, (unsigned)MMU_REGISTER_OFFSET(list[i].number),
            register_name(registers, list[i].number, room), (unsigned)register_word(registers, list[i].number),
            list[i].what);
}
