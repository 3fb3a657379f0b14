/*
 * The thirteen calls of docs/RULES.md in portable C, written for speed: the contender of the benchmarks.
 * It makes the library's checks in the library's order and shares no code with it.
 */
#include "plain.h"

#include <string.h>

/*
 * Every small function is to melt into its caller, where a constant argument takes tests away. What few calls need
 * stays out of line, so that it costs the others no register.
 */
#if defined(__GNUC__)
#define INLINE static inline __attribute__((always_inline))
#define NOINLINE __attribute__((noinline))
#define UNLIKELY(condition) __builtin_expect(condition, 0)
#else
#define INLINE static inline
#define NOINLINE
#define UNLIKELY(condition) (condition)
#endif

enum { FETCH, LOAD, STORE };
enum { RULE_REAL, RULE_BLOCK, RULE_NO_EXECUTE, RULE_NO_MATCH, RULE_GUARDED, RULE_PROTECTION, RULE_DONE };
enum { SHORT_PAGE = 132, LONG_PAGE = 196, SEGMENTS = 4, PAIRS = 68, RECORD = 32, CACHE = 2048, HIT_ENTRY = 8 };

#define NO_MATCH 0x40000000u
#define NO_EXECUTE 0x10000000u
#define PROTECTION 0x08000000u
#define STORING 0x02000000u

/* RPN, WIMG and PP of a second word: matches of a page agree where these are equal. */
#define AGREED 0xFFFFF07Bu

/* ---- Words ------------------------------------------------------------------------------------ */

INLINE uint32_t word_at(const uint8_t *bytes)
{
    return (uint32_t)bytes[0] << 24 | (uint32_t)bytes[1] << 16 | (uint32_t)bytes[2] << 8 | bytes[3];
}

INLINE uint64_t words_at(const uint8_t *bytes)
{
    return (uint64_t)bytes[0] << 56 | (uint64_t)bytes[1] << 48 | (uint64_t)bytes[2] << 40 | (uint64_t)bytes[3] << 32
         | (uint64_t)bytes[4] << 24 | (uint64_t)bytes[5] << 16 | (uint64_t)bytes[6] << 8 | bytes[7];
}

/* A word as it lies in memory, so that comparing needs no swap of bytes. */
INLINE uint32_t raw_at(const uint8_t *bytes)
{
    uint32_t raw;
    memcpy(&raw, bytes, 4);
    return raw;
}

INLINE uint64_t raw_words_at(const uint8_t *bytes)
{
    uint64_t raw;
    memcpy(&raw, bytes, 8);
    return raw;
}

/* The same raw form of a word in a register. */
INLINE uint32_t raw_of(uint32_t word)
{
    uint8_t bytes[4];
    uint32_t raw;
    bytes[0] = (uint8_t)(word >> 24);
    bytes[1] = (uint8_t)(word >> 16);
    bytes[2] = (uint8_t)(word >> 8);
    bytes[3] = (uint8_t)word;
    memcpy(&raw, bytes, 4);
    return raw;
}

INLINE void put_word(uint8_t *bytes, uint32_t word)
{
    uint32_t raw = raw_of(word);
    memcpy(bytes, &raw, 4);
}

INLINE void put_words(uint8_t *bytes, uint32_t first, uint32_t second)
{
    put_word(bytes, first);
    put_word(bytes + 4, second);
}

INLINE uint32_t answer_words(uint8_t *answer, uint32_t result, uint32_t second, uint32_t third, uint32_t fourth)
{
    put_words(answer, result, second);
    put_words(answer + 8, third, fourth);
    return result;
}

INLINE uint32_t refuse(uint8_t *answer, uint32_t number)
{
    return answer_words(answer, number, 0, 0, 0);
}

/* ---- Register words --------------------------------------------------------------------------- */

/* The low half of SDR1 is the mask alone: ones at the low end only, with zeros above them in the origin. */
INLINE int sdr1_bad(uint32_t sdr1)
{
    uint32_t mask = sdr1 & 0xFFFF;
    return mask > 0x1FF || (((mask + 1) | sdr1 >> 16) & mask) != 0;
}

/* For an SDR1 of right shape. */
INLINE size_t table_size(uint32_t sdr1)
{
    return (size_t)((sdr1 & 0xFFFF) + 1) << 16;
}

/* The address bits that run within a block: BL and the low 17. */
INLINE uint32_t inner_bits(uint32_t upper)
{
    return upper << 15 | 0x1FFFF;
}

/* A block pair is one number, its upper word above its lower. Its bits that must be zero, by the side: */
#define INSTRUCTION_ZERO UINT64_C(0x1FFCC)
#define DATA_ZERO UINT64_C(0x1FF84)

/* BL's bits of a block over 256 MB, which must be zero on a short page. */
#define OVER_256_MB UINT64_C(0x0001E00000000000)

/*
 * What is added to a pair of each side: BL's lowest one, and for data I's too, which carries over W into bit 24 where
 * both are on. Then a one at the low end of BEPI, BL and BRPN each, and ones below BEPI.
 */
struct numbers {
    uint64_t instruction_one, data_one, places, below;
};

static const struct numbers the_numbers = {
    UINT64_C(1) << 34, UINT64_C(1) << 34 | 0x20, UINT64_C(1) << 49 | UINT64_C(1) << 34 | UINT64_C(1) << 17,
    (UINT64_C(1) << 49) - 1,
};

/* Read once a call, so that the compiler uses the numbers where they lie; it would load each anew for each pair. */
static const struct numbers *const volatile numbers_place = &the_numbers;

/* The pairs of a side that are on: their bits, on the data side with those of the sums, and the last block's end. */
struct side {
    uint64_t any, end;
};

/*
 * Sums a side up. BL is moved under BEPI, BL and BRPN at once, and in the sum BL + 1 takes BL's place: `wrong` gets a
 * one where BL has a gap or where BEPI or BRPN has a one under it. Of BL 7FFF, whose carry leaves BL, it says nothing.
 * In its low 16 bits `wrong` counts the blocks that do not begin behind the end of the one before.
 */
INLINE struct side sum_up(const uint8_t *pairs, uint32_t count, const struct numbers *numbers, int data,
                          uint64_t *wrong)
{
    struct side side = { 0, 0 };
#define ADD_PAIR(i) \
    if (i < count && pairs[8 * i + 3] & 3) { \
        uint64_t pair = words_at(pairs + 8 * i), inner = (pair >> 34 & 0x7FFF) * numbers->places; \
        uint64_t sum = pair + (data ? numbers->data_one : numbers->instruction_one); \
        side.any |= data ? pair | sum : pair; \
        *wrong += pair <= side.end; \
        *wrong |= sum & inner; \
        side.end = pair | inner | numbers->below; \
    }
    ADD_PAIR(0) ADD_PAIR(1) ADD_PAIR(2) ADD_PAIR(3) ADD_PAIR(4) ADD_PAIR(5) ADD_PAIR(6) ADD_PAIR(7)
    return side;
}

/*
 * What the test of a page tells. RIGHT: no rule is broken, and the blocks of each side rise: each begins behind the end
 * of the one before, so that they share nothing. FALLING: they do not, but that two share an address is all that may be
 * wrong. OPEN: anything may be.
 */
enum test { RIGHT, FALLING, OPEN };

/*
 * BL's bits that leave a page open, on the data side those of BL + 1: any block over 256 MB on a short page, where it
 * is wrong; on a long page one of 4 GB, of data also one of 2 GB.
 */
INLINE uint64_t too_long(uint32_t count, int data)
{
    return count == 4 ? OVER_256_MB & ~((uint64_t)data << 45) : UINT64_C(1) << 48;
}

/* Tests all pairs, and tells where the blocks of each side end, with ones below. */
INLINE enum test test_pairs(const uint8_t *pairs, uint32_t count, uint64_t ends[2])
{
    const struct numbers *numbers = numbers_place;
    uint64_t wrong = 0, zero;
    struct side instruction = sum_up(pairs, count, numbers, 0, &wrong);
    struct side data = sum_up(pairs + 8 * count, count, numbers, 1, &wrong);
    ends[0] = instruction.end;
    ends[1] = data.end;
    if ((instruction.any | data.any) == 0)
        return RIGHT;
    zero = instruction.any & (INSTRUCTION_ZERO | too_long(count, 0));
    zero |= data.any & (DATA_ZERO | too_long(count, 1));
    if ((zero | wrong) == 0)
        return RIGHT;
    return (zero | wrong >> 16) == 0 ? FALLING : OPEN;
}

/* The segments' words are put together as they lie in memory: only their first bytes are asked about. */
INLINE int segments_bad(const uint8_t *segments)
{
    static const uint8_t zero[8] = { 0x8F, 0, 0, 0, 0x8F, 0, 0, 0 };
    uint64_t any = raw_words_at(segments) | raw_words_at(segments + 8) | raw_words_at(segments + 16)
                 | raw_words_at(segments + 24) | raw_words_at(segments + 32) | raw_words_at(segments + 40)
                 | raw_words_at(segments + 48) | raw_words_at(segments + 56);
    return (any & raw_words_at(zero)) != 0;
}

/* Whether one of a side's pairs that are on has a wrong shape; `zero` are the bits that must be zero. */
INLINE int shapes_bad(const uint8_t *pairs, uint32_t count, uint64_t zero)
{
    uint64_t wrong = 0;
    uint32_t i;
    for (i = 0; i < count; i++) {
        uint64_t pair = words_at(pairs + 8 * i), bl = pair >> 34 & 0x7FFF;
        if ((pair & (UINT64_C(3) << 32)) == 0)
            continue;
        wrong |= ((bl + 1) & bl) | (pair & bl * (UINT64_C(1) << 49 | UINT64_C(1) << 17));
        wrong |= (zero & 0x40 ? pair : pair | (pair + 0x20)) & zero;
    }
    return wrong != 0;
}

/*
 * Whether each of a side's blocks begins in 256 MB of its own and none is longer, so that they share nothing: how many
 * begin in each 256 MB is summed up as hexadecimal digits.
 */
INLINE int apart(const uint8_t *pairs, uint32_t count)
{
    uint64_t begins = 0;
    uint32_t any = 0, i;
    for (i = 0; i < count; i++)
        if (pairs[8 * i + 3] & 3) {
            begins += UINT64_C(1) << (pairs[8 * i] >> 4) * 4;
            any |= raw_at(pairs + 8 * i);
        }
    return (begins & UINT64_C(0xEEEEEEEEEEEEEEEE)) == 0 && (any & raw_of(OVER_256_MB >> 32)) == 0;
}

/* Whether two of a side's blocks share an address and a V bit, each compared with all before it. */
INLINE int some_meet(const uint8_t *pairs, uint32_t count)
{
    uint32_t i, j;
    for (i = 1; i < count; i++) {
        uint32_t upper = word_at(pairs + 8 * i), inner = inner_bits(upper);
        for (j = 0; j < i; j++) {
            uint32_t other = word_at(pairs + 8 * j);
            if ((upper ^ other) <= (inner | inner_bits(other)) && upper & other & 3)
                return 1;
        }
    }
    return 0;
}

/*
 * The same; their shapes are right by now. Where each lies behind all before it or in front of them all, no two are
 * compared.
 */
INLINE int some_clash(const uint8_t *pairs, uint32_t count)
{
    uint32_t first = 0xFFFFFFFF, last = 0, i;
    for (i = 0; i < count; i++) {
        uint32_t upper = word_at(pairs + 8 * i), end = upper | inner_bits(upper);
        if (!(upper & 3))
            continue;
        if (upper <= last && end >= first)
            return !apart(pairs, count) && some_meet(pairs, count);
        first = upper < first ? upper : first;
        last = end > last ? end : last;
    }
    return 0;
}

/* The same of both sides, as a result number. */
INLINE uint32_t clash_check(const uint8_t *registers, uint32_t count)
{
    return some_clash(registers + PAIRS, count) || some_clash(registers + PAIRS + 8 * count, count) ? 4 : 0;
}

/* The exact check: the first broken rule of any page with so many pairs a side. */
INLINE uint32_t exact_check(const uint8_t *registers, uint32_t count)
{
    const uint8_t *instruction = registers + PAIRS, *data = instruction + 8 * count;
    uint64_t over = count == 4 ? OVER_256_MB : 0;
    if (sdr1_bad(word_at(registers)))
        return 2;
    if (shapes_bad(instruction, count, INSTRUCTION_ZERO | over) || shapes_bad(data, count, DATA_ZERO | over))
        return 3;
    if (clash_check(registers, count) != 0)
        return 4;
    return segments_bad(registers + SEGMENTS) ? 5 : 0;
}

/* The first broken rule of a page that the test does not call right. */
static NOINLINE uint32_t settle_short(const uint8_t *registers, enum test test)
{
    return test == FALLING ? clash_check(registers, 4) : exact_check(registers, 4);
}

static NOINLINE uint32_t settle_long(const uint8_t *registers, enum test test)
{
    return test == FALLING ? clash_check(registers, 8) : exact_check(registers, 8);
}

/* Ends of blocks that may lie anywhere. */
#define ANYWHERE UINT64_C(0xFFFFFFFFFFFFFFFF)

/* The first broken rule of a page with so many pairs a side, and where the blocks of each side end, if they rise. */
INLINE uint32_t check_page(const uint8_t *registers, uint32_t count, uint64_t ends[2])
{
    enum test test = OPEN;
    if (!sdr1_bad(word_at(registers)) && !segments_bad(registers + SEGMENTS))
        test = test_pairs(registers + PAIRS, count, ends);
    if (test == RIGHT)
        return 0;
    ends[0] = ends[1] = ANYWHERE;
    return count == 4 ? settle_short(registers, test) : settle_long(registers, test);
}

uint32_t PLAIN(check)(const uint8_t *registers, size_t registers_len)
{
    uint64_t ends[2];
    if (registers_len == SHORT_PAGE)
        return check_page(registers, 4, ends);
    return registers_len == LONG_PAGE ? check_page(registers, 8, ends) : 11;
}

/* Puts a word into the page, and the old one back where the new page breaks a rule. */
INLINE uint32_t set_checked(uint8_t *registers, uint32_t count, uint32_t number, uint32_t word)
{
    uint64_t ends[2];
    uint32_t old, result;
    if (number >= 17 + 4 * count)
        return 6;
    old = raw_at(registers + 4 * number);
    put_word(registers + 4 * number, word);
    result = check_page(registers, count, ends);
    if (result != 0)
        memcpy(registers + 4 * number, &old, 4);
    return result;
}

uint32_t PLAIN(set_register)(uint8_t *registers, size_t registers_len, uint32_t number, uint32_t word)
{
    if (registers_len == SHORT_PAGE)
        return set_checked(registers, 4, number, word);
    return registers_len == LONG_PAGE ? set_checked(registers, 8, number, word) : 11;
}

/* ---- Groups ----------------------------------------------------------------------------------- */

/* A page's two groups and their numbers, and the first words, as they lie in memory, that match in each. */
struct groups {
    uint8_t *primary, *secondary;
    uint32_t primary_number, secondary_number, primary_word, secondary_word;
};

/* The table's length is that of SDR1 by now, and has the mask of the hash. */
INLINE struct groups groups_of(uint32_t vsid, uint32_t page_index, uint8_t *table, size_t table_len)
{
    struct groups groups;
    uint32_t last = (uint32_t)table_len - 64, hash = vsid ^ page_index, primary = hash << 6 & last;
    groups.primary = table + primary;
    groups.secondary = table + (primary ^ last);
    groups.primary_number = hash & last >> 6;
    groups.secondary_number = groups.primary_number ^ last >> 6;
    groups.primary_word = raw_of(0x80000000u | vsid << 7 | page_index >> 10);
    groups.secondary_word = groups.primary_word | raw_of(0x40);
    return groups;
}

/* A statement for each entry of a group; written out, since a loop would cost more than the comparison in it. */
#define EACH_ENTRY(DO) DO(0) DO(1) DO(2) DO(3) DO(4) DO(5) DO(6) DO(7)

/* A match: the entry, or NULL, its group's number and its own. */
struct match {
    uint8_t *entry;
    uint32_t group, number;
};

enum found { NONE, ONE, SEVERAL };

/* The quick search: it answers a page's only match or that there is none; of several it says that alone. */
INLINE enum found find(struct match *match, struct groups groups)
{
    match->entry = NULL;
#define FIND_IN(half, i) \
    if (raw_at(groups.half + 8 * i) == groups.half##_word) { \
        if (match->entry != NULL) \
            return SEVERAL; \
        match->entry = groups.half + 8 * i; \
        match->group = groups.half##_number; \
        match->number = i; \
    }
#define FIND_IN_PRIMARY(i) FIND_IN(primary, i)
#define FIND_IN_SECONDARY(i) FIND_IN(secondary, i)
    EACH_ENTRY(FIND_IN_PRIMARY)
    EACH_ENTRY(FIND_IN_SECONDARY)
    return match->entry == NULL ? NONE : ONE;
}

/* All matches of a page in search order; for a page that has several. */
static uint32_t find_all(uint8_t *primary, uint8_t *secondary, uint32_t word, uint8_t *entries[16])
{
    uint32_t secondary_word = word | raw_of(0x40), count = 0, i;
    for (i = 0; i < 64; i += 8)
        if (raw_at(primary + i) == word)
            entries[count++] = primary + i;
    for (i = 0; i < 64; i += 8)
        if (raw_at(secondary + i) == secondary_word)
            entries[count++] = secondary + i;
    return count;
}

/* The first of several matches, or NULL where they contradict. */
static NOINLINE uint8_t *first_of_several(uint8_t *primary, uint8_t *secondary, uint32_t word)
{
    uint8_t *entries[16];
    uint32_t count = find_all(primary, secondary, word, entries), i;
    for (i = 1; i < count; i++)
        if ((word_at(entries[i] + 4) ^ word_at(entries[0] + 4)) & AGREED)
            return NULL;
    return entries[0];
}

/* ---- Page calls ------------------------------------------------------------------------------- */

/* The refusal that a page call's arguments earn: 6, 2, 1. */
INLINE uint32_t page_check(uint32_t sdr1, uint32_t vsid, uint32_t page_index, size_t table_len)
{
    if (vsid > 0xFFFFFF || page_index > 0xFFFF)
        return 6;
    if (sdr1_bad(sdr1))
        return 2;
    return table_len != table_size(sdr1);
}

uint32_t PLAIN(clear)(uint32_t sdr1, uint8_t *table, size_t table_len)
{
    uint32_t result = page_check(sdr1, 0, 0, table_len);
    if (result == 0)
        memset(table, 0, table_len);
    return result;
}

/* The answer that shows an entry's second word, which is moved as it lies in memory. */
INLINE uint32_t answer_entry(uint8_t *answer, const uint8_t *entry)
{
    memset(answer, 0, 4);
    memcpy(answer + 4, entry + 4, 4);
    memset(answer + 8, 0, 8);
    return 0;
}

/* Whether a group has an entry with this first word. */
INLINE int group_has(const uint8_t *group, uint32_t word)
{
#define RETURN_IF_MATCH(i) if (raw_at(group + 8 * i) == word) return 1;
    EACH_ENTRY(RETURN_IF_MATCH)
    return 0;
}

/* A group's first entry with V = 0, or NULL. */
INLINE uint8_t *free_entry(uint8_t *group)
{
#define RETURN_IF_FREE(i) if (!(group[8 * i] & 0x80)) return group + 8 * i;
    EACH_ENTRY(RETURN_IF_FREE)
    return NULL;
}

uint32_t PLAIN(map)(uint32_t sdr1, uint32_t vsid, uint32_t page_index, uint32_t rpn, uint32_t wimg, uint32_t pp,
                    uint8_t *table, size_t table_len)
{
    struct groups groups;
    uint8_t *entry;
    uint32_t result;
    if (rpn > 0xFFFFF || wimg > 11 || pp > 3)
        return 6;
    result = page_check(sdr1, vsid, page_index, table_len);
    if (result != 0)
        return result;
    groups = groups_of(vsid, page_index, table, table_len);
    if (group_has(groups.primary, groups.primary_word) || group_has(groups.secondary, groups.secondary_word))
        return 7;
    entry = free_entry(groups.primary);
    if (entry == NULL) {
        entry = free_entry(groups.secondary);
        groups.primary_word = groups.secondary_word;
    }
    if (entry == NULL)
        return 9;
    memcpy(entry, &groups.primary_word, 4);
    put_word(entry + 4, rpn << 12 | wimg << 3 | pp);
    return 0;
}

/* Empties the several matches of a page and answers the first one's second word with the marks of all. */
static NOINLINE uint32_t unmap_several(uint8_t *primary, uint8_t *secondary, uint32_t word, uint8_t *answer)
{
    uint8_t *entries[16];
    uint32_t count = find_all(primary, secondary, word, entries), second = word_at(entries[0] + 4), i;
    for (i = 0; i < count; i++) {
        second |= word_at(entries[i] + 4) & 0x180;
        memset(entries[i], 0, 8);
    }
    return answer_words(answer, 0, second, 0, 0);
}

uint32_t PLAIN(unmap)(uint32_t sdr1, uint32_t vsid, uint32_t page_index, uint8_t *table, size_t table_len,
                      uint8_t *answer, size_t answer_len)
{
    struct groups groups;
    struct match match;
    enum found found;
    uint32_t result;
    if (answer_len != 16)
        return 11;
    result = page_check(sdr1, vsid, page_index, table_len);
    if (result != 0)
        return refuse(answer, result);
    groups = groups_of(vsid, page_index, table, table_len);
    found = find(&match, groups);
    if (found == NONE)
        return refuse(answer, 8);
    if (found == SEVERAL)
        return unmap_several(groups.primary, groups.secondary, groups.primary_word, answer);
    answer_entry(answer, match.entry);
    memset(match.entry, 0, 8);
    return 0;
}

INLINE uint32_t put_pp(uint8_t *entry, uint32_t pp)
{
    entry[7] = (uint8_t)((entry[7] & 0xFC) | pp);
    return 0;
}

/* Puts PP into the several matches of a page. */
static NOINLINE uint32_t protect_several(uint8_t *primary, uint8_t *secondary, uint32_t word, uint32_t pp)
{
    uint8_t *entries[16];
    uint32_t count = find_all(primary, secondary, word, entries), i;
    for (i = 0; i < count; i++)
        put_pp(entries[i], pp);
    return 0;
}

uint32_t PLAIN(protect)(uint32_t sdr1, uint32_t vsid, uint32_t page_index, uint32_t pp, uint8_t *table,
                        size_t table_len)
{
    struct groups groups;
    struct match match;
    enum found found;
    uint32_t result;
    if (pp > 3)
        return 6;
    result = page_check(sdr1, vsid, page_index, table_len);
    if (result != 0)
        return result;
    groups = groups_of(vsid, page_index, table, table_len);
    found = find(&match, groups);
    if (found == NONE)
        return 8;
    if (found == SEVERAL)
        return protect_several(groups.primary, groups.secondary, groups.primary_word, pp);
    return put_pp(match.entry, pp);
}

/* Answers the first of several matches, or refuses them where they contradict. */
static NOINLINE uint32_t look_several(uint8_t *primary, uint8_t *secondary, uint32_t word, uint8_t *answer)
{
    const uint8_t *entry = first_of_several(primary, secondary, word);
    return entry == NULL ? refuse(answer, 10) : answer_entry(answer, entry);
}

uint32_t PLAIN(look)(uint32_t sdr1, uint32_t vsid, uint32_t page_index, const uint8_t *table, size_t table_len,
                     uint8_t *answer, size_t answer_len)
{
    struct groups groups;
    struct match match;
    enum found found;
    uint32_t result;
    if (answer_len != 16)
        return 11;
    result = page_check(sdr1, vsid, page_index, table_len);
    if (result != 0)
        return refuse(answer, result);
    groups = groups_of(vsid, page_index, (uint8_t *)table, table_len);
    found = find(&match, groups);
    if (found == NONE)
        return refuse(answer, 8);
    if (found == SEVERAL)
        return look_several(groups.primary, groups.secondary, groups.primary_word, answer);
    return answer_entry(answer, match.entry);
}

/* ---- Access ----------------------------------------------------------------------------------- */

/* The rights of each kind by 4 * key + PP, eight bits a kind; those of key 1 are those of a block too. */
INLINE int allowed(uint32_t kind, uint32_t detail)
{
    return 0x47EFEFu >> (8 * kind + detail) & 1;
}

/* Where the blocks of a side lie: the upper word of the first, or 0, and the last address. */
struct span {
    uint32_t first, last;
};

/* An access, the pairs of its side and where their blocks lie. The cache is NULL in an access without one. */
struct access {
    const uint8_t *registers, *pairs;
    uint32_t count, mode, kind;
    struct span span;
    uint8_t *table;
    size_t table_len;
    uint8_t *answer, *cache;
};

/*
 * Which part of the operand is translated, and which entry did it, to be marked when the whole operand is done; then it
 * is loaded into this place of the cache.
 */
struct part {
    int second;
    uint32_t address;
    uint8_t *entry;
    uint32_t place;
};

/* A done part: the first one's words 0 to 3, the second one's words 4 and 5. */
INLINE uint32_t done(const struct access *access, const struct part *part, uint32_t physical, uint32_t attributes)
{
    if (part->second)
        put_words(access->answer + 16, physical, attributes);
    else
        answer_words(access->answer, 0, physical, attributes, part->address);
    return 0;
}

/* Words 8 to 11; those of a second part that is done are not shown. */
INLINE void show(const struct access *access, uint32_t rule, uint32_t detail, uint32_t group, uint32_t entry)
{
    put_words(access->answer + RECORD, rule, detail);
    put_words(access->answer + RECORD + 8, group, entry);
}

INLINE uint32_t fault(const struct access *access, const struct part *part, uint32_t cause)
{
    if (access->kind == FETCH)
        return answer_words(access->answer, 65, cause, 0x400, part->address);
    return answer_words(access->answer, 64, access->kind == STORE ? cause | STORING : cause, 0x300, part->address);
}

/* What the second word of the first match, or of a loaded entry, says: steps 5 to 7. */
INLINE uint32_t by_entry(const struct access *access, const struct part *part, uint32_t second, struct match match,
                         uint32_t segment)
{
    uint32_t key = (access->mode & 4 ? segment >> 27 : segment >> 28) & 4, detail = key | (second & 3);
    if (access->kind == FETCH && second & 8) {
        show(access, RULE_GUARDED, 0, match.group, match.number);
        return fault(access, part, NO_EXECUTE);
    }
    if (!allowed(access->kind, detail)) {
        show(access, RULE_PROTECTION, detail, match.group, match.number);
        return fault(access, part, PROTECTION);
    }
    if (!part->second)
        show(access, RULE_DONE, detail, match.group, match.number);
    return done(access, part, ((second ^ part->address) & 0xFFFFF000) ^ part->address, second >> 3 & 15);
}

/* The first of a page's several matches; its entry is NULL where they contradict. */
INLINE struct match first_match(const struct access *access, struct groups groups)
{
    struct match match;
    uint32_t offset;
    match.entry = first_of_several(groups.primary, groups.secondary, groups.primary_word);
    offset = match.entry == NULL ? 0 : (uint32_t)(match.entry - access->table);
    match.group = offset >> 6;
    match.number = offset >> 3 & 7;
    return match;
}

/* Whether a place of the cache holds a page: V and VSID of the first word, and the whole third word. */
INLINE int holds(const uint8_t *place, uint32_t vsid, uint32_t page_index)
{
    return (raw_at(place) & raw_of(0xFFFFFF80u)) == raw_of(0x80000000u | vsid << 7)
        && raw_at(place + 8) == raw_of(page_index);
}

/* The place that a page of the set would take: place 1 where place 0 alone has the newer load. */
INLINE uint32_t older(const uint8_t *cache, uint32_t set)
{
    return set + (raw_at(cache + set + 12) == raw_of(1) && raw_at(cache + set + 28) != raw_of(1) ? 16 : 0);
}

/* Asks the cache for the part's page: whether it hits, and which place answers or is to be loaded. */
INLINE int hits(const struct access *access, struct part *part, uint32_t vsid, uint32_t page_index)
{
    uint32_t set = (page_index & 63) * 32;
    if (holds(access->cache + set, vsid, page_index))
        part->place = set;
    else if (holds(access->cache + set + 16, vsid, page_index))
        part->place = set + 16;
    else {
        part->place = older(access->cache, set);
        return 0;
    }
    return access->kind != STORE || access->cache[part->place + 7] & 0x80;
}

/* What a hit answers: the group that the loaded H names, and no entry's number. */
INLINE uint32_t by_hit(const struct access *access, const struct part *part, uint32_t vsid, uint32_t page_index,
                       uint32_t segment)
{
    const uint8_t *place = access->cache + part->place;
    uint32_t last = ((uint32_t)access->table_len - 64) >> 6;
    struct match match = { NULL, ((vsid ^ page_index) & last) ^ (place[3] & 0x40 ? last : 0), HIT_ENTRY };
    return by_entry(access, part, word_at(place + 4), match, segment);
}

/* Steps 3 and 4; the cache is asked before the table. */
INLINE uint32_t by_page(const struct access *access, struct part *part)
{
    uint32_t segment = word_at(access->registers + SEGMENTS + 4 * (part->address >> 28)), result;
    uint32_t vsid = segment & 0xFFFFFF, page_index = part->address >> 12 & 0xFFFF;
    struct groups groups;
    struct match match;
    enum found found;
    if (access->kind == FETCH && segment & 0x10000000) {
        show(access, RULE_NO_EXECUTE, 0, 0, 0);
        return fault(access, part, NO_EXECUTE);
    }
    if (access->cache != NULL && hits(access, part, vsid, page_index))
        return by_hit(access, part, vsid, page_index, segment);
    groups = groups_of(vsid, page_index, access->table, access->table_len);
    found = find(&match, groups);
    if (found == NONE) {
        show(access, RULE_NO_MATCH, 0, 0, 0);
        return fault(access, part, NO_MATCH);
    }
    if (found == SEVERAL) {
        match = first_match(access, groups);
        if (match.entry == NULL) {
            show(access, 0, 0, 0, 0);
            return refuse(access->answer, 10);
        }
    }
    result = by_entry(access, part, word_at(match.entry + 4), match, segment);
    if (result == 0)
        part->entry = match.entry;
    return result;
}

/* The block with this number, which holds the address. */
INLINE uint32_t by_block(const struct access *access, const struct part *part, uint32_t number)
{
    uint64_t pair = words_at(access->pairs + 8 * number);
    uint32_t lower = (uint32_t)pair, inner = inner_bits((uint32_t)(pair >> 32));
    if (!allowed(access->kind, 4 | (lower & 3))) {
        show(access, RULE_BLOCK, number, 0, 0);
        return fault(access, part, PROTECTION);
    }
    if (!part->second)
        show(access, RULE_BLOCK, number, 0, 0);
    return done(access, part, (lower & ~inner) | (part->address & inner), lower >> 3 & 15);
}

/* The number of the block that holds an address, or the count of pairs. */
INLINE uint32_t find_block(const struct access *access, uint32_t address)
{
    uint32_t valid = access->mode & 4 ? 1 : 2, i;
    for (i = 0; i < access->count; i++) {
        uint32_t upper = word_at(access->pairs + 8 * i);
        if ((upper ^ address) <= inner_bits(upper) && upper & valid)
            break;
    }
    return i;
}

/* Where the blocks of a side lie that rise up to this end: where the first pair is on, it is the first of them. */
INLINE struct span span_of(const uint8_t *pairs, uint64_t end)
{
    struct span span;
    span.first = end != ANYWHERE && pairs[3] & 3 ? word_at(pairs) : 0;
    span.last = (uint32_t)(end >> 32);
    return span;
}

INLINE int in_span(struct span span, uint32_t address)
{
    return address <= span.last && (address | 0x1FFFF) >= span.first;
}

/* Steps 2 to 7. The blocks are passed over where the address lies in front of all or behind all. */
INLINE uint32_t translate(const struct access *access, struct part *part)
{
    if (in_span(access->span, part->address)) {
        uint32_t number = find_block(access, part->address);
        if (number < access->count)
            return by_block(access, part, number);
    }
    return by_page(access, part);
}

/* Marks the entry that did a part, and loads it into the cache, where it is the newer of its set. */
INLINE void mark(const struct access *access, const struct part *part)
{
    uint32_t second;
    if (part->entry == NULL)
        return;
    if (access->cache == NULL) {
        part->entry[6] |= 1;
        if (access->kind == STORE)
            part->entry[7] |= 0x80;
        return;
    }
    second = raw_at(part->entry + 4) | (access->kind == STORE ? raw_of(0x180) : raw_of(0x100));
    memcpy(part->entry + 4, &second, 4);
    memcpy(access->cache + part->place, part->entry, 4);
    memcpy(access->cache + part->place + 4, &second, 4);
    put_words(access->cache + part->place + 8, part->address >> 12 & 0xFFFF, 1);
    put_word(access->cache + (part->place ^ 16) + 12, 0);
}

/* Words 4 to 7 of an answer without a second part. */
INLINE uint32_t no_second(uint8_t *answer, uint32_t result, uint32_t bytes)
{
    memset(answer + 16, 0, 8);
    put_words(answer + 24, result == 0 ? bytes : 0, 0);
    return result;
}

INLINE uint32_t refuse_access(uint8_t *answer, uint32_t number)
{
    memset(answer, 0, 48);
    put_word(answer, number);
    return number;
}

/* An operand in real mode. */
INLINE uint32_t real(uint8_t *answer, uint32_t address, uint32_t length, uint32_t bytes)
{
    answer_words(answer, 0, address, 3, address);
    memset(answer + RECORD, 0, 16);
    if (length <= bytes)
        return no_second(answer, 0, length);
    answer_words(answer + 16, address + bytes, 3, bytes, length - bytes);
    return 0;
}

/* An operand with so many bytes before a page edge. */
INLINE uint32_t over_edge(const struct access *access, uint32_t address, uint32_t length, uint32_t bytes)
{
    struct part first = { 0, address, NULL, 0 }, second = { 1, address + bytes, NULL, 0 };
    uint32_t result = translate(access, &first);
    if (result == 0)
        result = translate(access, &second);
    if (result != 0)
        return no_second(access->answer, result, 0);
    mark(access, &first);
    mark(access, &second);
    put_words(access->answer + 24, bytes, length - bytes);
    return 0;
}

/* An access whose page, cache and answer have a right length. */
INLINE uint32_t access_with(struct access *access, uint32_t address, uint32_t length)
{
    struct part part = { 0, address, NULL, 0 };
    uint32_t result, bytes = 0x1000 - (address & 0xFFF);
    uint64_t ends[2];
    int data = access->kind != FETCH;
    if (access->mode > 7 || access->kind > STORE)
        return refuse_access(access->answer, 6);
    if (length - 1 > 127)
        return refuse_access(access->answer, 12);
    result = check_page(access->registers, access->count, ends);
    if (result != 0)
        return refuse_access(access->answer, result);
    if (access->table_len != table_size(word_at(access->registers)))
        return refuse_access(access->answer, 1);
    if (!(access->mode & (data ? 1 : 2)))
        return real(access->answer, address, length, bytes);
    access->pairs = access->registers + PAIRS + (data ? 8 * access->count : 0);
    access->span = span_of(access->pairs, data ? ends[1] : ends[0]);
    if (length > bytes)
        return over_edge(access, address, length, bytes);
    result = translate(access, &part);
    mark(access, &part);
    return no_second(access->answer, result, length);
}

uint32_t PLAIN(access)(const uint8_t *registers, size_t registers_len, uint32_t mode, uint32_t kind, uint32_t address,
                       uint32_t length, uint8_t *table, size_t table_len, uint8_t *answer, size_t answer_len)
{
    struct access of_short = { registers, NULL, 4, mode, kind, { 0, 0 }, table, table_len, answer, NULL };
    struct access of_long = { registers, NULL, 8, mode, kind, { 0, 0 }, table, table_len, answer, NULL };
    if (answer_len != 48)
        return 11;
    if (registers_len == SHORT_PAGE)
        return access_with(&of_short, address, length);
    return registers_len == LONG_PAGE ? access_with(&of_long, address, length) : 11;
}

uint32_t PLAIN(access_cached)(const uint8_t *registers, size_t registers_len, uint32_t mode, uint32_t kind,
                              uint32_t address, uint32_t length, uint8_t *table, size_t table_len, uint8_t *cache,
                              size_t cache_len, uint8_t *answer, size_t answer_len)
{
    struct access of_short = { registers, NULL, 4, mode, kind, { 0, 0 }, table, table_len, answer, cache };
    struct access of_long = { registers, NULL, 8, mode, kind, { 0, 0 }, table, table_len, answer, cache };
    if (answer_len != 48 || cache_len != CACHE)
        return 11;
    if (registers_len == SHORT_PAGE)
        return access_with(&of_short, address, length);
    return registers_len == LONG_PAGE ? access_with(&of_long, address, length) : 11;
}

/* ---- Rights ----------------------------------------------------------------------------------- */

/*
 * What stands at an address: the block of each side, or the count of pairs; the segment, and what the search found. Of
 * several matches it is the first, or NULL where they contradict.
 */
struct standing {
    uint32_t address, blocks[2], segment;
    struct match match;
    enum found found;
};

INLINE uint32_t refuse_rights(uint8_t *answer, uint32_t number)
{
    refuse_access(answer, number);
    refuse_access(answer + 48, number);
    refuse_access(answer + 96, number);
    memset(answer + 144, 0, 12);
    return number;
}

INLINE const uint8_t *pairs_of(const struct access *access, int data)
{
    return access->registers + PAIRS + (data ? 8 * access->count : 0);
}

/* The block of a side that holds the address. */
INLINE uint32_t block_of(struct access *access, uint32_t address, uint64_t end, int data)
{
    access->pairs = pairs_of(access, data);
    return in_span(span_of(access->pairs, end), address) ? find_block(access, address) : access->count;
}

/* The search of the address's page, made once for all kinds that come to it. */
INLINE void search(const struct access *access, struct standing *at)
{
    struct groups groups = groups_of(at->segment & 0xFFFFFF, at->address >> 12 & 0xFFFF, access->table,
                                     access->table_len);
    at->found = find(&at->match, groups);
    if (at->found == SEVERAL)
        at->match = first_match(access, groups);
}

/* What a kind that goes by the page comes to; a done one names the entry that it would mark. */
INLINE uint32_t right_by_page(const struct access *access, struct part *part, const struct standing *at)
{
    uint32_t result;
    if (access->kind == FETCH && at->segment & 0x10000000) {
        show(access, RULE_NO_EXECUTE, 0, 0, 0);
        return fault(access, part, NO_EXECUTE);
    }
    if (at->found == NONE) {
        show(access, RULE_NO_MATCH, 0, 0, 0);
        return fault(access, part, NO_MATCH);
    }
    if (at->match.entry == NULL)
        return refuse_access(access->answer, 10);
    result = by_entry(access, part, word_at(at->match.entry + 4), at->match, at->segment);
    part->entry = result == 0 ? at->match.entry : NULL;
    return result;
}

/* One kind: its answer, and the marks that it would newly set. */
INLINE void right_of(struct access *access, const struct standing *at, uint32_t kind, uint8_t *answer)
{
    struct part part = { 0, at->address, NULL, 0 };
    int data = kind != FETCH;
    uint32_t result, marks = kind == STORE ? 0x180 : 0x100;
    access->kind = kind;
    access->answer = answer + 48 * kind;
    access->pairs = pairs_of(access, data);
    if (!(access->mode & (data ? 1 : 2)))
        result = real(access->answer, at->address, 1, 1);
    else if (at->blocks[data] < access->count)
        result = by_block(access, &part, at->blocks[data]);
    else
        result = right_by_page(access, &part, at);
    no_second(access->answer, result, 1);
    put_word(answer + 144 + 4 * kind, part.entry == NULL ? 0 : marks & ~word_at(part.entry + 4));
}

/* Rights whose page and answer have a right length: the register page is checked once for all kinds. */
INLINE uint32_t rights_with(struct access *access, uint32_t address, uint8_t *answer)
{
    struct standing at = { address, { 0, 0 }, 0, { NULL, 0, 0 }, NONE };
    uint64_t ends[2];
    uint32_t result;
    if (access->mode > 7)
        return refuse_rights(answer, 6);
    result = check_page(access->registers, access->count, ends);
    if (result != 0)
        return refuse_rights(answer, result);
    if (access->table_len != table_size(word_at(access->registers)))
        return refuse_rights(answer, 1);
    at.blocks[0] = block_of(access, address, ends[0], 0);
    at.blocks[1] = block_of(access, address, ends[1], 1);
    at.segment = word_at(access->registers + SEGMENTS + 4 * (address >> 28));
    if ((access->mode & 2 && at.blocks[0] == access->count) || (access->mode & 1 && at.blocks[1] == access->count))
        search(access, &at);
    right_of(access, &at, FETCH, answer);
    right_of(access, &at, LOAD, answer);
    right_of(access, &at, STORE, answer);
    return 0;
}

uint32_t PLAIN(rights)(const uint8_t *registers, size_t registers_len, uint32_t mode, uint32_t address,
                       const uint8_t *table, size_t table_len, uint8_t *answer, size_t answer_len)
{
    struct access of_short = { registers, NULL, 4, mode, FETCH, { 0, 0 }, (uint8_t *)table, table_len, answer, NULL };
    struct access of_long = { registers, NULL, 8, mode, FETCH, { 0, 0 }, (uint8_t *)table, table_len, answer, NULL };
    if (answer_len != 156)
        return 11;
    if (registers_len == SHORT_PAGE)
        return rights_with(&of_short, address, answer);
    return registers_len == LONG_PAGE ? rights_with(&of_long, address, answer) : 11;
}

uint32_t PLAIN(invalidate)(uint32_t page_index, uint8_t *cache, size_t cache_len)
{
    if (cache_len != CACHE)
        return 11;
    if (page_index > 0xFFFF)
        return 6;
    memset(cache + (page_index & 63) * 32, 0, 32);
    return 0;
}

/* ---- Packing ---------------------------------------------------------------------------------- */

uint32_t PLAIN(pack)(uint32_t v, uint32_t vsid, uint32_t h, uint32_t api, uint32_t rpn, uint32_t r, uint32_t c,
                     uint32_t wimg, uint32_t pp, uint8_t *entry, size_t entry_len)
{
    if (entry_len != 8)
        return 11;
    if ((v | h | r | c) > 1 || vsid > 0xFFFFFF || api > 63 || rpn > 0xFFFFF || wimg > 15 || pp > 3) {
        put_words(entry, 0, 0);
        return 6;
    }
    put_words(entry, v << 31 | vsid << 7 | h << 6 | api, rpn << 12 | r << 8 | c << 7 | wimg << 3 | pp);
    return 0;
}

/*
 * VSID and the low half of RPN are moved by a product, which the compiler leaves whole and swaps at once, and written
 * with bytes of the field after them, which are zeroed then. Of every other field one byte is not zero.
 */
uint32_t PLAIN(unpack)(uint32_t first, uint32_t second, uint8_t *fields, size_t fields_len)
{
    if (UNLIKELY(fields_len != 36))
        return 11;
    memset(fields, 0, 8);
    put_word(fields + 5, first * 2);
    memset(fields + 8, 0, 16);
    put_word(fields + 18, second * 16);
    memset(fields + 20, 0, 16);
    fields[3] = (uint8_t)(first >> 31);
    fields[11] = (uint8_t)(first >> 6 & 1);
    fields[15] = (uint8_t)(first & 63);
    fields[17] = (uint8_t)(second >> 28);
    fields[23] = (uint8_t)(second >> 8 & 1);
    fields[27] = (uint8_t)(second >> 7 & 1);
    fields[31] = (uint8_t)(second >> 3 & 15);
    fields[35] = (uint8_t)(second & 3);
    return 0;
}
