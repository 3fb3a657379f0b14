/*
 * Holds the plain C against the library: random calls, good and bad, on two copies of everything that is lent.
 * After each call the result numbers and every lent byte must be equal.
 *
 *   agree CALLS SEED   prints how often each call gave each result; fails where one of them was never met
 *   agree -s CALLS SEED   the same for small counts: a result that was not met is no failure
 */
#include "calls.h"

#include <stdio.h>
#include <stdlib.h>
#include <string.h>

enum { CHECK, SET_REGISTER, CLEAR, MAP, UNMAP, PROTECT, LOOK, ACCESS, ACCESS_CACHED, RIGHTS, INVALIDATE, PACK, UNPACK,
       CALLS };
enum { LARGEST_TABLE = 1 << 19, ROUND = 400, VSIDS = 8, PAGES = 6 };

static const char *const names[CALLS] = { "check", "set_register", "clear", "map", "unmap", "protect", "look",
                                          "access", "access_cached", "rights", "invalidate", "pack", "unpack" };

/* The results that each call can give; a 255 ends a list. */
static const uint8_t possible[CALLS][13] = {
    { 0, 2, 3, 4, 5, 11, 255 },
    { 0, 2, 3, 4, 5, 6, 11, 255 },
    { 0, 1, 2, 255 },
    { 0, 1, 2, 6, 7, 9, 255 },
    { 0, 1, 2, 6, 8, 11, 255 },
    { 0, 1, 2, 6, 8, 255 },
    { 0, 1, 2, 6, 8, 10, 11, 255 },
    { 0, 1, 2, 3, 4, 5, 6, 10, 11, 12, 64, 65, 255 },
    { 0, 1, 2, 3, 4, 5, 6, 10, 11, 12, 64, 65, 255 },
    { 0, 1, 2, 3, 4, 5, 6, 11, 255 },
    { 0, 6, 11, 255 },
    { 0, 6, 11, 255 },
    { 0, 11, 255 },
};

/* What is lent, one byte longer than any call takes, so that a length can be one too many. */
struct lent {
    uint8_t registers[MMU_REGISTERS_SIZE_LONG + 1];
    uint8_t answer[MMU_RIGHTS_SIZE + 1];
    uint8_t cache[MMU_CACHE_SIZE + 1];
    uint8_t table[LARGEST_TABLE + 1];
};

struct request {
    int call;
    uint32_t sdr1, vsid, page_index, rpn, wimg, pp, mode, kind, address, length, number, word;
    uint32_t v, h, api, r, c;
    size_t registers_len, table_len, cache_len, answer_len;
};

static struct lent lent[2];
static uint64_t state;
static uint32_t odds = 40;
static unsigned long seen[CALLS][66];

/* The length of the round's register page, and how often check, set_register and access gave each result on each. */
static size_t page_len = MMU_REGISTERS_SIZE_SHORT;
static unsigned long seen_on[2][3][66];

/* Accesses by a block, by the page's length and the block's number. */
static unsigned long blocks[2][8];

/* Accesses over a page edge: how many were done, and how many faulted in the second page. */
static unsigned long edges_done, edges_faulted;

/* Accesses that were done or faulted, by the rule shown. */
static unsigned long rules[MMU_RULE_DONE + 1];

/* Accesses with a cache: hits by the rule shown, and those that went to the table. */
static unsigned long hits[MMU_RULE_DONE + 1], misses;

/* Accesses that rights told, by the marks that they would newly set: none, C, R, both. */
static unsigned long told[4];

/*
 * Checks and accesses that were done on register pages where two blocks of a side begin in the same 256 MB, by whether
 * each block begins behind the end of the one before; on pages with W in one data block and I in another, and on pages
 * with something left in a pair that is off.
 */
static unsigned long on_rising, on_others, on_w_and_i, on_junk;

/* Looks at a page whose matches are not equal: how many were done, and how many refused as contradicting. */
static unsigned long unequal_done, unequal_refused;

/* ---- Random numbers --------------------------------------------------------------------------- */

static uint32_t any(void)
{
    state ^= state >> 12;
    state ^= state << 25;
    state ^= state >> 27;
    return (uint32_t)((state * UINT64_C(2685821657736338717)) >> 32);
}

static uint32_t below(uint32_t bound)
{
    return any() % bound;
}

/* Mostly one time in forty; for some requests every other time, so that several rules are broken at once. */
static int rarely(void)
{
    return below(odds) == 0;
}

/* A number below the bound; rarely the bound itself or any number. */
static uint32_t argument(uint32_t bound)
{
    if (rarely())
        return below(2) ? bound : any();
    return below(bound);
}

/* The right length; rarely 0, one less or one more. */
static size_t length(size_t right)
{
    static const int off[3] = { -1, 1, 0 };
    if (!rarely())
        return right;
    return below(3) == 0 ? 0 : right + (size_t)off[below(2)];
}

/* ---- Register pages --------------------------------------------------------------------------- */

static uint32_t low_ones(uint32_t most)
{
    return (1u << below(most + 1)) - 1;
}

static uint32_t random_sdr1(void)
{
    uint32_t mask = below(8) == 0 ? low_ones(3) : 0;
    return (any() & 0xFFFF0000u & ~(mask << 16)) | mask;
}

/* VSIDs that differ above the hashed bits, so that their pages meet in the same two groups. */
static uint32_t random_vsid(void)
{
    return 0x2701C ^ below(VSIDS) << 19;
}

/* Page indices that differ in API and in the group, neighbours among them; a 0 follows FFFF in the next segment. */
static uint32_t random_page(void)
{
    static const uint32_t pages[PAGES] = { 0x0FFA, 0x13FA, 0x0FFB, 0xF005, 0xFFFF, 0x0000 };
    return pages[below(PAGES)];
}

static void put_both(size_t offset, uint32_t word)
{
    mmu_put_word(lent[0].registers, offset, word);
    mmu_put_word(lent[1].registers, offset, word);
}

static int is_long(size_t registers_len)
{
    return registers_len == MMU_REGISTERS_SIZE_LONG;
}

static uint32_t pairs_a_side(void)
{
    return is_long(page_len) ? 8 : 4;
}

/* The number of a pair's upper word on the round's page; its lower word has the next. */
static uint32_t upper_number(uint32_t pair, uint32_t data)
{
    if (!data)
        return MMU_REGISTER_INSTRUCTION_UPPER(pair);
    return is_long(page_len) ? MMU_REGISTER_DATA_UPPER_LONG(pair) : MMU_REGISTER_DATA_UPPER(pair);
}

/* A pair with this start and length, both in 128 KB and the length less one; where `valid` is 0 it is off. */
static void put_pair(uint32_t number, uint32_t data, uint32_t start, uint32_t bl, uint32_t valid)
{
    static const uint32_t attributes[8] = { 0, 2, 4, 6, 1, 3, 8, 11 };
    uint32_t physical = any() & 0x7FFF & ~bl;
    uint32_t wimg = attributes[below(data ? 8 : 4)];
    put_both(MMU_REGISTER_OFFSET(number), start << 17 | bl << 2 | valid);
    put_both(MMU_REGISTER_OFFSET(number + 1), physical << 17 | wimg << 3 | below(4));
}

/* A pair of right shape in one of the topmost places, often on; on a long page one of more than 256 MB is rare. */
static void random_pair(uint32_t number, uint32_t data)
{
    uint32_t bl = below(3) ? low_ones(is_long(page_len) && below(6) == 0 ? 15 : 11) : 0;
    uint32_t start = (0x4000 | below(8) << 11 | below(64)) & ~bl & 0x7FFF;
    put_pair(number, data, start, bl, below(4) ? 1 + below(3) : 0);
}

/* Moves a pair of a long page to addresses that no other number has, so that a set of many blocks is often whole. */
static void part_pairs(uint32_t i)
{
    uint32_t numbers[2] = { MMU_REGISTER_INSTRUCTION_UPPER(i), MMU_REGISTER_DATA_UPPER_LONG(i) }, side;
    for (side = 0; side < 2; side++) {
        uint32_t upper = mmu_get_word(lent[0].registers, MMU_REGISTER_OFFSET(numbers[side]));
        if ((upper & MMU_BLOCK_BL_LONG) <= MMU_BLOCK_BL)
            put_both(MMU_REGISTER_OFFSET(numbers[side]), (upper & 0x0FFFFFFFu) | 0x80000000u | i << 28);
    }
}

/* What a pair that is off may have: any bits but V. */
static void put_junk(uint32_t number)
{
    put_both(MMU_REGISTER_OFFSET(number), any() & ~(MMU_BLOCK_VS | MMU_BLOCK_VP));
    put_both(MMU_REGISTER_OFFSET(number + 1), any());
}

/*
 * Blocks of one side close together, as an operating system has them: each begins behind the end of the one before or a
 * little further. In the pairs they rise, fall, or rise but for two that changed places; now and then one is off.
 */
static void close_side(uint32_t data)
{
    uint32_t pairs = pairs_a_side(), next = 0x4000 | below(8) << 11, order = below(6), i;
    uint32_t a = below(pairs), b = below(pairs);
    for (i = 0; i < pairs; i++) {
        uint32_t bl = low_ones(6), start = (next + bl) & ~bl, pair = i;
        if (order == 0)
            pair = pairs - 1 - i;
        else if (order == 1)
            pair = i == a ? b : i == b ? a : i;
        if (below(8) == 0)
            put_junk(upper_number(pair, data));
        else
            put_pair(upper_number(pair, data), data, start, bl, below(4) ? MMU_BLOCK_VS : 1 + below(3));
        next = start + bl + 1 + (below(3) ? 0 : below(16));
    }
}

/* Puts a block of 128 KB into one that another pair has, which is right where they have no V bit in common. */
static void nest_block(uint32_t data)
{
    uint32_t pairs = pairs_a_side();
    uint32_t outer = mmu_get_word(lent[0].registers, MMU_REGISTER_OFFSET(upper_number(below(pairs), data)));
    uint32_t inside = (outer >> 17) | (outer >> 2 & below(64));
    put_pair(upper_number(below(pairs), data), data, inside, 0, below(2) ? 1 + below(3) : ~outer & 3);
}

static void random_blocks(void)
{
    int parted = is_long(page_len) && below(4) != 0;
    uint32_t i;
    for (i = 0; i < pairs_a_side(); i++) {
        random_pair(upper_number(i, 0), 0);
        random_pair(upper_number(i, 1), 1);
        if (parted)
            part_pairs(i);
    }
}

static void random_registers(uint32_t sdr1)
{
    uint32_t i;
    put_both(0, sdr1);
    for (i = 0; i < 16; i++)
        put_both(MMU_REGISTER_OFFSET(MMU_REGISTER_SEGMENT(i)), below(8) << 28 | random_vsid());
    random_blocks();
    if (below(2) == 0)
        return;
    for (i = 0; i < 2; i++) {
        close_side(i);
        if (below(4) == 0)
            nest_block(i);
    }
}

/* One bit of one word turned, so that each rule is broken now and then; or a pair of ones over zeros. */
static void spoil_registers(void)
{
    size_t offset = MMU_REGISTER_OFFSET(below((uint32_t)page_len / 4));
    uint32_t number = upper_number(below(pairs_a_side()), below(2));
    if (below(8)) {
        put_both(offset, mmu_get_word(lent[0].registers, offset) ^ (1u << below(32)));
        return;
    }
    put_both(MMU_REGISTER_OFFSET(number), 0xFFFFFFFFu);
    put_both(MMU_REGISTER_OFFSET(number + 1), 0);
}

/* Counts a page that is right by what its pairs have. */
static void note_pairs(void)
{
    uint32_t data, i, wimg = 0, junk = 0, close = 0, falls = 0;
    for (data = 0; data < 2; data++) {
        uint32_t begins = 0, end = 0;
        for (i = 0; i < pairs_a_side(); i++) {
            uint32_t upper = mmu_get_word(lent[0].registers, MMU_REGISTER_OFFSET(upper_number(i, data)));
            uint32_t lower = mmu_get_word(lent[0].registers, MMU_REGISTER_OFFSET(upper_number(i, data) + 1));
            if ((upper & 3) == 0) {
                junk |= upper | lower;
                continue;
            }
            close |= begins >> (upper >> 28) & 1;
            begins |= 1u << (upper >> 28);
            falls |= upper <= end;
            end = upper | (upper & MMU_BLOCK_BL_LONG) << 15 | 0x1FFFF;
            wimg |= lower >> MMU_BLOCK_WIMG_SHIFT;
        }
    }
    on_rising += close && !falls;
    on_others += close && falls;
    on_w_and_i += wimg & MMU_ATTRIBUTE_W && wimg & MMU_ATTRIBUTE_I;
    on_junk += junk != 0;
}

/* ---- Tables ----------------------------------------------------------------------------------- */

/* A second word: any, the same for many, that with marks and ignored bits turned, or with one bit, often a low one. */
static uint32_t random_second(void)
{
    switch (below(4)) {
    case 0:
        return any();
    case 1:
        return 0x12345012u;
    case 2:
        return 0x12345012u ^ (any() & 0xF84u);
    default:
        return 0x12345012u ^ 1u << below(below(2) ? 8 : 32);
    }
}

/* An entry of a page in one of its groups, or nearly one, as another writer could have left it. */
static void plant_entry(uint32_t sdr1, uint32_t vsid, uint32_t page)
{
    uint32_t mask = (sdr1 & MMU_SDR1_MASK) << 10 | 0x3FF;
    uint32_t h = below(2);
    uint32_t group = ((vsid ^ page) & mask) ^ (h ? mask : 0);
    uint32_t first = MMU_FIRST_V | vsid << MMU_FIRST_VSID_SHIFT | h << 6 | page >> 10;
    size_t at = MMU_ENTRY_OFFSET(group, below(8));
    if (below(4) == 0)
        first ^= 1u << below(32);
    mmu_put_word(lent[0].table, at, first);
    mmu_put_word(lent[0].table, at + 4, random_second());
    memcpy(lent[1].table + at, lent[0].table + at, MMU_ENTRY_SIZE);
}

/* One to three entries of one page. */
static void plant_page(uint32_t sdr1)
{
    uint32_t vsid = random_vsid(), page = random_page(), i;
    for (i = below(3) + 1; i > 0; i--)
        plant_entry(sdr1, vsid, page);
}

/* A place of the cache that holds the page of an address, or any, or nearly does. */
static void plant_place(uint32_t address)
{
    uint32_t segment = mmu_get_word(lent[0].registers, MMU_REGISTER_OFFSET(MMU_REGISTER_SEGMENT(address >> 28)));
    uint32_t vsid = below(4) ? segment & MMU_SEGMENT_VSID : random_vsid(), words[4], i;
    uint32_t page = below(4) ? address >> 12 & 0xFFFF : random_page();
    size_t at = MMU_CACHE_SET_SIZE * (page % MMU_CACHE_SETS) + MMU_CACHE_PLACE_SIZE * below(2);
    words[0] = MMU_FIRST_V | vsid << MMU_FIRST_VSID_SHIFT | below(128);
    words[1] = random_second() | (below(2) ? MMU_SECOND_C : 0);
    words[2] = page;
    words[3] = below(3) ? below(2) : any();
    if (below(3) == 0)
        words[below(3)] ^= 1u << below(32);
    for (i = 0; i < 4; i++)
        mmu_put_word(lent[0].cache, at + 4 * i, words[i]);
    memcpy(lent[1].cache + at, lent[0].cache + at, MMU_CACHE_PLACE_SIZE);
}

/* Whether the matches of a page differ in some bit of their second words. */
static int unequal(uint32_t sdr1, uint32_t vsid, uint32_t page)
{
    uint32_t mask = (sdr1 & MMU_SDR1_MASK) << 10 | 0x3FF, seconds = 0, first = 0, i;
    int differ = 0;
    for (i = 0; i < 16; i++) {
        uint32_t group = ((vsid ^ page) & mask) ^ (i < 8 ? 0 : mask);
        uint32_t word = MMU_FIRST_V | vsid << MMU_FIRST_VSID_SHIFT | (i < 8 ? 0 : 0x40u) | page >> 10;
        size_t at = MMU_ENTRY_OFFSET(group, i % 8);
        if (mmu_get_word(lent[0].table, at) != word)
            continue;
        if (seconds++ == 0)
            first = mmu_get_word(lent[0].table, at + 4);
        differ |= mmu_get_word(lent[0].table, at + 4) != first;
    }
    return differ;
}

/* ---- Calls ------------------------------------------------------------------------------------ */

/* The answer's length by the call; the register calls, clear, map and protect have none and do not look at it. */
static size_t answer_size(int call)
{
    switch (call) {
    case ACCESS:
    case ACCESS_CACHED:
        return MMU_ACCESS_ANSWER_SIZE;
    case RIGHTS:
        return MMU_RIGHTS_SIZE;
    case PACK:
        return MMU_ENTRY_SIZE;
    case UNPACK:
        return MMU_FIELDS_SIZE;
    default:
        return MMU_ANSWER_SIZE;
    }
}

/* An address in one of the blocks, or at one of its ends, or just before or behind it. */
static uint32_t block_address(void)
{
    uint32_t number = upper_number(below(pairs_a_side()), below(2));
    uint32_t upper = mmu_get_word(lent[0].registers, MMU_REGISTER_OFFSET(number));
    uint32_t inner = (upper & MMU_BLOCK_BL_LONG) << 15 | 0x1FFFF, start = upper & MMU_BLOCK_BEPI;
    switch (below(4)) {
    case 0:
        return start - below(2);
    case 1:
        return start + inner + below(2);
    default:
        return start + (any() & inner);
    }
}

/* An operand of 1 to 128 bytes, every other one over or up to the end of one of the pages; rarely of another length. */
static void choose_operand(struct request *q)
{
    q->length = rarely() ? argument(MMU_LONGEST_OPERAND + 2) : 1 + below(MMU_LONGEST_OPERAND);
    q->address = below(3) ? below(16) << 28 | random_page() << 12 | below(4096) : block_address();
    if (below(2) && q->length >= 1 && q->length <= MMU_LONGEST_OPERAND)
        q->address = (q->address | 0xFFFu) - below(q->length);
}

/* An access more often than the rest, a clear seldom, so that the table fills. */
static int random_call(void)
{
    int call = (int)below(CALLS + 10);
    if (call == CLEAR && below(40))
        call = MAP;
    return call < CALLS ? call : call % 2 ? ACCESS : ACCESS_CACHED;
}

static struct request random_request(uint32_t sdr1)
{
    struct request q;
    odds = below(12) ? 40 : 2;
    q.call = random_call();
    q.sdr1 = rarely() ? sdr1 ^ 1u << below(32) : sdr1;
    q.vsid = rarely() ? argument(1u << 24) : random_vsid();
    q.page_index = rarely() ? argument(1u << 16) : random_page();
    q.rpn = argument(1u << 20);
    q.wimg = argument(16);
    q.pp = argument(4);
    q.mode = argument(8);
    q.kind = argument(3);
    choose_operand(&q);
    q.number = argument((uint32_t)page_len / 4);
    q.word = any();
    q.v = argument(2);
    q.h = argument(2);
    q.api = argument(64);
    q.r = argument(2);
    q.c = argument(2);
    q.registers_len = rarely() ? MMU_REGISTERS_SIZE_SHORT + MMU_REGISTERS_SIZE_LONG - page_len : length(page_len);
    q.table_len = length(MMU_TABLE_SIZE(sdr1));
    q.cache_len = length(MMU_CACHE_SIZE);
    q.answer_len = length(answer_size(q.call));
    return q;
}

/* A word that often leaves the set whole: the old one with one bit turned, or one of the same kind. */
static void choose_word(struct request *q)
{
    if (q->number < page_len / 4 && below(2))
        q->word = mmu_get_word(lent[0].registers, MMU_REGISTER_OFFSET(q->number)) ^ 1u << below(32);
    else if (q->number >= 1 && q->number <= 16)
        q->word = below(16) << 28 | random_vsid();
}

/* A slice of length 0 is lent as NULL. */
static uint8_t *slice(uint8_t *bytes, size_t len)
{
    return len == 0 ? NULL : bytes;
}

static uint32_t perform(const struct calls *calls, struct lent *l, const struct request *q)
{
    uint8_t *registers = slice(l->registers, q->registers_len);
    uint8_t *table = slice(l->table, q->table_len);
    uint8_t *cache = slice(l->cache, q->cache_len);
    uint8_t *answer = slice(l->answer, q->answer_len);
    switch (q->call) {
    case CHECK:
        return calls->check(registers, q->registers_len);
    case SET_REGISTER:
        return calls->set_register(registers, q->registers_len, q->number, q->word);
    case CLEAR:
        return calls->clear(q->sdr1, table, q->table_len);
    case MAP:
        return calls->map(q->sdr1, q->vsid, q->page_index, q->rpn, q->wimg, q->pp, table, q->table_len);
    case UNMAP:
        return calls->unmap(q->sdr1, q->vsid, q->page_index, table, q->table_len, answer, q->answer_len);
    case PROTECT:
        return calls->protect(q->sdr1, q->vsid, q->page_index, q->pp, table, q->table_len);
    case LOOK:
        return calls->look(q->sdr1, q->vsid, q->page_index, table, q->table_len, answer, q->answer_len);
    case ACCESS:
        return calls->access(registers, q->registers_len, q->mode, q->kind, q->address, q->length, table, q->table_len,
                             answer, q->answer_len);
    case ACCESS_CACHED:
        return calls->access_cached(registers, q->registers_len, q->mode, q->kind, q->address, q->length, table,
                                    q->table_len, cache, q->cache_len, answer, q->answer_len);
    case RIGHTS:
        return calls->rights(registers, q->registers_len, q->mode, q->address, table, q->table_len, answer,
                             q->answer_len);
    case INVALIDATE:
        return calls->invalidate(q->page_index, cache, q->cache_len);
    case PACK:
        return calls->pack(q->v, q->vsid, q->h, q->api, q->rpn, q->r, q->c, q->wimg, q->pp, answer, q->answer_len);
    default:
        return calls->unpack(q->word, q->address, answer, q->answer_len);
    }
}

static int same_bytes(size_t table_size)
{
    return memcmp(lent[0].registers, lent[1].registers, sizeof lent[0].registers) == 0
        && memcmp(lent[0].answer, lent[1].answer, sizeof lent[0].answer) == 0
        && memcmp(lent[0].cache, lent[1].cache, sizeof lent[0].cache) == 0
        && memcmp(lent[0].table, lent[1].table, table_size + 1) == 0;
}

/* Counts an access by its parts and by its rule. */
static void note_answer(const struct request *q, uint32_t number)
{
    struct mmu_answer answer = mmu_read_answer(lent[0].answer);
    if (number == MMU_DONE)
        edges_done += answer.second_bytes != 0;
    if (number >= MMU_DATA_STORAGE_FAULT)
        edges_faulted += answer.effective != q->address;
    if (number == MMU_DONE || number >= MMU_DATA_STORAGE_FAULT)
        rules[answer.rule]++;
    if ((number == MMU_DONE || number >= MMU_DATA_STORAGE_FAULT) && answer.rule == MMU_RULE_BLOCK)
        blocks[is_long(q->registers_len)][answer.detail]++;
}

/* Counts an access with a cache by whether the part that answers hit. */
static void note_hit(uint32_t number)
{
    struct mmu_answer answer = mmu_read_answer(lent[0].answer);
    if (number != MMU_DONE && number < MMU_DATA_STORAGE_FAULT)
        return;
    if (answer.entry == MMU_HIT_ENTRY)
        hits[answer.rule]++;
    else
        misses += answer.rule >= MMU_RULE_GUARDED;
}

/* Counts what rights told of each kind that would be done. */
static void note_rights(void)
{
    uint32_t kind;
    for (kind = MMU_FETCH; kind <= MMU_STORE; kind++)
        if (mmu_get_word(lent[0].answer, MMU_RIGHTS_ANSWER(kind)) == MMU_DONE)
            told[mmu_get_word(lent[0].answer, MMU_RIGHTS_MARKS(kind)) >> 7]++;
}

static void step(uint32_t sdr1)
{
    struct request q = random_request(sdr1);
    uint32_t numbers[2];
    choose_word(&q);
    if (q.call == ACCESS_CACHED && below(2)) {
        plant_place(q.address);
        plant_place(q.address + 0x80);
    }
    numbers[0] = perform(&library, &lent[0], &q);
    numbers[1] = perform(&contender, &lent[1], &q);
    if (numbers[0] != numbers[1] || !same_bytes(MMU_TABLE_SIZE(sdr1))) {
        fprintf(stderr, "agree: %s: the library gives %u, the plain C %u%s\n", names[q.call], (unsigned)numbers[0],
                (unsigned)numbers[1], numbers[0] == numbers[1] ? ", and the lent bytes differ" : "");
        exit(1);
    }
    seen[q.call][numbers[0] < 66 ? numbers[0] : 0]++;
    if (q.call == CHECK || q.call == SET_REGISTER || q.call == ACCESS)
        seen_on[is_long(q.registers_len)][q.call == ACCESS ? 2 : q.call][numbers[0] < 66 ? numbers[0] : 0]++;
    if ((q.call == CHECK || q.call == ACCESS) && numbers[0] == MMU_DONE && q.registers_len == page_len)
        note_pairs();
    if (q.call == ACCESS)
        note_answer(&q, numbers[0]);
    if (q.call == ACCESS_CACHED)
        note_hit(numbers[0]);
    if (q.call == RIGHTS && numbers[0] == MMU_DONE)
        note_rights();
    if (q.call == LOOK && numbers[0] == MMU_DONE)
        unequal_done += unequal(q.sdr1, q.vsid, q.page_index);
    if (q.call == LOOK && numbers[0] == MMU_REFUSED_CONTRADICTION)
        unequal_refused += unequal(q.sdr1, q.vsid, q.page_index);
}

/* A round: one SDR1, one register page, some entries of others, then many calls. */
static void start_round(uint32_t sdr1)
{
    int i;
    for (i = 0; i < 2; i++) {
        memset(lent[i].table, 0, sizeof lent[i].table);
        lent[i].table[MMU_TABLE_SIZE(sdr1)] = 0xA5;
        memset(lent[i].answer, 0xA5, sizeof lent[i].answer);
        memset(lent[i].cache, 0, sizeof lent[i].cache);
    }
    page_len = below(2) ? MMU_REGISTERS_SIZE_LONG : MMU_REGISTERS_SIZE_SHORT;
    random_registers(sdr1);
    if (below(2))
        spoil_registers();
    for (i = (int)below(40); i > 0; i--)
        plant_page(sdr1);
}

/* The results of check, set_register and access by the page's length (11 is of neither), and the blocks shown. */
static int report_pages(void)
{
    static const int calls[3] = { CHECK, SET_REGISTER, ACCESS };
    int page, call, i, missed = 0;
    for (page = 0; page < 2; page++) {
        for (call = 0; call < 3; call++)
            for (i = 0; possible[calls[call]][i] != 255; i++)
                missed += possible[calls[call]][i] != MMU_REFUSED_LENT_LENGTH
                       && seen_on[page][call][possible[calls[call]][i]] == 0;
        printf("blocks of a %s page:", page ? "long" : "short");
        for (i = 0; i < (page ? 8 : 4); i++) {
            printf(" %d:%lu", i, blocks[page][i]);
            missed += blocks[page][i] == 0;
        }
        printf("\n");
    }
    return missed;
}

static int report(int small)
{
    int call, i, missed = 0;
    for (call = 0; call < CALLS; call++) {
        printf("%-13s", names[call]);
        for (i = 0; possible[call][i] != 255; i++) {
            printf(" %u:%lu", possible[call][i], seen[call][possible[call][i]]);
            missed += seen[call][possible[call][i]] == 0;
        }
        printf("\n");
    }
    printf("over a page edge: %lu done, %lu faults of the second page\n", edges_done, edges_faulted);
    missed += (edges_done == 0) + (edges_faulted == 0);
    printf("looks at unequal matches: %lu done, %lu refused\n", unequal_done, unequal_refused);
    missed += (unequal_done == 0) + (unequal_refused == 0);
    printf("accesses with a cache: hits by rule 4:%lu 5:%lu 6:%lu, by the table %lu\n", hits[4], hits[5], hits[6],
           misses);
    missed += (hits[4] == 0) + (hits[5] == 0) + (hits[6] == 0) + (misses == 0);
    printf("told by rights, by new marks: none %lu, C %lu, R %lu, both %lu\n", told[0], told[1], told[2], told[3]);
    missed += (told[0] == 0) + (told[1] == 0) + (told[2] == 0) + (told[3] == 0);
    printf("done with blocks close together: rising %lu, others %lu; W and I in different blocks: %lu; junk in an off "
           "pair: %lu\n", on_rising, on_others, on_w_and_i, on_junk);
    missed += (on_rising == 0) + (on_others == 0) + (on_w_and_i == 0) + (on_junk == 0);
    printf("by rule:");
    for (i = 0; i <= (int)MMU_RULE_DONE; i++) {
        printf(" %d:%lu", i, rules[i]);
        missed += rules[i] == 0;
    }
    printf("\n");
    missed += report_pages();
    if (missed && !small)
        fprintf(stderr, "agree: %d results were never met\n", missed);
    return missed && !small;
}

int main(int argc, char **argv)
{
    int small = argc > 1 && strcmp(argv[1], "-s") == 0;
    long calls = argc > 1 + small ? atol(argv[1 + small]) : 100000;
    long done;
    uint32_t sdr1 = 0;
    state = (argc > 2 + small ? (uint64_t)atol(argv[2 + small]) : 1) * UINT64_C(0x9E3779B97F4A7C15) + 1;
    for (done = 0; done < calls; done++) {
        if (done % ROUND == 0) {
            sdr1 = random_sdr1();
            start_round(sdr1);
        }
        step(sdr1);
    }
    printf("%ld calls: equal results and bytes\n", calls);
    return report(small);
}
