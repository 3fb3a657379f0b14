/*
 * The rows of the benchmark. Each row is prepared once and then run with the library and with the plain C in turn;
 * a result other than the row's own ends the program.
 *
 *   rows list                the rows' names and how many calls of each are counted, a line each
 *   rows time PAGES ROUNDS   name, least nanoseconds of the library and of the plain C, a line a row
 *   rows count PAGES         runs each row once per implementation; callgrind writes a profile at each row_done
 *
 * PAGES is the file of the register pages that real systems had.
 */
#define _POSIX_C_SOURCE 200809L

#include "calls.h"

#include <stdio.h>
#include <stdlib.h>
#include <string.h>
#include <time.h>

enum { ACCESSES = 4096, LARGEST_TABLE = 1 << 20 };

/* Document 01's page, and addresses that the fourth data block covers, and on a long page the eighth. */
#define VSID 0x0C701Cu
#define PAGE_INDEX 0x0FFAu
#define PAGE_ADDRESS 0x00FFA01Bu
#define BLOCK_ADDRESS 0xB0012345u
#define LONG_BLOCK_ADDRESS 0xF0012345u
#define SMALL_SDR1 0x0F980000u
#define LARGE_SDR1 0x0F980007u

/* With Linux: a program's page, the kernel's memory in the third data block, and its text, in a block of each side. */
#define PROGRAM_ADDRESS 0x10012345u
#define KERNEL_ADDRESS 0xC0812345u
#define TEXT_ADDRESS 0xC0212345u

/* What a row lends, and the accesses that it makes. */
struct bench {
    uint8_t registers[MMU_REGISTERS_SIZE_LONG];
    size_t registers_len;
    uint8_t answer[MMU_ANSWER_SIZE];
    uint8_t access_answer[MMU_ACCESS_ANSWER_SIZE];
    uint8_t rights[MMU_RIGHTS_SIZE];
    uint8_t fields[MMU_FIELDS_SIZE];
    uint8_t packed[MMU_ENTRY_SIZE];
    uint8_t cache[MMU_CACHE_SIZE];
    uint8_t *table;
    size_t table_len;
    uint8_t *entries[2];
    uint8_t unmarked[2][MMU_ENTRY_SIZE];
    uint32_t pages;
    uint32_t sdr1, vsid, mode, kind, address, length;
    uint32_t addresses[ACCESSES];
};

struct row {
    const char *name;
    void (*prepare)(struct bench *);
    uint32_t (*run)(struct bench *, const struct calls *, uint32_t count);
    uint32_t expected;
    uint32_t counted;
};

static void require(int right, const char *what)
{
    if (!right) {
        fprintf(stderr, "rows: %s\n", what);
        exit(1);
    }
}

static inline uint32_t access_at(struct bench *bench, const struct calls *calls, uint32_t address)
{
    return calls->access(bench->registers, bench->registers_len, bench->mode, bench->kind, address, bench->length,
                         bench->table, bench->table_len, bench->access_answer, MMU_ACCESS_ANSWER_SIZE);
}

static inline uint32_t cached_at(struct bench *bench, const struct calls *calls, uint32_t address)
{
    return calls->access_cached(bench->registers, bench->registers_len, bench->mode, bench->kind, address,
                                bench->length, bench->table, bench->table_len, bench->cache, MMU_CACHE_SIZE,
                                bench->access_answer, MMU_ACCESS_ANSWER_SIZE);
}

/* ---- Preparing -------------------------------------------------------------------------------- */

static void set(struct bench *bench, uint32_t number, uint32_t word)
{
    require(plain_set_register(bench->registers, bench->registers_len, number, word) == MMU_DONE,
            "a register is refused");
}

/* An empty table, segments of zeros, every block off; loads of one byte of data, translated. */
static void start_empty(struct bench *bench, size_t registers_len, uint32_t sdr1)
{
    memset(bench->registers, 0, sizeof bench->registers);
    memset(bench->cache, 0, sizeof bench->cache);
    bench->registers_len = registers_len;
    bench->sdr1 = sdr1;
    bench->vsid = VSID;
    bench->table_len = MMU_TABLE_SIZE(sdr1);
    bench->mode = MMU_MODE_DR;
    bench->kind = MMU_LOAD;
    bench->address = PAGE_ADDRESS;
    bench->length = 1;
    bench->pages = 0;
    require(bench->table_len <= LARGEST_TABLE, "the table is too large");
    set(bench, MMU_REGISTER_SDR1, sdr1);
    require(plain_clear(sdr1, bench->table, bench->table_len) == MMU_DONE, "clear is refused");
}

/* The same with segment 0 of the twelve cases and fifteen others. */
static void start_on(struct bench *bench, size_t registers_len, uint32_t sdr1)
{
    uint32_t i;
    start_empty(bench, registers_len, sdr1);
    for (i = 0; i < 16; i++)
        set(bench, MMU_REGISTER_SEGMENT(i), VSID + 0x111 * i);
}

static void start(struct bench *bench, uint32_t sdr1)
{
    start_on(bench, MMU_REGISTERS_SIZE_SHORT, sdr1);
}

/* A pair of the same number on both sides. */
static void set_pair(struct bench *bench, uint32_t pair, uint32_t upper, uint32_t lower)
{
    int is_long = bench->registers_len == MMU_REGISTERS_SIZE_LONG;
    set(bench, MMU_REGISTER_INSTRUCTION_LOWER(pair), lower);
    set(bench, MMU_REGISTER_INSTRUCTION_UPPER(pair), upper);
    set(bench, is_long ? MMU_REGISTER_DATA_LOWER_LONG(pair) : MMU_REGISTER_DATA_LOWER(pair), lower);
    set(bench, is_long ? MMU_REGISTER_DATA_UPPER_LONG(pair) : MMU_REGISTER_DATA_UPPER(pair), upper);
}

/*
 * All block pairs on, in the top half of the addresses: on each side 256 MB, 16 MB, 1 MB and 128 KB, on a long page the
 * same four lengths again.
 */
static void blocks_on(struct bench *bench)
{
    static const uint32_t bl[4] = { 0x7FF, 0x7F, 0x7, 0 };
    uint32_t i, pairs = bench->registers_len == MMU_REGISTERS_SIZE_LONG ? 8 : 4;
    for (i = 0; i < pairs; i++) {
        uint32_t upper = (0x80000000u + (i << 28)) | bl[i % 4] << 2 | MMU_BLOCK_VS | MMU_BLOCK_VP;
        set_pair(bench, i, upper, (i << 28) | 2);
    }
}

/* Maps other pages of a page's two groups, numbered from `first` on. */
static void fill(struct bench *bench, uint32_t page_index, uint32_t first, uint32_t count)
{
    uint32_t i;
    for (i = first; i < first + count; i++)
        require(plain_map(bench->sdr1, bench->vsid ^ ((i + 1) << 19), page_index, i, 2, 2, bench->table,
                          bench->table_len) == MMU_DONE, "a filling page is refused");
}

static void map_page(struct bench *bench, uint32_t page_index)
{
    require(plain_map(bench->sdr1, bench->vsid, page_index, 0x12345, 2, 2, bench->table, bench->table_len) == MMU_DONE,
            "the page is refused");
}

/* A page at the given place of its search order, the other fifteen entries in use; the unmarked entry is kept. */
static void put_page(struct bench *bench, uint32_t page_index, uint32_t place)
{
    uint32_t mask = (uint32_t)(bench->table_len / MMU_GROUP_SIZE) - 1, hash = (bench->vsid ^ page_index) & mask;
    uint32_t group = place < 8 ? hash : hash ^ mask;
    uint8_t *entry = bench->table + MMU_ENTRY_OFFSET(group, place % 8);
    fill(bench, page_index, 0, place);
    map_page(bench, page_index);
    fill(bench, page_index, place, 15 - place);
    memcpy(bench->unmarked[bench->pages], entry, MMU_ENTRY_SIZE);
    bench->entries[bench->pages++] = entry;
    require(mmu_get_word(entry, MMU_ENTRY_SECOND) == 0x12345012u, "the page is not in its place");
}

static void page_at(struct bench *bench, uint32_t place)
{
    start(bench, SMALL_SDR1);
    blocks_on(bench);
    put_page(bench, PAGE_INDEX, place);
}

static void primary_0(struct bench *bench) { page_at(bench, 0); }
static void primary_7(struct bench *bench) { page_at(bench, 7); }
static void secondary_0(struct bench *bench) { page_at(bench, 8); }
static void secondary_7(struct bench *bench) { page_at(bench, 15); }

/* A long page with all sixteen pairs on; the page is at its first place. */
static void long_page(struct bench *bench)
{
    start_on(bench, MMU_REGISTERS_SIZE_LONG, SMALL_SDR1);
    blocks_on(bench);
    put_page(bench, PAGE_INDEX, 0);
}

static void long_real_mode(struct bench *bench)
{
    long_page(bench);
    bench->mode = 0;
}

static void long_block_hit(struct bench *bench)
{
    long_page(bench);
    bench->address = LONG_BLOCK_ADDRESS;
    access_at(bench, &contender, bench->address);
    require(mmu_get_word(bench->access_answer, MMU_ANSWER_PHYSICAL) == 0x70012345u
                && mmu_get_word(bench->access_answer, MMU_ANSWER_DETAIL) == 7, "the eighth block is not hit");
}

static void long_no_match(struct bench *bench)
{
    start_on(bench, MMU_REGISTERS_SIZE_LONG, SMALL_SDR1);
    blocks_on(bench);
    fill(bench, PAGE_INDEX, 0, 16);
}

static void long_blocks_off(struct bench *bench)
{
    start_on(bench, MMU_REGISTERS_SIZE_LONG, SMALL_SDR1);
    map_page(bench, PAGE_INDEX);
    fill(bench, PAGE_INDEX, 0, 15);
}

/* A block of 128 KB in the pair of this number on both sides, and how many such blocks lie before it in a row. */
static void set_small_block(struct bench *bench, uint32_t pair, uint32_t before)
{
    set_pair(bench, pair, 0x80000000u | before << 17 | MMU_BLOCK_VS | MMU_BLOCK_VP, before << 17 | 2);
}

/* Sixteen blocks of 128 KB, on each side in a row: their first address bits do not tell them apart. */
static void long_row_of_blocks(struct bench *bench)
{
    uint32_t i;
    start_on(bench, MMU_REGISTERS_SIZE_LONG, SMALL_SDR1);
    for (i = 0; i < 8; i++)
        set_small_block(bench, i, i);
    put_page(bench, PAGE_INDEX, 0);
}

/* Blocks of 128 KB in a row, the last one in the first pair: each lies before the one of the pair before it. */
static void fall(struct bench *bench, size_t registers_len, uint32_t pairs)
{
    uint32_t i;
    start_on(bench, registers_len, SMALL_SDR1);
    for (i = 0; i < pairs; i++)
        set_small_block(bench, i, pairs - 1 - i);
}

static void falling(struct bench *bench) { fall(bench, MMU_REGISTERS_SIZE_SHORT, 4); }
static void long_falling(struct bench *bench) { fall(bench, MMU_REGISTERS_SIZE_LONG, 8); }

/* Two instruction blocks in order and six data blocks of which each second lies before the first; 256 MB each. */
static void long_two_and_six(struct bench *bench)
{
    uint32_t rest = MMU_BLOCK_BL | MMU_BLOCK_VS | MMU_BLOCK_VP, i;
    start_on(bench, MMU_REGISTERS_SIZE_LONG, SMALL_SDR1);
    for (i = 0; i < 2; i++)
        set(bench, MMU_REGISTER_INSTRUCTION_UPPER(i), (0x80000000u + (i << 28)) | rest);
    for (i = 0; i < 6; i++)
        set(bench, MMU_REGISTER_DATA_UPPER_LONG(i), (0x80000000u + ((i ^ 1) << 28)) | rest);
}

/* W in the first data block and I in the second; no block has both. */
static void w_and_i(struct bench *bench)
{
    page_at(bench, 0);
    set(bench, MMU_REGISTER_DATA_LOWER(0), MMU_ATTRIBUTE_W << MMU_BLOCK_WIMG_SHIFT | 2);
    set(bench, MMU_REGISTER_DATA_LOWER(1), 0x10000000u | MMU_ATTRIBUTE_I << MMU_BLOCK_WIMG_SHIFT | 2);
}

/* A second match behind the first; where they contradict, it is another frame's. */
static void put_second_match(struct bench *bench, int contradict)
{
    uint8_t *match, *second;
    page_at(bench, 0);
    match = bench->entries[0];
    second = match + 3 * MMU_ENTRY_SIZE;
    memcpy(second, match, MMU_ENTRY_SIZE);
    if (contradict)
        mmu_put_word(second, MMU_ENTRY_SECOND, mmu_get_word(match, MMU_ENTRY_SECOND) ^ 0x1000);
}

static void two_agree(struct bench *bench) { put_second_match(bench, 0); }
static void two_contradict(struct bench *bench) { put_second_match(bench, 1); }

static void no_match(struct bench *bench)
{
    start(bench, SMALL_SDR1);
    blocks_on(bench);
    fill(bench, PAGE_INDEX, 0, 16);
}

static void real_mode(struct bench *bench)
{
    page_at(bench, 0);
    bench->mode = 0;
}

static void blocks_off(struct bench *bench)
{
    start(bench, SMALL_SDR1);
    map_page(bench, PAGE_INDEX);
    fill(bench, PAGE_INDEX, 0, 15);
}

static void real_mode_blocks_off(struct bench *bench)
{
    blocks_off(bench);
    bench->mode = 0;
}

static void block_hit(struct bench *bench)
{
    page_at(bench, 0);
    bench->address = BLOCK_ADDRESS;
    access_at(bench, &contender, bench->address);
    require(mmu_get_word(bench->access_answer, MMU_ANSWER_PHYSICAL) == 0x30012345u
                && mmu_get_word(bench->access_answer, MMU_ANSWER_DETAIL) == 3, "the fourth block is not hit");
}

/* Rights are asked with IR and DR on, so that every kind is translated. */
static void rights_page(struct bench *bench)
{
    page_at(bench, 0);
    bench->mode = MMU_MODE_IR | MMU_MODE_DR;
}

static void rights_block(struct bench *bench)
{
    block_hit(bench);
    bench->mode = MMU_MODE_IR | MMU_MODE_DR;
}

/* The page is at its first place and in the cache, so that each access by the cache hits. */
static void load_cache(struct bench *bench)
{
    cached_at(bench, &contender, bench->address);
    cached_at(bench, &contender, bench->address);
    require(mmu_get_word(bench->access_answer, MMU_ANSWER_ENTRY) == MMU_HIT_ENTRY, "the cache is not hit");
}

static void cache_hit(struct bench *bench)
{
    page_at(bench, 0);
    load_cache(bench);
}

static void cache_hit_blocks_off(struct bench *bench)
{
    blocks_off(bench);
    load_cache(bench);
}

static void storing(struct bench *bench)
{
    page_at(bench, 0);
    bench->kind = MMU_STORE;
}

/* Eight bytes, four at the end of the page of the address and four in the next. */
static void go_over_edge(struct bench *bench)
{
    bench->address = (bench->address | 0xFFF) - 3;
    bench->length = 8;
    access_at(bench, &contender, bench->address);
    require(mmu_get_word(bench->access_answer, MMU_ANSWER_SECOND_BYTES) == 4, "the operand is not over the edge");
}

static void over_edge(struct bench *bench)
{
    page_at(bench, 0);
    put_page(bench, PAGE_INDEX + 1, 0);
    go_over_edge(bench);
}

static void block_over_edge(struct bench *bench)
{
    block_hit(bench);
    go_over_edge(bench);
}

static void long_over_edge(struct bench *bench)
{
    long_page(bench);
    put_page(bench, PAGE_INDEX + 1, 0);
    go_over_edge(bench);
}

static void long_block_over_edge(struct bench *bench)
{
    long_block_hit(bench);
    go_over_edge(bench);
}

static void storing_over_edge(struct bench *bench)
{
    over_edge(bench);
    bench->kind = MMU_STORE;
}

static void empty_groups(struct bench *bench)
{
    start(bench, SMALL_SDR1);
}

static void last_place_free(struct bench *bench)
{
    start(bench, SMALL_SDR1);
    fill(bench, PAGE_INDEX, 0, 15);
}

/* ---- Preparing: the pages that real systems had ------------------------------------------------- */

static const char *pages_path;

/* The words under a name in the file of the pages; answers how many. */
static uint32_t read_words(const char *name, uint32_t words[MMU_REGISTER_COUNT_LONG])
{
    FILE *file = fopen(pages_path, "r");
    char line[128], *token;
    uint32_t count = 0;
    int found = 0;
    require(file != NULL, "the file of the pages cannot be read");
    while (fgets(line, sizeof line, file) != NULL) {
        int named = line[0] != ' ';
        token = strtok(line, " \n");
        if (named)
            found = token != NULL && strcmp(token, name) == 0;
        for (; found && !named && token != NULL && count < MMU_REGISTER_COUNT_LONG; token = strtok(NULL, " \n"))
            words[count++] = (uint32_t)strtoul(token, NULL, 16);
    }
    fclose(file);
    return count;
}

/* A program's page at its first place, the other fifteen entries in use; the program loads. */
static void put_program_page(struct bench *bench)
{
    uint32_t segment = MMU_REGISTER_SEGMENT(PROGRAM_ADDRESS >> 28);
    bench->address = PROGRAM_ADDRESS;
    bench->mode = MMU_MODE_PR | MMU_MODE_DR;
    bench->vsid = mmu_get_word(bench->registers, MMU_REGISTER_OFFSET(segment)) & MMU_SEGMENT_VSID;
    put_page(bench, PROGRAM_ADDRESS >> 12 & 0xFFFF, 0);
}

static void linux_750(struct bench *bench)
{
    uint32_t words[MMU_REGISTER_COUNT_LONG], i;
    require(read_words("linux-750", words) == MMU_REGISTER_COUNT_SHORT, "the 750's page is not whole");
    start_empty(bench, MMU_REGISTERS_SIZE_SHORT, words[0]);
    for (i = 1; i < MMU_REGISTER_COUNT_SHORT; i++)
        set(bench, i, words[i]);
    put_program_page(bench);
}

/* What is not known of the 7455's page is the 750's: the segments, and the first two of its instruction blocks. */
static void linux_7455(struct bench *bench)
{
    uint32_t words[MMU_REGISTER_COUNT_LONG], data[MMU_REGISTER_COUNT_LONG], sdr1[MMU_REGISTER_COUNT_LONG], i;
    require(read_words("linux-750", words) == MMU_REGISTER_COUNT_SHORT && read_words("linux-7455-sdr1", sdr1) == 1
                && read_words("linux-7455-data", data) == 12, "the 7455's words are not whole");
    start_empty(bench, MMU_REGISTERS_SIZE_LONG, sdr1[0]);
    for (i = 1; i < MMU_REGISTER_INSTRUCTION_UPPER(2); i++)
        set(bench, i, words[i]);
    for (i = 0; i < 12; i++)
        set(bench, MMU_REGISTER_DATA_UPPER_LONG(0) + i, data[i]);
    put_program_page(bench);
}

/* The kernel asks, and the address is in the block of this number. */
static void go_to_block(struct bench *bench, uint32_t mode, uint32_t kind, uint32_t address, uint32_t number)
{
    bench->mode = mode;
    bench->kind = kind;
    bench->address = address;
    access_at(bench, &contender, address);
    require(mmu_get_word(bench->access_answer, MMU_ANSWER_RULE) == MMU_RULE_BLOCK
                && mmu_get_word(bench->access_answer, MMU_ANSWER_DETAIL) == number, "the kernel's block is not hit");
}

static void linux_750_block(struct bench *bench)
{
    linux_750(bench);
    go_to_block(bench, MMU_MODE_DR, MMU_LOAD, KERNEL_ADDRESS, 2);
}

static void linux_7455_block(struct bench *bench)
{
    linux_7455(bench);
    go_to_block(bench, MMU_MODE_DR, MMU_LOAD, KERNEL_ADDRESS, 2);
}

static void linux_750_rights(struct bench *bench)
{
    linux_750(bench);
    bench->mode = MMU_MODE_PR | MMU_MODE_IR | MMU_MODE_DR;
}

static void linux_750_text_rights(struct bench *bench)
{
    linux_750(bench);
    go_to_block(bench, MMU_MODE_IR | MMU_MODE_DR, MMU_FETCH, TEXT_ADDRESS, 1);
    go_to_block(bench, MMU_MODE_IR | MMU_MODE_DR, MMU_LOAD, TEXT_ADDRESS, 0);
}

/* Every bit but V in the 750's fourth instruction pair, which is off. */
static void junk(struct bench *bench)
{
    linux_750(bench);
    set(bench, MMU_REGISTER_INSTRUCTION_UPPER(3), ~(MMU_BLOCK_VS | MMU_BLOCK_VP));
    set(bench, MMU_REGISTER_INSTRUCTION_LOWER(3), 0xFFFFFFFFu);
}

/* ---- Preparing: many pages ---------------------------------------------------------------------- */

static uint32_t next_random(uint32_t *state)
{
    *state ^= *state << 13;
    *state ^= *state >> 17;
    *state ^= *state << 5;
    return *state;
}

/* Random pages of the lower eight segments until half the table's entries are in use, then random accesses to them. */
static void working_set(struct bench *bench, uint32_t sdr1)
{
    uint32_t state = 2463534242u;
    uint32_t pages = (uint32_t)(MMU_TABLE_SIZE(sdr1) / MMU_ENTRY_SIZE / 2);
    uint32_t *mapped = malloc(pages * sizeof *mapped);
    uint32_t i = 0;
    require(mapped != NULL, "no memory");
    start(bench, sdr1);
    blocks_on(bench);
    while (i < pages) {
        uint32_t address = next_random(&state) & 0x7FFFFFFF;
        uint32_t vsid = mmu_get_word(bench->registers, MMU_REGISTER_OFFSET(MMU_REGISTER_SEGMENT(address >> 28)));
        if (plain_map(sdr1, vsid, address >> 12 & 0xFFFF, i, 2, 2, bench->table, bench->table_len) == MMU_DONE)
            mapped[i++] = address;
    }
    for (i = 0; i < ACCESSES; i++)
        bench->addresses[i] = mapped[next_random(&state) % pages];
    free(mapped);
}

static void working_set_small(struct bench *bench) { working_set(bench, SMALL_SDR1); }
static void working_set_large(struct bench *bench) { working_set(bench, LARGE_SDR1); }

/* ---- Running: each gives the sum of its result numbers ------------------------------------------ */

static uint32_t run_access(struct bench *bench, const struct calls *calls, uint32_t count)
{
    uint32_t sum = 0;
    while (count-- > 0)
        sum += access_at(bench, calls, bench->address);
    return sum;
}

/* The entries are written back unmarked before each store, so that each sets C anew. */
static uint32_t run_store(struct bench *bench, const struct calls *calls, uint32_t count)
{
    uint32_t sum = 0, i;
    while (count-- > 0) {
        for (i = 0; i < bench->pages; i++)
            memcpy(bench->entries[i], bench->unmarked[i], MMU_ENTRY_SIZE);
        sum += access_at(bench, calls, bench->address);
    }
    return sum;
}

static uint32_t run_cached(struct bench *bench, const struct calls *calls, uint32_t count)
{
    uint32_t sum = 0;
    while (count-- > 0)
        sum += cached_at(bench, calls, bench->address);
    return sum;
}

/* The page's set is emptied before each access, so that each is loaded anew. */
static uint32_t run_cached_miss(struct bench *bench, const struct calls *calls, uint32_t count)
{
    uint32_t sum = 0;
    while (count-- > 0) {
        memset(bench->cache + MMU_CACHE_SET_SIZE * (PAGE_INDEX % MMU_CACHE_SETS), 0, MMU_CACHE_SET_SIZE);
        sum += cached_at(bench, calls, bench->address);
    }
    return sum;
}

static uint32_t run_rights(struct bench *bench, const struct calls *calls, uint32_t count)
{
    uint32_t sum = 0;
    while (count-- > 0)
        sum += calls->rights(bench->registers, bench->registers_len, bench->mode, bench->address, bench->table,
                             bench->table_len, bench->rights, MMU_RIGHTS_SIZE);
    return sum;
}

static uint32_t run_invalidate(struct bench *bench, const struct calls *calls, uint32_t count)
{
    uint32_t sum = 0;
    while (count-- > 0)
        sum += calls->invalidate(PAGE_INDEX + count % 2, bench->cache, MMU_CACHE_SIZE);
    return sum;
}

static uint32_t run_working_set(struct bench *bench, const struct calls *calls, uint32_t count)
{
    uint32_t sum = 0;
    while (count-- > 0)
        sum += access_at(bench, calls, bench->addresses[count % ACCESSES]);
    return sum;
}

static uint32_t run_map_unmap(struct bench *bench, const struct calls *calls, uint32_t count)
{
    uint32_t sum = 0;
    while (count-- > 0) {
        sum += calls->map(bench->sdr1, VSID, PAGE_INDEX, 0x12345, 2, 2, bench->table, bench->table_len);
        sum += calls->unmap(bench->sdr1, VSID, PAGE_INDEX, bench->table, bench->table_len, bench->answer,
                            MMU_ANSWER_SIZE);
    }
    return sum;
}

static uint32_t run_protect(struct bench *bench, const struct calls *calls, uint32_t count)
{
    uint32_t sum = 0;
    while (count-- > 0)
        sum += calls->protect(bench->sdr1, VSID, PAGE_INDEX, 2 + count % 2, bench->table, bench->table_len);
    return sum;
}

static uint32_t run_look(struct bench *bench, const struct calls *calls, uint32_t count)
{
    uint32_t sum = 0;
    while (count-- > 0)
        sum += calls->look(bench->sdr1, VSID, PAGE_INDEX, bench->table, bench->table_len, bench->answer,
                           MMU_ANSWER_SIZE);
    return sum;
}

static uint32_t run_clear(struct bench *bench, const struct calls *calls, uint32_t count)
{
    uint32_t sum = 0;
    while (count-- > 0)
        sum += calls->clear(bench->sdr1, bench->table, bench->table_len);
    return sum;
}

static uint32_t run_check(struct bench *bench, const struct calls *calls, uint32_t count)
{
    uint32_t sum = 0;
    while (count-- > 0)
        sum += calls->check(bench->registers, bench->registers_len);
    return sum;
}

static uint32_t run_set_register(struct bench *bench, const struct calls *calls, uint32_t count)
{
    uint32_t sum = 0;
    while (count-- > 0)
        sum += calls->set_register(bench->registers, bench->registers_len, MMU_REGISTER_SEGMENT(3), VSID + count % 2);
    return sum;
}

static uint32_t run_pack(struct bench *bench, const struct calls *calls, uint32_t count)
{
    uint32_t sum = 0;
    while (count-- > 0)
        sum += calls->pack(1, VSID, 0, 3, 0x12345, 1, count % 2, 2, 2, bench->packed, MMU_ENTRY_SIZE);
    return sum;
}

static uint32_t run_unpack(struct bench *bench, const struct calls *calls, uint32_t count)
{
    uint32_t sum = 0;
    while (count-- > 0)
        sum += calls->unpack(0x86380E03u, 0x12345012u + count % 2, bench->fields, MMU_FIELDS_SIZE);
    return sum;
}

static const struct row rows[] = {
    { "check, Linux on a 750", linux_750, run_check, MMU_DONE, 16 },
    { "set_register, Linux on a 750", linux_750, run_set_register, MMU_DONE, 16 },
    { "access, Linux on a 750, by a page", linux_750, run_access, MMU_DONE, 16 },
    { "access, Linux on a 750, by a block", linux_750_block, run_access, MMU_DONE, 16 },
    { "rights, Linux on a 750, of a page", linux_750_rights, run_rights, MMU_DONE, 16 },
    { "rights, Linux on a 750, of a block", linux_750_text_rights, run_rights, MMU_DONE, 16 },
    { "check, Linux on a 7455", linux_7455, run_check, MMU_DONE, 16 },
    { "access, Linux on a 7455, by a page", linux_7455, run_access, MMU_DONE, 16 },
    { "access, Linux on a 7455, by a block", linux_7455_block, run_access, MMU_DONE, 16 },
    { "access, real mode", real_mode, run_access, MMU_DONE, 16 },
    { "access, real mode, blocks off", real_mode_blocks_off, run_access, MMU_DONE, 16 },
    { "access, block hit in the fourth pair", block_hit, run_access, MMU_DONE, 16 },
    { "access, page hit, primary entry 0", primary_0, run_access, MMU_DONE, 16 },
    { "access, page hit, primary entry 7", primary_7, run_access, MMU_DONE, 16 },
    { "access, page hit, secondary entry 0", secondary_0, run_access, MMU_DONE, 16 },
    { "access, page hit, secondary entry 7", secondary_7, run_access, MMU_DONE, 16 },
    { "access, page hit, primary entry 0, blocks off", blocks_off, run_access, MMU_DONE, 16 },
    { "access, junk in an off pair", junk, run_access, MMU_DONE, 16 },
    { "access, W in one block and I in another", w_and_i, run_access, MMU_DONE, 16 },
    { "access, no match", no_match, run_access, MMU_DATA_STORAGE_FAULT, 16 },
    { "access, two matches that agree", two_agree, run_access, MMU_DONE, 16 },
    { "access, two matches that contradict", two_contradict, run_access, MMU_REFUSED_CONTRADICTION, 16 },
    { "access, a store that sets C", storing, run_store, MMU_DONE, 16 },
    { "access over a page edge, both by pages", over_edge, run_access, MMU_DONE, 16 },
    { "access over a page edge, both in the fourth block", block_over_edge, run_access, MMU_DONE, 16 },
    { "access over a page edge, a store that sets C twice", storing_over_edge, run_store, MMU_DONE, 16 },
    { "access, random pages, 64 KB table", working_set_small, run_working_set, MMU_DONE, ACCESSES },
    { "access, random pages, 512 KB table", working_set_large, run_working_set, MMU_DONE, ACCESSES },
    { "access with a cache, hit", cache_hit, run_cached, MMU_DONE, 16 },
    { "access with a cache, hit, blocks off", cache_hit_blocks_off, run_cached, MMU_DONE, 16 },
    { "access with a cache, miss", primary_0, run_cached_miss, MMU_DONE, 16 },
    { "access with a cache, miss, blocks off", blocks_off, run_cached_miss, MMU_DONE, 16 },
    { "rights, page hit, primary entry 0", rights_page, run_rights, MMU_DONE, 16 },
    { "rights, block hit in the fourth pairs", rights_block, run_rights, MMU_DONE, 16 },
    { "invalidate", cache_hit, run_invalidate, MMU_DONE, 16 },
    { "map and unmap, empty groups", empty_groups, run_map_unmap, MMU_DONE, 16 },
    { "map and unmap, only secondary entry 7 free", last_place_free, run_map_unmap, MMU_DONE, 16 },
    { "protect", primary_0, run_protect, MMU_DONE, 16 },
    { "look", primary_0, run_look, MMU_DONE, 16 },
    { "clear, 64 KB (the plain C calls memset)", empty_groups, run_clear, MMU_DONE, 2 },
    { "check", primary_0, run_check, MMU_DONE, 16 },
    { "check, blocks off", blocks_off, run_check, MMU_DONE, 16 },
    { "check, junk in an off pair", junk, run_check, MMU_DONE, 16 },
    { "check, W in one block and I in another", w_and_i, run_check, MMU_DONE, 16 },
    { "check, blocks in falling order", falling, run_check, MMU_DONE, 16 },
    { "set_register", primary_0, run_set_register, MMU_DONE, 16 },
    { "access, long page, real mode", long_real_mode, run_access, MMU_DONE, 16 },
    { "access, long page, block hit in the eighth pair", long_block_hit, run_access, MMU_DONE, 16 },
    { "access, long page, page hit, primary entry 0", long_page, run_access, MMU_DONE, 16 },
    { "access, long page, page hit, primary entry 0, blocks off", long_blocks_off, run_access, MMU_DONE, 16 },
    { "access, long page, blocks of 128 KB in a row", long_row_of_blocks, run_access, MMU_DONE, 16 },
    { "access, long page, no match", long_no_match, run_access, MMU_DATA_STORAGE_FAULT, 16 },
    { "access, long page, over a page edge, both by pages", long_over_edge, run_access, MMU_DONE, 16 },
    { "access, long page, page edge in the eighth block", long_block_over_edge, run_access, MMU_DONE, 16 },
    { "check, long page", long_page, run_check, MMU_DONE, 16 },
    { "check, long page, blocks of 128 KB in a row", long_row_of_blocks, run_check, MMU_DONE, 16 },
    { "check, long page, blocks in falling order", long_falling, run_check, MMU_DONE, 16 },
    { "check, long page, two and six blocks, out of order", long_two_and_six, run_check, MMU_DONE, 16 },
    { "check, long page, blocks off", long_blocks_off, run_check, MMU_DONE, 16 },
    { "set_register, long page", long_page, run_set_register, MMU_DONE, 16 },
    { "pack", primary_0, run_pack, MMU_DONE, 16 },
    { "unpack", primary_0, run_unpack, MMU_DONE, 16 },
};

enum { ROWS = sizeof rows / sizeof rows[0] };

/* ---- Measuring -------------------------------------------------------------------------------- */

/* Where callgrind ends a row's profile, by this name. */
static void row_done(void)
{
}

/* Called through a pointer that the compiler must read, so that the call is not inlined away. */
static void (*volatile end_row)(void) = row_done;

static double nanoseconds(const struct row *row, struct bench *bench, const struct calls *calls, uint32_t count)
{
    struct timespec from, to;
    uint32_t sum;
    clock_gettime(CLOCK_MONOTONIC, &from);
    sum = row->run(bench, calls, count);
    clock_gettime(CLOCK_MONOTONIC, &to);
    require(sum == row->expected * count, row->name);
    return (double)(to.tv_sec - from.tv_sec) * 1e9 + (double)(to.tv_nsec - from.tv_nsec);
}

/* How many calls take some hundred microseconds. */
static uint32_t calls_in_a_round(const struct row *row, struct bench *bench)
{
    uint32_t count = 16;
    while (nanoseconds(row, bench, &contender, count) < 3e5)
        count *= 2;
    return count;
}

/* The two implementations take turns, and the least time of each counts. */
static void time_row(const struct row *row, struct bench *bench, int rounds)
{
    double least[2] = { 1e30, 1e30 };
    uint32_t count;
    int i;
    row->prepare(bench);
    count = calls_in_a_round(row, bench);
    for (i = 0; i < 2 * rounds; i++) {
        double time = nanoseconds(row, bench, i % 2 ? &contender : &library, count) / count;
        if (time < least[i % 2])
            least[i % 2] = time;
    }
    printf("%s\t%.2f\t%.2f\n", row->name, least[0], least[1]);
}

static void count_row(const struct row *row, struct bench *bench)
{
    row->prepare(bench);
    end_row();
    require(row->run(bench, &library, row->counted) == row->expected * row->counted, row->name);
    end_row();
    require(row->run(bench, &contender, row->counted) == row->expected * row->counted, row->name);
    end_row();
}

int main(int argc, char **argv)
{
    static struct bench bench;
    const char *task = argc > 1 ? argv[1] : "list";
    int i;
    pages_path = argc > 2 ? argv[2] : "bench/pages.txt";
    bench.table = malloc(LARGEST_TABLE);
    require(bench.table != NULL, "no memory");
    for (i = 0; i < ROWS; i++) {
        if (strcmp(task, "time") == 0)
            time_row(&rows[i], &bench, argc > 3 ? atoi(argv[3]) : 9);
        else if (strcmp(task, "count") == 0)
            count_row(&rows[i], &bench);
        else
            printf("%s\t%u\n", rows[i].name, (unsigned)rows[i].counted);
    }
    free(bench.table);
    return 0;
}
