/*
 * What a C program can pass within valid memory: wrong lengths, NULL with length 0, any number; and a few good calls,
 * so that a library that refuses everything fails too. Each lent slice is a block of its own of exactly its length,
 * so that valgrind sees a byte read or written beside it.
 *
 *   bad_input [CALLS]   with so many random calls after the written ones (default 2000)
 */
#define _DEFAULT_SOURCE /* mmap's MAP_ANONYMOUS */

#include "mmu.h"

#include <stdio.h>
#include <stdlib.h>
#include <string.h>
#include <sys/mman.h>

#define SDR1 0x0F980000u
#define VSID 0x0C701Cu
#define PAGE 0x0FFAu
#define ADDRESS 0x00FFA01Bu

enum { TABLE = 65536, LONGEST_PAGE = 260, GUARD = 4096 };

static unsigned long checks, failures;

static void expect(int right, const char *what, uint32_t got)
{
    checks++;
    if (!right) {
        failures++;
        printf("bad: %s (result %u)\n", what, (unsigned)got);
    }
}

/* ---- Lent slices ------------------------------------------------------------------------------ */

/* A slice, and what was in it when it was lent. */
struct slice {
    uint8_t *bytes, *before;
    size_t len;
};

static struct slice lend(size_t len, int fill)
{
    struct slice slice = { NULL, NULL, 0 };
    slice.len = len;
    if (len == 0)
        return slice;
    slice.bytes = malloc(len);
    slice.before = malloc(len);
    if (slice.bytes == NULL || slice.before == NULL) {
        fprintf(stderr, "bad_input: no memory\n");
        exit(2);
    }
    memset(slice.bytes, fill, len);
    memset(slice.before, fill, len);
    return slice;
}

static void remember(struct slice *slice)
{
    if (slice->len)
        memcpy(slice->before, slice->bytes, slice->len);
}

static int unchanged(const struct slice *slice)
{
    return slice->len == 0 || memcmp(slice->bytes, slice->before, slice->len) == 0;
}

static void give_back(struct slice *slice)
{
    free(slice->bytes);
    free(slice->before);
}

/*
 * Register page, table, cache and three answers, one of unmap and look, one of an access and one of rights; all but the
 * cache and the last of the given lengths: SDR1 and segment 0 are those of the twelve cases, all blocks off, the cache
 * empty.
 */
struct lent {
    struct slice registers, table, cache, answer, access_answer, rights;
};

/* The two lengths of a register page. */
static const size_t pages[2] = { MMU_REGISTERS_SIZE_SHORT, MMU_REGISTERS_SIZE_LONG };

static int is_page(size_t len)
{
    return len == pages[0] || len == pages[1];
}

static struct lent lend_all(size_t registers_len, size_t table_len, size_t answer_len, size_t access_answer_len)
{
    struct lent lent;
    lent.registers = lend(registers_len, 0);
    lent.table = lend(table_len, 0);
    lent.cache = lend(MMU_CACHE_SIZE, 0);
    lent.answer = lend(answer_len, 0xA5);
    lent.access_answer = lend(access_answer_len, 0xA5);
    lent.rights = lend(MMU_RIGHTS_SIZE, 0xA5);
    if (is_page(registers_len)) {
        mmu_put_word(lent.registers.bytes, MMU_REGISTER_OFFSET(MMU_REGISTER_SDR1), SDR1);
        mmu_put_word(lent.registers.bytes, MMU_REGISTER_OFFSET(MMU_REGISTER_SEGMENT(0)), VSID);
        remember(&lent.registers);
    }
    return lent;
}

static struct lent lend_page(size_t registers_len)
{
    return lend_all(registers_len, TABLE, MMU_ANSWER_SIZE, MMU_ACCESS_ANSWER_SIZE);
}

static struct lent lend_right(void)
{
    return lend_page(MMU_REGISTERS_SIZE_SHORT);
}

static void give_back_all(struct lent *lent)
{
    give_back(&lent->registers);
    give_back(&lent->table);
    give_back(&lent->cache);
    give_back(&lent->answer);
    give_back(&lent->access_answer);
    give_back(&lent->rights);
}

static int answer_is(const struct slice *answer, uint32_t first, uint32_t second, uint32_t third, uint32_t fourth)
{
    return mmu_get_word(answer->bytes, 0) == first && mmu_get_word(answer->bytes, 4) == second
        && mmu_get_word(answer->bytes, 8) == third && mmu_get_word(answer->bytes, 12) == fourth;
}

/* Words 4 to 7 of an access's answer. */
static int second_is(const struct lent *lent, uint32_t physical, uint32_t attributes, uint32_t bytes,
                     uint32_t second_bytes)
{
    const uint8_t *answer = lent->access_answer.bytes;
    return mmu_get_word(answer, 16) == physical && mmu_get_word(answer, 20) == attributes
        && mmu_get_word(answer, 24) == bytes && mmu_get_word(answer, 28) == second_bytes;
}

/* Words 8 to 11: the rule that decided. */
static int rule_is(const struct lent *lent, uint32_t rule, uint32_t detail, uint32_t group, uint32_t entry)
{
    const uint8_t *answer = lent->access_answer.bytes;
    return mmu_get_word(answer, 32) == rule && mmu_get_word(answer, 36) == detail && mmu_get_word(answer, 40) == group
        && mmu_get_word(answer, 44) == entry;
}

/* A done access to one byte, and one that faulted. */
static int done_is(const struct lent *lent, uint32_t physical, uint32_t attributes, uint32_t address)
{
    return answer_is(&lent->access_answer, 0, physical, attributes, address) && second_is(lent, 0, 0, 1, 0);
}

static int fault_is(const struct lent *lent, uint32_t result, uint32_t fault, uint32_t offset, uint32_t address)
{
    return answer_is(&lent->access_answer, result, fault, offset, address) && second_is(lent, 0, 0, 0, 0);
}

/* After a refusal: the number, table, cache and registers as they were. */
static int left(const struct lent *lent, uint32_t got, uint32_t number)
{
    return got == number && unchanged(&lent->registers) && unchanged(&lent->table) && unchanged(&lent->cache);
}

/* The same of a call that answers: the answer untouched at 11, else the number and zeros. */
static int refused(const struct lent *lent, uint32_t got, uint32_t number)
{
    if (number == MMU_REFUSED_LENT_LENGTH)
        return left(lent, got, number) && unchanged(&lent->answer);
    return left(lent, got, number) && answer_is(&lent->answer, number, 0, 0, 0);
}

static int access_refused(const struct lent *lent, uint32_t got, uint32_t number)
{
    if (number == MMU_REFUSED_LENT_LENGTH)
        return left(lent, got, number) && unchanged(&lent->access_answer);
    return left(lent, got, number) && fault_is(lent, number, 0, 0, 0) && rule_is(lent, 0, 0, 0, 0);
}

/* The same of rights: three times an access's refusal, and no marks. */
static int rights_refused(const struct lent *lent, uint32_t got, uint32_t number)
{
    size_t i;
    if (number == MMU_REFUSED_LENT_LENGTH)
        return left(lent, got, number) && unchanged(&lent->rights);
    for (i = 0; i < MMU_RIGHTS_SIZE; i += 4)
        if (mmu_get_word(lent->rights.bytes, i) != (i < 144 && i % 48 == 0 ? number : 0))
            return 0;
    return left(lent, got, number);
}

/* ---- The calls on what is lent ----------------------------------------------------------------- */

static uint32_t unmap(struct lent *l, uint32_t sdr1, uint32_t vsid, uint32_t page)
{
    return mmu_unmap(sdr1, vsid, page, l->table.bytes, l->table.len, l->answer.bytes, l->answer.len);
}

static uint32_t look(struct lent *l, uint32_t sdr1, uint32_t vsid, uint32_t page)
{
    return mmu_look(sdr1, vsid, page, l->table.bytes, l->table.len, l->answer.bytes, l->answer.len);
}

static uint32_t map(struct lent *l, uint32_t sdr1, uint32_t vsid, uint32_t page, uint32_t rpn, uint32_t wimg, uint32_t pp)
{
    return mmu_map(sdr1, vsid, page, rpn, wimg, pp, l->table.bytes, l->table.len);
}

static uint32_t protect(struct lent *l, uint32_t sdr1, uint32_t vsid, uint32_t page, uint32_t pp)
{
    return mmu_protect(sdr1, vsid, page, pp, l->table.bytes, l->table.len);
}

static uint32_t access_operand(struct lent *l, uint32_t mode, uint32_t kind, uint32_t address, uint32_t length)
{
    return mmu_access(l->registers.bytes, l->registers.len, mode, kind, address, length, l->table.bytes, l->table.len,
                      l->access_answer.bytes, l->access_answer.len);
}

static uint32_t access_at(struct lent *l, uint32_t mode, uint32_t kind, uint32_t address)
{
    return access_operand(l, mode, kind, address, 1);
}

static uint32_t cached_operand(struct lent *l, uint32_t mode, uint32_t kind, uint32_t address, uint32_t length)
{
    return mmu_access_cached(l->registers.bytes, l->registers.len, mode, kind, address, length, l->table.bytes,
                             l->table.len, l->cache.bytes, l->cache.len, l->access_answer.bytes, l->access_answer.len);
}

static uint32_t cached_at(struct lent *l, uint32_t mode, uint32_t kind, uint32_t address)
{
    return cached_operand(l, mode, kind, address, 1);
}

static uint32_t invalidate(struct lent *l, uint32_t page)
{
    return mmu_invalidate(page, l->cache.bytes, l->cache.len);
}

static uint32_t rights_at(struct lent *l, uint32_t mode, uint32_t address)
{
    return mmu_rights(l->registers.bytes, l->registers.len, mode, address, l->table.bytes, l->table.len,
                      l->rights.bytes, l->rights.len);
}

/* ---- Lengths ---------------------------------------------------------------------------------- */

/* Every length of the register page, 0 as NULL: two of them are taken, all others are refused 11. */
static void test_register_lengths(void)
{
    size_t len;
    for (len = 0; len <= LONGEST_PAGE; len++) {
        struct lent l = lend_page(len);
        uint32_t got = mmu_check(l.registers.bytes, l.registers.len);
        expect(left(&l, got, is_page(len) ? 0 : 11), "check by the page's length", (uint32_t)len);
        got = mmu_set_register(l.registers.bytes, l.registers.len, 99, 0xFFFFFFFFu);
        expect(left(&l, got, is_page(len) ? 6 : 11), "set_register by the page's length, 11 before 6", (uint32_t)len);
        got = mmu_set_register(l.registers.bytes, l.registers.len, 1, VSID);
        expect(left(&l, got, is_page(len) ? 0 : 11), "set_register by the page's length alone", (uint32_t)len);
        got = access_at(&l, 99, 99, ADDRESS);
        expect(access_refused(&l, got, is_page(len) ? 6 : 11), "access by the page's length, 11 before 6", got);
        got = access_at(&l, 0, MMU_LOAD, ADDRESS);
        if (is_page(len))
            expect(got == 0 && done_is(&l, ADDRESS, 3, ADDRESS) && rule_is(&l, 0, 0, 0, 0), "real mode", (uint32_t)len);
        else
            expect(got == 11 && left(&l, got, 11), "access by the page's length alone", (uint32_t)len);
        give_back_all(&l);
    }
}

/* The last bytes in front of an unreadable page, zeros. */
static uint8_t *guarded(void)
{
    uint8_t *bytes = mmap(NULL, 2 * GUARD, PROT_READ | PROT_WRITE, MAP_PRIVATE | MAP_ANONYMOUS, -1, 0);
    if (bytes == MAP_FAILED || mprotect(bytes + GUARD, GUARD, PROT_NONE) != 0) {
        fprintf(stderr, "bad_input: no memory\n");
        exit(2);
    }
    return bytes + GUARD;
}

/* Every length again, with an unreadable page behind the slice: a page of 132 bytes is not read as one of 196. */
static void test_guarded_registers(void)
{
    uint8_t *end = guarded(), answer[MMU_ACCESS_ANSWER_SIZE];
    struct slice table = lend(TABLE, 0);
    size_t len;
    for (len = 0; len <= LONGEST_PAGE; len++) {
        uint8_t *registers = end - len;
        uint32_t taken = is_page(len) ? 0 : 11, number;
        expect(mmu_check(registers, len) == taken, "check before an unreadable page", (uint32_t)len);
        for (number = 0; number < 64; number++)
            expect(mmu_set_register(registers, len, number, 0) == (is_page(len) && number >= len / 4 ? 6 : taken),
                   "set_register before an unreadable page", number);
        expect(mmu_access(registers, len, 3, MMU_STORE, ADDRESS, 1, table.bytes, table.len, answer, sizeof answer)
                   == (is_page(len) ? 64 : 11), "access before an unreadable page", (uint32_t)len);
        expect(mmu_access(registers, len, 0, MMU_LOAD, ADDRESS, 1, table.bytes, table.len, answer, sizeof answer)
                   == taken, "real mode before an unreadable page", (uint32_t)len);
    }
    give_back(&table);
    munmap(end - GUARD, 2 * GUARD);
}

/* Every length up to twice the right one, 0 as NULL. */
static void test_wrong_answer_lengths(void)
{
    size_t len;
    for (len = 0; len <= 2 * MMU_ACCESS_ANSWER_SIZE; len++) {
        struct lent l = lend_all(pages[len % 2], TABLE, len, len);
        uint32_t got;
        if (len != MMU_ANSWER_SIZE) {
            got = unmap(&l, 0xFFFFFFFFu, 0xFFFFFFFFu, 0xFFFFFFFFu);
            expect(refused(&l, got, 11), "unmap with another answer length, before 6 and 2", got);
            got = look(&l, 0xFFFFFFFFu, 0xFFFFFFFFu, 0xFFFFFFFFu);
            expect(refused(&l, got, 11), "look with another answer length, before 6 and 2", got);
        }
        if (len != MMU_ACCESS_ANSWER_SIZE) {
            got = access_operand(&l, 8, 3, ADDRESS, 0);
            expect(access_refused(&l, got, 11), "access with another answer length, before 6 and 12", got);
            got = access_at(&l, 0, MMU_LOAD, ADDRESS);
            expect(access_refused(&l, got, 11), "access with another answer length alone", got);
        }
        give_back_all(&l);
    }
}

static void test_wrong_table_lengths(void)
{
    static const size_t lengths[] = { 0, 1, 64, 65535, 65537, 131072 };
    size_t i;
    for (i = 0; i < sizeof lengths / sizeof lengths[0]; i++) {
        struct lent l = lend_all(pages[i % 2], lengths[i], MMU_ANSWER_SIZE, MMU_ACCESS_ANSWER_SIZE);
        uint32_t got = mmu_clear(SDR1, l.table.bytes, l.table.len);
        expect(left(&l, got, 1), "clear with another table length", got);
        got = map(&l, SDR1, VSID, PAGE, 1, 2, 2);
        expect(left(&l, got, 1), "map with another table length", got);
        got = protect(&l, SDR1, VSID, PAGE, 2);
        expect(left(&l, got, 1), "protect with another table length", got);
        got = unmap(&l, SDR1, VSID, PAGE);
        expect(refused(&l, got, 1), "unmap with another table length", got);
        got = look(&l, SDR1, VSID, PAGE);
        expect(refused(&l, got, 1), "look with another table length", got);
        got = access_at(&l, 0, MMU_LOAD, ADDRESS);
        expect(access_refused(&l, got, 1), "access in real mode with another table length", got);
        give_back_all(&l);
    }
}

/* Every length of the cache around the right one, 0 as NULL: 11 before 6 and 12, and nothing is written. */
static void test_cache_lengths(void)
{
    size_t len;
    for (len = 0; len <= MMU_CACHE_SIZE + 33; len += len < 80 || len >= MMU_CACHE_SIZE - 33 ? 1 : 31) {
        struct lent l = lend_right();
        uint32_t right = len == MMU_CACHE_SIZE, got;
        give_back(&l.cache);
        l.cache = lend(len, 0x5A);
        got = cached_operand(&l, 8, 3, ADDRESS, 0);
        expect(access_refused(&l, got, right ? 6 : 11), "access with a cache, by its length, 11 before 6 and 12", got);
        got = invalidate(&l, 0x10000);
        expect(left(&l, got, right ? 6 : 11), "invalidate by the cache's length, 11 before 6", got);
        memset(l.access_answer.bytes, 0xA5, l.access_answer.len);
        got = cached_at(&l, 0, MMU_LOAD, ADDRESS);
        if (right)
            expect(got == 0 && done_is(&l, ADDRESS, 3, ADDRESS) && unchanged(&l.cache), "real mode", (uint32_t)len);
        else
            expect(access_refused(&l, got, 11), "access with a cache, by its length alone", (uint32_t)len);
        got = invalidate(&l, PAGE);
        if (right)
            memset(l.cache.before + MMU_CACHE_SET_SIZE * (PAGE % 64), 0, MMU_CACHE_SET_SIZE);
        expect(left(&l, got, right ? 0 : 11), "invalidate by the cache's length alone", (uint32_t)len);
        give_back_all(&l);
    }
}

/* The other lengths of an access with a cache: of register page and answer, and of the table after them. */
static void test_lengths_with_cache(void)
{
    size_t len;
    for (len = 0; len <= LONGEST_PAGE; len++) {
        struct lent l = lend_page(len);
        uint32_t got = cached_operand(&l, 8, 3, ADDRESS, 0);
        expect(access_refused(&l, got, is_page(len) ? 6 : 11), "access with a cache, by the page's length", got);
        give_back_all(&l);
    }
    for (len = 0; len <= 2 * MMU_ACCESS_ANSWER_SIZE; len++) {
        struct lent l = lend_all(pages[len % 2], TABLE, MMU_ANSWER_SIZE, len);
        uint32_t got = cached_operand(&l, 8, 3, ADDRESS, 0);
        if (len != MMU_ACCESS_ANSWER_SIZE)
            expect(access_refused(&l, got, 11), "access with a cache and another answer length", got);
        give_back_all(&l);
    }
    for (len = 0; len <= 2; len++) {
        static const size_t lengths[] = { 0, 65535, 131072 };
        struct lent l = lend_all(pages[len % 2], lengths[len], MMU_ANSWER_SIZE, MMU_ACCESS_ANSWER_SIZE);
        size_t at = MMU_CACHE_SET_SIZE * (PAGE % 64);
        mmu_put_word(l.cache.bytes, at, 0x86380E03u);
        mmu_put_word(l.cache.bytes, at + 8, PAGE);
        remember(&l.cache);
        expect(access_refused(&l, cached_at(&l, 0, MMU_LOAD, ADDRESS), 1), "real mode, another table length", 1);
        expect(access_refused(&l, cached_at(&l, 3, MMU_LOAD, ADDRESS), 1), "a hit, another table length", 1);
        give_back_all(&l);
    }
}

/* Each slice of an access with a cache in front of an unreadable page: done by the table, by the cache, and by both. */
static void test_guarded_cache(void)
{
    uint8_t *page_end = guarded(), *cache_end = guarded(), *answer_end = guarded();
    uint8_t *registers = page_end - MMU_REGISTERS_SIZE, *cache = cache_end - MMU_CACHE_SIZE;
    uint8_t *answer = answer_end - MMU_ACCESS_ANSWER_SIZE;
    struct slice table = lend(TABLE, 0);
    size_t len;
    uint32_t i, got;
    mmu_put_word(registers, 0, SDR1);
    mmu_put_word(registers, 4, VSID);
    for (i = 0; i < 130; i++)
        expect(mmu_map(SDR1, VSID, i, i, 2, 2, table.bytes, table.len) == 0, "map", i);
    for (i = 0; i < 4 * 129; i++) {
        uint32_t kind = MMU_LOAD + i / 258, in_page = i % 129;
        got = mmu_access_cached(registers, MMU_REGISTERS_SIZE, 3, kind, in_page * 4096 + 4095, 2, table.bytes,
                                table.len, cache, MMU_CACHE_SIZE, answer, MMU_ACCESS_ANSWER_SIZE);
        expect(got == 0 && mmu_get_word(answer, 4) == in_page * 4096 + 4095
                   && mmu_get_word(answer, 16) == in_page * 4096 + 4096, "access before unreadable pages", i);
    }
    for (i = 0; i < 256; i++)
        expect(mmu_invalidate(i * 257, cache, MMU_CACHE_SIZE) == 0, "invalidate before an unreadable page", i);
    for (i = 0; i < MMU_CACHE_SIZE; i++)
        expect(cache[i] == 0, "64 sets are the whole cache", i);
    for (len = 0; len < MMU_CACHE_SIZE; len++) {
        expect(mmu_invalidate(63, cache_end - len, len) == 11, "a shorter cache before an unreadable page", 11);
        got = mmu_access_cached(registers, MMU_REGISTERS_SIZE, 3, MMU_LOAD, 63 * 4096, 1, table.bytes, table.len,
                                cache_end - len, len, answer, MMU_ACCESS_ANSWER_SIZE);
        expect(got == 11, "access with a shorter cache before an unreadable page", (uint32_t)len);
    }
    give_back(&table);
    munmap(page_end - GUARD, 2 * GUARD);
    munmap(cache_end - GUARD, 2 * GUARD);
    munmap(answer_end - GUARD, 2 * GUARD);
}

/* Every length of the slices of rights, 0 as NULL: 11 before 6, and nothing is written; another table length 1. */
static void test_rights_lengths(void)
{
    static const size_t lengths[] = { 0, 1, 64, 65535, 65537, 131072 };
    size_t len;
    for (len = 0; len <= LONGEST_PAGE; len++) {
        struct lent l = lend_page(len);
        expect(rights_refused(&l, rights_at(&l, 8, ADDRESS), is_page(len) ? 6 : 11), "rights by the page's length", 11);
        if (!is_page(len))
            expect(rights_refused(&l, rights_at(&l, 0, ADDRESS), 11), "rights by the page's length alone", 11);
        give_back_all(&l);
    }
    for (len = 0; len <= 2 * MMU_RIGHTS_SIZE; len++) {
        struct lent l = lend_page(pages[len % 2]);
        give_back(&l.rights);
        l.rights = lend(len, 0xA5);
        if (len == MMU_RIGHTS_SIZE) {
            expect(rights_at(&l, 0, ADDRESS) == 0 && left(&l, 0, 0), "rights in real mode", 0);
        } else {
            expect(rights_refused(&l, rights_at(&l, 8, ADDRESS), 11), "rights, another length before 6", (uint32_t)len);
            expect(rights_refused(&l, rights_at(&l, 3, ADDRESS), 11), "rights, another length alone", (uint32_t)len);
        }
        give_back_all(&l);
    }
    for (len = 0; len < sizeof lengths / sizeof lengths[0]; len++) {
        struct lent l = lend_all(pages[len % 2], lengths[len], MMU_ANSWER_SIZE, MMU_ACCESS_ANSWER_SIZE);
        expect(rights_refused(&l, rights_at(&l, 0, ADDRESS), 1), "rights in real mode, another table length", 1);
        expect(rights_refused(&l, rights_at(&l, 3, ADDRESS), 1), "rights, another table length", 1);
        give_back_all(&l);
    }
}

/* Rights of a table that cannot be written, every slice in front of an unreadable page. */
static void test_guarded_rights(void)
{
    uint8_t *page_end = guarded(), *answer_end = guarded(), *answer = answer_end - MMU_RIGHTS_SIZE;
    uint8_t *table = mmap(NULL, TABLE + GUARD, PROT_READ | PROT_WRITE, MAP_PRIVATE | MAP_ANONYMOUS, -1, 0);
    uint32_t i;
    expect(table != MAP_FAILED, "memory for a table", 0);
    for (i = 0; i < 16; i++)
        expect(mmu_map(SDR1, VSID, 0x3E0 + i, i, 2, 2, table, TABLE) == 0, "map", i);
    expect(mprotect(table, TABLE, PROT_READ) == 0 && mprotect(table + TABLE, GUARD, PROT_NONE) == 0, "protect", 0);
    for (i = 0; i < 64; i++) {
        size_t len = pages[i % 2];
        uint8_t *registers = page_end - len;
        memset(registers, 0, len);
        mmu_put_word(registers, 0, SDR1);
        mmu_put_word(registers, 4, VSID);
        expect(mmu_rights(registers, len, i % 8, (0x3E0 + i / 4) << 12, table, TABLE, answer, MMU_RIGHTS_SIZE) == 0,
               "rights before unreadable pages", i);
        expect(mmu_get_word(answer, MMU_RIGHTS_MARKS(MMU_STORE)) == (i % 2 ? 0x180u : 0), "marks of a store", i);
        expect(mmu_get_word(answer, MMU_RIGHTS_MARKS(MMU_FETCH)) == (i & 2 ? 0x100u : 0), "marks of a fetch", i);
    }
    munmap(table, TABLE + GUARD);
    munmap(page_end - GUARD, 2 * GUARD);
    munmap(answer_end - GUARD, 2 * GUARD);
}

static void test_wrong_entry_lengths(void)
{
    static const size_t lengths[] = { 0, 1, 7, 9, 16, 35, 37, 72 };
    size_t i;
    for (i = 0; i < sizeof lengths / sizeof lengths[0]; i++) {
        struct slice slice = lend(lengths[i], 0xA5);
        uint32_t got = mmu_pack(2, 0, 0, 0, 0, 0, 0, 0, 0, slice.bytes, slice.len);
        expect(got == 11 && unchanged(&slice), "pack with another length, before 6", got);
        got = mmu_unpack(0xFFFFFFFFu, 0xFFFFFFFFu, slice.bytes, slice.len);
        expect(got == 11 && unchanged(&slice), "unpack with another length", got);
        give_back(&slice);
    }
}

/* ---- Numbers ---------------------------------------------------------------------------------- */

/* The bound itself, one more, and numbers with high bits. */
static uint32_t beyond(uint32_t bound, int i)
{
    static const uint32_t high[] = { 0x80000000u, 0xFFFFFFFFu };
    return i < 2 ? bound + (uint32_t)i : high[i - 2];
}

static void test_page_numbers(void)
{
    int i;
    for (i = 0; i < 4; i++) {
        struct lent l = lend_right();
        uint32_t vsid = beyond(1u << 24, i), page = beyond(1u << 16, i);
        expect(left(&l, map(&l, 5, vsid, PAGE, 1, 2, 2), 6), "map with a large VSID, before 2", vsid);
        expect(left(&l, map(&l, SDR1, VSID, page, 1, 2, 2), 6), "map with a large page index", page);
        expect(left(&l, map(&l, SDR1, VSID, PAGE, beyond(1u << 20, i), 2, 2), 6), "map with a large RPN", 0);
        expect(left(&l, map(&l, SDR1, VSID, PAGE, 1, beyond(16, i), 2), 6), "map with a large WIMG", 0);
        expect(left(&l, map(&l, SDR1, VSID, PAGE, 1, 12 + (uint32_t)i, 2), 6), "map with W and I", 0);
        expect(left(&l, map(&l, SDR1, VSID, PAGE, 1, 2, beyond(4, i)), 6), "map with a large PP", 0);
        expect(left(&l, protect(&l, SDR1, VSID, PAGE, beyond(4, i)), 6), "protect with a large PP", 0);
        expect(left(&l, protect(&l, 5, vsid, PAGE, 2), 6), "protect with a large VSID, before 2", vsid);
        expect(refused(&l, unmap(&l, 5, VSID, page), 6), "unmap with a large page index, before 2", page);
        expect(refused(&l, look(&l, 5, vsid, PAGE), 6), "look with a large VSID, before 2", vsid);
        give_back_all(&l);
    }
}

/* Invalidate takes page indexes below 65,536; each empties the set of its low six bits, and none other. */
static void test_invalidate_numbers(void)
{
    struct lent l = lend_right();
    uint32_t page;
    int i;
    for (i = 0; i < 4; i++)
        expect(left(&l, invalidate(&l, beyond(1u << 16, i)), 6), "invalidate with a large page index", 6);
    for (page = 0; page < 0x10000; page += page < 128 || page >= 0xFF80 ? 1 : 61) {
        memset(l.cache.bytes, 0xA5, l.cache.len);
        remember(&l.cache);
        memset(l.cache.before + MMU_CACHE_SET_SIZE * (page % 64), 0, MMU_CACHE_SET_SIZE);
        expect(left(&l, invalidate(&l, page), 0), "invalidate empties one set", page);
    }
    give_back_all(&l);
}

static void test_access_and_register_numbers(void)
{
    int i;
    for (i = 0; i < 8; i++) {
        struct lent l = lend_page(pages[i % 2]);
        uint32_t got, count = i % 2 ? MMU_REGISTER_COUNT_LONG : MMU_REGISTER_COUNT_SHORT;
        got = access_at(&l, beyond(8, i / 2), MMU_LOAD, ADDRESS);
        expect(access_refused(&l, got, 6), "access with a large mode", got);
        expect(access_refused(&l, access_at(&l, 0, beyond(3, i / 2), ADDRESS), 6), "access with a large kind", 6);
        got = mmu_set_register(l.registers.bytes, l.registers.len, beyond(count, i / 2), 0);
        expect(got == 6 && unchanged(&l.registers), "set_register with a large number", got);
        got = mmu_set_register(l.registers.bytes, l.registers.len, count - 1, 0xFFFFFFFFu);
        mmu_put_word(l.registers.before, MMU_REGISTER_OFFSET(count - 1), 0xFFFFFFFFu);
        expect(got == 0 && unchanged(&l.registers), "set_register with the highest number", got);
        give_back_all(&l);
    }
}

/* Numbers 33 to 48 are refused on a short page and taken on a long one. */
static void test_long_numbers(void)
{
    uint32_t number;
    for (number = 33; number < 49; number++) {
        struct lent s = lend_page(pages[0]), l = lend_page(pages[1]);
        uint32_t got = mmu_set_register(s.registers.bytes, s.registers.len, number, 0xFFFFFFFCu);
        expect(left(&s, got, 6), "set_register on a short page", number);
        got = mmu_set_register(l.registers.bytes, l.registers.len, number, 0xFFFFFFFCu);
        mmu_put_word(l.registers.before, MMU_REGISTER_OFFSET(number), 0xFFFFFFFCu);
        expect(left(&l, got, 0), "set_register on a long page", number);
        give_back_all(&s);
        give_back_all(&l);
    }
}

/* 12 for no byte and for too many, all 32 bits of the length counted, in real mode too. */
static void test_operand_lengths(void)
{
    static const uint32_t lengths[] = { 0, 129, 130, 255, 256, 257, 384, 0x10001, 0x80000001u, 0xFFFFFFFFu };
    struct lent l = lend_right();
    size_t i;
    for (i = 0; i < sizeof lengths / sizeof lengths[0]; i++) {
        uint32_t got = access_operand(&l, 0, MMU_LOAD, ADDRESS, lengths[i]);
        expect(access_refused(&l, got, 12), "access in real mode with another operand length", got);
        got = access_operand(&l, 7, MMU_FETCH, ADDRESS, lengths[i]);
        expect(access_refused(&l, got, 12), "access with another operand length, before a fault", got);
        got = access_operand(&l, 8, MMU_LOAD, ADDRESS, lengths[i]);
        expect(access_refused(&l, got, 6), "access: 6 before 12", got);
        mmu_put_word(l.registers.bytes, 0, 5);
        remember(&l.registers);
        got = access_operand(&l, 0, MMU_STORE, ADDRESS, lengths[i]);
        expect(access_refused(&l, got, 12), "access: 12 before 2", got);
        mmu_put_word(l.registers.bytes, 0, SDR1);
        remember(&l.registers);
    }
    for (i = 1; i <= MMU_LONGEST_OPERAND; i++) {
        uint32_t got = access_operand(&l, 0, MMU_LOAD, 0xFFFFFFC0u, (uint32_t)i), first = i < 64 ? (uint32_t)i : 64;
        expect(got == 0 && answer_is(&l.access_answer, 0, 0xFFFFFFC0u, 3, 0xFFFFFFC0u)
                   && second_is(&l, 0, i > 64 ? 3 : 0, first, (uint32_t)i - first) && rule_is(&l, 0, 0, 0, 0),
               "access over FFFFFFFF", got);
    }
    give_back_all(&l);
}

static void test_pack_numbers(void)
{
    static const uint32_t bounds[9] = { 2, 1u << 24, 2, 64, 1u << 20, 2, 2, 16, 4 };
    int field, i;
    for (field = 0; field < 9; field++)
        for (i = 0; i < 4; i++) {
            struct slice entry = lend(MMU_ENTRY_SIZE, 0xA5);
            uint32_t f[9] = { 1, 1, 1, 1, 1, 1, 1, 1, 1 };
            uint32_t got;
            f[field] = beyond(bounds[field], i);
            got = mmu_pack(f[0], f[1], f[2], f[3], f[4], f[5], f[6], f[7], f[8], entry.bytes, entry.len);
            expect(got == 6 && mmu_get_word(entry.bytes, 0) == 0 && mmu_get_word(entry.bytes, 4) == 0,
                   "pack with a field over its width", got);
            give_back(&entry);
        }
}

/* ---- Register words --------------------------------------------------------------------------- */

struct word_case {
    size_t page;
    uint32_t number, word, result;
};

/*
 * A word put into a page of right shape, with what check, set_register and access must say of it. On the long page BL
 * has 15 bits: 1FFFE has all of them and Vs. On the short page bits 15 to 18 are zero where the pair is on.
 */
static void test_register_words(void)
{
    static const struct word_case cases[] = {
        { 132, 0, 0x0F980005u, 2 }, { 132, 0, 0x0F910007u, 2 }, { 132, 0, 0x0F980200u, 2 }, { 132, 0, 0xFFFFFFFFu, 2 },
        { 132, 0, 0x0F98FE00u, 2 }, { 132, 1, 0x80000000u, 5 }, { 132, 16, 0x08000000u, 5 },
        { 132, 9, 0x01000000u, 5 }, { 132, 5, 0xFFFFFFFFu, 5 }, { 132, 17, 0x0000000Au, 3 },
        { 132, 17, 0x00020006u, 3 }, { 132, 25, 0x0001FFFEu, 3 }, { 132, 31, 0x00002002u, 3 },
        { 132, 17, 0x00000003u, 0 }, { 132, 25, 0x80001FFEu, 0 }, { 132, 26, 0xFFFFFFFFu, 0 },
        { 132, 18, 0xFFFFFFFFu, 0 }, { 132, 17, 0xFFFFFFFCu, 0 }, { 132, 2, 0x70FFFFFFu, 0 },
        { 132, 17, 0x0001E000u, 0 }, { 132, 31, 0x00002000u, 0 }, { 132, 17, 0x00003FFEu, 3 },
        { 132, 23, 0x80007FFEu, 3 }, { 132, 25, 0x80003FFEu, 3 }, { 132, 31, 0x8000FFFDu, 3 },
        { 132, 25, 0x00010003u, 3 }, { 196, 0, 0x0F980005u, 2 }, { 196, 16, 0x08000000u, 5 },
        { 196, 17, 0x0000000Au, 3 }, { 196, 31, 0x0000000Au, 3 }, { 196, 33, 0x0000000Au, 3 },
        { 196, 47, 0x0000000Au, 3 }, { 196, 33, 0x00002002u, 3 }, { 196, 17, 0x00010002u, 3 },
        { 196, 17, 0x0001FFFEu, 0 }, { 196, 33, 0x0001FFFEu, 0 }, { 196, 31, 0x0001FFFDu, 0 },
        { 196, 47, 0x0001FFFFu, 0 }, { 196, 33, 0x0002FFFEu, 3 }, { 196, 33, 0x8001FFFEu, 3 },
        { 196, 33, 0x8000FFFEu, 0 }, { 196, 33, 0xC000FFFEu, 3 }, { 196, 33, 0xC0007FFEu, 0 },
        { 196, 33, 0xE0007FFEu, 3 }, { 196, 33, 0xE0003FFEu, 0 }, { 196, 33, 0xF0003FFEu, 3 },
        { 196, 33, 0xF0001FFEu, 0 }, { 196, 47, 0x0001FFFCu, 0 }, { 196, 48, 0xFFFFFFFFu, 0 },
        { 196, 32, 0xFFFFFFFFu, 0 }, { 196, 25, 0x00000003u, 0 }, { 196, 26, 0xFFFFFFFFu, 0 },
        { 196, 2, 0x70FFFFFFu, 0 },
    };
    size_t i;
    for (i = 0; i < sizeof cases / sizeof cases[0]; i++) {
        struct lent l = lend_page(cases[i].page);
        size_t at = MMU_REGISTER_OFFSET(cases[i].number);
        uint32_t got = mmu_set_register(l.registers.bytes, l.registers.len, cases[i].number, cases[i].word);
        expect(got == cases[i].result, "set_register", got);
        mmu_put_word(cases[i].result ? l.registers.bytes : l.registers.before, at, cases[i].word);
        if (cases[i].result == 0)
            expect(unchanged(&l.registers), "set_register changes one word", got);
        remember(&l.registers);
        got = mmu_check(l.registers.bytes, l.registers.len);
        expect(got == cases[i].result && unchanged(&l.registers), "check", got);
        got = access_at(&l, 0, MMU_FETCH, 0x12345678u);
        if (cases[i].result)
            expect(access_refused(&l, got, cases[i].result), "access with a register word that breaks a rule", got);
        else
            expect(got == 0 && done_is(&l, 0x12345678u, 3, 0x12345678u) && rule_is(&l, 0, 0, 0, 0), "real mode", got);
        give_back_all(&l);
    }
}

/* Where several rules are broken, the first in order is told: each turn mends one. */
static void test_order_on(const struct word_case broken[5])
{
    static const uint32_t mended[] = { SDR1, 0, 0, 0, 0 };
    struct lent l = lend_all(broken[0].page, 1, MMU_ANSWER_SIZE, MMU_ACCESS_ANSWER_SIZE);
    uint32_t got;
    size_t i;
    for (i = 0; i < 5; i++)
        mmu_put_word(l.registers.bytes, MMU_REGISTER_OFFSET(broken[i].number), broken[i].word);
    remember(&l.registers);
    expect(access_refused(&l, access_at(&l, 8, 0, 0), 6), "access: 6 before 2", 6);
    for (i = 0; i < 5; i++) {
        got = access_at(&l, 7, MMU_STORE, 0);
        if (i != 3)
            expect(access_refused(&l, got, broken[i].result), "access: the first broken rule", got);
        mmu_put_word(l.registers.bytes, MMU_REGISTER_OFFSET(broken[i].number), mended[i]);
        remember(&l.registers);
    }
    got = access_at(&l, 7, MMU_STORE, 0);
    expect(access_refused(&l, got, 1), "access: 1 after the registers", got);
    expect(left(&l, mmu_clear(5, l.table.bytes, l.table.len), 2), "clear: 2 before 1", 2);
    expect(left(&l, map(&l, 5, VSID, PAGE, 1, 2, 2), 2), "map: 2 before 1", 2);
    give_back_all(&l);
}

static void test_order(void)
{
    static const struct word_case of_short[5] = {
        { 132, 0, 5, 2 }, { 132, 17, 0x0000000Au, 3 }, { 132, 25, 0x80000002u, 4 }, { 132, 27, 0x80000002u, 4 },
        { 132, 4, 0x80000000u, 5 },
    };
    static const struct word_case of_long[5] = {
        { 196, 0, 5, 2 }, { 196, 31, 0x0000000Au, 3 }, { 196, 39, 0x80000002u, 4 }, { 196, 41, 0x80000002u, 4 },
        { 196, 4, 0x80000000u, 5 },
    };
    test_order_on(of_short);
    test_order_on(of_long);
}

/* ---- The long register page --------------------------------------------------------------------- */

/* Every two pairs of a side, pairs 3 and 4 too: at one address they are refused 4, as neighbours they are taken. */
static void test_two_blocks(uint32_t side)
{
    struct lent l = lend_page(MMU_REGISTERS_SIZE_LONG);
    uint32_t first, second, k;
    for (second = 1; second < 8; second++)
        for (first = 0; first < second; first++)
            for (k = 0; k <= 15; k++) {
                uint32_t bl = MMU_BLOCK_BL_OF(UINT64_C(0x20000) << k), start = k < 15 ? 0x20000u << k : 0, got;
                mmu_put_word(l.registers.bytes, MMU_REGISTER_OFFSET(side + 2 * first), bl | 3);
                mmu_put_word(l.registers.bytes, MMU_REGISTER_OFFSET(side + 2 * second), MMU_BLOCK_VP);
                got = mmu_check(l.registers.bytes, l.registers.len);
                expect(got == 4, "two blocks at one address", got);
                mmu_put_word(l.registers.bytes, MMU_REGISTER_OFFSET(side + 2 * second), start | MMU_BLOCK_VP);
                got = mmu_check(l.registers.bytes, l.registers.len);
                expect(got == (k < 15 ? 0 : 4), "two neighbouring blocks; 4 GB have no neighbour", got);
                mmu_put_word(l.registers.bytes, MMU_REGISTER_OFFSET(side + 2 * first), bl | MMU_BLOCK_VS);
                got = mmu_check(l.registers.bytes, l.registers.len);
                expect(got == 0, "two blocks without a V bit in common", got);
                memset(l.registers.bytes + 68, 0, 128);
            }
    give_back_all(&l);
}

/* Each of sixteen blocks of 128 KB, and then of 4 GB, holds its addresses and is shown by its number. */
static void test_block_numbers(void)
{
    struct lent l = lend_page(MMU_REGISTERS_SIZE_LONG);
    uint32_t pair, side, got;
    for (side = 0; side < 2; side++)
        for (pair = 0; pair < 8; pair++) {
            uint32_t at = MMU_REGISTER_OFFSET(17 + 16 * side + 2 * pair), mode = side ? MMU_MODE_DR : MMU_MODE_IR;
            uint32_t kind = side ? MMU_LOAD : MMU_FETCH;
            mmu_put_word(l.registers.bytes, at, 0x40000000u | pair << 17 | MMU_BLOCK_VS);
            mmu_put_word(l.registers.bytes, at + 4, 0x90000000u | pair << 17 | 1);
            got = access_at(&l, mode, kind, 0x4001FFFFu + (pair << 17));
            expect(got == 0 && done_is(&l, 0x9001FFFFu + (pair << 17), 0, 0x4001FFFFu + (pair << 17))
                       && rule_is(&l, MMU_RULE_BLOCK, pair, 0, 0), "a block of 128 KB", pair);
            got = access_at(&l, mode, kind, 0x40020000u + (pair << 17));
            expect(got != 0 && rule_is(&l, MMU_RULE_NO_MATCH, 0, 0, 0), "the address behind it", pair);
        }
    memset(l.registers.bytes + 68, 0, 128);
    for (pair = 0; pair < 8; pair++) {
        mmu_put_word(l.registers.bytes, MMU_REGISTER_OFFSET(MMU_REGISTER_DATA_UPPER_LONG(pair)), 0x1FFFEu);
        mmu_put_word(l.registers.bytes, MMU_REGISTER_OFFSET(MMU_REGISTER_DATA_LOWER_LONG(pair)), 0x12u);
        got = access_operand(&l, MMU_MODE_DR, MMU_STORE, 0xFFFFFFFFu, 2);
        expect(got == 0 && answer_is(&l.access_answer, 0, 0xFFFFFFFFu, 2, 0xFFFFFFFFu) && second_is(&l, 0, 2, 1, 1)
                   && rule_is(&l, MMU_RULE_BLOCK, pair, 0, 0), "a block of 4 GB", pair);
        memset(l.registers.bytes + 132, 0, 64);
    }
    give_back_all(&l);
}

/* The same bytes lent as a short and as a long page: words 25 to 32 are data pairs here and instruction pairs there. */
static void test_one_page_twice(void)
{
    struct lent l = lend_page(MMU_REGISTERS_SIZE_LONG);
    uint32_t got;
    mmu_put_word(l.registers.bytes, MMU_REGISTER_OFFSET(25), 0xB0000003u);
    mmu_put_word(l.registers.bytes, MMU_REGISTER_OFFSET(26), 0x10000002u);
    remember(&l.registers);
    l.registers.len = MMU_REGISTERS_SIZE_SHORT;
    got = access_at(&l, 3, MMU_LOAD, 0xB0000000u);
    expect(got == 0 && rule_is(&l, MMU_RULE_BLOCK, 0, 0, 0), "DBAT0 of the short page", got);
    got = access_at(&l, 3, MMU_FETCH, 0xB0000000u);
    expect(got == 65 && rule_is(&l, MMU_RULE_NO_MATCH, 0, 0, 0), "no IBAT of the short page", got);
    l.registers.len = MMU_REGISTERS_SIZE_LONG;
    got = access_at(&l, 3, MMU_LOAD, 0xB0000000u);
    expect(got == 64 && rule_is(&l, MMU_RULE_NO_MATCH, 0, 0, 0), "no DBAT of the long page", got);
    got = access_at(&l, 3, MMU_FETCH, 0xB0000000u);
    expect(got == 0 && rule_is(&l, MMU_RULE_BLOCK, 4, 0, 0), "IBAT4 of the long page", got);
    mmu_put_word(l.registers.bytes, MMU_REGISTER_OFFSET(25), 0x0001FFFEu);
    mmu_put_word(l.registers.bytes, MMU_REGISTER_OFFSET(26), 2);
    remember(&l.registers);
    expect(mmu_check(l.registers.bytes, MMU_REGISTERS_SIZE_SHORT) == 3, "4 GB on the short page", 3);
    expect(mmu_check(l.registers.bytes, MMU_REGISTERS_SIZE_LONG) == 0, "4 GB on the long page", 0);
    give_back_all(&l);
}

/* Bits 15 to 18 of a pair that is off, beside a pair that is on: taken on both pages, in every pair. */
static void test_off_pairs(void)
{
    uint32_t page, side, pair, bit;
    for (page = 0; page < 2; page++) {
        uint32_t pairs = page ? 8 : 4;
        struct lent l = lend_page(pages[page]);
        for (side = 0; side < 2; side++)
            for (pair = 1; pair < pairs; pair++)
                for (bit = 15; bit < 19; bit++) {
                    uint32_t first = 17 + 2 * pairs * side, word = 0x80000000u >> bit, got;
                    mmu_put_word(l.registers.bytes, MMU_REGISTER_OFFSET(first), 0x80000003u);
                    mmu_put_word(l.registers.bytes, MMU_REGISTER_OFFSET(first + 2 * pair), word);
                    got = mmu_check(l.registers.bytes, l.registers.len);
                    expect(got == 0, "bits 15 to 18 of a pair that is off", got);
                    mmu_put_word(l.registers.bytes, MMU_REGISTER_OFFSET(first + 2 * pair), word | MMU_BLOCK_VP);
                    got = mmu_check(l.registers.bytes, l.registers.len);
                    expect(got == 3, "a bit of 15 to 18 alone in a pair that is on", got);
                    memset(l.registers.bytes + 68, 0, l.registers.len - 68);
                }
        give_back_all(&l);
    }
}

static void test_long_page(void)
{
    test_two_blocks(17);
    test_two_blocks(33);
    test_block_numbers();
    test_one_page_twice();
    test_off_pairs();
}

/* ---- Good calls ------------------------------------------------------------------------------- */

/* Document 01's cases 2 to 5: the page is mapped, stored to, protected, and not found when it is unmapped. */
static void test_page_story(void)
{
    struct lent l = lend_right();
    uint8_t *entry = l.table.bytes + 0x3E6 * MMU_GROUP_SIZE;
    expect(map(&l, SDR1, VSID, PAGE, 0x12345, 2, 2) == 0 && mmu_get_word(entry, 0) == 0x86380E03u
               && mmu_get_word(entry, 4) == 0x12345012u, "map writes the entry", 0);
    expect(map(&l, SDR1, VSID, PAGE, 0x12345, 2, 2) == 7, "map of a mapped page", 7);
    expect(access_at(&l, MMU_MODE_DR, MMU_STORE, ADDRESS) == 0 && done_is(&l, 0x1234501Bu, 2, ADDRESS)
               && mmu_get_word(entry, 4) == 0x12345192u, "store", 0);
    expect(look(&l, SDR1, VSID, PAGE) == 0 && answer_is(&l.answer, 0, 0x12345192u, 0, 0), "look", 0);
    expect(protect(&l, SDR1, VSID, PAGE, 3) == 0 && mmu_get_word(entry, 4) == 0x12345193u, "protect", 0);
    expect(access_at(&l, MMU_MODE_DR, MMU_STORE, ADDRESS) == 64
               && fault_is(&l, 64, 0x0A000000u, 0x300, ADDRESS), "store to a read-only page", 64);
    expect(unmap(&l, SDR1, VSID, PAGE) == 0 && answer_is(&l.answer, 0, 0x12345193u, 0, 0)
               && mmu_get_word(entry, 0) == 0 && mmu_get_word(entry, 4) == 0, "unmap", 0);
    expect(access_at(&l, MMU_MODE_DR, MMU_STORE, ADDRESS) == 64
               && fault_is(&l, 64, 0x42000000u, 0x300, ADDRESS), "store to an unmapped page", 64);
    expect(access_at(&l, MMU_MODE_IR, MMU_FETCH, ADDRESS) == 65
               && fault_is(&l, 65, 0x40000000u, 0x400, ADDRESS), "fetch from an unmapped page", 65);
    remember(&l.table);
    expect(refused(&l, unmap(&l, SDR1, VSID, PAGE), 8), "unmap of an unmapped page", 8);
    expect(left(&l, protect(&l, SDR1, VSID, PAGE, 1), 8), "protect of an unmapped page", 8);
    expect(refused(&l, look(&l, SDR1, VSID, PAGE), 8), "look at an unmapped page", 8);
    give_back_all(&l);
}

/* ---- The cache -------------------------------------------------------------------------------- */

static void put_place(struct lent *l, uint32_t page, uint32_t place, uint32_t first, uint32_t second, uint32_t third,
                      uint32_t newer)
{
    size_t at = MMU_CACHE_SET_SIZE * (page % 64) + MMU_CACHE_PLACE_SIZE * place;
    mmu_put_word(l->cache.bytes, at, first);
    mmu_put_word(l->cache.bytes, at + 4, second);
    mmu_put_word(l->cache.bytes, at + 8, third);
    mmu_put_word(l->cache.bytes, at + 12, newer);
}

static int place_is(const struct lent *l, uint32_t page, uint32_t place, uint32_t first, uint32_t second,
                    uint32_t third, uint32_t newer)
{
    size_t at = MMU_CACHE_SET_SIZE * (page % 64) + MMU_CACHE_PLACE_SIZE * place;
    return mmu_get_word(l->cache.bytes, at) == first && mmu_get_word(l->cache.bytes, at + 4) == second
        && mmu_get_word(l->cache.bytes, at + 8) == third && mmu_get_word(l->cache.bytes, at + 12) == newer;
}

/* A page is loaded, hit, loaded again by a store, hit by a store; unmapped, still hit, and gone by its invalidate. */
static void test_cache_story(void)
{
    struct lent l = lend_right();
    uint8_t *entry = l.table.bytes + 0x3E6 * MMU_GROUP_SIZE;
    expect(map(&l, SDR1, VSID, PAGE, 0x12345, 2, 2) == 0, "map", 0);
    expect(cached_at(&l, MMU_MODE_DR, MMU_LOAD, ADDRESS) == 0 && rule_is(&l, 6, 2, 0x3E6, 0), "load by the table", 0);
    expect(place_is(&l, PAGE, 0, 0x86380E03u, 0x12345112u, PAGE, 1) && place_is(&l, PAGE, 1, 0, 0, 0, 0), "loaded", 0);
    remember(&l.table);
    remember(&l.cache);
    expect(cached_at(&l, MMU_MODE_DR, MMU_LOAD, ADDRESS) == 0 && rule_is(&l, 6, 2, 0x3E6, MMU_HIT_ENTRY)
               && done_is(&l, 0x1234501Bu, 2, ADDRESS) && left(&l, 0, 0), "load by the cache", 0);
    expect(cached_at(&l, MMU_MODE_DR, MMU_STORE, ADDRESS) == 0 && rule_is(&l, 6, 2, 0x3E6, 0)
               && mmu_get_word(entry, 4) == 0x12345192u, "store goes to the table", 0);
    expect(place_is(&l, PAGE, 0, 0x86380E03u, 0x12345192u, PAGE, 1) && place_is(&l, PAGE, 1, 0, 0, 0, 0), "again", 0);
    expect(cached_at(&l, MMU_MODE_DR, MMU_STORE, ADDRESS) == 0 && rule_is(&l, 6, 2, 0x3E6, 8), "store by the cache", 0);
    expect(protect(&l, SDR1, VSID, PAGE, 3) == 0 && invalidate(&l, PAGE) == 0, "protect and its invalidate", 0);
    expect(place_is(&l, PAGE, 0, 0, 0, 0, 0), "empty", 0);
    expect(cached_at(&l, MMU_MODE_DR, MMU_STORE, ADDRESS) == 64 && rule_is(&l, 5, 3, 0x3E6, 0)
               && place_is(&l, PAGE, 0, 0, 0, 0, 0), "a fault loads nothing", 64);
    expect(cached_at(&l, MMU_MODE_DR, MMU_LOAD, ADDRESS) == 0 && rule_is(&l, 6, 3, 0x3E6, 0), "load again", 0);
    expect(cached_at(&l, MMU_MODE_DR, MMU_STORE, ADDRESS) == 64 && rule_is(&l, 5, 3, 0x3E6, 8)
               && fault_is(&l, 64, 0x0A000000u, 0x300, ADDRESS), "a fault by the cache", 64);
    expect(unmap(&l, SDR1, VSID, PAGE) == 0, "unmap", 0);
    expect(cached_at(&l, MMU_MODE_DR, MMU_LOAD, ADDRESS) == 0, "the cache is as it was", 0);
    expect(access_at(&l, MMU_MODE_DR, MMU_LOAD, ADDRESS) == 64, "the table is not", 64);
    expect(invalidate(&l, PAGE + 0x10000) == 6 && cached_at(&l, MMU_MODE_DR, MMU_LOAD, ADDRESS) == 0, "refused", 6);
    expect(invalidate(&l, PAGE % 64) == 0 && cached_at(&l, MMU_MODE_DR, MMU_LOAD, ADDRESS) == 64, "invalidate", 64);
    give_back_all(&l);
}

/* What garbage in the page's set does: the two places as lent, the kind, and what answers. */
struct place_case {
    uint32_t places[2][4], kind, result, entry;
};

static void test_places(void)
{
    static const struct place_case cases[] = {
        { { { 0x86380E03u, 0x54321012u, PAGE, 0 }, { 0, 0, 0, 0 } }, MMU_LOAD, 0, 8 },
        { { { 0x86380E03u, 0x54321012u, PAGE, 7 }, { 0, 0, 0, 0 } }, MMU_LOAD, 0, 8 },
        { { { 0x86380E3Fu, 0x54321012u, PAGE, 0 }, { 0, 0, 0, 0 } }, MMU_LOAD, 0, 8 },
        { { { 0, 0, 0, 0 }, { 0x86380E03u, 0x54321012u, PAGE, 0 } }, MMU_LOAD, 0, 8 },
        { { { 0x06380E03u, 0x54321012u, PAGE, 0 }, { 0, 0, 0, 0 } }, MMU_LOAD, 0, 0 },
        { { { 0x86380E83u, 0x54321012u, PAGE, 0 }, { 0, 0, 0, 0 } }, MMU_LOAD, 0, 0 },
        { { { 0x86380E03u, 0x54321012u, PAGE + 0x10000, 0 }, { 0, 0, 0, 0 } }, MMU_LOAD, 0, 0 },
        { { { 0x86380E03u, 0x54321012u, PAGE ^ 0x40, 0 }, { 0, 0, 0, 0 } }, MMU_LOAD, 0, 0 },
        { { { 0x86380E03u, 0x54321012u, PAGE, 0 }, { 0, 0, 0, 0 } }, MMU_STORE, 0, 0 },
        { { { 0x86380E03u, 0x54321092u, PAGE, 0 }, { 0, 0, 0, 0 } }, MMU_STORE, 0, 8 },
        { { { 0x86380E03u, 0x54321012u, PAGE, 0 }, { 0x86380E03u, 0x54321092u, PAGE, 0 } }, MMU_STORE, 0, 0 },
        { { { 0x86380E03u, 0x54321093u, PAGE, 0 }, { 0, 0, 0, 0 } }, MMU_STORE, 64, 8 },
        { { { 0x86380E03u, 0x5432101Au, PAGE, 0 }, { 0, 0, 0, 0 } }, MMU_FETCH, 65, 8 },
        { { { 0x86380E43u, 0x54321012u, PAGE, 0 }, { 0, 0, 0, 0 } }, MMU_FETCH, 0, 8 },
    };
    size_t i;
    for (i = 0; i < sizeof cases / sizeof cases[0]; i++) {
        const struct place_case *c = &cases[i];
        struct lent l = lend_right();
        uint32_t place, got, group = c->entry == 8 && (c->places[0][0] & MMU_FIRST_H) ? 0x019 : 0x3E6;
        expect(map(&l, SDR1, VSID, PAGE, 0x12345, 2, 2) == 0, "map", 0);
        for (place = 0; place < 2; place++)
            put_place(&l, PAGE, place, c->places[place][0], c->places[place][1], c->places[place][2],
                      c->places[place][3]);
        remember(&l.table);
        remember(&l.cache);
        got = cached_at(&l, 3, c->kind, ADDRESS);
        expect(got == c->result && mmu_get_word(l.access_answer.bytes, 44) == c->entry
                   && mmu_get_word(l.access_answer.bytes, 40) == group, "a place as lent", (uint32_t)i);
        if (got == 0)
            expect(mmu_get_word(l.access_answer.bytes, 4) == (c->entry == 8 ? 0x5432101Bu : 0x1234501Bu), "frame", got);
        if (c->entry == 8)
            expect(left(&l, got, c->result), "a hit writes neither table nor cache", (uint32_t)i);
        give_back_all(&l);
    }
}

/* Which place a new page takes, by the two fourth words as lent: place 1 where place 0's alone is 1. */
static void test_replaced_place(void)
{
    static const uint32_t words[] = { 0, 1, 2, 0x80000001u, 0xFFFFFFFFu };
    uint32_t i;
    for (i = 0; i < 25; i++) {
        struct lent l = lend_right();
        uint32_t zero = words[i / 5], one = words[i % 5], taken = zero == 1 && one != 1;
        expect(map(&l, SDR1, VSID, PAGE, 0x12345, 2, 2) == 0, "map", 0);
        put_place(&l, PAGE, 0, 0x80000080u, 2, PAGE ^ 0x40, zero);
        put_place(&l, PAGE, 1, 0x00000080u, 3, PAGE ^ 0x80, one);
        expect(cached_at(&l, 3, MMU_STORE, ADDRESS) == 0, "store", 0);
        expect(place_is(&l, PAGE, taken, 0x86380E03u, 0x12345192u, PAGE, 1), "the place that is taken", i);
        expect(taken ? place_is(&l, PAGE, 0, 0x80000080u, 2, PAGE ^ 0x40, 0)
                     : place_is(&l, PAGE, 1, 0x00000080u, 3, PAGE ^ 0x80, 0), "the other one", i);
        give_back_all(&l);
    }
}

/* Over a page edge: each page by the cache or by the table, loaded only where both are done. */
static void test_cache_at_page_edge(void)
{
    struct lent l = lend_right();
    uint32_t edge = 0x00FFB000u, got;
    expect(map(&l, SDR1, VSID, PAGE, 0x12345, 2, 2) == 0, "map before the edge", 0);
    got = cached_operand(&l, 3, MMU_LOAD, edge - 2, 8);
    expect(got == 64 && place_is(&l, PAGE, 0, 0, 0, 0, 0), "no match after it: nothing is loaded", got);
    expect(map(&l, SDR1, VSID, PAGE + 1, 0x6789A, 2, 2) == 0, "map after the edge", 0);
    got = cached_at(&l, 3, MMU_LOAD, ADDRESS);
    expect(got == 0 && place_is(&l, PAGE, 0, 0x86380E03u, 0x12345112u, PAGE, 1), "the first page is loaded", got);
    got = cached_operand(&l, 3, MMU_LOAD, edge - 2, 8);
    expect(got == 0 && rule_is(&l, 6, 2, 0x3E6, 8) && second_is(&l, 0x6789A000u, 2, 2, 6), "hit and table", got);
    expect(place_is(&l, PAGE + 1, 0, 0x86380E03u, 0x6789A112u, PAGE + 1, 1), "the second is loaded", got);
    expect(invalidate(&l, PAGE) == 0, "invalidate", 0);
    got = cached_operand(&l, 3, MMU_LOAD, edge - 2, 8);
    expect(got == 0 && rule_is(&l, 6, 2, 0x3E6, 0) && second_is(&l, 0x6789A000u, 2, 2, 6), "table and hit", got);
    got = cached_operand(&l, 3, MMU_LOAD, edge - 2, 8);
    expect(got == 0 && rule_is(&l, 6, 2, 0x3E6, 8), "hit and hit", got);
    expect(unmap(&l, SDR1, VSID, PAGE + 1) == 0 && invalidate(&l, PAGE + 1) == 0, "unmap and its invalidate", 0);
    remember(&l.table);
    remember(&l.cache);
    got = cached_operand(&l, 3, MMU_LOAD, edge - 2, 8);
    expect(got == 64 && fault_is(&l, 64, 0x40000000u, 0x300, edge) && left(&l, got, 64), "hit and no match", got);
    give_back_all(&l);
}

/* A page of two segments with one VSID: loaded by the one it is hit by the other; another VSID does not hit. */
static void test_cache_of_segments(void)
{
    struct lent l = lend_right();
    mmu_put_word(l.registers.bytes, MMU_REGISTER_OFFSET(MMU_REGISTER_SEGMENT(3)), MMU_SEGMENT_KS | VSID);
    mmu_put_word(l.registers.bytes, MMU_REGISTER_OFFSET(MMU_REGISTER_SEGMENT(4)), VSID + 1);
    expect(map(&l, SDR1, VSID, PAGE, 0x12345, 2, 1) == 0, "map", 0);
    expect(cached_at(&l, 3, MMU_STORE, ADDRESS) == 0 && rule_is(&l, 6, 1, 0x3E6, 0), "by segment 0", 0);
    expect(cached_at(&l, 3, MMU_LOAD, 0x30000000u | ADDRESS) == 0 && rule_is(&l, 6, 5, 0x3E6, 8), "by segment 3", 0);
    expect(cached_at(&l, 3, MMU_STORE, 0x30000000u | ADDRESS) == 64 && rule_is(&l, 5, 5, 0x3E6, 8), "its key", 64);
    expect(cached_at(&l, 3, MMU_LOAD, 0x40000000u | ADDRESS) == 64 && rule_is(&l, 3, 0, 0, 0), "by segment 4", 64);
    expect(invalidate(&l, PAGE) == 0, "invalidate", 0);
    expect(cached_at(&l, 3, MMU_LOAD, 0x30000000u | ADDRESS) == 0
               && place_is(&l, PAGE, 0, 0x86380E03u, 0x12345191u, PAGE, 1), "loaded by segment 3", 0);
    expect(cached_at(&l, 3, MMU_LOAD, ADDRESS) == 0 && rule_is(&l, 6, 1, 0x3E6, 8), "hit by segment 0", 0);
    mmu_put_word(l.registers.bytes, MMU_REGISTER_OFFSET(MMU_REGISTER_SEGMENT(3)), MMU_SEGMENT_N | VSID);
    expect(cached_at(&l, 3, MMU_FETCH, 0x30000000u | ADDRESS) == 65 && rule_is(&l, 2, 0, 0, 0), "N before a hit", 65);
    expect(cached_at(&l, 0, MMU_LOAD, ADDRESS) == 0 && rule_is(&l, 0, 0, 0, 0), "real mode before a hit", 0);
    mmu_put_word(l.registers.bytes, MMU_REGISTER_OFFSET(MMU_REGISTER_DATA_LOWER(2)), 0x90000002u);
    mmu_put_word(l.registers.bytes, MMU_REGISTER_OFFSET(MMU_REGISTER_DATA_UPPER(2)), 0x00001FFEu);
    expect(cached_at(&l, 3, MMU_LOAD, ADDRESS) == 0 && rule_is(&l, 1, 2, 0, 0), "a block before a hit", 0);
    give_back_all(&l);
}

/* Slices side by side in one block of memory, at odd addresses, in each order of cache and table: none is mixed up. */
static void test_slices_side_by_side(void)
{
    enum { ALL = MMU_REGISTERS_SIZE + TABLE + MMU_CACHE_SIZE + MMU_ACCESS_ANSWER_SIZE };
    int turned, i;
    for (turned = 0; turned < 2; turned++) {
        struct slice all = lend(1 + ALL, 0);
        uint8_t *registers = all.bytes + 1, *first = registers + MMU_REGISTERS_SIZE;
        uint8_t *table = turned ? first + MMU_CACHE_SIZE : first, *cache = turned ? first : first + TABLE;
        uint8_t *answer = all.bytes + 1 + ALL - MMU_ACCESS_ANSWER_SIZE;
        mmu_put_word(registers, 0, SDR1);
        mmu_put_word(registers, 4, VSID);
        /* The last set of the cache and the last group of the table: page 3FF xor VSID, and a page of set 63. */
        expect(mmu_map(SDR1, VSID, (VSID & 0x3FF) ^ 0x3FF, 0x12345, 2, 2, table, TABLE) == 0, "map, side by side", 0);
        expect(mmu_map(SDR1, VSID, 0x3F, 0x6789A, 2, 2, table, TABLE) == 0, "map of set 63, side by side", 0);
        for (i = 0; i < 4; i++) {
            uint32_t address = (i < 2 ? 0x3Fu : (VSID & 0x3FF) ^ 0x3FFu) << 12;
            uint32_t got = mmu_access_cached(registers, MMU_REGISTERS_SIZE, 3, MMU_STORE, address, 4, table, TABLE,
                                             cache, MMU_CACHE_SIZE, answer, MMU_ACCESS_ANSWER_SIZE);
            expect(got == 0 && mmu_get_word(answer, 4) == (i < 2 ? 0x6789A000u : 0x12345000u)
                       && (mmu_get_word(answer, 44) == 8) == (i % 2), "access, side by side", got);
        }
        expect(mmu_get_word(registers, 0) == SDR1 && mmu_get_word(registers, 4) == VSID, "registers stay", 0);
        expect(mmu_invalidate(0x3F, cache, MMU_CACHE_SIZE) == 0, "invalidate, side by side", 0);
        expect(mmu_get_word(cache, MMU_CACHE_SIZE - 32) == 0, "the last set is empty", 0);
        expect(mmu_get_word(table, TABLE - MMU_GROUP_SIZE + 4) == 0x12345192u, "the table stays", 0);
        expect(mmu_get_word(answer, 44) == 8 && all.bytes[0] == 0, "the answer stays", 0);
        give_back(&all);
    }
}

/* ---- The rule that decided --------------------------------------------------------------------- */

/* An access, and what it must answer: its result and the record. */
struct rule_case {
    uint32_t mode, kind, address, length, result, rule, detail, group, entry;
};

static void put_entry(struct lent *l, uint32_t group, uint32_t entry, uint32_t first, uint32_t second)
{
    mmu_put_word(l->table.bytes, MMU_ENTRY_OFFSET(group, entry), first);
    mmu_put_word(l->table.bytes, MMU_ENTRY_OFFSET(group, entry) + MMU_ENTRY_SECOND, second);
}

/*
 * Segment 0 with Kp, segment 1 with N; two instruction blocks and three data blocks, one of the supervisor's and one of
 * the user's at the same address; page 0FFA of PP 1 in its primary group, 0FFB guarded in its secondary one, 0FFC of
 * PP 0 in both, and 0FFE in both with another PP in each.
 */
static struct lent lend_rules(void)
{
    static const uint32_t words[][2] = {
        { 1, 0x200C701Cu }, { 2, 0x100C701Cu }, { 19, 0xA0000003u }, { 20, 0x10000000u }, { 23, 0xA0020003u },
        { 24, 0x20000002u }, { 25, 0xB0000002u }, { 26, 0x30000001u }, { 29, 0xB0020003u }, { 30, 0x40000002u },
        { 31, 0xB0000001u }, { 32, 0x50000000u },
    };
    struct lent l = lend_right();
    size_t i;
    for (i = 0; i < sizeof words / sizeof words[0]; i++)
        mmu_put_word(l.registers.bytes, MMU_REGISTER_OFFSET(words[i][0]), words[i][1]);
    remember(&l.registers);
    put_entry(&l, 0x3E6, 5, 0x86380E03u, 0x12345011u);
    put_entry(&l, 0x018, 7, 0x86380E43u, 0x6789A00Au);
    put_entry(&l, 0x3E0, 2, 0x86380E03u, 0x0BCDE010u);
    put_entry(&l, 0x01F, 0, 0x86380E43u, 0x0BCDE010u);
    put_entry(&l, 0x3E2, 4, 0x86380E03u, 0x0BCDF011u);
    put_entry(&l, 0x01D, 1, 0x86380E43u, 0x0BCDF012u);
    return l;
}

/* In this order: the load of page 0FFC marks the first of its two entries, which agree all the same. */
static const struct rule_case rule_cases[] = {
    { 0, MMU_STORE, 0x00FFD000u, 128, 0, 0, 0, 0, 0 },
    { 5, MMU_FETCH, 0xA0000000u, 1, 0, 0, 0, 0, 0 },
    { 3, MMU_FETCH, 0xA0000000u, 1, 65, 1, 1, 0, 0 },
    { 3, MMU_FETCH, 0xA003FFFFu, 1, 0, 1, 3, 0, 0 },
    { 3, MMU_LOAD, 0xB0000000u, 1, 0, 1, 0, 0, 0 },
    { 3, MMU_STORE, 0xB0000000u, 1, 64, 1, 0, 0, 0 },
    { 7, MMU_LOAD, 0xB0000000u, 1, 64, 1, 3, 0, 0 },
    { 7, MMU_STORE, 0xB0020000u, 1, 0, 1, 2, 0, 0 },
    { 3, MMU_LOAD, 0xB001FFFFu, 2, 0, 1, 0, 0, 0 },
    { 3, MMU_FETCH, 0xA001FFFFu, 2, 65, 1, 1, 0, 0 },
    { 3, MMU_FETCH, 0x10FFA000u, 4, 65, 2, 0, 0, 0 },
    { 3, MMU_LOAD, 0x00FFD000u, 4, 64, 3, 0, 0, 0 },
    { 3, MMU_FETCH, 0x00FFB000u, 4, 65, 4, 0, 0x018, 7 },
    { 3, MMU_LOAD, 0x00FFB000u, 4, 0, 6, 2, 0x018, 7 },
    { 7, MMU_STORE, 0x00FFA01Bu, 4, 64, 5, 5, 0x3E6, 5 },
    { 7, MMU_LOAD, 0x00FFA01Bu, 4, 0, 6, 5, 0x3E6, 5 },
    { 3, MMU_STORE, 0x00FFA01Bu, 4, 0, 6, 1, 0x3E6, 5 },
    { 7, MMU_LOAD, 0x00FFC000u, 4, 64, 5, 4, 0x3E0, 2 },
    { 3, MMU_LOAD, 0x00FFAFFEu, 8, 0, 6, 1, 0x3E6, 5 },
    { 3, MMU_FETCH, 0x00FFAFFEu, 8, 65, 4, 0, 0x018, 7 },
    { 7, MMU_LOAD, 0x00FFBFFEu, 8, 64, 5, 4, 0x3E0, 2 },
    { 3, MMU_STORE, 0x00FFCFFEu, 8, 64, 3, 0, 0, 0 },
    { 3, MMU_LOAD, 0x00FFC000u, 4, 0, 6, 0, 0x3E0, 2 },
    { 3, MMU_STORE, 0x00FFC000u, 4, 0, 6, 0, 0x3E0, 2 },
    { 3, MMU_LOAD, 0x00FFBFFEu, 8, 0, 6, 2, 0x018, 7 },
    { 3, MMU_LOAD, 0x00FFE000u, 4, 10, 0, 0, 0, 0 },
    { 3, MMU_LOAD, 0x00FFEFFEu, 8, 10, 0, 0, 0, 0 },
    { 3, MMU_LOAD, 0x00FFDFFEu, 8, 64, 3, 0, 0, 0 },
    { 3, MMU_LOAD, 0x00FFC000u, 0, 12, 0, 0, 0, 0 },
    { 8, MMU_LOAD, 0x00FFC000u, 4, 6, 0, 0, 0, 0 },
};

static void test_rules(void)
{
    struct lent l = lend_rules();
    size_t i;
    for (i = 0; i < sizeof rule_cases / sizeof rule_cases[0]; i++) {
        const struct rule_case *c = &rule_cases[i];
        uint32_t got;
        memset(l.access_answer.bytes, 0xA5, l.access_answer.len);
        got = access_operand(&l, c->mode, c->kind, c->address, c->length);
        expect(got == c->result && mmu_get_word(l.access_answer.bytes, 0) == got, "result of an access", got);
        expect(rule_is(&l, c->rule, c->detail, c->group, c->entry), "the rule that decided", (uint32_t)i);
    }
    give_back_all(&l);
}

/* What rights must tell of a fetch, a load and a store: result, rule and new marks of each. */
struct rights_case {
    uint32_t mode, address, told[3][3];
};

static const struct rights_case rights_cases[] = {
    { 3, 0x00FFA01Bu, { { 0, 6, 0x100 }, { 0, 6, 0x100 }, { 0, 6, 0x180 } } },
    { 7, 0x00FFA01Bu, { { 0, 6, 0x100 }, { 0, 6, 0x100 }, { 64, 5, 0 } } },
    { 3, 0x00FFB000u, { { 65, 4, 0 }, { 0, 6, 0x100 }, { 0, 6, 0x180 } } },
    { 7, 0x00FFC000u, { { 65, 5, 0 }, { 64, 5, 0 }, { 64, 5, 0 } } },
    { 3, 0x00FFCFFFu, { { 0, 6, 0x100 }, { 0, 6, 0x100 }, { 0, 6, 0x180 } } },
    { 3, 0x00FFE000u, { { 10, 0, 0 }, { 10, 0, 0 }, { 10, 0, 0 } } },
    { 3, 0x10FFE000u, { { 65, 2, 0 }, { 10, 0, 0 }, { 10, 0, 0 } } },
    { 3, 0x00FFD000u, { { 65, 3, 0 }, { 64, 3, 0 }, { 64, 3, 0 } } },
    { 4, 0x00FFE000u, { { 0, 0, 0 }, { 0, 0, 0 }, { 0, 0, 0 } } },
    { 1, 0x00FFA01Bu, { { 0, 0, 0 }, { 0, 6, 0x100 }, { 0, 6, 0x180 } } },
    { 6, 0x00FFA01Bu, { { 0, 6, 0x100 }, { 0, 0, 0 }, { 0, 0, 0 } } },
    { 3, 0xA0000000u, { { 65, 1, 0 }, { 64, 3, 0 }, { 64, 3, 0 } } },
    { 3, 0xA003FFFFu, { { 0, 1, 0 }, { 64, 3, 0 }, { 64, 3, 0 } } },
    { 3, 0xB0000000u, { { 65, 3, 0 }, { 0, 1, 0 }, { 64, 1, 0 } } },
    { 7, 0xB0000000u, { { 65, 3, 0 }, { 64, 1, 0 }, { 64, 1, 0 } } },
    { 7, 0xB0020000u, { { 65, 3, 0 }, { 0, 1, 0 }, { 0, 1, 0 } } },
};

static int told_is(const struct lent *l, uint32_t kind, const uint32_t told[3])
{
    const uint8_t *answer = l->rights.bytes;
    size_t at = MMU_RIGHTS_ANSWER(kind);
    return mmu_get_word(answer, at + MMU_ANSWER_RESULT) == told[0]
        && mmu_get_word(answer, at + MMU_ANSWER_RULE) == told[1]
        && mmu_get_word(answer, MMU_RIGHTS_MARKS(kind)) == told[2];
}

/* By the rules; and each answer is that of the access on the same table, which is then unmarked again. */
static void test_rights(void)
{
    struct lent l = lend_rules();
    uint32_t i, kind;
    remember(&l.table);
    for (i = 0; i < sizeof rights_cases / sizeof rights_cases[0]; i++) {
        const struct rights_case *c = &rights_cases[i];
        memset(l.rights.bytes, 0xA5, l.rights.len);
        expect(rights_at(&l, c->mode, c->address) == 0 && left(&l, 0, 0), "rights are done and leave the table", i);
        for (kind = 0; kind < 3; kind++) {
            expect(told_is(&l, kind, c->told[kind]), "what rights tell", 10 * i + kind);
            access_at(&l, c->mode, kind, c->address);
            expect(memcmp(l.access_answer.bytes, l.rights.bytes + MMU_RIGHTS_ANSWER(kind), MMU_ACCESS_ANSWER_SIZE) == 0,
                   "the access's own answer", 10 * i + kind);
            expect(unchanged(&l.table) == (c->told[kind][2] == 0), "no marks where nothing changes", 10 * i + kind);
            memcpy(l.table.bytes, l.table.before, l.table.len);
        }
    }
    give_back_all(&l);
}

/* The marks of one page as it is loaded from, stored to, and cleared of R and of C. */
static void test_rights_marks(void)
{
    static const uint32_t marks[6][4] = {
        { 0x000, 0x100, 0x100, 0x180 }, { 0x100, 0, 0, 0x080 }, { 0x180, 0, 0, 0 },
        { 0x080, 0x100, 0x100, 0x100 }, { 0xF84, 0, 0, 0 },     { 0xE04, 0x100, 0x100, 0x180 },
    };
    struct lent l = lend_rules();
    uint32_t i, kind;
    for (i = 0; i < 6; i++) {
        put_entry(&l, 0x3E6, 5, 0x86380E03u, 0x12345011u | marks[i][0]);
        expect(rights_at(&l, 3, ADDRESS) == 0, "rights", i);
        for (kind = 0; kind < 3; kind++)
            expect(mmu_get_word(l.rights.bytes, MMU_RIGHTS_MARKS(kind)) == marks[i][1 + kind], "new marks", i);
    }
    for (i = 0; i < 4; i++) {
        uint32_t mode = beyond(8, (int)i);
        remember(&l.table);
        expect(rights_refused(&l, rights_at(&l, mode, ADDRESS), 6), "rights in a mode that is none", mode);
    }
    give_back_all(&l);
}

/* A store of two bytes before a page edge and six after it: both pages are marked, or none where one of them faults. */
static void test_page_edge(void)
{
    struct lent l = lend_right();
    uint8_t *first = l.table.bytes + 0x3E6 * MMU_GROUP_SIZE, *second = l.table.bytes + 0x3E7 * MMU_GROUP_SIZE;
    uint32_t edge = 0x00FFB000u, got;
    expect(map(&l, SDR1, VSID, PAGE, 0x12345, 2, 2) == 0, "map before the edge", 0);
    remember(&l.table);
    got = access_operand(&l, MMU_MODE_DR, MMU_STORE, edge - 2, 8);
    expect(got == 64 && fault_is(&l, 64, 0x42000000u, 0x300, edge) && unchanged(&l.table), "no match after it", got);
    expect(map(&l, SDR1, VSID, PAGE + 1, 0x6789A, 5, 3) == 0, "map after the edge", 0);
    remember(&l.table);
    got = access_operand(&l, MMU_MODE_DR, MMU_STORE, edge - 2, 8);
    expect(got == 64 && fault_is(&l, 64, 0x0A000000u, 0x300, edge) && unchanged(&l.table), "read-only after it", got);
    expect(protect(&l, SDR1, VSID, PAGE + 1, 2) == 0, "protect", 0);
    got = access_operand(&l, MMU_MODE_DR, MMU_STORE, edge - 2, 8);
    expect(got == 0 && answer_is(&l.access_answer, 0, 0x12345FFEu, 2, edge - 2)
               && second_is(&l, 0x6789A000u, 5, 2, 6), "store over the edge", got);
    expect(mmu_get_word(first, 4) == 0x12345192u && mmu_get_word(second, 4) == 0x6789A1AAu, "both are marked", got);
    mmu_put_word(second, 8, mmu_get_word(second, 0));
    mmu_put_word(second, 12, 0x6789A02Eu);
    remember(&l.table);
    got = access_operand(&l, MMU_MODE_DR, MMU_LOAD, edge - 2, 8);
    expect(got == 0 && unchanged(&l.table), "duplicates after the edge without R, C and with bit 29", got);
    mmu_put_word(second, 12, 0x6789A12Bu);
    remember(&l.table);
    got = access_operand(&l, MMU_MODE_DR, MMU_LOAD, edge - 2, 8);
    expect(access_refused(&l, got, 10), "contradicting matches after the edge", got);
    got = access_operand(&l, MMU_MODE_IR, MMU_FETCH, edge - 0x1002u, 8);
    expect(got == 65 && fault_is(&l, 65, 0x40000000u, 0x400, edge - 0x1002u), "no match before an edge", got);
    expect(unchanged(&l.table), "a fault before an edge", got);
    give_back_all(&l);
}

/* Cases 11 and 12: sixteen pages fill two groups, the next gets 9, and after one unmap it maps. */
static void test_full_groups(void)
{
    struct lent l = lend_right();
    uint32_t i;
    for (i = 0; i < 16; i++)
        expect(map(&l, 0, 0x400 * i, 0, i, 2, 2) == 0, "map into two groups", i);
    remember(&l.table);
    expect(left(&l, map(&l, 0, 0x4000, 0, 1, 2, 2), 9), "map into full groups", 9);
    expect(left(&l, map(&l, 0, 0, 0x3FF, 1, 2, 2), 9), "map into full groups from the other side", 9);
    expect(unmap(&l, 0, 0x3C00, 0) == 0, "unmap from the secondary group", 0);
    expect(map(&l, 0, 0, 0x3FF, 1, 2, 2) == 0, "map after an unmap", 0);
    expect(mmu_clear(0, l.table.bytes, l.table.len) == 0, "clear", 0);
    memset(l.table.before, 0, l.table.len);
    expect(unchanged(&l.table), "clear zeroes the table", 0);
    give_back_all(&l);
}

/*
 * Two matches that differ in one bit: by a bit of RPN, WIMG or PP access and look refuse them, else the first serves
 * and is marked alone; unmap takes both and tells the marks of both.
 */
static void test_two_matches(uint32_t bit)
{
    static const uint32_t agreed = 0xFFFFF07Bu;
    struct lent l = lend_right();
    uint8_t *primary = l.table.bytes + 0x3E6 * MMU_GROUP_SIZE, *secondary = l.table.bytes + 0x019 * MMU_GROUP_SIZE;
    uint32_t first = 0x12345012u, other = first ^ bit;
    put_entry(&l, 0x3E6, 1, 0x86380E03u, first);
    put_entry(&l, 0x019, 7, 0x86380E43u, other);
    remember(&l.table);
    expect(map(&l, SDR1, VSID, PAGE, 1, 2, 2) == 7 && unchanged(&l.table), "map of a page with two matches", bit);
    if (bit & agreed) {
        expect(refused(&l, look(&l, SDR1, VSID, PAGE), 10), "look at contradicting matches", bit);
        expect(access_refused(&l, access_at(&l, MMU_MODE_DR, MMU_LOAD, ADDRESS), 10), "load from such", bit);
    } else {
        expect(look(&l, SDR1, VSID, PAGE) == 0 && answer_is(&l.answer, 0, first, 0, 0), "look at duplicates", bit);
        expect(access_at(&l, MMU_MODE_DR, MMU_LOAD, ADDRESS) == 0
                   && answer_is(&l.access_answer, 0, 0x1234501Bu, 2, ADDRESS), "load from duplicates", bit);
        first |= MMU_SECOND_R;
        expect(mmu_get_word(primary, 12) == first && mmu_get_word(secondary, 60) == other, "the first is marked", bit);
    }
    first |= other & (MMU_SECOND_R | MMU_SECOND_C);
    expect(unmap(&l, SDR1, VSID, PAGE) == 0 && answer_is(&l.answer, 0, first, 0, 0), "unmap of both", bit);
    memset(l.table.before, 0, l.table.len);
    expect(unchanged(&l.table), "unmap zeroes both matches", bit);
    give_back_all(&l);
}

/* Equal matches, and those that differ in each bit by itself. */
static void test_duplicates(void)
{
    int bit;
    test_two_matches(0);
    for (bit = 0; bit < 32; bit++)
        test_two_matches(1u << bit);
}

static void test_packing(void)
{
    static const uint32_t wanted[9] = { 1, VSID, 0, 3, 0x12345, 0, 0, 2, 2 };
    struct slice entry = lend(MMU_ENTRY_SIZE, 0xA5), fields = lend(MMU_FIELDS_SIZE, 0xA5);
    uint32_t i;
    expect(mmu_pack(1, VSID, 0, 3, 0x12345, 0, 0, 2, 2, entry.bytes, entry.len) == 0
               && mmu_get_word(entry.bytes, 0) == 0x86380E03u && mmu_get_word(entry.bytes, 4) == 0x12345012u, "pack", 0);
    expect(mmu_unpack(0x86380E03u, 0x12345012u | 0xE04u, fields.bytes, fields.len) == 0, "unpack", 0);
    for (i = 0; i < 9; i++)
        expect(mmu_get_word(fields.bytes, 4 * i) == wanted[i], "unpacked field, ignored bits left out", i);
    give_back(&entry);
    give_back(&fields);
}

/* ---- Random numbers --------------------------------------------------------------------------- */

static uint32_t any(void)
{
    static uint32_t state = 2463534242u;
    state ^= state << 13;
    state ^= state >> 17;
    state ^= state << 5;
    return state;
}

/* Often below a bound, else any number. */
static uint32_t some(uint32_t bound)
{
    return any() % 4 ? any() % bound : any();
}

static uint32_t random_call(struct lent *l, uint32_t call, uint32_t sdr1)
{
    switch (call) {
    case 0:
        return mmu_check(l->registers.bytes, l->registers.len);
    case 1:
        return mmu_set_register(l->registers.bytes, l->registers.len, some((uint32_t)l->registers.len / 4), any());
    case 2:
        return mmu_clear(sdr1, l->table.bytes, l->table.len);
    case 3:
        return map(l, sdr1, some(1u << 24), some(1u << 16), some(1u << 20), some(16), some(4));
    case 4:
        return protect(l, sdr1, some(1u << 24), some(1u << 16), some(4));
    case 5:
        return unmap(l, sdr1, some(1u << 24), some(1u << 16));
    case 6:
        return look(l, sdr1, some(1u << 24), some(1u << 16));
    case 7:
        return access_operand(l, some(8), some(3), any() | (any() % 2 ? 0xFF0u : 0), some(MMU_LONGEST_OPERAND + 1));
    case 8:
        return cached_operand(l, some(8), some(3), any() | (any() % 2 ? 0xFF0u : 0), some(MMU_LONGEST_OPERAND + 1));
    case 9:
        return invalidate(l, some(1u << 16));
    default:
        return rights_at(l, some(8), any());
    }
}

/* Any numbers and bytes: a result of the list, and whatever a refusal must leave is left. */
static void test_random_numbers(long count, size_t page)
{
    struct lent l = lend_page(page);
    size_t i;
    while (count-- > 0) {
        uint32_t call = any() % 11, got;
        if (any() % 8 == 0)
            mmu_put_word(l.registers.bytes, 4 * (any() % (page / 4)), any() % 3 ? 0 : any());
        for (i = 0; i < 8; i++)
            mmu_put_word(l.table.bytes, 4 * (any() % (TABLE / 4)), any());
        for (i = 0; i < 16; i++)
            mmu_put_word(l.cache.bytes, 4 * (any() % (MMU_CACHE_SIZE / 4)), any());
        if (any() % 4 == 0)
            mmu_put_word(l.registers.bytes, 0, SDR1);
        remember(&l.registers);
        remember(&l.table);
        remember(&l.cache);
        memset(l.answer.bytes, 0xA5, l.answer.len);
        memset(l.access_answer.bytes, 0xA5, l.access_answer.len);
        memset(l.rights.bytes, 0xA5, l.rights.len);
        got = random_call(&l, call, any() % 2 ? SDR1 : any());
        expect(got <= 11 || ((got == 12 || got == 64 || got == 65) && (call == 7 || call == 8)), "a result", got);
        if (got != 0)
            expect(left(&l, got, got), "a refusal or a fault leaves table, cache and registers", got);
        if ((call == 5 || call == 6) && got >= 1 && got <= 10)
            expect(answer_is(&l.answer, got, 0, 0, 0), "a refusal's answer", got);
        if ((call == 7 || call == 8) && got >= 1 && got <= 12 && got != 11)
            expect(fault_is(&l, got, 0, 0, 0) && rule_is(&l, 0, 0, 0, 0), "an access's refusal", got);
        if (call == 10)
            expect(got == 0 ? left(&l, got, 0) : rights_refused(&l, got, got), "rights leave the table", got);
    }
    give_back_all(&l);
}

int main(int argc, char **argv)
{
    long count = argc > 1 ? atol(argv[1]) : 2000;
    test_register_lengths();
    test_guarded_registers();
    test_wrong_answer_lengths();
    test_wrong_table_lengths();
    test_cache_lengths();
    test_lengths_with_cache();
    test_guarded_cache();
    test_rights_lengths();
    test_guarded_rights();
    test_wrong_entry_lengths();
    test_page_numbers();
    test_invalidate_numbers();
    test_access_and_register_numbers();
    test_long_numbers();
    test_operand_lengths();
    test_pack_numbers();
    test_register_words();
    test_order();
    test_long_page();
    test_page_story();
    test_cache_story();
    test_places();
    test_replaced_place();
    test_cache_at_page_edge();
    test_cache_of_segments();
    test_slices_side_by_side();
    test_rules();
    test_rights();
    test_rights_marks();
    test_page_edge();
    test_full_groups();
    test_duplicates();
    test_packing();
    test_random_numbers(count, MMU_REGISTERS_SIZE_SHORT);
    test_random_numbers(count, MMU_REGISTERS_SIZE_LONG);
    printf("bad_input: %lu checks, %lu failed\n", checks, failures);
    return failures != 0;
}
