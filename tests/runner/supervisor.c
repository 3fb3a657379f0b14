/*
 * supervisor.c - the supervisor without an emulator: random accesses of many programs in few frames, beside arrays.
 *
 * Beside the supervisor stands what each page must hold and allow. The program keeps a TLB of its own, as a core does,
 * and goes by it without asking half of the time: a lift that is missing shows. Ends with status 1 at the first
 * difference.
 */
#include "supervisor.h"

#include <stdlib.h>
#include <string.h>

#define PAGE MMU_PAGE_SIZE
#define PROGRAMS 20u
#define PAGES 24u /* of a program; 8 of them from a file, of which 4 may be written */
#define FILE_PAGES 8u
#define FIRST 0x10000u /* page number: all in segment 1 */

static struct supervisor sv;
static struct sv_program programs[PROGRAMS], file;
static uint8_t expected[PROGRAMS][PAGES * PAGE], rights[PROGRAMS][PAGES];
static struct { uint32_t frame, kinds; } tlb[PAGES];
static uint32_t state = 1, running;

static uint32_t next(uint32_t below)
{
    state = state * 1664525u + 1013904223u;
    return (uint32_t)((uint64_t)state * below >> 32);
}

static void want(bool right, const char *what)
{
    if (!right) {
        printf("WRONG: %s\n", what);
        exit(1);
    }
}

static void lift(uint32_t page)
{
    tlb[page - FIRST].kinds = 0;
}

static void run(uint32_t number)
{
    running = number;
    memset(tlb, 0, sizeof tlb);
    sv_run(&sv, &programs[number]);
}

/* Whether a page's rights allow a kind of access; PP tells no load from a fetch, G and N stop the fetch. */
static bool allowed(uint32_t page, uint32_t kind)
{
    uint8_t r = rights[running][page];
    return kind == MMU_STORE ? r & SV_WRITE : kind == MMU_LOAD ? r != 0 : r & SV_EXECUTE;
}

/* The bytes of one part, read or written by the frame, beside what is expected. */
static void part(uint32_t kind, uint32_t physical, uint32_t at, uint32_t count)
{
    for (uint32_t i = 0; i < count; i++) {
        uint8_t *byte = sv.memory + physical + i;
        want(physical / PAGE >= sv.first_frame && physical / PAGE <= sv.last_frame, "a frame that is none");
        want(kind == MMU_STORE || *byte == expected[running][at + i], "a byte");
        if (kind == MMU_STORE)
            *byte = expected[running][at + i] = (uint8_t)next(256);
    }
}

static void know(uint32_t page, uint32_t physical, uint32_t kind)
{
    want(!tlb[page].kinds || tlb[page].frame == physical / PAGE, "a page in another frame than before");
    tlb[page].frame = physical / PAGE;
    tlb[page].kinds |= 1u << kind;
}

/* One operand; the first page that does not allow it must be the one that faults. */
static void access_bytes(uint32_t kind, uint32_t at, uint32_t length)
{
    uint32_t page = at / PAGE, last = (at + length - 1u) / PAGE;
    uint32_t bad = !allowed(page, kind) ? page : !allowed(last, kind) ? last : PAGES;
    struct mmu_answer answer;
    if (page == last && tlb[page].kinds >> kind & 1u && next(2)) {
        want(bad == PAGES, "the TLB allows what is not allowed any more");
        part(kind, tlb[page].frame * PAGE + at % PAGE, at, length);
        return;
    }
    answer = sv_access(&sv, kind, FIRST * PAGE + at, length);
    want((answer.result == MMU_DONE) == (bad == PAGES), "done or not");
    if (bad != PAGES) {
        want(answer.effective == FIRST * PAGE + (bad == page ? at : bad * PAGE), "the address of a fault");
        return;
    }
    part(kind, answer.physical, at, answer.bytes);
    part(kind, answer.second_physical, at + answer.bytes, answer.second_bytes);
    want(answer.bytes + answer.second_bytes == length, "the length");
    know(page, answer.physical, kind);
    if (answer.second_bytes)
        know(last, answer.second_physical, kind);
}

static void set_rights(uint32_t number, uint32_t page, uint8_t r)
{
    sv_set_rights(&sv, &programs[number], FIRST + page, FIRST + page + 1u, r);
    rights[number][page] = r;
}

static uint8_t first_rights(uint32_t page)
{
    return page < 4 ? SV_READ | SV_EXECUTE : SV_READ | SV_WRITE;
}

/* A program anew: the file's pages, then zeros. */
static void start(uint32_t number)
{
    sv_add(&sv, &programs[number], number);
    memset(expected[number], 0, sizeof expected[number]);
    for (uint32_t page = 0; page < PAGES; page++) {
        set_rights(number, page, first_rights(page));
        if (page >= FILE_PAGES)
            continue;
        programs[number].pages[FIRST + page].store = file.pages[FIRST + page].store;
        memcpy(expected[number] + page * PAGE, file.pages[FIRST + page].store->bytes, PAGE);
    }
}

static void random_step(void)
{
    uint32_t choice = next(1000), page = next(PAGES), length = 1u + next(MMU_LONGEST_OPERAND);
    uint32_t at = next(3) ? page * PAGE + next(PAGE) : page * PAGE + PAGE - 1u - next(64);
    if (choice < 20) {
        run(next(PROGRAMS));
    } else if (choice < 24) {
        set_rights(running, page, next(2) ? first_rights(page) : (uint8_t)next(8));
    } else if (choice < 26) {
        sv_forget(&sv, &programs[running], FIRST + page, FIRST + page + 1u);
        memset(expected[running] + page * PAGE, 0, PAGE);
        set_rights(running, page, first_rights(page));
    } else if (choice == 26 && next(4) == 0) {
        sv_remove(&sv, &programs[running]);
        start(running);
        run(running);
    } else if (at + length <= PAGES * PAGE) {
        access_bytes(next(3), at, length);
    }
}

/* Every program loads from every page. */
static void load_all(void)
{
    for (uint32_t i = 0; i < PROGRAMS; i++) {
        run(i);
        for (uint32_t page = 0; page < PAGES; page++)
            access_bytes(MMU_LOAD, page * PAGE, 4);
    }
}

/* A page that is accessed between all others is never taken away by a clock that goes by R. */
static void hot_page(void)
{
    uint64_t before;
    run(0);
    for (uint32_t page = 0; page < PAGES; page++)
        set_rights(0, page, SV_READ);
    access_bytes(MMU_LOAD, 8u * PAGE, 4);
    before = sv.count[SV_faults_no_match];
    for (uint32_t i = 0; i < 3000; i++) {
        struct mmu_answer answer;
        access_bytes(MMU_LOAD, (i * 7u % 15u + 9u) * PAGE, 4);
        answer = sv_access(&sv, MMU_LOAD, (FIRST + 8u) * PAGE, 4);
        want(answer.result == MMU_DONE, "a load of the page that is used most");
    }
    /* At most the other page misses in each round; the clock may have met the hot page's R clear once. */
    want(sv.count[SV_faults_no_match] - before <= 3001u, "the page that is used most is taken away");
}

static void frames_and_vsids(uint32_t frames, bool plain)
{
    uint8_t *memory = calloc(1, sv_memory_size(0, frames));
    uint64_t written;
    memset(&sv, 0, sizeof sv);
    sv.plain_vsids = plain;
    sv.lift = lift;
    want(memory != NULL, "no memory");
    sv_start(&sv, memory, 0, frames);
    for (uint32_t i = 0; i < PROGRAMS; i++)
        start(i);
    run(0);
    for (uint32_t i = 0; i < 40000; i++)
        random_step();
    load_all(), load_all();
    written = sv.count[SV_written_back];
    load_all();
    want(frames > 60u || sv.count[SV_written_back] == written, "a page that was only loaded from is written back");
    if (frames <= 12u)
        hot_page();
    want(sv.count[SV_copies_on_write] > 100, "too few copies on write to say anything");
    want(sv.count[SV_protects] > 10, "too few protects to say anything");
    want(!plain || frames < 400u || sv.count[SV_maps_full] > 20, "too few full groups to say anything");
    for (uint32_t i = 0; i < PROGRAMS; i++)
        sv_remove(&sv, &programs[i]);
    want(sv.count[SV_maps] == sv.count[SV_unmaps], "a map without its unmap");
    for (size_t i = 0; i < MMU_TABLE_SIZE(0); i++)
        want(memory[i] == 0, "an entry is left in the table");
    free(sv.frames);
    free(memory);
}

int main(void)
{
    static const uint32_t frames[] = { SV_LEAST_FRAMES, 12, 60, 400 };
    sv_add(&sv, &file, SV_PROGRAMS - 1u);
    for (uint32_t i = 0; i < FILE_PAGES * PAGE; i++) {
        uint8_t byte = (uint8_t)(i * 7u + i / PAGE);
        sv_fill(&file, FIRST * PAGE + i, &byte, 1, true);
    }
    for (uint32_t i = 0; i < 8; i++)
        frames_and_vsids(frames[i / 2u], i % 2u);
    for (uint32_t page = 0; page < FILE_PAGES; page++)
        free(file.pages[FIRST + page].store);
    free(file.pages);
    printf("ok\n");
    return 0;
}
