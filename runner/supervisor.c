/*
 * supervisor.c - map on no match, a clock by look and unmap, write back where C, copy on write by protection.
 */
#include "supervisor.h"

#include <stdlib.h>
#include <string.h>

#define PAGE MMU_PAGE_SIZE
#define TABLE(sv) (sv)->memory, MMU_TABLE_SIZE((sv)->sdr1) /* the table as it is lent, at physical address 0 */
/* The programs that have mapped a frame. */
#define FOR_USERS(sv, i, frame) for (uint32_t i = 0; i < SV_PROGRAMS; i++) if ((sv)->frames[frame].users >> i & 1u)

void sv_fail(const char *what, uint32_t result, unsigned program, uint32_t page)
{
    fprintf(stderr, "runner: %s, program %u, page %05X%s%s\n", what, program, (unsigned)page,
            result == MMU_DONE ? "" : ": ", result == MMU_DONE ? "" : mmu_result_name(result));
    exit(3);
}

static void must(uint32_t result, const char *what, unsigned program, uint32_t page)
{
    if (result != MMU_DONE)
        sv_fail(what, result, program, page);
}

static void *zeroed(size_t size)
{
    void *bytes = calloc(1, size);
    if (!bytes)
        sv_fail("no memory", MMU_DONE, 0, 0);
    return bytes;
}

/* ---- Table: VSIDs, groups, and the four calls on pages ------------------------------------------- */

static uint32_t vsid_of(const struct supervisor *sv, unsigned program, uint32_t segment)
{
    /* An odd factor spreads neighbouring numbers over the groups, and no two of them get the same VSID. */
    return sv->plain_vsids ? program << 12 | segment : (program * 16u + segment) * 0x897u & MMU_SEGMENT_VSID;
}

static uint32_t vsid_of_page(const struct supervisor *sv, const struct sv_program *program, uint32_t page)
{
    return vsid_of(sv, program->number, page >> 16);
}

static uint8_t *group_of(const struct supervisor *sv, uint32_t vsid, uint32_t page, bool secondary)
{
    uint32_t hash = (vsid & 0x7FFFFu) ^ (page & 0xFFFFu), last = (sv->sdr1 & MMU_SDR1_MASK) << 10 | 0x3FFu;
    return sv->memory + ((secondary ? ~hash : hash) & last) * MMU_GROUP_SIZE;
}

static uint32_t used_entries(const uint8_t *group)
{
    uint32_t used = 0;
    for (uint32_t i = 0; i < MMU_GROUP_ENTRIES; i++)
        used += mmu_get_word(group, MMU_ENTRY_SIZE * i) >> 31;
    return used;
}

static uint32_t look(struct supervisor *sv, const struct sv_program *program, uint32_t page)
{
    uint8_t answer[MMU_ANSWER_SIZE];
    uint32_t vsid = vsid_of_page(sv, program, page);
    uint32_t result = mmu_look(sv->sdr1, vsid, page & 0xFFFFu, TABLE(sv), answer, sizeof answer);
    sv->count[SV_looks]++;
    must(result, "look", program->number, page);
    return mmu_get_word(answer, MMU_ANSWER_SECOND);
}

/* Takes a page out of the table; its last second word has R and C. */
static uint32_t unmap(struct supervisor *sv, const struct sv_program *program, uint32_t page)
{
    uint8_t answer[MMU_ANSWER_SIZE];
    uint32_t vsid = vsid_of_page(sv, program, page);
    uint32_t result = mmu_unmap(sv->sdr1, vsid, page & 0xFFFFu, TABLE(sv), answer, sizeof answer);
    sv->count[SV_unmaps]++;
    must(result, "unmap", program->number, page);
    if (program == sv->running && sv->lift)
        sv->lift(page);
    return mmu_get_word(answer, MMU_ANSWER_SECOND);
}

static uint32_t pp_of(const struct sv_page *page)
{
    bool shared = page->store && page->store->shared;
    return !page->rights ? 0u : page->rights & SV_WRITE && !shared ? 2u : 3u;
}

static void make_room(struct supervisor *sv, uint32_t vsid, uint32_t page);

/* Puts a page into the table. Kp is 1: PP 0 allows nothing, 2 all, 3 no store. G keeps a page from being executed. */
static void map(struct supervisor *sv, const struct sv_program *program, uint32_t page, uint32_t frame)
{
    struct sv_page *p = &program->pages[page];
    uint32_t vsid = vsid_of_page(sv, program, page), result, met;
    uint32_t wimg = MMU_ATTRIBUTE_M | (p->rights & SV_EXECUTE ? 0u : MMU_ATTRIBUTE_G);
    const uint8_t *primary = group_of(sv, vsid, page, false);
    for (;;) {
        met = used_entries(primary);
        result = mmu_map(sv->sdr1, vsid, page & 0xFFFFu, frame, wimg, pp_of(p), TABLE(sv));
        if (result != MMU_REFUSED_FULL)
            break;
        sv->count[SV_maps_full]++;
        make_room(sv, vsid, page);
    }
    must(result, "map", program->number, page);
    p->frame = frame;
    sv->frames[frame].users |= UINT64_C(1) << program->number;
    sv->frames[frame].page = page;
    sv->count[SV_maps]++;
    sv->count[SV_maps_into_secondary] += met == MMU_GROUP_ENTRIES;
    sv->met[met]++;
}

/* ---- Frames -------------------------------------------------------------------------------------- */

static struct sv_store *own_store(struct sv_page *p)
{
    if (!p->store || p->store->shared)
        p->store = zeroed(sizeof *p->store);
    return p->store;
}

/* Takes a page from its frame; only what was changed is written back, and only C tells. */
static void take(struct supervisor *sv, const struct sv_program *program, uint32_t page)
{
    struct sv_page *p = &program->pages[page];
    uint32_t second = unmap(sv, program, page), frame = p->frame;
    if (second & MMU_SECOND_C || p->changed) {
        memcpy(own_store(p)->bytes, sv->memory + frame * PAGE, PAGE);
        sv->count[SV_written_back]++;
    }
    sv->frames[frame].users &= ~(UINT64_C(1) << program->number);
    if (!sv->frames[frame].users && p->store && p->store->shared)
        p->store->frame = 0;
    p->frame = 0;
    p->changed = false;
}

/* Both groups of a page are full: the next of their sixteen pages in turn goes. */
static void make_room(struct supervisor *sv, uint32_t vsid, uint32_t page)
{
    for (uint32_t tried = 0; tried < 2u * MMU_GROUP_ENTRIES; tried++) {
        uint32_t turn = sv->victim++ % (2u * MMU_GROUP_ENTRIES), number = turn % MMU_GROUP_ENTRIES;
        const uint8_t *entry = group_of(sv, vsid, page, turn != number) + number * MMU_ENTRY_SIZE;
        uint32_t owner = mmu_get_word(entry, MMU_ENTRY_FIRST) >> MMU_FIRST_VSID_SHIFT & MMU_SEGMENT_VSID;
        uint32_t frame = mmu_get_word(entry, MMU_ENTRY_SECOND) / PAGE;
        FOR_USERS(sv, i, frame) {
            if (vsid_of_page(sv, sv->programs[i], sv->frames[frame].page) == owner) {
                take(sv, sv->programs[i], sv->frames[frame].page);
                return;
            }
        }
    }
    sv_fail("sixteen entries that nobody mapped", MMU_REFUSED_FULL, 0, page);
}

/* A page that was accessed stays for another round, with R clear. A map begins with R and C zero, so C is kept. */
static void second_chance(struct supervisor *sv, uint32_t frame)
{
    uint32_t page = sv->frames[frame].page;
    sv->count[SV_second_chances]++;
    FOR_USERS(sv, i, frame) {
        if (unmap(sv, sv->programs[i], page) & MMU_SECOND_C)
            sv->programs[i]->pages[page].changed = true;
        map(sv, sv->programs[i], page, frame);
    }
}

/* The clock: the next frame that is free, or whose page was not accessed since the hand was there. */
static uint32_t next_frame(struct supervisor *sv)
{
    for (;;) {
        uint32_t frame = sv->hand, marks = 0;
        sv->hand = frame == sv->last_frame ? sv->first_frame : frame + 1u;
        if (!sv->frames[frame].users)
            return frame;
        FOR_USERS(sv, i, frame)
            marks |= look(sv, sv->programs[i], sv->frames[frame].page);
        if (!(marks & MMU_SECOND_R)) {
            FOR_USERS(sv, i, frame)
                take(sv, sv->programs[i], sv->frames[frame].page);
            sv->count[SV_frames_taken_away]++;
            return frame;
        }
        second_chance(sv, frame);
    }
}

/* ---- Faults -------------------------------------------------------------------------------------- */

/* Gives a page that is not mapped a frame: that of its shared store where one has it, else the next, filled. */
static void bring(struct supervisor *sv, uint32_t page)
{
    struct sv_page *p = &sv->running->pages[page];
    uint32_t frame;
    if (p->store && p->store->shared && p->store->frame) {
        sv->count[SV_shared_again]++;
        map(sv, sv->running, page, p->store->frame);
        return;
    }
    frame = next_frame(sv);
    if (p->store)
        memcpy(sv->memory + frame * PAGE, p->store->bytes, PAGE);
    else
        memset(sv->memory + frame * PAGE, 0, PAGE);
    if (p->store && p->store->shared)
        p->store->frame = frame;
    map(sv, sv->running, page, frame);
}

/* A store to a shared page: the program gets the same bytes in a store and a frame of its own. */
static void copy_on_write(struct supervisor *sv, uint32_t page)
{
    struct sv_page *p = &sv->running->pages[page];
    const struct sv_store *shared = p->store;
    take(sv, sv->running, page);
    memcpy(own_store(p)->bytes, shared->bytes, PAGE);
    bring(sv, page);
    sv->count[SV_copies_on_write]++;
}

/* Mends a fault where it can, so that the access may be asked again. What is allowed the library alone decides. */
static bool mend(struct supervisor *sv, uint32_t kind, const struct mmu_answer *answer)
{
    uint32_t page = answer->effective / PAGE;
    const struct sv_page *p = &sv->running->pages[page];
    bool copy = p->rights & SV_WRITE && p->store && p->store->shared;
    if (answer->rule == MMU_RULE_NO_MATCH && p->used)
        bring(sv, page);
    else if (answer->rule == MMU_RULE_PROTECTION && kind == MMU_STORE && copy)
        copy_on_write(sv, page);
    else
        return false;
    return true;
}

static struct mmu_answer ask(struct supervisor *sv, uint32_t kind, uint32_t address, uint32_t length)
{
    uint8_t bytes[MMU_ACCESS_ANSWER_SIZE];
    mmu_access(sv->registers, sizeof sv->registers, MMU_MODE_PR | MMU_MODE_IR | MMU_MODE_DR, kind, address, length,
               TABLE(sv), bytes, sizeof bytes);
    sv->count[SV_fetches_asked + kind]++;
    return mmu_read_answer(bytes);
}

struct mmu_answer sv_access(struct supervisor *sv, uint32_t kind, uint32_t address, uint32_t length)
{
    for (;;) {
        struct mmu_answer answer = ask(sv, kind, address, length);
        if (answer.result == MMU_DONE)
            return answer;
        if (answer.result != MMU_DATA_STORAGE_FAULT && answer.result != MMU_INSTRUCTION_STORAGE_FAULT)
            sv_fail("access", answer.result, sv->running->number, address / PAGE);
        sv->count[SV_faults_no_execute + answer.rule - MMU_RULE_NO_EXECUTE]++;
        if (sv->verbose) {
            char text[200];
            sv_explain(text, sizeof text, kind, &answer);
            fprintf(stderr, "fault of program %u: %s\n", sv->running->number, text);
        }
        if (!mend(sv, kind, &answer))
            return answer;
    }
}

void sv_explain(char *text, size_t size, uint32_t kind, const struct mmu_answer *answer)
{
    static const char *const kinds[] = { "fetch from", "load from", "store to" };
    int used = snprintf(text, size, "%s %08X: %s %08X by rule %u, %s", kinds[kind], (unsigned)answer->effective,
                        kind == MMU_FETCH ? "ISI, SRR1" : "DSI, DSISR", (unsigned)answer->fault, (unsigned)answer->rule,
                        mmu_rule_name(answer->rule));
    text += used, size -= (size_t)used;
    if (answer->rule == MMU_RULE_NO_EXECUTE)
        snprintf(text, size, ": N of segment register %u", (unsigned)(answer->effective >> 28));
    else if (answer->rule == MMU_RULE_PROTECTION)
        snprintf(text, size, ": key %u and PP %u, entry %u of group %03X", (unsigned)mmu_detail_key(answer->detail),
                 (unsigned)mmu_detail_pp(answer->detail), (unsigned)answer->entry, (unsigned)answer->group);
    else if (answer->rule == MMU_RULE_GUARDED)
        snprintf(text, size, ": G, entry %u of group %03X", (unsigned)answer->entry, (unsigned)answer->group);
}

/* ---- What the programs' system calls need ---------------------------------------------------------- */

bool sv_copy(struct supervisor *sv, uint32_t kind, uint32_t address, void *bytes, uint32_t length)
{
    uint8_t *at = bytes;
    while (length) {
        uint32_t left = PAGE - address % PAGE, part = left < length ? left : length;
        struct mmu_answer answer;
        part = part < MMU_LONGEST_OPERAND ? part : MMU_LONGEST_OPERAND;
        answer = sv_access(sv, kind, address, part);
        if (answer.result != MMU_DONE)
            return false;
        if (kind == MMU_STORE)
            memcpy(sv->memory + answer.physical, at, part);
        else
            memcpy(at, sv->memory + answer.physical, part);
        at += part, address += part, length -= part;
    }
    return true;
}

void sv_fill(struct sv_program *program, uint32_t address, const void *bytes, uint32_t length, bool shared)
{
    for (uint32_t i = 0; i < length; i++, address++) {
        struct sv_page *p = &program->pages[address / PAGE];
        if (!p->store) {
            p->store = zeroed(sizeof *p->store);
            p->store->shared = shared;
        }
        p->store->bytes[address % PAGE] = ((const uint8_t *)bytes)[i];
    }
}

/* A mapped page keeps its frame; PP is changed in place, and a page whose G has to change is mapped anew later. */
void sv_set_rights(struct supervisor *sv, struct sv_program *program, uint32_t first, uint32_t last, uint8_t rights)
{
    for (uint32_t page = first; page < last; page++) {
        struct sv_page *p = &program->pages[page];
        bool other_g = (p->rights ^ rights) & SV_EXECUTE;
        p->used = true;
        p->rights = rights;
        if (rights & SV_EXECUTE)
            program->executable |= 1u << (page >> 16);
        if (p->frame && other_g) {
            take(sv, program, page);
        } else if (p->frame) {
            uint32_t result = mmu_protect(sv->sdr1, vsid_of_page(sv, program, page), page & 0xFFFFu, pp_of(p),
                                          TABLE(sv));
            sv->count[SV_protects]++;
            must(result, "protect", program->number, page);
            if (program == sv->running && sv->lift)
                sv->lift(page);
        }
    }
}

void sv_forget(struct supervisor *sv, struct sv_program *program, uint32_t first, uint32_t last)
{
    for (uint32_t page = first; page < last; page++) {
        struct sv_page *p = &program->pages[page];
        if (!p->used)
            continue;
        if (p->frame)
            take(sv, program, page);
        if (p->store && !p->store->shared)
            free(p->store);
        memset(p, 0, sizeof *p);
    }
}

/* ---- Programs -------------------------------------------------------------------------------------- */

static void set_register(struct supervisor *sv, uint32_t number, uint32_t word)
{
    must(mmu_set_register(sv->registers, sizeof sv->registers, number, word), "a register", 0, 0);
}

void sv_run(struct supervisor *sv, struct sv_program *program)
{
    sv->running = program;
    sv->count[SV_turns]++;
    for (uint32_t segment = 0; segment < 16; segment++)
        set_register(sv, MMU_REGISTER_SEGMENT(segment), MMU_SEGMENT_KP | vsid_of(sv, program->number, segment)
                     | (program->executable >> segment & 1u ? 0u : MMU_SEGMENT_N));
}

void sv_add(struct supervisor *sv, struct sv_program *program, unsigned number)
{
    program->number = number;
    program->pages = zeroed(SV_PAGES * sizeof *program->pages);
    program->executable = 0;
    sv->programs[number] = program;
}

void sv_remove(struct supervisor *sv, struct sv_program *program)
{
    sv_forget(sv, program, 0, SV_PAGES);
    free(program->pages);
    program->pages = NULL;
    sv->programs[program->number] = NULL;
}

size_t sv_memory_size(uint32_t sdr1, uint32_t frames)
{
    return MMU_TABLE_SIZE(sdr1) + (size_t)frames * PAGE;
}

void sv_start(struct supervisor *sv, uint8_t *memory, uint32_t sdr1, uint32_t frames)
{
    must(mmu_clear(sdr1, memory, MMU_TABLE_SIZE(sdr1)), "clear", 0, 0);
    sv->memory = memory;
    sv->sdr1 = sdr1;
    sv->first_frame = sv->hand = (uint32_t)(MMU_TABLE_SIZE(sdr1) / PAGE);
    sv->last_frame = sv->first_frame + frames - 1u;
    sv->frames = zeroed((sv->last_frame + 1u) * sizeof *sv->frames);
    set_register(sv, MMU_REGISTER_SDR1, sdr1);
}
