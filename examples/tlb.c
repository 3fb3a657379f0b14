/*
 * A software TLB that mmu_rights fills. One entry serves fetches, loads and stores of a page: it has a frame and the
 * kinds that may use it without asking. On a miss the access itself comes first, which faults or marks; then
 * mmu_rights says which kinds would be done in the same frame and change no mark, and only these are kept. So the first
 * store to a clean page always misses and sets C. Beside it the same accesses are made without a TLB, on registers and
 * a table of their own: answers and every byte of the tables must be equal.
 */
#include "mmu.h"

#include <stdio.h>
#include <string.h>

enum { TLB_SIZE = 64, ALL = MMU_MODE_IR | MMU_MODE_DR };

#define SDR1 0x00100000u
#define VSID 0x000123u

struct entry {
    uint32_t page;       /* address bits 0 to 19 and the mode */
    uint32_t frame;      /* physical address of the page's first byte */
    uint32_t attributes; /* WIMG */
    uint32_t kinds;      /* 1 << kind for each kind that may be answered here */
};

/* A processor's translation: with a TLB, and one without. */
struct machine {
    uint8_t registers[MMU_REGISTERS_SIZE];
    uint8_t table[65536];
    struct entry tlb[TLB_SIZE];
};

static struct machine with_tlb, without;
static unsigned hits, misses;

/* What one access came to, as far as a TLB entry tells it too. */
struct outcome {
    uint32_t result, physical, attributes, fault;
};

static struct outcome ask(struct machine *m, uint32_t mode, uint32_t kind, uint32_t address)
{
    uint8_t bytes[MMU_ACCESS_ANSWER_SIZE];
    struct mmu_answer a;
    struct outcome outcome;
    mmu_access(m->registers, sizeof m->registers, mode, kind, address, 1, m->table, sizeof m->table, bytes,
               sizeof bytes);
    a = mmu_read_answer(bytes);
    outcome.result = a.result;
    outcome.physical = a.physical;
    outcome.attributes = a.attributes;
    outcome.fault = a.fault;
    return outcome;
}

/* Keeps each kind that is done in this frame with these attributes and would set no mark that is not set already. */
static void fill(struct machine *m, uint32_t mode, uint32_t address, const struct outcome *done)
{
    struct entry *entry = &m->tlb[address >> 12 & (TLB_SIZE - 1)];
    uint8_t rights[MMU_RIGHTS_SIZE];
    uint32_t kind;
    entry->page = (address & 0xFFFFF000u) | mode;
    entry->frame = done->physical & 0xFFFFF000u;
    entry->attributes = done->attributes;
    entry->kinds = 0;
    if (mmu_rights(m->registers, sizeof m->registers, mode, address, m->table, sizeof m->table, rights, sizeof rights)
        != MMU_DONE)
        return;
    for (kind = MMU_FETCH; kind <= MMU_STORE; kind++) {
        struct mmu_answer a = mmu_read_answer(rights + MMU_RIGHTS_ANSWER(kind));
        if (a.result == MMU_DONE && a.physical == done->physical && a.attributes == done->attributes
            && mmu_get_word(rights, MMU_RIGHTS_MARKS(kind)) == 0)
            entry->kinds |= 1u << kind;
    }
}

static struct outcome translate(struct machine *m, uint32_t mode, uint32_t kind, uint32_t address)
{
    struct entry *entry = &m->tlb[address >> 12 & (TLB_SIZE - 1)];
    struct outcome outcome = { MMU_DONE, 0, 0, 0 };
    if (entry->page == ((address & 0xFFFFF000u) | mode) && entry->kinds >> kind & 1u) {
        hits++;
        outcome.physical = entry->frame | (address & 0xFFFu);
        outcome.attributes = entry->attributes;
        return outcome;
    }
    misses++;
    outcome = ask(m, mode, kind, address);
    if (outcome.result == MMU_DONE)
        fill(m, mode, address, &outcome);
    return outcome;
}

/* What the caller does for tlbie, and after an unmap and a protect. */
static void drop_page(struct machine *m, uint32_t page_index)
{
    m->tlb[page_index & (TLB_SIZE - 1)].kinds = 0;
}

/* After a change of SDR1, a segment register or a BAT, after a clear, and for tlbia. */
static void drop_all(struct machine *m)
{
    memset(m->tlb, 0, sizeof m->tlb);
}

/* An access, and by the rules: whether the TLB answers it, and which kinds of its page may then do without asking. */
struct step {
    uint32_t kind, address;
    int by_tlb;
    const char *kept;
};

/* The kinds that the TLB keeps of a page, as a debugger would show them. */
static const char *kept_of(const struct machine *m, uint32_t mode, uint32_t address, char text[4])
{
    const struct entry *entry = &m->tlb[address >> 12 & (TLB_SIZE - 1)];
    uint32_t kept = entry->page == ((address & 0xFFFFF000u) | mode) ? entry->kinds : 0;
    text[0] = kept >> MMU_LOAD & 1 ? 'r' : '-';
    text[1] = kept >> MMU_STORE & 1 ? 'w' : '-';
    text[2] = kept >> MMU_FETCH & 1 ? 'x' : '-';
    text[3] = '\0';
    return text;
}

/* One access of both, and a line of what came of it. Whether the two agree, and the TLB did what the step says. */
static int access_both(const struct step *step)
{
    static const char *const names[3] = { "fetch", "load", "store" };
    unsigned before = hits;
    char text[4];
    struct outcome a = translate(&with_tlb, ALL, step->kind, step->address);
    struct outcome b = ask(&without, ALL, step->kind, step->address);
    const char *kept = kept_of(&with_tlb, ALL, step->address, text);
    printf("%-5s %08X  ", names[step->kind], (unsigned)step->address);
    if (a.result == MMU_DONE)
        printf("%08X by the %-8s", (unsigned)a.physical, hits > before ? "TLB" : "table");
    else
        printf("%-24s", mmu_cause_name(a.fault));
    printf("kept: %s\n", kept);
    return a.result == b.result && a.physical == b.physical && a.attributes == b.attributes && a.fault == b.fault
        && (hits > before) == step->by_tlb && strcmp(kept, step->kept) == 0
        && memcmp(with_tlb.table, without.table, sizeof without.table) == 0;
}

static int access_all(const char *when, const struct step *steps, size_t count)
{
    int agree = 1;
    puts(when);
    for (; count > 0; count--)
        agree &= access_both(steps++);
    return agree;
}

/* The same registers and pages for both. */
static int start(struct machine *m)
{
    static const uint32_t pages[3][4] = {
        { 0x0400, 0x00800, MMU_ATTRIBUTE_M, 2 }, /* read and write */
        { 0x0401, 0x00801, MMU_ATTRIBUTE_M, 3 }, /* read-only */
        { 0x0402, 0x00802, MMU_ATTRIBUTE_G, 2 }, /* a device: no fetches */
    };
    uint32_t results = mmu_set_register(m->registers, sizeof m->registers, MMU_REGISTER_SDR1, SDR1), i;
    results |= mmu_set_register(m->registers, sizeof m->registers, MMU_REGISTER_SEGMENT(0), VSID);
    results |= mmu_clear(SDR1, m->table, sizeof m->table);
    for (i = 0; i < 3; i++)
        results |= mmu_map(SDR1, VSID, pages[i][0], pages[i][1], pages[i][2], pages[i][3], m->table, sizeof m->table);
    return results == MMU_DONE;
}

/* A DBAT over the first page: data goes to the block, fetches stay with the page. */
static int put_block(struct machine *m)
{
    uint32_t lower = mmu_set_register(m->registers, sizeof m->registers, MMU_REGISTER_DATA_LOWER(0), 0x03000002);
    uint32_t upper = mmu_set_register(m->registers, sizeof m->registers, MMU_REGISTER_DATA_UPPER(0),
                                      0x00400000u | MMU_BLOCK_BL_OF(0x20000) | MMU_BLOCK_VS);
    drop_all(m);
    return (lower | upper) == MMU_DONE;
}

static int protect(struct machine *m, uint32_t page_index, uint32_t pp)
{
    uint32_t result = mmu_protect(SDR1, VSID, page_index, pp, m->table, sizeof m->table);
    drop_page(m, page_index);
    return result == MMU_DONE;
}

/* R is set by the first load, so loads and fetches need not ask again; stores ask until C is set. */
static const struct step first[] = {
    { MMU_LOAD, 0x00400010, 0, "r-x" },  { MMU_LOAD, 0x00400014, 1, "r-x" },  { MMU_FETCH, 0x00400018, 1, "r-x" },
    { MMU_STORE, 0x00400020, 0, "rwx" }, { MMU_STORE, 0x00400024, 1, "rwx" }, { MMU_LOAD, 0x00401000, 0, "r-x" },
    { MMU_STORE, 0x00401004, 0, "r-x" }, { MMU_STORE, 0x00402000, 0, "rw-" }, { MMU_FETCH, 0x00402000, 0, "rw-" },
    { MMU_LOAD, 0x00403000, 0, "---" },
};

/* C is set, but PP 3 is read-only. */
static const struct step read_only[] = {
    { MMU_STORE, 0x00400020, 0, "---" }, { MMU_LOAD, 0x00400020, 0, "r-x" }, { MMU_FETCH, 0x00400020, 1, "r-x" },
};

/* The block's frame is not the page's, so data and fetches do not share an entry. */
static const struct step under_block[] = {
    { MMU_LOAD, 0x00400024, 0, "rw-" }, { MMU_STORE, 0x00400020, 1, "rw-" }, { MMU_FETCH, 0x00400020, 0, "--x" },
};

int main(void)
{
    int agree;
    if (!start(&with_tlb) || !start(&without))
        return 1;
    agree = access_all("a page of PP 2, one of PP 3, a guarded one", first, sizeof first / sizeof first[0]);
    if (!protect(&with_tlb, 0x0400, 3) || !protect(&without, 0x0400, 3))
        return 1;
    agree &= access_all("the first page gets PP 3", read_only, sizeof read_only / sizeof read_only[0]);
    if (!put_block(&with_tlb) || !put_block(&without))
        return 1;
    agree &= access_all("a data block over it", under_block, sizeof under_block / sizeof under_block[0]);
    printf("%u hits, %u misses; %s\n", hits, misses, agree ? "as without a TLB" : "not as it must be");
    return !agree;
}
