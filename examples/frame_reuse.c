/*
 * One frame is lent anew to another address space. A page of the first space is unmapped and its frame is mapped for
 * the second; after that no access of the first may reach the frame. The page's entry (PTE) stands in the secondary
 * group (PTEG), since eight other pages fill the primary one: an unmap that looked there alone would leave it behind.
 *
 * Prints each call, its answer in words and the two groups; a wrong answer makes the exit status 1.
 */
#include "mmu.h"

#include <stdio.h>
#include <stdlib.h>

/* Document 01's numbers: a table of 65,536 bytes, its example page and the two groups of that page. */
#define SDR1 0x0F980000u
#define FIRST_SPACE 0x0C701Cu
#define SECOND_SPACE 0x0C741Cu /* Another VSID whose page 0FFA has the same two groups. */
#define PAGE 0x0FFAu
#define FRAME 0x12345u
#define FIRST_ADDRESS 0x00FFA01Bu  /* Segment 0, the first space. */
#define SECOND_ADDRESS 0x10FFA01Bu /* Segment 1, the second space. */
#define PRIMARY 0x3E6u
#define SECONDARY 0x019u

enum { TABLE_SIZE = 65536 };

static uint8_t registers[MMU_REGISTERS_SIZE_SHORT];
static uint8_t table[TABLE_SIZE];
static uint8_t answer[MMU_ANSWER_SIZE];
static uint8_t access_answer[MMU_ACCESS_ANSWER_SIZE];
static int wrong;

/* ---- Wanted answers --------------------------------------------------------------------------- */

static void want(const char *what, uint32_t got, uint32_t wanted)
{
    if (got != wanted) {
        printf("    WRONG: %s is %08X, wanted %08X\n", what, (unsigned)got, (unsigned)wanted);
        wrong++;
    }
}

/* ---- The picture ------------------------------------------------------------------------------ */

/* One entry taken apart by the library. */
struct entry {
    uint8_t fields[MMU_FIELDS_SIZE];
};

static struct entry entry_at(uint32_t group, uint32_t number)
{
    struct entry entry;
    size_t at = MMU_ENTRY_OFFSET(group, number);
    uint32_t first = mmu_get_word(table, at + MMU_ENTRY_FIRST);
    uint32_t second = mmu_get_word(table, at + MMU_ENTRY_SECOND);
    want("unpack", mmu_unpack(first, second, entry.fields, sizeof entry.fields), MMU_DONE);
    return entry;
}

/* Group, H, VSID and API name the page; the low ten bits of its index are in the hash. */
static uint32_t page_of(const struct entry *entry, uint32_t group)
{
    uint32_t hash = mmu_get_word(entry->fields, MMU_FIELD_H) ? ~group : group;
    uint32_t vsid = mmu_get_word(entry->fields, MMU_FIELD_VSID);
    return mmu_get_word(entry->fields, MMU_FIELD_API) << 10 | ((hash ^ vsid) & 0x3FF);
}

static void print_page(const struct entry *entry, uint32_t group)
{
    uint32_t vsid = mmu_get_word(entry->fields, MMU_FIELD_VSID);
    if (!mmu_get_word(entry->fields, MMU_FIELD_V))
        printf("   --   |");
    else
        printf(" %s %04X |", vsid == FIRST_SPACE ? "1" : vsid == SECOND_SPACE ? "2" : "?",
               (unsigned)page_of(entry, group));
}

static void print_frame(const struct entry *entry)
{
    if (!mmu_get_word(entry->fields, MMU_FIELD_V))
        printf("        |");
    else
        printf(" %05X%s%s|", (unsigned)mmu_get_word(entry->fields, MMU_FIELD_RPN),
               mmu_get_word(entry->fields, MMU_FIELD_R) ? "r" : " ",
               mmu_get_word(entry->fields, MMU_FIELD_C) ? "c" : " ");
}

static void print_group(const char *name, uint32_t group)
{
    uint32_t i;
    printf("    %-9s %03X |", name, (unsigned)group);
    for (i = 0; i < MMU_GROUP_ENTRIES; i++) {
        struct entry entry = entry_at(group, i);
        print_page(&entry, group);
    }
    printf("\n    frame, marks  |");
    for (i = 0; i < MMU_GROUP_ENTRIES; i++) {
        struct entry entry = entry_at(group, i);
        print_frame(&entry);
    }
    printf("\n");
}

static void print_groups(void)
{
    print_group("primary", PRIMARY);
    print_group("secondary", SECONDARY);
    printf("\n");
}

/* ---- Calls, each printed with its answer ------------------------------------------------------- */

static void set_register(uint32_t number, uint32_t word)
{
    uint32_t result = mmu_set_register(registers, sizeof registers, number, word);
    printf("mmu_set_register(number %u, word %08X): %s\n", (unsigned)number, (unsigned)word, mmu_result_name(result));
    want("result", result, MMU_DONE);
}

static void clear(void)
{
    uint32_t result = mmu_clear(SDR1, table, sizeof table);
    printf("mmu_clear(SDR1 0F980000): %s\n", mmu_result_name(result));
    want("result", result, MMU_DONE);
}

static void map(uint32_t vsid, uint32_t page, uint32_t frame)
{
    uint32_t result = mmu_map(SDR1, vsid, page, frame, MMU_ATTRIBUTE_M, 2, table, sizeof table);
    printf("mmu_map(VSID %06X, page %04X, frame %05X): %s\n", (unsigned)vsid, (unsigned)page, (unsigned)frame,
           mmu_result_name(result));
    want("result", result, MMU_DONE);
}

static void unmap(uint32_t vsid, uint32_t page, uint32_t second)
{
    uint32_t result = mmu_unmap(SDR1, vsid, page, table, sizeof table, answer, sizeof answer);
    printf("mmu_unmap(VSID %06X, page %04X): %s, second word %08X\n", (unsigned)vsid, (unsigned)page,
           mmu_result_name(result), (unsigned)mmu_get_word(answer, MMU_ANSWER_SECOND));
    want("result", result, MMU_DONE);
    want("second word", mmu_get_word(answer, MMU_ANSWER_SECOND), second);
}

/* An access of the supervisor to one byte with data translation on. */
static struct mmu_answer access_data(uint32_t kind, uint32_t address)
{
    struct mmu_answer got;
    uint32_t result = mmu_access(registers, sizeof registers, MMU_MODE_DR, kind, address, 1, table, sizeof table,
                                 access_answer, sizeof access_answer);
    got = mmu_read_answer(access_answer);
    want("result word", got.result, result);
    want("effective address", got.effective, address);
    printf("mmu_access(%s, address %08X): %s, ", kind == MMU_STORE ? "store" : "load", (unsigned)address,
           mmu_result_name(result));
    return got;
}

/* Done by the first entry of the secondary group, with key 0 and PP 2. */
static void done_access(uint32_t kind, uint32_t address, uint32_t physical)
{
    struct mmu_answer got = access_data(kind, address);
    printf("physical address %08X by entry %u of group %03X\n", (unsigned)got.physical, (unsigned)got.entry,
           (unsigned)got.group);
    want("result", got.result, MMU_DONE);
    want("physical address", got.physical, physical);
    want("attributes", got.attributes, MMU_ATTRIBUTE_M);
    want("rule", got.rule, MMU_RULE_DONE);
    want("key and PP", got.detail, 2);
    want("group", got.group, SECONDARY);
    want("entry", got.entry, 0);
}

static void faulting_access(uint32_t kind, uint32_t address, uint32_t fault)
{
    struct mmu_answer got = access_data(kind, address);
    printf("%s: DSISR %08X, continue at %03X\n", mmu_rule_name(got.rule), (unsigned)got.fault, (unsigned)got.offset);
    want("result", got.result, MMU_DATA_STORAGE_FAULT);
    want("fault word", got.fault, fault);
    want("interrupt offset", got.offset, MMU_OFFSET_DATA);
    want("rule", got.rule, MMU_RULE_NO_MATCH);
}

/* ---- The story -------------------------------------------------------------------------------- */

static void want_entry(uint32_t group, uint32_t number, uint32_t first, uint32_t second)
{
    size_t at = MMU_ENTRY_OFFSET(group, number);
    want("first entry word", mmu_get_word(table, at + MMU_ENTRY_FIRST), first);
    want("second entry word", mmu_get_word(table, at + MMU_ENTRY_SECOND), second);
}

static void fill_primary_group(void)
{
    uint32_t i;
    printf("Eight other pages of the first address space fill the primary group.\n");
    for (i = 0; i < MMU_GROUP_ENTRIES; i++)
        map(FIRST_SPACE, PAGE + 0x400 * (i + 1), 0x20000 + i);
    print_groups();
}

static void first_space_uses_the_frame(void)
{
    printf("A page of the first space gets frame %05X; its entry goes to the secondary group.\n", (unsigned)FRAME);
    map(FIRST_SPACE, PAGE, FRAME);
    want_entry(SECONDARY, 0, 0x86380E43u, 0x12345012u);
    print_groups();
    printf("It is written to: the store sets R and C in the entry.\n");
    done_access(MMU_STORE, FIRST_ADDRESS, 0x1234501Bu);
    want_entry(SECONDARY, 0, 0x86380E43u, 0x12345192u);
    print_groups();
}

static void frame_is_lent_anew(void)
{
    printf("The page is unmapped; its second word comes back with R and C.\n");
    unmap(FIRST_SPACE, PAGE, 0x12345192u);
    want_entry(SECONDARY, 0, 0, 0);
    print_groups();
    printf("The frame is lent anew, to the second address space.\n");
    map(SECOND_SPACE, PAGE, FRAME);
    want_entry(SECONDARY, 0, 0x863A0E43u, 0x12345012u);
    print_groups();
}

static void old_page_must_fault(void)
{
    printf("The second space reaches its frame; the old page of the first faults.\n");
    done_access(MMU_LOAD, SECOND_ADDRESS, 0x1234501Bu);
    faulting_access(MMU_LOAD, FIRST_ADDRESS, MMU_FAULT_NO_MATCH);
    faulting_access(MMU_STORE, FIRST_ADDRESS, MMU_FAULT_NO_MATCH | MMU_FAULT_STORE);
    want_entry(SECONDARY, 0, 0x863A0E43u, 0x12345112u);
    print_groups();
}

int main(void)
{
    printf("In the pictures an entry shows address space and page, below them its frame, r for R and c for C.\n\n");
    set_register(MMU_REGISTER_SDR1, SDR1);
    set_register(MMU_REGISTER_SEGMENT(0), FIRST_SPACE);
    set_register(MMU_REGISTER_SEGMENT(1), SECOND_SPACE);
    clear();
    print_groups();
    fill_primary_group();
    first_space_uses_the_frame();
    frame_is_lent_anew();
    old_page_must_fault();
    if (wrong) {
        printf("%d wrong answers\n", wrong);
        return EXIT_FAILURE;
    }
    printf("All answers as wanted: frame %05X belongs to the second address space alone.\n", (unsigned)FRAME);
    return EXIT_SUCCESS;
}
