/* mmu-dump pages: one line for each entry with V = 1. */
#include "dump.h"

#include <stdlib.h>
#include <string.h>

/* ---- The list ------------------------------------------------------------------------------------ */

#define AGREE (MMU_SECOND_RPN | 15u << MMU_SECOND_WIMG_SHIFT | MMU_SECOND_PP)

static uint32_t segments_with(const struct registers *registers, uint32_t vsid)
{
    uint32_t n, segments = 0;
    for (n = 0; registers && n < SEGMENTS; n++)
        if ((register_word(registers, MMU_REGISTER_SEGMENT(n)) & MMU_SEGMENT_VSID) == vsid)
            segments |= 1u << n;
    return segments;
}

/* Whether the library finds contradicting matches of a page. */
static int contradicts(const struct table *table, uint32_t vsid, uint32_t page_index)
{
    uint8_t answer[MMU_ANSWER_SIZE];
    return mmu_look(table->sdr1, vsid, page_index, table->bytes, table->length, answer, sizeof answer)
        == MMU_REFUSED_CONTRADICTION;
}

static void find_state(const struct table *table, const struct entry *entry, struct page *page)
{
    struct entry matches[MOST_MATCHES];
    uint32_t count = matches_of(table, entry->vsid, entry->page_index, matches);
    while (page->order < count && (matches[page->order].group != entry->group
                                   || matches[page->order].number != entry->number))
        page->order++;
    page->first_group = matches[0].group;
    page->first_number = matches[0].number;
    if (count == 1)
        page->state = SINGLE;
    else if (page->order == 0)
        page->state = contradicts(table, entry->vsid, entry->page_index) ? CONTRADICTED : FIRST;
    else
        page->state = (matches[0].second ^ entry->second) & AGREE ? CONTRADICTS : SAME;
}

static struct page page_of(const struct registers *registers, const struct table *table, const struct entry *entry)
{
    struct page page;
    memset(&page, 0, sizeof page);
    page.group = entry->group;
    page.number = entry->number;
    page.vsid = entry->vsid;
    page.page_index = entry->page_index;
    page.state = UNREACHED;
    if (!entry->reached)
        return page;
    page.segments = segments_with(registers, entry->vsid);
    find_state(table, entry, &page);
    return page;
}

/* First those with an address, then those that no segment has, then those that no page reaches. */
static int section(const struct page *page)
{
    return page->state == UNREACHED ? 2 : page->segments ? 0 : 1;
}

static uint32_t lowest_segment(const struct page *page)
{
    uint32_t n = 0;
    while (n < SEGMENTS && !(page->segments >> n & 1u))
        n++;
    return n;
}

static int compare(const void *one, const void *other)
{
    const struct page *a = one, *b = other;
    int order = section(a) - section(b);
    if (!order && section(a) == 0)
        order = order_of(lowest_segment(a), lowest_segment(b));
    if (!order && section(a) != 2)
        order = order_of(a->vsid, b->vsid);
    if (!order && section(a) != 2)
        order = order_of(a->page_index, b->page_index);
    if (!order && section(a) != 2)
        order = order_of(a->order, b->order);
    if (!order)
        order = order_of(a->group, b->group);
    return order ? order : order_of(a->number, b->number);
}

struct page_list list_pages(const struct registers *registers, const struct table *table)
{
    struct page_list list = {NULL, 0};
    uint32_t group, number;
    size_t room = 0;
    for (group = 0; group < table->groups; group++)
        for (number = 0; number < MMU_GROUP_ENTRIES; number++) {
            struct entry entry;
            if (!(mmu_get_word(table->bytes, MMU_ENTRY_OFFSET(group, number)) & MMU_FIRST_V))
                continue;
            if (list.count == room) {
                room = room ? 2 * room : 256;
                list.pages = claim(list.pages, room * sizeof *list.pages);
            }
            entry = entry_at(table, group, number);
            list.pages[list.count++] = page_of(registers, table, &entry);
        }
    if (list.count)
        qsort(list.pages, list.count, sizeof *list.pages, compare);
    return list;
}

/* ---- Text ---------------------------------------------------------------------------------------- */

static void put_segments_and_note(struct sink *sink, const struct page *page)
{
    static const char *const notes[] = {"", "first of several", "same as", "contradicted", "contradicts", "no page"};
    uint32_t n, width = 0;
    for (n = 0; n < SEGMENTS; n++)
        if (page->segments >> n & 1u) {
            put(sink, width ? "%X" : " %X", (unsigned)n);
            width++;
        }
    if (page->state == SINGLE)
        return;
    put(sink, "%*s%s", (int)(SEGMENTS - width) + (width ? 1 : 2), "", notes[page->state]);
    if (page->state == SAME || page->state == CONTRADICTS)
        put(sink, " %05X.%u", (unsigned)page->first_group, (unsigned)page->first_number);
}

static void put_page(struct sink *sink, const struct table *table, const struct page *page)
{
    struct entry entry = entry_at(table, page->group, page->number);
    if (page->segments)
        put(sink, "%X%04X000", (unsigned)lowest_segment(page), (unsigned)page->page_index);
    else
        put(sink, "--------");
    put(sink, " %06X ", (unsigned)entry.vsid);
    if (page->state == UNREACHED)
        put(sink, "----");
    else
        put(sink, "%04X", (unsigned)page->page_index);
    put(sink, " %05X %s %s %-5s %-5s %c %c %05X %u %u", (unsigned)entry.rpn, wimg_text(entry.wimg).text,
        pp_text(entry.pp), rights_word(page_rights(0, entry.pp)), rights_word(page_rights(1, entry.pp)),
        entry.r ? 'R' : '-', entry.c ? 'C' : '-', (unsigned)entry.group, (unsigned)entry.number, (unsigned)entry.h);
    put_segments_and_note(sink, page);
    put(sink, "\n");
}

static size_t count_state(const struct page_list *list, enum state state)
{
    size_t i, count = 0;
    for (i = 0; i < list->count; i++)
        count += list->pages[i].state == state;
    return count;
}

static size_t count_section(const struct page_list *list, int wanted)
{
    size_t i, count = 0;
    for (i = 0; i < list->count; i++)
        count += section(&list->pages[i]) == wanted;
    return count;
}

static void put_counts(struct sink *sink, const struct page_list *list)
{
    put(sink, "\n%lu entries with V = 1 in %lu pages\n", (unsigned long)list->count,
        (unsigned long)(count_state(list, SINGLE) + count_state(list, FIRST) + count_state(list, CONTRADICTED)));
    put(sink, "%lu of a page that no segment register has (address --------)\n",
        (unsigned long)count_section(list, 1));
    put(sink, "%lu that no page reaches: by VSID, API and H they stand in no group of any page\n",
        (unsigned long)count_state(list, UNREACHED));
    put(sink, "%lu duplicates that agree with the first match, which alone is used and marked\n",
        (unsigned long)count_state(list, SAME));
    put(sink, "%lu pages with contradicting matches: an access to one is refused\n",
        (unsigned long)count_state(list, CONTRADICTED));
}

static void put_pages(struct sink *sink, const struct dump *dump, const struct page_list *list)
{
    size_t i;
    put(sink, "Rights by the segment's key: none, read, or write (reading and writing); a fetch needs read.\n");
    put(sink, "Address: by the lowest segment that has the VSID. Segments: all that have it, digit by digit.\n");
    put(sink, "Blocks are not looked at here: an address that one covers never gets to its page.\n\n");
    put(sink, "address  VSID   page frame WIMG PP key 0 key 1 R C group e H segments         note\n");
    for (i = 0; i < list->count; i++)
        put_page(sink, &dump->table, &list->pages[i]);
    put_counts(sink, list);
}

/* ---- JSON ---------------------------------------------------------------------------------------- */

static void json_page(struct json *json, const struct table *table, const struct page *page)
{
    static const char *const states[] = {"single", "first", "same", "contradicted", "contradicts", "unreached"};
    struct entry entry = entry_at(table, page->group, page->number);
    uint32_t n;
    json_open(json, NULL, '{');
    json_open(json, "addresses", '[');
    for (n = 0; n < SEGMENTS; n++)
        if (page->segments >> n & 1u)
            json_number(json, NULL, n << 28 | page->page_index << 12);
    json_close(json, ']');
    json_text(json, "state", states[page->state]);
    json_text(json, "key0", rights_word(page_rights(0, entry.pp)));
    json_text(json, "key1", rights_word(page_rights(1, entry.pp)));
    if (page->state == SAME || page->state == CONTRADICTS) {
        json_number(json, "first_group", page->first_group);
        json_number(json, "first_entry", page->first_number);
    }
    json_entry(json, "entry", &entry);
    json_close(json, '}');
}

void json_pages(struct json *json, const struct dump *dump, const struct page_list *list, size_t most)
{
    size_t i;
    json_open(json, "pages", '[');
    for (i = 0; i < list->count && i < most; i++)
        json_page(json, &dump->table, &list->pages[i]);
    json_close(json, ']');
}

/* ---- The command --------------------------------------------------------------------------------- */

int command_pages(const struct options *options, struct sink *sink)
{
    struct json json = {sink, 0};
    struct dump dump;
    struct page_list list;
    uint32_t result;
    if (!open_dump(options, sink, &dump))
        return STATUS_SHOWN;
    result = mmu_check(dump.registers.bytes, dump.registers.length);
    list = list_pages(&dump.registers, &dump.table);
    if (options->json) {
        json_open(&json, NULL, '{');
        json_number(&json, "result", result);
        json_text(&json, "result_name", mmu_result_name(result));
        json_pages(&json, &dump, &list, list.count);
        json_close(&json, '}');
    } else {
        put_pages(sink, &dump, &list);
        if (result != MMU_DONE) {
            put(sink, "\nEvery access is refused while the registers break a rule: %s\n", mmu_result_name(result));
            put_broken(sink, &dump.registers);
        }
    }
    free(list.pages);
    free(dump.table.bytes);
    return result == MMU_DONE ? STATUS_DONE : STATUS_SHOWN;
}
