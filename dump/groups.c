/* Entries and groups; mmu-dump group: the picture of a pair of groups. */
#include "dump.h"

#include <stdlib.h>

/* ---- Entries ------------------------------------------------------------------------------------- */

uint32_t hash_of(uint32_t vsid, uint32_t page_index)
{
    return (vsid & 0x7FFFFu) ^ page_index;
}

uint32_t primary_group(const struct table *table, uint32_t vsid, uint32_t page_index)
{
    return hash_of(vsid, page_index) & (table->groups - 1);
}

uint32_t other_group(const struct table *table, uint32_t group)
{
    return ~group & (table->groups - 1);
}

uint32_t group_address(const struct table *table, uint32_t group)
{
    return (table->sdr1 & MMU_SDR1_ORIGIN) + MMU_GROUP_SIZE * group;
}

/* The low ten bits of the page index are in the hash; a table of over 1,024 groups holds bits of the API there too. */
static void find_page(const struct table *table, struct entry *entry)
{
    uint32_t primary = entry->h ? other_group(table, entry->group) : entry->group;
    entry->page_index = entry->api << 10 | ((primary ^ entry->vsid) & 0x3FFu);
    entry->reached = primary_group(table, entry->vsid, entry->page_index) == primary;
}

struct entry entry_at(const struct table *table, uint32_t group, uint32_t number)
{
    struct entry entry;
    uint8_t fields[MMU_FIELDS_SIZE];
    size_t at = MMU_ENTRY_OFFSET(group, number);
    entry.group = group;
    entry.number = number;
    entry.first = mmu_get_word(table->bytes, at + MMU_ENTRY_FIRST);
    entry.second = mmu_get_word(table->bytes, at + MMU_ENTRY_SECOND);
    mmu_unpack(entry.first, entry.second, fields, sizeof fields);
    entry.v = mmu_get_word(fields, MMU_FIELD_V);
    entry.vsid = mmu_get_word(fields, MMU_FIELD_VSID);
    entry.h = mmu_get_word(fields, MMU_FIELD_H);
    entry.api = mmu_get_word(fields, MMU_FIELD_API);
    entry.rpn = mmu_get_word(fields, MMU_FIELD_RPN);
    entry.r = mmu_get_word(fields, MMU_FIELD_R);
    entry.c = mmu_get_word(fields, MMU_FIELD_C);
    entry.wimg = mmu_get_word(fields, MMU_FIELD_WIMG);
    entry.pp = mmu_get_word(fields, MMU_FIELD_PP);
    find_page(table, &entry);
    return entry;
}

uint32_t matches_of(const struct table *table, uint32_t vsid, uint32_t page_index, struct entry *matches)
{
    uint32_t h, number, count = 0, group = primary_group(table, vsid, page_index);
    for (h = 0; h < 2; h++, group = other_group(table, group))
        for (number = 0; number < MMU_GROUP_ENTRIES; number++) {
            struct entry entry = entry_at(table, group, number);
            if (entry.v && entry.h == h && entry.vsid == vsid && entry.api == page_index >> 10)
                matches[count++] = entry;
        }
    return count;
}

uint32_t used_entries(const struct table *table, uint32_t group)
{
    uint32_t number, count = 0;
    for (number = 0; number < MMU_GROUP_ENTRIES; number++)
        count += mmu_get_word(table->bytes, MMU_ENTRY_OFFSET(group, number)) >> 31;
    return count;
}

/* ---- The picture --------------------------------------------------------------------------------- */

static int is_marked(const struct entry *marked, uint32_t count, uint32_t group, uint32_t number)
{
    uint32_t i;
    for (i = 0; i < count; i++)
        if (marked[i].group == group && marked[i].number == number)
            return 1;
    return 0;
}

enum row { VSID_ROW, PAGE_ROW, FRAME_ROW, RIGHTS_ROW, ROWS };

static void put_cell(struct sink *sink, enum row row, const struct entry *entry)
{
    if (!entry->v)
        put(sink, row == VSID_ROW ? "    --   |" : "         |");
    else if (row == VSID_ROW)
        put(sink, " %06X  |", (unsigned)entry->vsid);
    else if (row == PAGE_ROW && !entry->reached)
        put(sink, " none  %u |", (unsigned)entry->h);
    else if (row == PAGE_ROW)
        put(sink, " %04X  %u |", (unsigned)entry->page_index, (unsigned)entry->h);
    else if (row == FRAME_ROW)
        put(sink, " %05X %c%c|", (unsigned)entry->rpn, entry->r ? 'r' : ' ', entry->c ? 'c' : ' ');
    else
        put(sink, " %s %s |", wimg_text(entry->wimg).text, pp_text(entry->pp));
}

void put_group(struct sink *sink, const struct table *table, uint32_t group, const struct entry *marked, uint32_t count)
{
    static const char *const names[ROWS] = {"VSID", "page, H", "frame, marks", "WIMG, PP"};
    uint32_t number;
    int row;
    put(sink, "  group %05X   |", (unsigned)group);
    for (number = 0; number < MMU_GROUP_ENTRIES; number++)
        put(sink, "    %u%c   |", (unsigned)number, is_marked(marked, count, group, number) ? '*' : ' ');
    put(sink, "\n");
    for (row = 0; row < ROWS; row++) {
        put(sink, "  %-12s  |", names[row]);
        for (number = 0; number < MMU_GROUP_ENTRIES; number++) {
            struct entry entry = entry_at(table, group, number);
            put_cell(sink, (enum row)row, &entry);
        }
        put(sink, "\n");
    }
}

/* ---- JSON ---------------------------------------------------------------------------------------- */

void json_entry(struct json *json, const char *key, const struct entry *entry)
{
    json_open(json, key, '{');
    json_number(json, "group", entry->group);
    json_number(json, "entry", entry->number);
    json_number(json, "first", entry->first);
    json_number(json, "second", entry->second);
    json_number(json, "v", entry->v);
    json_number(json, "vsid", entry->vsid);
    json_number(json, "h", entry->h);
    json_number(json, "api", entry->api);
    if (entry->v && entry->reached)
        json_number(json, "page_index", entry->page_index);
    else
        json_null(json, "page_index");
    json_number(json, "frame", entry->rpn);
    json_number(json, "r", entry->r);
    json_number(json, "c", entry->c);
    json_number(json, "wimg", entry->wimg);
    json_number(json, "pp", entry->pp);
    json_close(json, '}');
}

static void json_group(struct json *json, const struct table *table, uint32_t group)
{
    uint32_t number;
    json_open(json, NULL, '{');
    json_number(json, "group", group);
    json_number(json, "address", group_address(table, group));
    json_number(json, "used", used_entries(table, group));
    json_open(json, "entries", '[');
    for (number = 0; number < MMU_GROUP_ENTRIES; number++) {
        struct entry entry = entry_at(table, group, number);
        json_entry(json, NULL, &entry);
    }
    json_close(json, ']');
    json_close(json, '}');
}

/* ---- The command --------------------------------------------------------------------------------- */

static void json_groups(struct sink *sink, const struct table *table, const uint32_t *groups)
{
    struct json json = {sink, 0};
    json_open(&json, NULL, '{');
    json_open(&json, "groups", '[');
    json_group(&json, table, groups[0]);
    json_group(&json, table, groups[1]);
    json_close(&json, ']');
    json_close(&json, '}');
}

static void put_groups(struct sink *sink, const struct table *table, const uint32_t *groups)
{
    int i;
    put(sink, "A page whose primary group is one of these two has the other as its secondary group.\n");
    put(sink, "Of an entry: VSID; page index, and H; frame, r for R and c for C; WIMG and PP. -- is V = 0.\n");
    put(sink, "A page index of none: by its VSID, API and H the entry stands in no group of any page.\n");
    for (i = 0; i < 2; i++) {
        put(sink, "\ngroup %05X of 00000-%05X: byte %lu of the table, address %08X, %u of 8 entries with V = 1\n",
            (unsigned)groups[i], (unsigned)(table->groups - 1), (unsigned long)MMU_GROUP_SIZE * groups[i],
            (unsigned)group_address(table, groups[i]), (unsigned)used_entries(table, groups[i]));
        put_group(sink, table, groups[i], NULL, 0);
    }
}

int command_group(const struct options *options, struct sink *sink)
{
    struct dump dump;
    uint32_t groups[2];
    uint32_t wanted = hexadecimal("group", options->operands[0], 0x7FFFF);
    if (!open_dump(options, sink, &dump))
        return STATUS_SHOWN;
    groups[0] = wanted;
    if (wanted >= dump.table.groups)
        fail("group %05X: expected a group from 0 to %05X, as SDR1 %08X says", (unsigned)wanted,
             (unsigned)(dump.table.groups - 1), (unsigned)dump.table.sdr1);
    groups[1] = other_group(&dump.table, wanted);
    if (options->json)
        json_groups(sink, &dump.table, groups);
    else
        put_groups(sink, &dump.table, groups);
    free(dump.table.bytes);
    return STATUS_DONE;
}
