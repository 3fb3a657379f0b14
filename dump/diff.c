/* mmu-dump diff: what changed between two dumps, word by word and page by page. */
#include "dump.h"

#include <stdlib.h>
#include <string.h>

/* ---- Registers ----------------------------------------------------------------------------------- */

/* A short page as the long page that has the same words and zero pairs 4 to 7, so that names agree. */
static struct registers widened(const struct registers *registers)
{
    struct registers made = *registers;
    size_t data = MMU_REGISTER_OFFSET(MMU_REGISTER_DATA_UPPER(0)), pairs = 8u * 4u;
    if (registers->length == MMU_REGISTERS_SIZE_LONG)
        return made;
    memset(made.bytes + data, 0, sizeof made.bytes - data);
    memcpy(made.bytes + MMU_REGISTER_OFFSET(MMU_REGISTER_DATA_UPPER_LONG(0)), registers->bytes + data, pairs);
    made.length = MMU_REGISTERS_SIZE_LONG;
    made.pairs = 8;
    made.words = MMU_REGISTER_COUNT_LONG;
    return made;
}

static void diff_register(struct sink *sink, struct json *json, const char *name, uint32_t before, uint32_t after)
{
    if (!json->sink) {
        put(sink, "  %-6s %08X -> %08X, bits %08X\n", name, (unsigned)before, (unsigned)after,
            (unsigned)(before ^ after));
        return;
    }
    json_open(json, NULL, '{');
    json_text(json, "name", name);
    json_number(json, "before", before);
    json_number(json, "after", after);
    json_close(json, '}');
}

static void diff_registers(struct sink *sink, struct json *json, const struct registers *a, const struct registers *b)
{
    struct registers before = widened(a), after = widened(b);
    uint32_t number, changed = 0;
    char room[REGISTER_NAME];
    if (json->sink)
        json_open(json, "registers", '[');
    else
        put(sink, "registers: %lu bytes, %lu bytes\n", (unsigned long)a->length, (unsigned long)b->length);
    for (number = 0; number < MMU_REGISTER_COUNT_LONG; number++) {
        uint32_t one = register_word(&before, number), other = register_word(&after, number);
        changed += one != other;
        if (one != other)
            diff_register(sink, json, register_name(&before, number, room), one, other);
    }
    if (json->sink)
        json_close(json, ']');
    else
        put(sink, "  %u words changed\n", (unsigned)changed);
}

/* ---- Pages --------------------------------------------------------------------------------------- */

/* By page and place among its matches; entries that no page reaches come last, by where they stand. */
static int compare(const void *one, const void *other)
{
    const struct page *a = one, *b = other;
    int order = (a->state == UNREACHED) - (b->state == UNREACHED);
    if (order)
        return order;
    if (a->state == UNREACHED) {
        order = order_of(a->group, b->group);
        return order ? order : order_of(a->number, b->number);
    }
    order = order_of(a->vsid, b->vsid);
    if (!order)
        order = order_of(a->page_index, b->page_index);
    return order ? order : order_of(a->order, b->order);
}

struct counts {
    uint32_t gone, added, changed, alike;
};

static void put_fields(struct sink *sink, const struct entry *entry)
{
    put(sink, "%05X %s %s %c%c %05X.%u", (unsigned)entry->rpn, wimg_text(entry->wimg).text, pp_text(entry->pp),
        entry->r ? 'R' : '-', entry->c ? 'C' : '-', (unsigned)entry->group, (unsigned)entry->number);
}

static void put_change(struct sink *sink, char mark, const struct entry *before, const struct entry *after)
{
    const struct entry *entry = before ? before : after;
    put(sink, "%c %06X ", mark, (unsigned)entry->vsid);
    if (entry->reached)
        put(sink, "%04X ", (unsigned)entry->page_index);
    else
        put(sink, "---- ");
    put_fields(sink, entry);
    if (before && after) {
        put(sink, " -> ");
        put_fields(sink, after);
    }
    put(sink, "\n");
}

static void json_change(struct json *json, const char *what, const struct entry *before, const struct entry *after)
{
    json_open(json, NULL, '{');
    json_text(json, "change", what);
    if (before)
        json_entry(json, "before", before);
    if (after)
        json_entry(json, "after", after);
    json_close(json, '}');
}

static void show(struct sink *sink, struct json *json, const struct entry *before, const struct entry *after)
{
    const char *what = !before ? "added" : !after ? "gone" : "changed";
    if (json->sink)
        json_change(json, what, before, after);
    else
        put_change(sink, !before ? '+' : !after ? '-' : '~', before, after);
}

/* One page of both lists, or of one of them. */
static void diff_page(struct sink *sink, struct json *json, const struct dump *a, const struct page *before,
                      const struct dump *b, const struct page *after, struct counts *counts)
{
    struct entry one, other;
    if (before)
        one = entry_at(&a->table, before->group, before->number);
    if (after)
        other = entry_at(&b->table, after->group, after->number);
    if (before && after && one.first == other.first && one.second == other.second && one.group == other.group
        && one.number == other.number) {
        counts->alike++;
        return;
    }
    counts->gone += !after;
    counts->added += !before;
    counts->changed += before && after;
    show(sink, json, before ? &one : NULL, after ? &other : NULL);
}

static struct counts merge(struct sink *sink, struct json *json, const struct dump *a, const struct dump *b)
{
    struct page_list one = list_pages(NULL, &a->table), other = list_pages(NULL, &b->table);
    struct counts counts = {0, 0, 0, 0};
    size_t i = 0, j = 0;
    if (one.count)
        qsort(one.pages, one.count, sizeof *one.pages, compare);
    if (other.count)
        qsort(other.pages, other.count, sizeof *other.pages, compare);
    while (i < one.count || j < other.count) {
        int order = i == one.count ? 1 : j == other.count ? -1 : compare(&one.pages[i], &other.pages[j]);
        diff_page(sink, json, a, order <= 0 ? &one.pages[i] : NULL, b, order >= 0 ? &other.pages[j] : NULL, &counts);
        i += order <= 0;
        j += order >= 0;
    }
    free(one.pages);
    free(other.pages);
    return counts;
}

static void diff_tables(struct sink *sink, struct json *json, const struct dump *a, const struct dump *b)
{
    struct counts counts;
    if (json->sink) {
        json_open(json, "pages", '[');
        merge(sink, json, a, b);
        json_close(json, ']');
        return;
    }
    put(sink, "tables: %lu groups, %lu groups; - is gone, + is added, ~ is changed\n", (unsigned long)a->table.groups,
        (unsigned long)b->table.groups);
    put(sink, "  VSID   page frame WIMG PP RC group.entry\n");
    counts = merge(sink, json, a, b);
    put(sink, "  %u gone, %u added, %u changed, %u as they were\n", (unsigned)counts.gone, (unsigned)counts.added,
        (unsigned)counts.changed, (unsigned)counts.alike);
}

/* ---- The command --------------------------------------------------------------------------------- */

int command_diff(const struct options *options, struct sink *sink)
{
    struct dump a = read_either(options->operands[0]), b = read_either(options->operands[1]);
    struct json json = {options->json ? sink : NULL, 0};
    if (!a.registers.length != !b.registers.length || !a.table.length != !b.table.length)
        fail("%s is of another kind than %s; expected two register pages, two tables, or both of each",
             options->operands[1], options->operands[0]);
    if (json.sink)
        json_open(&json, NULL, '{');
    if (a.registers.length)
        diff_registers(sink, &json, &a.registers, &b.registers);
    if (a.table.length)
        diff_tables(sink, &json, &a, &b);
    if (json.sink)
        json_close(&json, '}');
    free(a.table.bytes);
    free(b.table.bytes);
    return STATUS_DONE;
}
