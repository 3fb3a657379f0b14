/* mmu-dump html: one page for a browser. page.html has the page; its line @DATA@ becomes the dump as JSON. */
#include "dump.h"
#include "page.h"

#include <errno.h>
#include <stdlib.h>
#include <string.h>

enum { MOST_ROWS = 20000 }; /* A browser holds these without delay; the page says how many it leaves out. */

static void json_table(struct json *json, const struct table *table)
{
    char *used = claim(NULL, (size_t)table->groups + 1);
    uint32_t group;
    for (group = 0; group < table->groups; group++)
        used[group] = (char)('0' + used_entries(table, group));
    used[table->groups] = '\0';
    json_open(json, "table", '{');
    json_text(json, "file", table->name);
    json_number(json, "bytes", table->length);
    json_number(json, "groups", table->groups);
    json_text(json, "used", used); /* A digit for each group. */
    json_close(json, '}');
    free(used);
}

static void json_explained(struct json *json, const struct dump *dump, const struct access *access)
{
    struct sink text = {NULL, NULL, 0, 0};
    put_why(&text, dump, access);
    json_open(json, NULL, '{');
    json_why(json, "why", dump, access);
    json_text(json, "text", text.bytes);
    json_close(json, '}');
    free(text.bytes);
}

/* Every kind of access by both states, so that the form can choose among them. */
static void json_all_explained(struct json *json, const struct options *options, const struct dump *dump)
{
    struct access access;
    int i;
    access.length = options->length;
    json_open(json, "explained", '[');
    for (i = 0; i < options->explained_count; i++)
        for (access.mode = MMU_MODE_IR | MMU_MODE_DR; access.mode <= 7; access.mode += MMU_MODE_PR)
            for (access.kind = MMU_FETCH; access.kind <= MMU_STORE; access.kind++) {
                access.address = options->explained[i];
                json_explained(json, dump, &access);
            }
    json_close(json, ']');
}

static void put_data(struct sink *sink, const struct options *options, const struct dump *dump)
{
    struct json json = {sink, 0};
    struct page_list list = list_pages(&dump->registers, &dump->table);
    json_open(&json, NULL, '{');
    json_text(&json, "program", "mmu-dump " PROGRAM_VERSION);
    json_registers(&json, "registers", &dump->registers);
    json_table(&json, &dump->table);
    json_number(&json, "entries", list.count);
    json_pages(&json, dump, &list, MOST_ROWS);
    json_all_explained(&json, options, dump);
    json_close(&json, '}');
    free(list.pages);
}

int command_html(const struct options *options, struct sink *sink)
{
    struct dump dump;
    struct sink page = {NULL, NULL, 0, 0};
    size_t i;
    if (!open_dump(options, sink, &dump))
        return STATUS_SHOWN;
    page.file = fopen(options->output, "wb");
    if (!page.file)
        fail("%s: byte 0 cannot be written: %s; expected a file for the page", options->output, strerror(errno));
    for (i = 0; i < sizeof page_lines / sizeof page_lines[0]; i++)
        if (!strcmp(page_lines[i], "@DATA@\n"))
            put_data(&page, options, &dump);
        else
            fputs(page_lines[i], page.file);
    free(dump.table.bytes);
    if (ferror(page.file) | fclose(page.file))
        fail("%s: the page cannot be written whole; expected space for it", options->output);
    return STATUS_DONE;
}
