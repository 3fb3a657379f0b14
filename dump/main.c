/* mmu-dump: what a register page and a table in files say. This file has the commands and their options. */
#include "dump.h"

#include <stdlib.h>
#include <string.h>

static const char help[] =
    "usage: mmu-dump check --registers FILE [--table FILE]\n"
    "       mmu-dump pages --registers FILE --table FILE\n"
    "       mmu-dump group N --registers FILE --table FILE\n"
    "       mmu-dump why ADDRESS --registers FILE --table FILE [--fetch|--load|--store] [--length N]\n"
    "                    [--user] [--real]\n"
    "       mmu-dump diff A B\n"
    "       mmu-dump html --registers FILE --table FILE -o FILE [--explain ADDRESS].. [--length N]\n"
    "\n";

static const char help_more[] =
    "check   every register word in words, and each broken rule with the word that breaks it\n"
    "pages   one line for each entry with V = 1: its page, frame, rights and place\n"
    "group   the picture of group N and of the group that is secondary to it\n"
    "why     the steps of one access, and the library's answer\n"
    "diff    what changed from A to B: two register pages, two tables, or REGISTERS,TABLE each\n"
    "html    one page for a browser, with `why` for the addresses given by --explain\n"
    "\n"
    "  --registers FILE  register page of 132 or 196 bytes\n"
    "  --table FILE      the table, as long as SDR1 says\n"
    "  --json            JSON in place of text (not for html); all numbers decimal\n"
    "  --user            the access is the user's (MSR's PR is on), not the supervisor's\n"
    "  --real            translation is off (MSR's IR and DR)\n"
    "  --length N        bytes of the operand, 1 to 128, decimal; 1 if not given\n"
    "  --explain ADDRESS of html, up to 64 times\n"
    "  --help, --version\n"
    "\n"
    "ADDRESS and N of group are hexadecimal, with or without 0x.\n"
    "Exit status: 0 done, 1 a fault or a refusal is shown, 2 bad use or a file that is no dump.\n";

/* ---- Numbers ------------------------------------------------------------------------------------- */

static int digit_of(char c)
{
    return c >= '0' && c <= '9' ? c - '0' : c >= 'A' && c <= 'F' ? c - 'A' + 10 : c >= 'a' && c <= 'f' ? c - 'a' + 10
         : 16;
}

static uint32_t number_of(const char *what, const char *text, int base, uint32_t most)
{
    size_t at = base == 16 && text[0] == '0' && (text[1] == 'x' || text[1] == 'X') ? 2 : 0;
    uint64_t number = 0;
    char wanted[64];
    sprintf(wanted, base == 16 ? "expected a hexadecimal number up to %lX" : "expected a decimal number up to %lu",
            (unsigned long)most);
    do {
        int digit = digit_of(text[at]);
        if (!text[at])
            fail("%s \"%s\": ends at byte %lu; %s", what, text, (unsigned long)at, wanted);
        if (digit >= base)
            fail("%s \"%s\": byte %lu is no digit; %s", what, text, (unsigned long)at, wanted);
        number = number * (uint64_t)base + (uint64_t)digit;
        if (number > most)
            fail("%s \"%s\": too large at byte %lu; %s", what, text, (unsigned long)at, wanted);
        at++;
    } while (text[at]);
    return (uint32_t)number;
}

uint32_t hexadecimal(const char *what, const char *text, uint32_t most)
{
    return number_of(what, text, 16, most);
}

/* ---- Commands and options ------------------------------------------------------------------------ */

enum { REGISTERS = 1, TABLE = 2, JSON = 4, ACCESS = 8, LENGTH = 16, OUTPUT = 32 };

struct command {
    const char *name, *operands;
    int operand_count, takes, needs;
    int (*run)(const struct options *options, struct sink *sink);
};

static const struct command commands[] = {
    {"check", "no operand", 0, REGISTERS | TABLE | JSON, REGISTERS, command_check},
    {"pages", "no operand", 0, REGISTERS | TABLE | JSON, REGISTERS | TABLE, command_pages},
    {"group", "a group's number", 1, REGISTERS | TABLE | JSON, REGISTERS | TABLE, command_group},
    {"why", "an address", 1, REGISTERS | TABLE | JSON | ACCESS | LENGTH, REGISTERS | TABLE, command_why},
    {"diff", "two dumps", 2, JSON, 0, command_diff},
    {"html", "no operand", 0, REGISTERS | TABLE | OUTPUT | LENGTH, REGISTERS | TABLE | OUTPUT, command_html},
};

static const struct command *command_named(const char *name)
{
    size_t i;
    for (i = 0; i < sizeof commands / sizeof commands[0]; i++)
        if (!strcmp(commands[i].name, name))
            return &commands[i];
    fail("\"%s\" is no command; expected check, pages, group, why, diff or html; mmu-dump --help has more", name);
}

struct words {
    char **at;
    const struct command *command;
};

/* Whether the next word is this option, which the command must take. */
static int is_option(const struct words *words, const char *name, int group)
{
    if (strcmp(*words->at, name))
        return 0;
    if (!(words->command->takes & group))
        fail("%s takes no %s; mmu-dump --help has what it takes", words->command->name, name);
    return 1;
}

/* The word behind an option, which may be given once. */
static const char *value_of(struct words *words, const char *before)
{
    const char *name = *words->at;
    if (before)
        fail("%s is given twice; expected it once", name);
    if (!words->at[1])
        fail("%s is the last word; expected a value behind it", name);
    return *++words->at;
}

static void set_kind(struct options *options, const char *name, uint32_t kind)
{
    if (options->kind_given)
        fail("%s: expected one of --fetch, --load and --store", name);
    options->kind_given = 1;
    options->kind = kind;
}

static void explain(struct words *words, struct options *options)
{
    const char *text = value_of(words, NULL);
    if (options->explained_count == MOST_EXPLAINED)
        fail("--explain %s: expected at most %d addresses", text, (int)MOST_EXPLAINED);
    options->explained[options->explained_count++] = hexadecimal("address", text, 0xFFFFFFFFu);
}

static void set_length(struct words *words, struct options *options)
{
    const char *text = value_of(words, options->length ? "given" : NULL);
    options->length = number_of("length", text, 10, MMU_LONGEST_OPERAND);
    if (!options->length)
        fail("length \"%s\": expected a decimal number from 1 to 128", text);
}

static void take_word(struct words *words, struct options *options)
{
    if (is_option(words, "--registers", REGISTERS))
        options->registers = value_of(words, options->registers);
    else if (is_option(words, "--table", TABLE))
        options->table = value_of(words, options->table);
    else if (is_option(words, "-o", OUTPUT))
        options->output = value_of(words, options->output);
    else if (is_option(words, "--json", JSON))
        options->json = 1;
    else if (is_option(words, "--user", ACCESS))
        options->user = 1;
    else if (is_option(words, "--real", ACCESS))
        options->real = 1;
    else if (is_option(words, "--fetch", ACCESS))
        set_kind(options, "--fetch", MMU_FETCH);
    else if (is_option(words, "--load", ACCESS))
        set_kind(options, "--load", MMU_LOAD);
    else if (is_option(words, "--store", ACCESS))
        set_kind(options, "--store", MMU_STORE);
    else if (is_option(words, "--length", LENGTH))
        set_length(words, options);
    else if (is_option(words, "--explain", OUTPUT))
        explain(words, options);
    else if (**words->at == '-' && (*words->at)[1])
        fail("%s is no option; mmu-dump --help has them", *words->at);
    else if (options->operand_count == words->command->operand_count)
        fail("\"%s\" is one word too many: %s takes %s", *words->at, words->command->name, words->command->operands);
    else
        options->operands[options->operand_count++] = *words->at;
}

static void want_all(const struct command *command, const struct options *options)
{
    if (options->operand_count < command->operand_count)
        fail("%s: expected %s", command->name, command->operands);
    if (command->needs & REGISTERS && !options->registers)
        fail("%s: expected --registers FILE", command->name);
    if (command->needs & TABLE && !options->table)
        fail("%s: expected --table FILE", command->name);
    if (command->needs & OUTPUT && !options->output)
        fail("%s: expected -o FILE", command->name);
}

static void show_and_end(const char *word)
{
    if (!strcmp(word, "--help")) {
        printf("%s%s", help, help_more);
        exit(STATUS_DONE);
    }
    if (!strcmp(word, "--version")) {
        printf("mmu-dump " PROGRAM_VERSION "\n");
        exit(STATUS_DONE);
    }
}

int main(int count, char **given)
{
    struct options options;
    struct words words;
    struct sink sink = {NULL, NULL, 0, 0};
    int status;
    memset(&options, 0, sizeof options);
    options.kind = MMU_LOAD;
    if (count < 2)
        fail("expected a command: check, pages, group, why, diff or html; mmu-dump --help has more");
    show_and_end(given[1]);
    words.command = command_named(given[1]);
    for (words.at = given + 2; *words.at; words.at++) {
        show_and_end(*words.at);
        take_word(&words, &options);
    }
    if (!options.length)
        options.length = 1;
    want_all(words.command, &options);
    sink.file = stdout;
    status = words.command->run(&options, &sink);
    if (fflush(stdout) || ferror(stdout))
        fail("standard output cannot be written");
    return status;
}
