/*
 * dump.h - what the files of mmu-dump share.
 *
 * The outcome of an access, a check or a look is always the library's. Fields, hash, groups and block ranges are
 * computed here for display; tests/dump holds them to the library's record and to the model.
 */
#ifndef DUMP_H
#define DUMP_H

#include "mmu.h"

#include <stdio.h>

#ifdef __GNUC__
#define PRINTS(at, values) __attribute__((format(printf, at, values)))
#define NO_RETURN __attribute__((noreturn))
#else
#define PRINTS(at, values)
#define NO_RETURN
#endif

/* The header's version: the program has no other. */
#define TEXT_OF(number) #number
#define VERSION_OF(major, minor) TEXT_OF(major) "." TEXT_OF(minor)
#define PROGRAM_VERSION VERSION_OF(MMU_VERSION_MAJOR, MMU_VERSION_MINOR)

enum { STATUS_DONE = 0, STATUS_SHOWN = 1, STATUS_BAD_USE = 2 };
enum { SEGMENTS = 16, MOST_PAIRS = 8, MOST_MATCHES = 16, MOST_EXPLAINED = 64, SHORT_NAME = 61, REGISTER_NAME = 8 };

/* ---- files.c: errors, files, output ------------------------------------------------------------ */

/* Says what is wrong and ends with STATUS_BAD_USE. */
NO_RETURN PRINTS(1, 2) void fail(const char *format, ...);

void *claim(void *old, size_t size);

/* Where text goes: a file, or bytes that grow. */
struct sink {
    FILE *file; /* NULL where the text is kept in bytes. */
    char *bytes;
    size_t length, room;
};

PRINTS(2, 3) void put(struct sink *sink, const char *format, ...);

struct registers {
    const char *name;
    uint8_t bytes[MMU_REGISTERS_SIZE_LONG];
    size_t length;
    uint32_t pairs; /* Block pairs a side. */
    uint32_t words;
};

struct table {
    const char *name;
    uint8_t *bytes;
    size_t length;
    uint32_t sdr1;   /* SDR1 of the register page, or one of that length where there is no page. */
    uint32_t groups; /* A power of 2. */
};

struct dump {
    struct registers registers;
    struct table table;
};

/* The end of a file's name, at most SHORT_NAME - 1 characters. */
const char *short_name(const char *name, char *room);

struct registers read_registers(const char *name);
struct table read_table(const char *name, uint32_t sdr1);
/* The table of a file whose length alone says how many groups it has. */
struct table read_lone_table(const char *name);
/* Register page, table or, with a comma between the names, both; what is not there has length 0. */
struct dump read_either(const char *names);

/* ---- json.c ------------------------------------------------------------------------------------ */

struct json {
    struct sink *sink;
    int filled; /* Whether the open object or list has a member already. */
};

/* A key is NULL inside a list. */
void json_open(struct json *json, const char *key, char bracket);
void json_close(struct json *json, char bracket);
void json_number(struct json *json, const char *key, uint64_t number);
void json_flag(struct json *json, const char *key, int flag);
void json_text(struct json *json, const char *key, const char *text);
void json_null(struct json *json, const char *key);

/* ---- words.c: numbers and fields in words ------------------------------------------------------------------ */

enum rights { NOTHING, READ, WRITE }; /* WRITE is reading and writing. */
enum side { INSTRUCTION, DATA };

/* Less than, equal to or greater than 0, for sorting. */
int order_of(uint32_t one, uint32_t other);

struct wimg_text {
    char text[5];
};

struct wimg_text wimg_text(uint32_t wimg);
const char *pp_text(uint32_t pp);
enum rights page_rights(uint32_t key, uint32_t pp);
enum rights block_rights(uint32_t pp);
const char *rights_word(enum rights rights);
const char *rights_sentence(enum rights rights);
const char *kind_name(uint32_t kind);
uint32_t register_word(const struct registers *registers, uint32_t number);
const char *register_name(const struct registers *registers, uint32_t number, char *room);

/* A count of bytes as "64 KB" or "4 GB". */
struct size_text {
    char text[24];
};

struct size_text size_text(uint64_t bytes);

/* ---- blocks.c: block pairs and broken rules ----------------------------------------------------- */

struct block {
    enum side side;
    uint32_t pair, number; /* Of its side; of the upper word among the registers. */
    uint32_t upper, lower;
    int on, shaped;   /* Vs or Vp is one; it breaks no rule of block words. */
    uint32_t start;   /* Effective start. */
    uint64_t length;  /* In bytes; right where it is shaped. */
    uint32_t physical;
    uint32_t wimg, pp;
};

struct broken {
    uint32_t refusal; /* The library's number for this rule. */
    uint32_t number;  /* The register word that breaks it. */
    uint32_t other;   /* The upper word of the other block, or MMU_REGISTER_NONE. */
    char what[72];
};

enum { MOST_BROKEN = 256 };

struct block block_of(const struct registers *registers, enum side side, uint32_t pair);
const char *block_users(const struct block *block);
uint32_t block_last(const struct block *block);
/* Every broken rule, in the order of the refusals. */
size_t broken_rules(const struct registers *registers, struct broken *list);
void put_broken(struct sink *sink, const struct registers *registers);

/* ---- groups.c: entries and groups --------------------------------------------------------------- */

struct entry {
    uint32_t group, number;
    uint32_t first, second;
    uint32_t v, vsid, h, api, rpn, r, c, wimg, pp; /* As the library unpacks them. */
    int reached;                                   /* Whether a page has this group by its hash and H. */
    uint32_t page_index;                           /* Of that page. */
};

struct entry entry_at(const struct table *table, uint32_t group, uint32_t number);
uint32_t hash_of(uint32_t vsid, uint32_t page_index);
uint32_t primary_group(const struct table *table, uint32_t vsid, uint32_t page_index);
uint32_t other_group(const struct table *table, uint32_t group);
uint32_t group_address(const struct table *table, uint32_t group);
/* The entries that match a page, in search order. */
uint32_t matches_of(const struct table *table, uint32_t vsid, uint32_t page_index, struct entry *matches);
/* A match of `marked` has a star at its number. */
void put_group(struct sink *sink, const struct table *table, uint32_t group, const struct entry *marked,
               uint32_t count);
void json_entry(struct json *json, const char *key, const struct entry *entry);
uint32_t used_entries(const struct table *table, uint32_t group);

/* ---- pages.c: the pages of a table -------------------------------------------------------------- */

enum state { SINGLE, FIRST, SAME, CONTRADICTED, CONTRADICTS, UNREACHED };

struct page {
    uint32_t group, number;             /* Where its entry stands. */
    uint32_t vsid, page_index;
    uint32_t order;                     /* Its place among the matches of its page, from 0. */
    uint32_t first_group, first_number; /* Where the first of them stands. */
    uint32_t segments;                  /* Bit s: segment register s has its VSID. */
    enum state state;
};

struct page_list {
    struct page *pages;
    size_t count;
};

/* One for each entry with V = 1, by effective address, then those that no segment and those that no page reaches. */
struct page_list list_pages(const struct registers *registers, const struct table *table);
void json_pages(struct json *json, const struct dump *dump, const struct page_list *list, size_t most);

/* ---- steps.c: the steps of an access, for display ------------------------------------------------ */

struct access {
    uint32_t mode, kind, address, length;
};

enum cover { OFF, OTHER_STATE, ELSEWHERE, COVERS };

struct steps {
    struct access part;
    struct mmu_answer answer; /* The library's, of this part alone. */
    enum cover covers[MOST_PAIRS];
    uint32_t segment, vsid, page_index, hash, primary, secondary;
    struct entry matches[MOST_MATCHES];
    uint32_t match_count;
    uint32_t key;
    uint32_t rule, detail, group, entry; /* As the record should have them. */
    int contradicts;
};

/* The library's answer on a copy of the table, and the copy, which the caller frees. */
struct mmu_answer ask(const struct dump *dump, const struct access *access, uint8_t **copy);
uint32_t parts_of(const struct access *access, struct access *parts);
struct steps steps_of(const struct dump *dump, const struct access *part);

/* ---- why.c, html.c and the commands -------------------------------------------------------------- */

struct options {
    const char *registers, *table, *output;
    const char *operands[2];
    int operand_count;
    int json, user, real, kind_given;
    uint32_t kind, length;
    uint32_t explained[MOST_EXPLAINED];
    int explained_count;
};

uint32_t hexadecimal(const char *what, const char *text, uint32_t most);

/* Registers and table; 0 where the library refuses SDR1, which is then shown with what is wrong. */
int open_dump(const struct options *options, struct sink *sink, struct dump *dump);
void json_why(struct json *json, const char *key, const struct dump *dump, const struct access *access);
void put_why(struct sink *sink, const struct dump *dump, const struct access *access);
void json_registers(struct json *json, const char *key, const struct registers *registers);

int command_check(const struct options *options, struct sink *sink);
int command_pages(const struct options *options, struct sink *sink);
int command_group(const struct options *options, struct sink *sink);
int command_why(const struct options *options, struct sink *sink);
int command_diff(const struct options *options, struct sink *sink);
int command_html(const struct options *options, struct sink *sink);

#endif
