/* mmu-dump check: every register word in words, and each broken rule. */
#include "dump.h"

#include <stdlib.h>
#include <string.h>

/* ---- One word ------------------------------------------------------------------------------------ */

static void put_sdr1(struct sink *sink, uint32_t sdr1)
{
    uint32_t mask = sdr1 & MMU_SDR1_MASK, origin = sdr1 & MMU_SDR1_ORIGIN;
    size_t bytes = MMU_TABLE_SIZE(sdr1);
    put(sink, "origin %04X, mask %03X", (unsigned)(origin >> 16), (unsigned)mask);
    if ((mask & (mask + 1)) == 0 && !(origin >> 16 & mask))
        put(sink, ": table at %08X-%08X, %s, %lu groups", (unsigned)origin, (unsigned)(origin + (uint32_t)(bytes - 1)),
            size_text(bytes).text, (unsigned long)(bytes / MMU_GROUP_SIZE));
}

static void put_segment(struct sink *sink, uint32_t word)
{
    put(sink, "VSID %06X, Ks %d, Kp %d, N %d%s", (unsigned)(word & MMU_SEGMENT_VSID), (word & MMU_SEGMENT_KS) != 0,
        (word & MMU_SEGMENT_KP) != 0, (word & MMU_SEGMENT_N) != 0, word & MMU_SEGMENT_T ? ", T 1" : "");
}

static void put_upper(struct sink *sink, const struct block *block)
{
    if (!block->on)
        put(sink, "off");
    else if (!block->shaped)
        put(sink, "on for %s, but the pair breaks a rule", block_users(block));
    else
        put(sink, "%08X-%08X, %s, for %s", (unsigned)block->start, (unsigned)block_last(block),
            size_text(block->length).text, block_users(block));
}

static void put_lower(struct sink *sink, const struct block *block)
{
    if (block->on && block->shaped)
        put(sink, "physical %08X-%08X, ", (unsigned)block->physical,
            (unsigned)(block->physical + (uint32_t)(block->length - 1)));
    if (block->on)
        put(sink, "WIMG %s, PP %s: %s", wimg_text(block->wimg).text, pp_text(block->pp),
            rights_sentence(block_rights(block->pp)));
    else
        put(sink, "off");
}

static struct block block_of_number(const struct registers *registers, uint32_t number)
{
    uint32_t index = (number - MMU_REGISTER_INSTRUCTION_UPPER(0)) / 2;
    return block_of(registers, index < registers->pairs ? INSTRUCTION : DATA, index % registers->pairs);
}

static void put_word_line(struct sink *sink, const struct registers *registers, uint32_t number)
{
    uint32_t word = register_word(registers, number);
    char room[REGISTER_NAME];
    put(sink, "%4u %4u %-6s %08X  ", (unsigned)number, (unsigned)MMU_REGISTER_OFFSET(number),
        register_name(registers, number, room), (unsigned)word);
    if (number == MMU_REGISTER_SDR1) {
        put_sdr1(sink, word);
    } else if (number < MMU_REGISTER_INSTRUCTION_UPPER(0)) {
        put_segment(sink, word);
    } else {
        struct block block = block_of_number(registers, number);
        if (number == block.number)
            put_upper(sink, &block);
        else
            put_lower(sink, &block);
    }
    put(sink, "\n");
}

/* ---- JSON ---------------------------------------------------------------------------------------- */

static void json_block(struct json *json, const struct block *block)
{
    json_open(json, NULL, '{');
    json_text(json, "side", block->side == INSTRUCTION ? "instruction" : "data");
    json_number(json, "pair", block->pair);
    json_number(json, "word", block->number);
    json_flag(json, "on", block->on);
    if (block->on) {
        json_flag(json, "shaped", block->shaped);
        json_flag(json, "supervisor", (block->upper & MMU_BLOCK_VS) != 0);
        json_flag(json, "user", (block->upper & MMU_BLOCK_VP) != 0);
        json_number(json, "wimg", block->wimg);
        json_number(json, "pp", block->pp);
        json_text(json, "rights", rights_word(block_rights(block->pp)));
    }
    if (block->on && block->shaped) {
        json_number(json, "start", block->start);
        json_number(json, "length", block->length);
        json_number(json, "physical", block->physical);
    }
    json_close(json, '}');
}

static void json_segment(struct json *json, uint32_t word)
{
    json_open(json, NULL, '{');
    json_number(json, "vsid", word & MMU_SEGMENT_VSID);
    json_number(json, "ks", (word & MMU_SEGMENT_KS) != 0);
    json_number(json, "kp", (word & MMU_SEGMENT_KP) != 0);
    json_number(json, "n", (word & MMU_SEGMENT_N) != 0);
    json_close(json, '}');
}

static void json_broken(struct json *json, const struct registers *registers)
{
    static struct broken list[MOST_BROKEN];
    size_t count = broken_rules(registers, list), i;
    char room[REGISTER_NAME];
    json_open(json, "broken", '[');
    for (i = 0; i < count; i++) {
        json_open(json, NULL, '{');
        json_number(json, "refusal", list[i].refusal);
        json_number(json, "word", list[i].number);
        json_text(json, "name", register_name(registers, list[i].number, room));
        if (list[i].other != MMU_REGISTER_NONE)
            json_number(json, "other", list[i].other);
        json_text(json, "what", list[i].what);
        json_close(json, '}');
    }
    json_close(json, ']');
}

void json_registers(struct json *json, const char *key, const struct registers *registers)
{
    uint32_t n, side, result = mmu_check(registers->bytes, registers->length);
    json_open(json, key, '{');
    json_text(json, "file", registers->name);
    json_number(json, "bytes", registers->length);
    json_open(json, "words", '[');
    for (n = 0; n < registers->words; n++)
        json_number(json, NULL, register_word(registers, n));
    json_close(json, ']');
    json_open(json, "segments", '[');
    for (n = 0; n < SEGMENTS; n++)
        json_segment(json, register_word(registers, MMU_REGISTER_SEGMENT(n)));
    json_close(json, ']');
    json_open(json, "blocks", '[');
    for (side = INSTRUCTION; side <= DATA; side++)
        for (n = 0; n < registers->pairs; n++) {
            struct block block = block_of(registers, (enum side)side, n);
            json_block(json, &block);
        }
    json_close(json, ']');
    json_number(json, "result", result);
    json_text(json, "result_name", mmu_result_name(result));
    json_broken(json, registers);
    json_close(json, '}');
}

/* ---- The command --------------------------------------------------------------------------------- */

static uint32_t count_used(const struct table *table)
{
    uint32_t group, count = 0;
    for (group = 0; group < table->groups; group++)
        count += used_entries(table, group);
    return count;
}

static void put_check(struct sink *sink, const struct dump *dump, uint32_t result)
{
    char room[SHORT_NAME];
    uint32_t number;
    put(sink, "registers: %s\n%lu bytes, %u block pairs a side of up to %s\n\n", short_name(dump->registers.name, room),
        (unsigned long)dump->registers.length, (unsigned)dump->registers.pairs,
        dump->registers.pairs == 8 ? "4 GB" : "256 MB");
    put(sink, "word byte name   value     meaning\n");
    for (number = 0; number < dump->registers.words; number++)
        put_word_line(sink, &dump->registers, number);
    if (dump->table.length)
        put(sink, "\ntable: %s\n%lu bytes, %lu groups, %lu of %lu entries with V = 1\n",
            short_name(dump->table.name, room), (unsigned long)dump->table.length, (unsigned long)dump->table.groups,
            (unsigned long)count_used(&dump->table), (unsigned long)dump->table.groups * MMU_GROUP_ENTRIES);
    else if (dump->table.name)
        put(sink, "\ntable: %s\nnot read, since SDR1 breaks a rule\n", short_name(dump->table.name, room));
    put(sink, "\nmmu_check: %u, %s\n", (unsigned)result, mmu_result_name(result));
    put_broken(sink, &dump->registers);
}

static void json_check(struct sink *sink, const struct dump *dump)
{
    struct json json = {sink, 0};
    json_open(&json, NULL, '{');
    json_registers(&json, "registers", &dump->registers);
    if (dump->table.length) {
        json_open(&json, "table", '{');
        json_text(&json, "file", dump->table.name);
        json_number(&json, "bytes", dump->table.length);
        json_number(&json, "groups", dump->table.groups);
        json_number(&json, "used", count_used(&dump->table));
        json_close(&json, '}');
    }
    json_close(&json, '}');
}

/* The library's judgement of SDR1 alone: with no table lent, a right SDR1 is refused for the table's length. */
static uint32_t sdr1_result(const struct registers *registers)
{
    uint8_t answer[MMU_ANSWER_SIZE];
    uint32_t result = mmu_look(register_word(registers, MMU_REGISTER_SDR1), 0, 0, NULL, 0, answer, sizeof answer);
    return result == MMU_REFUSED_TABLE_LENGTH ? MMU_DONE : result;
}

static struct dump read_dump(const struct options *options)
{
    struct dump dump;
    memset(&dump, 0, sizeof dump);
    dump.registers = read_registers(options->registers);
    dump.table.name = options->table;
    if (options->table && sdr1_result(&dump.registers) == MMU_DONE)
        dump.table = read_table(options->table, register_word(&dump.registers, MMU_REGISTER_SDR1));
    return dump;
}

int open_dump(const struct options *options, struct sink *sink, struct dump *dump)
{
    struct json json = {sink, 0};
    *dump = read_dump(options);
    if (dump->table.length)
        return 1;
    if (options->json) {
        json_open(&json, NULL, '{');
        json_registers(&json, "registers", &dump->registers);
        json_number(&json, "result", MMU_REFUSED_SDR1);
        json_text(&json, "result_name", mmu_result_name(MMU_REFUSED_SDR1));
        json_close(&json, '}');
    } else {
        put(sink, "%s: the table cannot be read\n", mmu_result_name(MMU_REFUSED_SDR1));
        put_broken(sink, &dump->registers);
    }
    return 0;
}

int command_check(const struct options *options, struct sink *sink)
{
    struct dump dump = read_dump(options);
    uint32_t result = mmu_check(dump.registers.bytes, dump.registers.length);
    if (options->json)
        json_check(sink, &dump);
    else
        put_check(sink, &dump, result);
    free(dump.table.bytes);
    return result == MMU_DONE ? STATUS_DONE : STATUS_SHOWN;
}
