/* mmu-dump why: the steps of one access in words, and the library's answer. */
#include "dump.h"

#include <stdlib.h>
#include <string.h>

#define GAP "                 " /* As wide as a step's number and name. */

/* ---- The steps ----------------------------------------------------------------------------------- */

static const char *user_name(const struct access *access)
{
    return access->mode & MMU_MODE_PR ? "user" : "supervisor";
}

static int is_real(const struct access *access)
{
    return !(access->mode & (access->kind == MMU_FETCH ? MMU_MODE_IR : MMU_MODE_DR));
}

static void put_real(struct sink *sink, const struct steps *steps)
{
    const char *bit = steps->part.kind == MMU_FETCH ? "IR" : "DR";
    if (is_real(&steps->part))
        put(sink, "  1 Real mode    %s is off: the physical address is the effective one, without protection.\n", bit);
    else
        put(sink, "  1 Real mode    %s is on: the address is translated.\n", bit);
}

static void put_block(struct sink *sink, const struct steps *steps, const struct block *block, const char *name)
{
    static const char *const ends[] = {"", "is not valid for the ", "does not cover ", "covers "};
    enum cover cover = steps->covers[block->pair];
    put(sink, "%s %08X-%08X (%s) %s", name, (unsigned)block->start, (unsigned)block_last(block), block_users(block),
        ends[cover]);
    if (cover == OTHER_STATE)
        put(sink, "%s.\n", user_name(&steps->part));
    else
        put(sink, "%08X.\n", (unsigned)steps->part.address);
    if (cover == COVERS)
        put(sink, GAP "Its PP %s allows %s; physical start %08X, WIMG %s.\n", pp_text(block->pp),
            rights_sentence(block_rights(block->pp)), (unsigned)block->physical, wimg_text(block->wimg).text);
}

static void put_blocks(struct sink *sink, const struct dump *dump, const struct steps *steps)
{
    enum side side = steps->part.kind == MMU_FETCH ? INSTRUCTION : DATA;
    uint32_t pair, off = 0;
    const char *begin = "  2 Block        ";
    char name[REGISTER_NAME];
    for (pair = 0; pair < dump->registers.pairs; pair++) {
        struct block block = block_of(&dump->registers, side, pair);
        if (steps->covers[pair] == OFF) {
            off++;
            continue;
        }
        sprintf(name, "%cBAT%u", side == INSTRUCTION ? 'I' : 'D', (unsigned)pair & 7u);
        put(sink, "%s", begin);
        put_block(sink, steps, &block, name);
        begin = GAP;
    }
    if (off)
        put(sink, "%s%u of %u %cBAT pairs are off.\n", begin, (unsigned)off, (unsigned)dump->registers.pairs,
            side == INSTRUCTION ? 'I' : 'D');
}

static void put_segment(struct sink *sink, const struct steps *steps)
{
    put(sink, "  3 Segment      SR%u %08X, by the first digit: VSID %06X, Ks %d, Kp %d, N %d.\n",
        (unsigned)(steps->part.address >> 28), (unsigned)steps->segment, (unsigned)steps->vsid,
        (steps->segment & MMU_SEGMENT_KS) != 0, (steps->segment & MMU_SEGMENT_KP) != 0,
        (steps->segment & MMU_SEGMENT_N) != 0);
    if (steps->rule == MMU_RULE_NO_EXECUTE)
        put(sink, GAP "N is one: nothing may be fetched from this segment.\n");
}

static void put_matches(struct sink *sink, const struct steps *steps)
{
    uint32_t i;
    for (i = 0; i < steps->match_count; i++) {
        const struct entry *match = &steps->matches[i];
        put(sink, GAP "Match: entry %u of the %s group %05X, %08X %08X: frame %05X.\n", (unsigned)match->number,
            match->h ? "secondary" : "primary", (unsigned)match->group, (unsigned)match->first, (unsigned)match->second,
            (unsigned)match->rpn);
    }
    if (!steps->match_count)
        put(sink, GAP "No entry of the two groups matches.\n");
    else if (steps->contradicts)
        put(sink, GAP "They contradict: frame, WIMG or PP differs.\n");
    else if (steps->match_count > 1)
        put(sink, GAP "They agree in frame, WIMG and PP; the first is used.\n");
}

static void put_search(struct sink *sink, const struct dump *dump, const struct steps *steps)
{
    put(sink, "  4 Search       Page index %04X. Hash: VSID's low 19 bits %05X xor page index = %05X.\n",
        (unsigned)steps->page_index, (unsigned)(steps->vsid & 0x7FFFFu), (unsigned)steps->hash);
    put(sink, GAP "Primary group %05X at %08X, secondary %05X at %08X.\n", (unsigned)steps->primary,
        (unsigned)group_address(&dump->table, steps->primary), (unsigned)steps->secondary,
        (unsigned)group_address(&dump->table, steps->secondary));
    put(sink, GAP "Wanted: V 1, VSID %06X, API %02X, and H 0 in the primary, H 1 in the secondary.\n\n",
        (unsigned)steps->vsid, (unsigned)(steps->page_index >> 10));
    put_group(sink, &dump->table, steps->primary, steps->matches, steps->match_count);
    put(sink, "\n");
    put_group(sink, &dump->table, steps->secondary, steps->matches, steps->match_count);
    put(sink, "\n");
    put_matches(sink, steps);
}

static void put_after_match(struct sink *sink, const struct steps *steps)
{
    const struct entry *match = &steps->matches[0];
    if (steps->part.kind == MMU_FETCH)
        put(sink, "  5 Guarded      WIMG %s: %s.\n", wimg_text(match->wimg).text,
            match->wimg & MMU_ATTRIBUTE_G ? "G is one, so nothing may be fetched from this page" : "G is zero");
    else
        put(sink, "  5 Guarded      Asked of a fetch alone.\n");
    if (steps->rule == MMU_RULE_GUARDED)
        return;
    put(sink, "  6 Protection   %s is %u, the %s's key: PP %s allows %s. Asked: %s.\n",
        steps->part.mode & MMU_MODE_PR ? "Kp" : "Ks", (unsigned)steps->key, user_name(&steps->part),
        pp_text(match->pp), rights_sentence(page_rights(steps->key, match->pp)), kind_name(steps->part.kind));
    if (steps->rule == MMU_RULE_DONE)
        put(sink, "  7 Done         Frame %05X with the address's low 12 bits %03X.\n", (unsigned)match->rpn,
            (unsigned)(steps->part.address & 0xFFFu));
}

static void put_steps(struct sink *sink, const struct dump *dump, const struct steps *steps)
{
    put_real(sink, steps);
    if (is_real(&steps->part))
        return;
    put_blocks(sink, dump, steps);
    if (steps->rule == MMU_RULE_BLOCK)
        return;
    put_segment(sink, steps);
    if (steps->rule == MMU_RULE_NO_EXECUTE)
        return;
    put_search(sink, dump, steps);
    if (steps->match_count && !steps->contradicts)
        put_after_match(sink, steps);
}

/* ---- The answer ---------------------------------------------------------------------------------- */

static void put_record(struct sink *sink, const struct mmu_answer *answer, uint32_t kind)
{
    put(sink, "  rule     %u, %s", (unsigned)answer->rule, mmu_rule_name(answer->rule));
    if (answer->rule == MMU_RULE_BLOCK)
        put(sink, ": %cBAT%u", kind == MMU_FETCH ? 'I' : 'D', (unsigned)answer->detail);
    if (answer->rule >= MMU_RULE_GUARDED)
        put(sink, ": entry %u of group %05X", (unsigned)answer->entry, (unsigned)answer->group);
    if (answer->rule >= MMU_RULE_PROTECTION)
        put(sink, ", key %u, PP %s", (unsigned)mmu_detail_key(answer->detail), pp_text(mmu_detail_pp(answer->detail)));
    put(sink, "\n");
}

static void put_done(struct sink *sink, const struct mmu_answer *answer)
{
    put(sink, "  physical %08X, %u byte%s, WIMG %s\n", (unsigned)answer->physical, (unsigned)answer->bytes,
        answer->bytes == 1 ? "" : "s", wimg_text(answer->attributes).text);
    if (answer->second_bytes)
        put(sink, "  physical %08X, %u byte%s behind the page edge, WIMG %s\n", (unsigned)answer->second_physical,
            (unsigned)answer->second_bytes, answer->second_bytes == 1 ? "" : "s",
            wimg_text(answer->second_attributes).text);
}

static void put_fault(struct sink *sink, const struct mmu_answer *answer)
{
    int data = answer->result == MMU_DATA_STORAGE_FAULT;
    put(sink, "  %s    %08X: %08X, %s%s\n", data ? "DSISR" : "SRR1 ", (unsigned)answer->fault,
        (unsigned)(answer->fault & ~MMU_FAULT_STORE), mmu_cause_name(answer->fault),
        answer->fault & MMU_FAULT_STORE ? "; 02000000, a store" : "");
    if (!data)
        put(sink, "           beside the MSR's bits\n");
    put(sink, "  %s %08X\n  vector   %05X\n", data ? "DAR     " : "SRR0    ", (unsigned)answer->effective,
        (unsigned)answer->offset);
}

static void put_marks(struct sink *sink, const struct dump *dump, const uint8_t *copy)
{
    size_t at;
    for (at = 0; at < dump->table.length; at += 4)
        if (memcmp(dump->table.bytes + at, copy + at, 4))
            put(sink, "  marks    entry %lu of group %05lX: second word %08X becomes %08X (not in the dump)\n",
                (unsigned long)(at % MMU_GROUP_SIZE / MMU_ENTRY_SIZE), (unsigned long)(at / MMU_GROUP_SIZE),
                (unsigned)mmu_get_word(dump->table.bytes, at), (unsigned)mmu_get_word(copy, at));
}

static void put_answer(struct sink *sink, const struct dump *dump, const struct access *access)
{
    uint8_t *copy;
    struct mmu_answer answer = ask(dump, access, &copy);
    int data = answer.result == MMU_DATA_STORAGE_FAULT, fetch = answer.result == MMU_INSTRUCTION_STORAGE_FAULT;
    put(sink, "Answer: %u, %s%s\n", (unsigned)answer.result, mmu_result_name(answer.result),
        data ? " (DSI)" : fetch ? " (ISI)" : "");
    if (answer.result == MMU_DONE)
        put_done(sink, &answer);
    else if (data || fetch)
        put_fault(sink, &answer);
    if (answer.result == MMU_DONE || data || fetch)
        put_record(sink, &answer, access->kind);
    put_marks(sink, dump, copy);
    free(copy);
}

/* ---- Text ---------------------------------------------------------------------------------------- */

static int registers_fit(const struct dump *dump)
{
    return mmu_check(dump->registers.bytes, dump->registers.length) == MMU_DONE;
}

void put_why(struct sink *sink, const struct dump *dump, const struct access *access)
{
    struct access parts[2];
    uint32_t i, count = parts_of(access, parts);
    put(sink, "A %s of %u byte%s at %08X by the %s%s\n", kind_name(access->kind), (unsigned)access->length,
        access->length == 1 ? "" : "s", (unsigned)access->address, user_name(access),
        is_real(access) ? ", in real mode" : "");
    for (i = 0; registers_fit(dump) && i < count; i++) {
        struct steps steps = steps_of(dump, &parts[i]);
        if (count == 2)
            put(sink, "Part %u of 2: %u byte%s at %08X\n", (unsigned)i + 1, (unsigned)parts[i].length,
                parts[i].length == 1 ? "" : "s", (unsigned)parts[i].address);
        put_steps(sink, dump, &steps);
        if (steps.answer.result != MMU_DONE)
            break;
    }
    put_answer(sink, dump, access);
    if (!registers_fit(dump))
        put_broken(sink, &dump->registers);
}

/* ---- JSON ---------------------------------------------------------------------------------------- */

static void json_search(struct json *json, const struct dump *dump, const struct steps *steps)
{
    uint32_t i;
    json_number(json, "page_index", steps->page_index);
    json_number(json, "hash", steps->hash);
    json_number(json, "primary", steps->primary);
    json_number(json, "primary_address", group_address(&dump->table, steps->primary));
    json_number(json, "secondary", steps->secondary);
    json_number(json, "secondary_address", group_address(&dump->table, steps->secondary));
    json_open(json, "matches", '[');
    for (i = 0; i < steps->match_count; i++)
        json_entry(json, NULL, &steps->matches[i]);
    json_close(json, ']');
    json_flag(json, "contradicts", steps->contradicts);
    json_number(json, "key", steps->key);
}

static void json_part(struct json *json, const struct dump *dump, const struct steps *steps)
{
    static const char *const covers[] = {"off", "other state", "elsewhere", "covers"};
    uint32_t pair;
    json_open(json, NULL, '{');
    json_number(json, "address", steps->part.address);
    json_number(json, "length", steps->part.length);
    json_number(json, "result", steps->answer.result);
    json_number(json, "rule", steps->answer.rule);
    json_number(json, "detail", steps->answer.detail);
    json_number(json, "group", steps->answer.group);
    json_number(json, "entry", steps->answer.entry);
    if (!is_real(&steps->part)) {
        json_open(json, "blocks", '[');
        for (pair = 0; pair < dump->registers.pairs; pair++)
            json_text(json, NULL, covers[steps->covers[pair]]);
        json_close(json, ']');
    }
    if (!is_real(&steps->part) && steps->rule != MMU_RULE_BLOCK) {
        json_number(json, "segment", steps->segment);
        json_number(json, "vsid", steps->vsid);
        if (steps->rule != MMU_RULE_NO_EXECUTE)
            json_search(json, dump, steps);
    }
    json_close(json, '}');
}

static void json_answer(struct json *json, const struct dump *dump, const struct access *access)
{
    uint8_t *copy;
    struct mmu_answer answer = ask(dump, access, &copy);
    const uint32_t words[] = {answer.physical, answer.attributes, answer.fault, answer.offset, answer.effective,
                              answer.bytes, answer.second_physical, answer.second_attributes, answer.second_bytes,
                              answer.rule, answer.detail, answer.group, answer.entry};
    static const char *const names[] = {"physical", "attributes", "fault", "offset", "effective", "bytes",
                                        "second_physical", "second_attributes", "second_bytes", "rule", "detail",
                                        "group", "entry"};
    size_t i;
    json_number(json, "result", answer.result);
    json_text(json, "result_name", mmu_result_name(answer.result));
    for (i = 0; i < sizeof words / sizeof words[0]; i++)
        json_number(json, names[i], words[i]);
    json_open(json, "marks", '[');
    for (i = 0; i < dump->table.length; i += 4)
        if (memcmp(dump->table.bytes + i, copy + i, 4)) {
            json_open(json, NULL, '{');
            json_number(json, "group", i / MMU_GROUP_SIZE);
            json_number(json, "entry", i % MMU_GROUP_SIZE / MMU_ENTRY_SIZE);
            json_number(json, "before", mmu_get_word(dump->table.bytes, i));
            json_number(json, "after", mmu_get_word(copy, i));
            json_close(json, '}');
        }
    json_close(json, ']');
    free(copy);
}

void json_why(struct json *json, const char *key, const struct dump *dump, const struct access *access)
{
    struct access parts[2];
    uint32_t i, count = parts_of(access, parts);
    json_open(json, key, '{');
    json_number(json, "address", access->address);
    json_number(json, "length", access->length);
    json_text(json, "kind", kind_name(access->kind));
    json_flag(json, "user", (access->mode & MMU_MODE_PR) != 0);
    json_flag(json, "real", is_real(access));
    json_answer(json, dump, access);
    json_open(json, "parts", '[');
    for (i = 0; registers_fit(dump) && i < count; i++) {
        struct steps steps = steps_of(dump, &parts[i]);
        json_part(json, dump, &steps);
        if (steps.answer.result != MMU_DONE)
            break;
    }
    json_close(json, ']');
    json_close(json, '}');
}

/* ---- The command --------------------------------------------------------------------------------- */

int command_why(const struct options *options, struct sink *sink)
{
    struct json json = {sink, 0};
    struct dump dump;
    struct access access;
    struct mmu_answer answer;
    uint8_t *copy;
    access.address = hexadecimal("address", options->operands[0], 0xFFFFFFFFu);
    access.mode = (options->user ? MMU_MODE_PR : 0) | (options->real ? 0 : MMU_MODE_IR | MMU_MODE_DR);
    access.kind = options->kind;
    access.length = options->length;
    if (!open_dump(options, sink, &dump))
        return STATUS_SHOWN;
    answer = ask(&dump, &access, &copy);
    free(copy);
    if (options->json)
        json_why(&json, NULL, &dump, &access);
    else
        put_why(sink, &dump, &access);
    free(dump.table.bytes);
    return answer.result == MMU_DONE ? STATUS_DONE : STATUS_SHOWN;
}
