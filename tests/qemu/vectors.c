/* Recorded accesses, tests/vectors/README.md, asked of the glue. */
#include "place.h"

static const int right_of[] = { PAGE_EXEC, PAGE_READ, PAGE_WRITE };

struct vector {
    char registers[2 * MMU_REGISTERS_SIZE_SHORT + 1];
    uint8_t page[MMU_REGISTERS_SIZE_SHORT];
    uint32_t mode, kind, address, result, word, offset, effective;
    size_t n, offsets[ENTRIES];
    uint32_t before[ENTRIES], after[ENTRIES];
};

static bool read_vector(FILE *file, struct vector *v)
{
    unsigned id, group, entry;
    uint32_t first;
    size_t i;
    if (fscanf(file, "%u %264s %u %u %x %zu", &id, v->registers, &v->mode, &v->kind, &v->address, &v->n) != 6)
        return false;
    expect(v->n <= ENTRIES, "a vector has no more entries than there is room for");
    for (i = 0; i < 33; i++) {
        uint32_t word = 0;
        expect(sscanf(v->registers + 8 * i, "%8x", &word) == 1, "a register word");
        mmu_put_word(v->page, 4 * i, word);
        if (i == 0)
            clear(word);
        else if (i < 17)
            env->sr[i - 1] = word;
        else
            (i < 25 ? env->IBAT : env->DBAT)[(i - 17) % 2][(i - 17) / 2 % 4] = word;
    }
    for (i = 0; i < v->n; i++) {
        expect(fscanf(file, "%u %u %x %x", &group, &entry, &first, &v->before[i]) == 4, "an entry");
        v->offsets[i] = MMU_ENTRY_OFFSET(group, entry) + MMU_ENTRY_SECOND;
        mmu_put_word(table, v->offsets[i] - 4, first);
        mmu_put_word(table, v->offsets[i], v->before[i]);
    }
    expect(fscanf(file, "%u %x %x %x", &v->result, &v->word, &v->offset, &v->effective) == 4, "the answer");
    for (i = 0; i < v->n; i++)
        expect(fscanf(file, "%x", &v->after[i]) == 1, "an entry after the access");
    return true;
}

static void put_seconds(const struct vector *v, const uint32_t *words)
{
    size_t i;
    for (i = 0; i < v->n; i++)
        mmu_put_word(table, v->offsets[i], words[i]);
}

/* The rights after an access: the kinds that are done in the same frame and then leave every entry as it is. */
static int rights_by_accesses(const struct vector *v)
{
    uint8_t first[MMU_ACCESS_ANSWER_SIZE], answer[MMU_ACCESS_ANSWER_SIZE];
    size_t i, size = MMU_TABLE_SIZE(env->spr[SPR_SDR1]), page = sizeof v->page;
    /* One of QEMU's TLBs serves fetches and data. */
    uint32_t translated = v->mode & (v->kind == MMU_FETCH ? MMU_MODE_IR : MMU_MODE_DR);
    uint32_t kind, mode = (v->mode & MMU_MODE_PR) | (translated ? MMU_MODE_IR | MMU_MODE_DR : 0);
    int found = 0;
    mmu_access(v->page, page, mode, v->kind, v->address, 1, table, size, first, sizeof first);
    for (kind = 0; kind < 3; kind++) {
        bool same = mmu_access(v->page, page, mode, kind, v->address, 1, table, size, answer, sizeof answer) == MMU_DONE
            && mmu_get_word(answer, MMU_ANSWER_PHYSICAL) == mmu_get_word(first, MMU_ANSWER_PHYSICAL);
        for (i = 0; i < v->n; i++)
            same = same && mmu_get_word(table, v->offsets[i]) == v->after[i];
        found |= same ? right_of[kind] : 0;
        put_seconds(v, v->after);
    }
    put_seconds(v, v->before);
    return found;
}

/* QEMU's place answers as recorded; which rights it kept was not, so they come from accesses. */
static void own_as_recorded(const struct vector *v)
{
    own.rights = rights_by_accesses(v);
    own.done = v->result == MMU_DONE;
    own.physical = v->word & ~(MMU_PAGE_SIZE - 1);
    own.fault = v->word;
    own.effective = v->effective;
    own.n = v->n;
    memcpy(own.offsets, v->offsets, sizeof own.offsets);
    memcpy(own.words, v->after, sizeof own.words);
}

static void check_vector(const struct vector *v)
{
    size_t i, changed = 0;
    bool done = ask(v->kind, v->mode, v->address, true);
    expect(done == (v->result == MMU_DONE), "done as recorded");
    if (done) {
        expect(physical == v->word, "physical address as recorded");
        expect((rights & right_of[v->kind]) != 0, "the right that was asked for");
        expect(rights == own.rights, "the rights that accesses have");
    } else if (v->result == MMU_INSTRUCTION_STORAGE_FAULT) {
        expect(cpu.state.exception_index == POWERPC_EXCP_ISI && env->error_code == (int)v->word, "ISI as recorded");
        expect(env->spr[SPR_DAR] == 0xEEEEEEEEu, "an ISI leaves DAR");
    } else {
        expect(cpu.state.exception_index == POWERPC_EXCP_DSI && env->spr[SPR_DSISR] == v->word, "DSISR as recorded");
        expect(env->spr[SPR_DAR] == v->effective, "DAR as recorded");
    }
    for (i = 0; i < v->n; i++) {
        expect(mmu_get_word(table, v->offsets[i]) == v->after[i], "marks as recorded");
        if (v->before[i] == v->after[i])
            continue;
        changed++;
        expect(dirty_address == (env->spr[SPR_SDR1] & MMU_SDR1_ORIGIN) + v->offsets[i] - 4, "the dirty entry");
        expect(dirty_length == MMU_ENTRY_SIZE, "the dirty entry's length");
    }
    expect(dirty_calls == changed, "the dirty log is told of each entry that changed, and of no other");
}

unsigned check_vectors(const char *name, bool both)
{
    FILE *file = fopen(name, "r");
    struct vector v;
    unsigned count = 0;
    expect(file != NULL, "the file of vectors");
    while (read_vector(file, &v)) {
        own_as_recorded(&v);
        check_vector(&v);
        expect(own_calls == (both ? 1u : 0u), "QEMU's translation is asked to compare alone");
        count++;
    }
    fclose(file);
    return count;
}
