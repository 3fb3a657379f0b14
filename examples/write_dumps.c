/*
 * Writes the register page and the table of a small system into two files, as a program does that wants them looked at
 * with mmu-dump. docs/DUMPS.md goes on from these files: text of the print program comes out wrong, since a frame was
 * given to a second page while the first was still mapped.
 *
 *   write_dumps BEFORE AFTER     writes BEFORE.registers, BEFORE.table, AFTER.registers and AFTER.table
 */
#include "mmu.h"

#include <stdio.h>
#include <stdlib.h>

#define SDR1 0x0F980000u
#define SPACE 0x0C701Cu        /* VSID of segment 0, the print program's own. */
#define SHARED_SPACE 0x0C741Cu /* VSID of segment 1, which the user may read where PP lets him. */

static uint8_t registers[MMU_REGISTERS_SIZE_SHORT];
static uint8_t table[MMU_TABLE_SIZE(SDR1)];

static void want(uint32_t result, const char *what)
{
    if (result != MMU_DONE) {
        fprintf(stderr, "write_dumps: %s: %s\n", what, mmu_result_name(result));
        exit(EXIT_FAILURE);
    }
}

static void write_file(const char *stem, const char *end, const uint8_t *bytes, size_t length)
{
    char name[512];
    FILE *file;
    snprintf(name, sizeof name, "%s.%s", stem, end);
    file = fopen(name, "wb");
    if (!file || fwrite(bytes, 1, length, file) != length || fclose(file)) {
        fprintf(stderr, "write_dumps: %s cannot be written\n", name);
        exit(EXIT_FAILURE);
    }
}

static void write_dump(const char *stem)
{
    write_file(stem, "registers", registers, sizeof registers);
    write_file(stem, "table", table, sizeof table);
}

static void set(uint32_t number, uint32_t word)
{
    want(mmu_set_register(registers, sizeof registers, number, word), "a register");
}

static void map(uint32_t vsid, uint32_t page, uint32_t frame, uint32_t pp)
{
    want(mmu_map(SDR1, vsid, page, frame, MMU_ATTRIBUTE_M, pp, table, sizeof table), "a page");
}

static void user_access(uint32_t kind, uint32_t address)
{
    uint8_t answer[MMU_ACCESS_ANSWER_SIZE];
    want(mmu_access(registers, sizeof registers, MMU_MODE_PR | MMU_MODE_DR, kind, address, 4, table, sizeof table,
                    answer, sizeof answer),
         "an access");
}

static void start(void)
{
    uint32_t page;
    set(MMU_REGISTER_SDR1, SDR1);
    set(MMU_REGISTER_SEGMENT(0), SPACE);
    set(MMU_REGISTER_SEGMENT(1), MMU_SEGMENT_KP | SHARED_SPACE);
    set(MMU_REGISTER_DATA_UPPER(0), 0x80000000u | MMU_BLOCK_BL_OF(0x10000000u) | MMU_BLOCK_VS);
    set(MMU_REGISTER_DATA_LOWER(0), 0x10000002u);
    want(mmu_clear(SDR1, table, sizeof table), "the table");
    for (page = 0x0FF8; page < 0x1000; page++)
        map(SPACE, page, 0x12340 + page - 0x0FF8, 2);
    map(SHARED_SPACE, 0x0FFA, 0x20000, 3);
}

int main(int count, char **names)
{
    if (count != 3) {
        fprintf(stderr, "usage: write_dumps BEFORE AFTER\n");
        return EXIT_FAILURE;
    }
    start();
    user_access(MMU_STORE, 0x00FFA01Bu); /* The text is written .. */
    write_dump(names[1]);
    map(SPACE, 0x2000, 0x12342, 2); /* .. and its frame is given away without an unmap of page 0FFA .. */
    user_access(MMU_STORE, 0x02000000u); /* .. and written over through its new address. */
    write_dump(names[2]);
    return EXIT_SUCCESS;
}
