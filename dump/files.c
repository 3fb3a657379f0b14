/* Errors, the files of a dump, and where text goes. */
#include "dump.h"

#include <errno.h>
#include <stdarg.h>
#include <stdlib.h>
#include <string.h>

#define REGISTERS_WANTED "expected a register page of 132 bytes (4 block pairs a side) or 196 (8 pairs)"
#define LARGEST_TABLE MMU_TABLE_SIZE(MMU_SDR1_MASK)

void fail(const char *format, ...)
{
    va_list values;
    fflush(stdout);
    fputs("mmu-dump: ", stderr);
    va_start(values, format);
    vfprintf(stderr, format, values);
    va_end(values);
    fputc('\n', stderr);
    exit(STATUS_BAD_USE);
}

void *claim(void *old, size_t size)
{
    void *bytes = realloc(old, size ? size : 1);
    if (!bytes)
        fail("no memory for %lu bytes", (unsigned long)size);
    return bytes;
}

/* ---- Output ------------------------------------------------------------------------------------ */

void put(struct sink *sink, const char *format, ...)
{
    va_list values, again;
    int length;
    va_start(values, format);
    if (sink->file) {
        vfprintf(sink->file, format, values);
        va_end(values);
        return;
    }
    va_copy(again, values);
    length = vsnprintf(NULL, 0, format, again);
    va_end(again);
    if (sink->length + (size_t)length + 1 > sink->room) {
        sink->room = 2 * (sink->length + (size_t)length + 1);
        sink->bytes = claim(sink->bytes, sink->room);
    }
    vsnprintf(sink->bytes + sink->length, (size_t)length + 1, format, values);
    sink->length += (size_t)length;
    va_end(values);
}

const char *short_name(const char *name, char *room)
{
    size_t length = strlen(name);
    if (length < SHORT_NAME)
        return name;
    strcpy(room, "...");
    strcat(room, name + length - (SHORT_NAME - 4));
    return room;
}

/* ---- Files ------------------------------------------------------------------------------------- */

/* The file's bytes, at most one more than `most`, so that the caller sees a file that is too long. */
static uint8_t *read_file(const char *name, size_t most, const char *wanted, size_t *length)
{
    FILE *file = fopen(name, "rb");
    uint8_t *bytes = NULL;
    size_t room = 0, got;
    *length = 0;
    if (!file)
        fail("%s: byte 0 cannot be read: %s; %s", name, strerror(errno), wanted);
    do {
        room = room ? 2 * room : 4096;
        if (room > most + 1)
            room = most + 1;
        bytes = claim(bytes, room);
        got = fread(bytes + *length, 1, room - *length, file);
        *length += got;
    } while (got && *length < most + 1);
    if (ferror(file))
        fail("%s: byte %lu cannot be read: %s; %s", name, (unsigned long)*length, strerror(errno), wanted);
    fclose(file);
    return bytes;
}

static struct registers registers_from(const char *name, const uint8_t *bytes, size_t length)
{
    struct registers registers;
    memset(&registers, 0, sizeof registers);
    registers.name = name;
    registers.length = length;
    registers.pairs = length == MMU_REGISTERS_SIZE_LONG ? 8 : 4;
    registers.words = (uint32_t)(length / 4);
    memcpy(registers.bytes, bytes, length);
    return registers;
}

static int is_register_length(size_t length)
{
    return length == MMU_REGISTERS_SIZE_SHORT || length == MMU_REGISTERS_SIZE_LONG;
}

struct registers read_registers(const char *name)
{
    struct registers registers;
    size_t length;
    uint8_t *bytes = read_file(name, MMU_REGISTERS_SIZE_LONG, REGISTERS_WANTED, &length);
    if (length > MMU_REGISTERS_SIZE_LONG)
        fail("%s: goes on at byte %u; %s", name, (unsigned)MMU_REGISTERS_SIZE_LONG, REGISTERS_WANTED);
    if (!is_register_length(length))
        fail("%s: ends at byte %lu; %s", name, (unsigned long)length, REGISTERS_WANTED);
    registers = registers_from(name, bytes, length);
    free(bytes);
    return registers;
}

static struct table table_from(const char *name, uint8_t *bytes, size_t length, uint32_t sdr1)
{
    struct table table;
    table.name = name;
    table.bytes = bytes;
    table.length = length;
    table.sdr1 = sdr1;
    table.groups = (uint32_t)(length / MMU_GROUP_SIZE);
    return table;
}

struct table read_table(const char *name, uint32_t sdr1)
{
    char wanted[96];
    size_t length, right = MMU_TABLE_SIZE(sdr1);
    uint8_t *bytes;
    sprintf(wanted, "expected a table of %lu bytes, as SDR1 %08X says", (unsigned long)right, (unsigned)sdr1);
    bytes = read_file(name, right, wanted, &length);
    if (length > right)
        fail("%s: goes on at byte %lu; %s", name, (unsigned long)right, wanted);
    if (length < right)
        fail("%s: ends at byte %lu; %s", name, (unsigned long)length, wanted);
    return table_from(name, bytes, length, sdr1);
}

static int is_table_length(size_t length)
{
    size_t count = length / 65536u;
    return count && length % 65536u == 0 && count <= 512 && (count & (count - 1)) == 0;
}

/* An SDR1 of a table of this length, at address 0. */
static uint32_t sdr1_of_length(size_t length)
{
    return (uint32_t)(length / 65536u - 1);
}

/* ---- Dumps of diff ----------------------------------------------------------------------------- */

#define EITHER_WANTED \
    "expected a register page of 132 or 196 bytes, or a table of 65536 bytes or a power of 2 times that, to 33554432"

static struct dump read_one(const char *name)
{
    struct dump dump;
    size_t length;
    uint8_t *bytes = read_file(name, LARGEST_TABLE, EITHER_WANTED, &length);
    memset(&dump, 0, sizeof dump);
    if (length > LARGEST_TABLE)
        fail("%s: goes on at byte %lu; %s", name, (unsigned long)LARGEST_TABLE, EITHER_WANTED);
    if (is_register_length(length)) {
        dump.registers = registers_from(name, bytes, length);
        free(bytes);
    } else if (is_table_length(length)) {
        dump.table = table_from(name, bytes, length, sdr1_of_length(length));
    } else {
        fail("%s: ends at byte %lu; %s", name, (unsigned long)length, EITHER_WANTED);
    }
    return dump;
}

struct dump read_either(const char *names)
{
    struct dump dump, second;
    const char *comma = strrchr(names, ',');
    FILE *whole = fopen(names, "rb");
    char *first;
    if (whole)
        fclose(whole);
    if (whole || !comma)
        return read_one(names);
    first = claim(NULL, (size_t)(comma - names) + 1);
    memcpy(first, names, (size_t)(comma - names));
    first[comma - names] = '\0';
    dump = read_one(first);
    free(first);
    dump.registers.name = names;
    second = read_one(comma + 1);
    if (!dump.registers.length || !second.table.length)
        fail("%s: expected a register page before the comma and a table behind it", names);
    dump.table = second.table;
    return dump;
}
