/*
 * elf.c - loads a static PowerPC program: its segments' pages as shared stores, and the stack that Linux gives it.
 */
#include "runner.h"

#include <errno.h>
#include <stdlib.h>
#include <string.h>

#define PAGE MMU_PAGE_SIZE
#define ARGUMENT_BYTES 0x10000u
#define MOST_BYTES (1u << 24)
#define HEADER 32u                    /* bytes of a program header */
#define HWCAP_32_FPU_MMU 0x8C000000u  /* 32 bits, floating point, MMU: no AltiVec */
enum { PT_LOAD = 1, PT_INTERP = 3, PF_X = 1, PF_W = 2, PF_R = 4 };

static uint32_t half(const uint8_t *bytes, size_t at)
{
    return (uint32_t)bytes[at] << 8 | bytes[at + 1];
}

static uint8_t *read_file(const char *name, uint32_t *size)
{
    FILE *file = fopen(name, "rb");
    uint8_t *bytes = malloc(MOST_BYTES);
    if (!file || !bytes)
        bad_input("%s: %s", name, strerror(errno));
    *size = (uint32_t)fread(bytes, 1, MOST_BYTES, file);
    if (ferror(file))
        bad_input("%s: %s", name, strerror(errno));
    if (*size == MOST_BYTES)
        bad_input("%s has 16 MB or more", name);
    fclose(file);
    return bytes;
}

static void check_file(const char *name, const uint8_t *file, uint32_t size)
{
    uint32_t headers, count;
    if (size < 52 || memcmp(file, "\177ELF\1\2", 6) || half(file, 18) != 20 || half(file, 16) != 2)
        bad_input("%s is no 32-bit big-endian PowerPC program", name);
    headers = mmu_get_word(file, 28), count = half(file, 44);
    if (half(file, 42) != HEADER || headers > size || count * HEADER > size - headers)
        bad_input("%s: its program headers are not whole", name);
    for (uint32_t i = 0; i < count; i++) {
        const uint8_t *h = file + headers + i * HEADER;
        uint32_t type = mmu_get_word(h, 0), offset = mmu_get_word(h, 4), start = mmu_get_word(h, 8);
        uint32_t in_file = mmu_get_word(h, 16), in_memory = mmu_get_word(h, 20);
        if (type == PT_INTERP)
            bad_input("%s is not linked statically", name);
        if (type == PT_LOAD && (offset > size || in_file > size - offset || in_file > in_memory || start < PAGE
                                || start >= MMAP_START || in_memory > MMAP_START - start))
            bad_input("%s: segment %u does not fit", name, (unsigned)i);
    }
}

/* Gives a segment's pages their rights, and the file's bytes or the stores of a process that has them. */
static uint32_t load_segment(struct process *process, const struct process *like, const uint8_t *file, const uint8_t *h)
{
    uint32_t start = mmu_get_word(h, 8), flags = mmu_get_word(h, 24);
    uint32_t first = start / PAGE, last = (start + mmu_get_word(h, 20) + PAGE - 1u) / PAGE;
    uint32_t rights = (flags & PF_R ? SV_READ : 0u) | (flags & PF_W ? SV_WRITE : 0u) | (flags & PF_X ? SV_EXECUTE : 0u);
    sv_set_rights(&supervisor, &process->space, first, last, (uint8_t)rights);
    if (!like)
        sv_fill(&process->space, start, file + mmu_get_word(h, 4), mmu_get_word(h, 16), true);
    for (uint32_t page = first; like && page < last; page++)
        process->space.pages[page].store = like->space.pages[page].store;
    return last * PAGE;
}

/* The words that Linux puts on the stack: argument count and arguments, no environment, the auxiliary vector. */
static void build_stack(struct process *process, int argc, char **argv, uint32_t headers, uint32_t count)
{
    enum { AT_NULL, AT_PHDR = 3, AT_PHENT, AT_PHNUM, AT_PAGESZ, AT_ENTRY = 9, AT_UID = 11, AT_EUID, AT_GID, AT_EGID,
           AT_HWCAP = 16, AT_CLKTCK, AT_DCACHEBSIZE = 19, AT_SECURE = 23, AT_RANDOM = 25 };
    uint32_t text = STACK_TOP - 16u; /* the sixteen bytes above it are AT_RANDOM's */
    const uint32_t rest[] = { 0, 0, AT_PHDR, headers, AT_PHENT, HEADER, AT_PHNUM, count, AT_PAGESZ, PAGE, AT_ENTRY,
                              process->pc, AT_UID, 0, AT_EUID, 0, AT_GID, 0, AT_EGID, 0, AT_HWCAP, HWCAP_32_FPU_MMU,
                              AT_CLKTCK, 100, AT_DCACHEBSIZE, 32, AT_SECURE, 0, AT_RANDOM, text, AT_NULL, 0 };
    uint32_t rest_count = sizeof rest / sizeof rest[0], words = 1u + (uint32_t)argc + rest_count;
    uint8_t *vector = malloc(4u * words);
    if (!vector)
        bad_input("no memory");
    mmu_put_word(vector, 0, (uint32_t)argc);
    for (int i = 0; i < argc; i++) {
        uint32_t length = (uint32_t)strlen(argv[i]) + 1u;
        if (text - length < STACK_TOP - ARGUMENT_BYTES)
            bad_input("the arguments are too long");
        text -= length;
        sv_fill(&process->space, text, argv[i], length, false);
        mmu_put_word(vector, 4u * (1u + (uint32_t)i), text);
    }
    for (uint32_t i = 0; i < rest_count; i++)
        mmu_put_word(vector, 4u * (1u + (uint32_t)argc + i), rest[i]);
    process->stack = (text - 4u * words) & ~15u;
    sv_fill(&process->space, process->stack, vector, 4u * words, false);
    free(vector);
}

void load_program(struct process *process, const struct process *like, int argc, char **argv)
{
    uint32_t size, headers, count, headers_at = 0;
    uint8_t *file = read_file(argv[0], &size);
    check_file(argv[0], file, size);
    headers = mmu_get_word(file, 28), count = half(file, 44);
    process->pc = mmu_get_word(file, 24);
    for (uint32_t i = 0; i < count; i++) {
        const uint8_t *h = file + headers + i * HEADER;
        if (mmu_get_word(h, 0) != PT_LOAD)
            continue;
        process->heap_start = process->heap_end = load_segment(process, like, file, h);
        if (!headers_at)
            headers_at = mmu_get_word(h, 8) - mmu_get_word(h, 4) + headers;
    }
    process->mmap_next = MMAP_START;
    sv_set_rights(&supervisor, &process->space, STACK_TOP / PAGE - STACK_PAGES, STACK_TOP / PAGE, SV_READ | SV_WRITE);
    build_stack(process, argc, argv, headers_at, count);
    free(file);
}
