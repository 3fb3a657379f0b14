/*
 * linux.c - the system calls of a static 32-bit PowerPC Linux program that reads its input and writes its output.
 */
#include "runner.h"

#define PAGE MMU_PAGE_SIZE
#define ERROR(number) (-(uint32_t)(number))
#define MOMENT 1000000000u /* the time is always this: two runs do the same */
enum { EBADF = 9, ENOMEM = 12, EFAULT = 14, EINVAL = 22, ENOTTY = 25, ESPIPE = 29, ENOSYS = 38 };
enum { MAP_FIXED = 0x10, MAP_ANONYMOUS = 0x20 };

uint64_t system_calls;

static uint32_t pages_of(uint32_t bytes)
{
    return bytes / PAGE + (bytes % PAGE ? 1u : 0u);
}

static bool copy(uint32_t kind, uint32_t address, void *bytes, uint32_t length)
{
    return sv_copy(&supervisor, kind, address, bytes, length);
}

/* Copies bytes to the program; 0 or an error. */
static uint32_t give(uint32_t address, void *bytes, uint32_t length)
{
    return copy(MMU_STORE, address, bytes, length) ? 0u : ERROR(EFAULT);
}

static uint32_t read_call(struct process *process, uint32_t descriptor, uint32_t address, uint32_t length)
{
    uint8_t buffer[PAGE];
    uint32_t done = 0, part;
    if (descriptor != 0)
        return ERROR(EBADF);
    for (; done < length; done += part) {
        part = length - done < PAGE ? length - done : PAGE;
        part = (uint32_t)fread(buffer, 1, part, process->in);
        if (part == 0)
            break;
        if (!copy(MMU_STORE, address + done, buffer, part))
            return ERROR(EFAULT);
    }
    return done;
}

static uint32_t write_call(struct process *process, uint32_t descriptor, uint32_t address, uint32_t length)
{
    uint8_t buffer[PAGE];
    FILE *file = descriptor == 1 ? process->out : stderr;
    if (descriptor != 1 && descriptor != 2)
        return ERROR(EBADF);
    for (uint32_t done = 0, part; done < length; done += part) {
        part = length - done < PAGE ? length - done : PAGE;
        if (!copy(MMU_LOAD, address + done, buffer, part))
            return ERROR(EFAULT);
        fwrite(buffer, 1, part, file);
    }
    return length;
}

static uint32_t writev_call(struct process *process, uint32_t descriptor, uint32_t vector, uint32_t count)
{
    uint32_t total = 0;
    for (uint32_t i = 0; i < count; i++) {
        uint8_t item[8];
        uint32_t done;
        if (!copy(MMU_LOAD, vector + 8u * i, item, sizeof item))
            return ERROR(EFAULT);
        done = write_call(process, descriptor, mmu_get_word(item, 0), mmu_get_word(item, 4));
        if (done != mmu_get_word(item, 4))
            return done;
        total += done;
    }
    return total;
}

static uint32_t brk_call(struct process *process, uint32_t end)
{
    uint32_t old = pages_of(process->heap_end), new = pages_of(end);
    if (end < process->heap_start || end > MMAP_START)
        return process->heap_end;
    if (new > old)
        sv_set_rights(&supervisor, &process->space, old, new, SV_READ | SV_WRITE);
    else
        sv_forget(&supervisor, &process->space, new, old);
    process->heap_end = end;
    return end;
}

/* Memory alone, and where the runner wants it: a static program asks for no more. */
static uint32_t mmap_call(struct process *process, uint32_t length, uint32_t rights, uint32_t flags)
{
    uint32_t start = process->mmap_next, pages = pages_of(length);
    if (!(flags & MAP_ANONYMOUS) || flags & MAP_FIXED || length == 0)
        return ERROR(EINVAL);
    if (pages + 1u > STACK_TOP / PAGE - STACK_PAGES - start / PAGE)
        return ERROR(ENOMEM);
    sv_set_rights(&supervisor, &process->space, start / PAGE, start / PAGE + pages, (uint8_t)(rights & 7u));
    process->mmap_next = start + (pages + 1u) * PAGE;
    return start;
}

/* munmap, or mprotect with its rights. */
static uint32_t change_pages(struct process *process, uint32_t start, uint32_t length, bool protect, uint32_t rights)
{
    uint32_t first = start / PAGE, last = first + pages_of(length);
    if (start % PAGE || last > STACK_TOP / PAGE)
        return ERROR(EINVAL);
    for (uint32_t page = first; protect && page < last; page++)
        if (!process->space.pages[page].used)
            return ERROR(ENOMEM);
    if (protect)
        sv_set_rights(&supervisor, &process->space, first, last, (uint8_t)(rights & 7u));
    else
        sv_forget(&supervisor, &process->space, first, last);
    return 0;
}

/* An open file is a pipe to the program, so that its buffers are the same whatever stands behind it. */
static uint32_t statx_call(uint32_t address)
{
    uint8_t bytes[256] = { 0 };
    mmu_put_word(bytes, 0, 0x7FF);
    mmu_put_word(bytes, 4, PAGE);
    bytes[28] = 0x11, bytes[29] = 0x80;
    return give(address, bytes, sizeof bytes);
}

uint32_t system_call(struct process *process, uint32_t number, const uint32_t argument[6])
{
    uint8_t zeros[256] = { 0 };
    const uint32_t *a = argument;
    system_calls++;
    switch (number) {
    case 1: case 234: /* exit, exit_group */
        process->status = (int)(a[0] & 255u);
        return 0;
    case 3: return read_call(process, a[0], a[1], a[2]);
    case 4: return write_call(process, a[0], a[1], a[2]);
    case 146: return writev_call(process, a[0], a[1], a[2]);
    case 45: return brk_call(process, a[0]);
    case 192: return mmap_call(process, a[1], a[2], a[3]);
    case 91: return change_pages(process, a[0], a[1], false, 0);
    case 125: return change_pages(process, a[0], a[1], true, a[2]);
    case 383: return statx_call(a[4]);
    case 359: /* getrandom: zeros */
        if (a[1] > sizeof zeros)
            return ERROR(EINVAL);
        return give(a[0], zeros, a[1]) ? ERROR(EFAULT) : a[1];
    case 13: return MOMENT; /* time */
    case 403:               /* clock_gettime64 */
        mmu_put_word(zeros, 4, MOMENT);
        return give(a[1], zeros, 16);
    case 20: case 207: case 232: return 1u + process->space.number;      /* getpid, gettid, set_tid_address */
    case 6: case 173: case 174: case 300: return 0;                      /* close, signals, set_robust_list */
    case 54: return ERROR(ENOTTY);                                       /* ioctl */
    case 19: case 140: return ERROR(ESPIPE);                             /* lseek, _llseek */
    case 85: case 296: return ERROR(EINVAL);                             /* readlink, readlinkat */
    case 163: case 190: case 325: case 387: return ERROR(ENOSYS);        /* mremap, limits, rseq: glibc does without */
    default:
        end_process(process, 159, "system call %u is not made", (unsigned)number);
        return ERROR(ENOSYS);
    }
}
