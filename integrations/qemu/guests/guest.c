/*
 * The first and only program of the Linux guest. As process 1 it makes wrong accesses, each with the signal that it
 * must bring, then passes over memory, and powers the machine off. As any other process it makes the passes alone, on
 * any machine: their sums depend on no address and no byte order, so the host's run says what the guest's must be.
 */
#define _GNU_SOURCE
#include <errno.h>
#include <setjmp.h>
#include <signal.h>
#include <stdint.h>
#include <stdio.h>
#include <stdlib.h>
#include <string.h>
#include <sys/mman.h>
#include <sys/mount.h>
#include <sys/reboot.h>
#include <sys/stat.h>
#include <sys/wait.h>
#include <unistd.h>

#define PAGE 4096u
#define MEMORY (24u << 20)
#define BLR 0x4E800020u /* The instruction that returns. */

enum kind { LOAD, STORE, FETCH };

static sigjmp_buf back;
static volatile siginfo_t told;
static int checks, wrong;

static void on_signal(int number, siginfo_t *info, void *context)
{
    (void)number;
    (void)context;
    memcpy((void *)&told, info, sizeof told);
    siglongjmp(back, 1);
}

static void make_access(enum kind kind, uintptr_t address)
{
    volatile uint32_t *word = (volatile uint32_t *)address;
    if (kind == LOAD)
        (void)*word;
    else if (kind == STORE)
        *word = BLR;
    else
        ((void (*)(void))address)();
}

/* One access, and the signal (0: none) and its code that it must bring, at its own address. */
static void check(const char *what, enum kind kind, uintptr_t address, int number, int code)
{
    int good;
    memset((void *)&told, 0, sizeof told);
    if (sigsetjmp(back, 1) == 0)
        make_access(kind, address);
    good = told.si_signo == number && told.si_code == code && (number == 0 || (uintptr_t)told.si_addr == address);
    checks++;
    wrong += !good;
    printf("%s %s: signal %d code %d", good ? "ok   " : "WRONG", what, told.si_signo, told.si_code);
    if (!good)
        printf(" address %p; wanted signal %d code %d address %p", told.si_addr, number, code, (void *)address);
    printf("\n");
}

static void *memory(size_t size, int rights)
{
    void *start = mmap(NULL, size, rights, MAP_PRIVATE | MAP_ANONYMOUS, -1, 0);
    if (start == MAP_FAILED) {
        perror("mmap");
        exit(1);
    }
    return start;
}

/* Addresses that no user may touch: nothing is mapped at 0, and the kernel's own are no part of the program. */
static void check_outside(void)
{
    check("load from 0x10", LOAD, 0x10, SIGSEGV, SEGV_MAPERR);
    check("store to 0x10", STORE, 0x10, SIGSEGV, SEGV_MAPERR);
    check("fetch from 0x10", FETCH, 0x10, SIGSEGV, SEGV_MAPERR);
    check("load from the kernel's text", LOAD, 0xC0000000u, SIGSEGV, SEGV_MAPERR);
    check("store to the kernel's text", STORE, 0xC0004000u, SIGSEGV, SEGV_MAPERR);
    check("fetch from the kernel's text", FETCH, 0xC0004000u, SIGSEGV, SEGV_MAPERR);
    check("load from the kernel's memory", LOAD, 0xC4000000u, SIGSEGV, SEGV_MAPERR);
    check("fetch from the kernel's mappings", FETCH, 0xF0000000u, SIGSEGV, SEGV_MAPERR);
}

/* A page whose rights change. This MMU has no right to execute for each page: what may be read may be fetched. */
static void check_page(void)
{
    uint32_t *page = memory(PAGE, PROT_READ | PROT_WRITE | PROT_EXEC);
    uintptr_t at = (uintptr_t)page;
    check("store to a page", STORE, at, 0, 0);
    __builtin___clear_cache((char *)page, (char *)(page + 1));
    check("fetch from it", FETCH, at, 0, 0);
    mprotect(page, PAGE, PROT_READ);
    check("load from a page that may be read", LOAD, at, 0, 0);
    check("store to it", STORE, at, SIGSEGV, SEGV_ACCERR);
    check("fetch from it", FETCH, at, 0, 0);
    mprotect(page, PAGE, PROT_NONE);
    check("load from a page without rights", LOAD, at, SIGSEGV, SEGV_ACCERR);
    check("store to it", STORE, at, SIGSEGV, SEGV_ACCERR);
    check("fetch from it", FETCH, at, SIGSEGV, SEGV_ACCERR);
    checks++;
    if (write(1, page, 4) != -1 || errno != EFAULT) {
        wrong++;
        printf("WRONG the kernel read a page without rights\n");
    }
    mprotect(page, PAGE, PROT_READ | PROT_WRITE);
    check("store to it with rights again", STORE, at, 0, 0);
}

static uint32_t next_random(uint32_t *state)
{
    *state = *state * 1664525u + 1013904223u;
    return *state >> 8;
}

static uint32_t exit_of(pid_t child)
{
    int status = 0;
    waitpid(child, &status, 0);
    return WIFEXITED(status) ? (uint32_t)WEXITSTATUS(status) : 1000u;
}

/* Each page read first, then written, then both at random: R before C, and C without R. */
static uint32_t touch_pass(uint8_t *bytes)
{
    uint32_t i, sum = 0, random = 1;
    for (i = 0; i < MEMORY; i += PAGE)
        sum += bytes[i];
    for (i = 0; i < MEMORY; i += PAGE)
        bytes[i] = (uint8_t)(i / PAGE);
    for (i = 0; i < 400000; i++) {
        uint32_t at = next_random(&random) % (MEMORY / PAGE) * PAGE;
        sum += bytes[at];
        bytes[at] = (uint8_t)(bytes[at] + (i & 1));
    }
    return sum;
}

/* Children that write their parent's pages, some of them through the kernel: the parent's must stay. */
static uint32_t fork_pass(uint8_t *bytes)
{
    uint32_t i, child, sum = 0;
    for (child = 0; child < 40; child++) {
        pid_t process = fork();
        if (process == 0) {
            int ends[2];
            for (i = 0; i < MEMORY; i += PAGE * (1 + child % 5))
                bytes[i] = (uint8_t)(bytes[i] + child);
            if (pipe(ends) != 0 || write(ends[1], bytes, 64) != 64 || read(ends[0], bytes + PAGE * child + 1, 64) != 64)
                _exit(127);
            _exit((bytes[PAGE * child] + bytes[PAGE * child + 1]) & 63);
        }
        sum = sum * 31 + exit_of(process);
    }
    for (i = 0; i < MEMORY; i++)
        sum = sum * 31 + bytes[i];
    return sum;
}

static int small_program(void)
{
    uint8_t *bytes = memory(300 * PAGE, PROT_READ | PROT_WRITE);
    uint32_t i, sum = 0;
    for (i = 0; i < 300; i++) {
        bytes[i * PAGE] = (uint8_t)(i * 7);
        sum += bytes[i * PAGE];
    }
    return (int)(sum & 63);
}

static uint32_t exec_pass(void)
{
    uint32_t child, sum = 0;
    for (child = 0; child < 40; child++) {
        pid_t process = fork();
        if (process == 0) {
            execl("/proc/self/exe", "guest", "small", (char *)NULL);
            _exit(126);
        }
        sum = sum * 31 + exit_of(process);
    }
    return sum;
}

static uint32_t map_pass(void)
{
    uint32_t i, round, sum = 0;
    for (round = 0; round < 200; round++) {
        uint8_t *bytes = memory(256 * PAGE, PROT_READ | PROT_WRITE);
        for (i = 0; i < 256; i++)
            bytes[i * PAGE] = (uint8_t)(i + round);
        mprotect(bytes, 128 * PAGE, PROT_READ);
        for (i = 0; i < 256; i++)
            sum = sum * 31 + bytes[i * PAGE];
        munmap(bytes, 256 * PAGE);
    }
    return sum;
}

static void passes(void)
{
    uint8_t *bytes = memory(MEMORY, PROT_READ | PROT_WRITE);
    printf("sum of pages touched at random %u\n", touch_pass(bytes));
    fflush(stdout);
    printf("sum of 40 forks %u\n", fork_pass(bytes));
    fflush(stdout);
    printf("sum of 40 execs %u\n", exec_pass());
    printf("sum of 200 maps %u\n", map_pass());
    fflush(stdout);
}

int main(int count, char **words)
{
    struct sigaction action;
    if (count > 1 && strcmp(words[1], "small") == 0)
        return small_program();
    if (getpid() != 1) {
        passes();
        return 0;
    }
    mkdir("/proc", 0755);
    mount("proc", "/proc", "proc", 0, NULL);
    memset(&action, 0, sizeof action);
    action.sa_sigaction = on_signal;
    action.sa_flags = SA_SIGINFO | SA_NODEFER;
    sigaction(SIGSEGV, &action, NULL);
    sigaction(SIGBUS, &action, NULL);
    sigaction(SIGILL, &action, NULL);
    printf("guest begins\n");
    check_outside();
    check_page();
    fflush(stdout);
    passes();
    printf("guest ends: %d checks, %d wrong\n", checks, wrong);
    fflush(stdout);
    sleep(1);
    reboot(RB_POWER_OFF);
    return 1;
}
