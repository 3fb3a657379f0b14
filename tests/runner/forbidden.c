/*
 * forbidden.c - a program for the runner that does one thing that it may not do. Usage: forbidden ACT
 *
 * The instruction of each load or store has a label, so that the test knows where it stands.
 */
#define _GNU_SOURCE
#include <stdint.h>
#include <string.h>
#include <sys/mman.h>
#include <sys/syscall.h>
#include <unistd.h>

#define PAGE 4096

uint32_t some_data[2 * PAGE / 4] __attribute__((aligned(4096))) = { 0x4E800020 }; /* blr */
const uint32_t some_constants[PAGE / 4] __attribute__((aligned(4096))) = { 1 };

static uint8_t *two_pages(void)
{
    uint8_t *pages = mmap(NULL, 2 * PAGE, PROT_READ | PROT_WRITE, MAP_PRIVATE | MAP_ANONYMOUS, -1, 0);
    pages[0] = pages[PAGE] = 1;
    return pages;
}

int main(int argc, char **argv)
{
    const char *act = argc > 1 ? argv[1] : "";
    uint8_t *pages = two_pages();
    if (!strcmp(act, "text"))
        __asm__ volatile("store_text: stw 0, 0(%0)" : : "r"(main) : "memory");
    if (!strcmp(act, "constants"))
        __asm__ volatile("store_constants: stb 0, 5(%0)" : : "b"(some_constants) : "memory");
    if (!strcmp(act, "zero"))
        __asm__ volatile("store_zero: stw 0, 0(%0)" : : "b"(0) : "memory");
    if (!strcmp(act, "stack"))
        ((void (*)(void))0x7FFFF100)(); /* segment 7 has no page that may be executed: N */
    if (!strcmp(act, "data")) {
        some_data[1] = 1;
        ((void (*)(void))(uintptr_t)some_data)();
    }
    if (!strcmp(act, "none")) {
        mprotect(pages, PAGE, PROT_NONE);
        __asm__ volatile("load_none: lbz 0, 0(%0)" : : "b"(pages) : "memory", "0");
    }
    if (!strcmp(act, "edge")) {
        munmap(pages + PAGE, PAGE);
        __asm__ volatile("store_edge: stw 0, 0(%0)" : : "b"(pages + PAGE - 2) : "memory");
    }
    if (!strcmp(act, "dcbz"))
        __asm__ volatile("store_dcbz: dcbz 0, %0" : : "r"((uintptr_t)some_constants + 40) : "memory");
    if (!strcmp(act, "call"))
        syscall(999);
    return 0;
}
