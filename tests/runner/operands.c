/*
 * operands.c - a program for the runner: operands of 2, 4 and 8 bytes at any address, many over a page edge, copy on
 * write of initialized data, strings and multiples, mprotect and cleared memory. Big-endian memory everywhere, so that
 * the native build writes the same. Usage: operands [ROUNDS]
 */
#define _GNU_SOURCE
#include <stdint.h>
#include <stdio.h>
#include <stdlib.h>
#include <string.h>
#include <sys/mman.h>

#define PAGE 4096u
#define PAGES 64u
#define BIG __attribute__((packed, may_alias, scalar_storage_order("big-endian")))

struct BIG half { uint16_t value; };
struct BIG word { uint32_t value; };
struct BIG pair { uint64_t value; };
struct BIG real { double value; };

static uint8_t area[PAGES * PAGE] __attribute__((aligned(4096)));
/* Initialized data is in the file: the first store to each of these pages is a copy on write. */
static uint32_t written[8 * PAGE / 4] __attribute__((aligned(4096))) = { 1, 2, 3 };
static uint32_t state = 12345;
static uint64_t sum;

static uint32_t next(void)
{
    state = state * 1664525u + 1013904223u;
    return state >> 8;
}

static void add(uint64_t value)
{
    sum = sum * 31 + value;
}

/* One operand of 2, 4 or 8 bytes at an address, stored or loaded. */
static unsigned operand(uint8_t *at, uint32_t kind)
{
    uint64_t value = (uint64_t)next() << 40 ^ (uint64_t)next() << 20 ^ next();
    switch (kind) {
    case 0: ((volatile struct half *)at)->value = (uint16_t)value; return 2;
    case 1: add(((volatile struct half *)at)->value); return 2;
    case 2: ((volatile struct word *)at)->value = (uint32_t)value; return 4;
    case 3: add(((volatile struct word *)at)->value); return 4;
    case 4: ((volatile struct pair *)at)->value = value; return 8;
    case 5: add(((volatile struct pair *)at)->value); return 8;
    case 6: ((volatile struct real *)at)->value = (double)(value >> 20) * 0.5; return 8;
    default:
        /* An exponent that makes it a number, so that the load does not depend on how a NaN is moved. */
        ((volatile struct pair *)at)->value = (value & 0xFFFFFFFFFFFFFu) | 0x4000000000000000u;
        add((uint64_t)(((volatile struct real *)at)->value * 1024.0));
        return 8;
    }
}

static unsigned operands(unsigned rounds)
{
    unsigned over_edge = 0;
    for (unsigned i = 0; i < rounds; i++) {
        uint32_t near = next() & 1u, at = next() % (PAGES - 1u) * PAGE;
        uint32_t kind = next() % 8u;
        at += near ? PAGE - next() % 8u : next() % (PAGE - 8u);
        if (at > sizeof area - 8u)
            at = sizeof area - 8u;
        over_edge += at % PAGE + operand(area + at, kind) > PAGE;
        if (i % 64u == 0)
            written[next() % (sizeof written / 4u)] += i;
    }
    return over_edge;
}

/* Cleared memory, where a C library may use dcbz, between bytes that have to stay. */
static void cleared(void)
{
    for (uint32_t i = 0; i < 200; i++) {
        uint32_t at = next() % (sizeof area - 9000u), length = next() % 9000u;
        memset(area + at, i % 4u == 3u ? (int)i : 0, length);
        for (uint32_t k = 0; k < length; k += 257)
            add(area[at + k]);
    }
}

/* Moves 10 bytes by the string instructions, or 12 by lmw and stmw, where there are such. */
static void move(uint8_t *to, const uint8_t *from, uint32_t length)
{
#ifdef __powerpc__
    if (length == 10)
        __asm__ volatile("lswi 5, %1, 10\n\tstswi 5, %0, 10" : : "b"(to), "b"(from) : "5", "6", "7", "memory");
    else
        __asm__ volatile("mr 7, 31\n\tmr 8, 30\n\tmr 9, 29\n\tmr 5, %0\n\tmr 6, %1\n\tlmw 29, 0(6)\n\tstmw 29, 0(5)\n\t"
                         "mr 31, 7\n\tmr 30, 8\n\tmr 29, 9" : : "r"(to), "r"(from) : "5", "6", "7", "8", "9", "memory");
#else
    memmove(to, from, length);
#endif
}

static void moved(void)
{
    for (uint32_t i = 0; i < 2000; i++) {
        uint32_t edge = (1u + next() % (PAGES - 2u)) * PAGE, from = next() % (sizeof area - 12u);
        move(area + edge - next() % 12u, area + from, i % 2u ? 10 : 12);
    }
}

/* Pages that are protected against stores keep their bytes and take stores again later. */
static void protected(void)
{
    uint8_t *pages = mmap(NULL, 4 * PAGE, PROT_READ | PROT_WRITE, MAP_PRIVATE | MAP_ANONYMOUS, -1, 0);
    if (pages == MAP_FAILED)
        exit(1);
    for (uint32_t i = 0; i < 4 * PAGE; i += 5)
        pages[i] = (uint8_t)i;
    if (mprotect(pages, 2 * PAGE, PROT_READ) != 0)
        exit(1);
    for (uint32_t i = 0; i < 4 * PAGE; i += 3)
        add(pages[i]);
    if (mprotect(pages, 2 * PAGE, PROT_READ | PROT_WRITE) != 0)
        exit(1);
    pages[PAGE] = 77;
    add(pages[PAGE] + pages[0]);
    munmap(pages, 4 * PAGE);
}

int main(int argc, char **argv)
{
    unsigned over_edge = operands(argc > 1 ? (unsigned)atoi(argv[1]) : 20000u);
    uint64_t hash = 1469598103934665603u;
    cleared();
    moved();
    protected();
    for (uint32_t i = 0; i < sizeof area; i++)
        hash = (hash ^ area[i]) * 1099511628211u;
    for (uint32_t i = 0; i < sizeof written / 4u; i++)
        add(written[i]);
    printf("sum %016llx, bytes %016llx, operands over a page edge: %u\n", (unsigned long long)sum,
           (unsigned long long)hash, over_edge);
    return 0;
}
