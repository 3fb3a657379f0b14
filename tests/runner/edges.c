/*
 * edges.c - a program for the runner: 1,000 times one instruction on one operand, so many bytes into two pages.
 *
 * Usage: edges NUMBER OFFSET, both with leading zeros, so that reading them takes the same loads.
 */
#include <stdint.h>
#include <stdlib.h>

static uint8_t area[8192] __attribute__((aligned(4096)));

#define DO(text) __asm__ volatile(text : : "b"(at) : "0", "5", "6", "7", "8", "9", "memory", "xer", "cr0", "fr0")
/* lmw takes r29 to r31, of which a compiler wants some itself. */
#define AROUND(text) "mr 7, 31\n\tmr 8, 30\n\tmr 9, 29\n\t" text "\n\tmr 31, 7\n\tmr 30, 8\n\tmr 29, 9"
#define XER_10 "li 0, 10\n\tmtxer 0\n\t"

static void once(int number, uint8_t *at)
{
    switch (number) {
    case 1: DO("lhz 0, 0(%0)"); break;
    case 2: DO("sth 0, 0(%0)"); break;
    case 3: DO("lwz 0, 0(%0)"); break;
    case 4: DO("stw 0, 0(%0)"); break;
    case 5: DO("lfd 0, 0(%0)"); break;
    case 6: DO("stfd 0, 0(%0)"); break;
    case 7: DO(AROUND("lmw 29, 0(%0)")); break;
    case 8: DO("stmw 29, 0(%0)"); break;
    case 9: DO("lswi 5, %0, 10"); break;
    case 10: DO("stswi 5, %0, 10"); break;
    case 11: DO(XER_10 "lswx 5, 0, %0"); break;
    case 12: DO(XER_10 "stswx 5, 0, %0"); break;
    case 13: DO("dcbz 0, %0"); break;
    case 14: DO("lwarx 0, 0, %0\n\tstwcx. 0, 0, %0"); break;
    case 15: DO("dcbst 0, %0"); break;
    case 16: DO("dcbt 0, %0"); break;
    }
}

int main(int argc, char **argv)
{
    if (argc != 3)
        return 2;
    area[0] = area[4096] = 1;
    for (int i = 0; i < 1000; i++)
        once(atoi(argv[1]), area + atoi(argv[2]));
    return 0;
}
