/* Random numbers, the same in every run, and the few pages that the cores of this folder use. */
#ifndef RANDOM_H
#define RANDOM_H

#include <stdint.h>

static uint32_t state;

static uint32_t below(uint32_t bound)
{
    state ^= state << 13;
    state ^= state >> 17;
    state ^= state << 5;
    return state % bound;
}

/* Few pages, so that they are met again: page indices that share an entry of a TLB and some that do not. */
static uint32_t some_page(void)
{
    static const uint32_t pages[6] = { 0x0000, 0x0100, 0x0001, 0x0FFA, 0xFFFF, 0x10FA };
    return pages[below(6)];
}

static uint32_t some_vsid(void)
{
    return 0x100 + below(3);
}

#endif
