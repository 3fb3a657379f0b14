/* The thirteen calls as a table of functions, once for the library and once for the plain C. */
#ifndef CALLS_H
#define CALLS_H

#include "mmu.h"
#include "plain.h"

struct calls {
    uint32_t (*check)(const uint8_t *, size_t);
    uint32_t (*set_register)(uint8_t *, size_t, uint32_t, uint32_t);
    uint32_t (*clear)(uint32_t, uint8_t *, size_t);
    uint32_t (*map)(uint32_t, uint32_t, uint32_t, uint32_t, uint32_t, uint32_t, uint8_t *, size_t);
    uint32_t (*unmap)(uint32_t, uint32_t, uint32_t, uint8_t *, size_t, uint8_t *, size_t);
    uint32_t (*protect)(uint32_t, uint32_t, uint32_t, uint32_t, uint8_t *, size_t);
    uint32_t (*look)(uint32_t, uint32_t, uint32_t, const uint8_t *, size_t, uint8_t *, size_t);
    uint32_t (*access)(const uint8_t *, size_t, uint32_t, uint32_t, uint32_t, uint32_t, uint8_t *, size_t, uint8_t *,
                       size_t);
    uint32_t (*access_cached)(const uint8_t *, size_t, uint32_t, uint32_t, uint32_t, uint32_t, uint8_t *, size_t,
                              uint8_t *, size_t, uint8_t *, size_t);
    uint32_t (*rights)(const uint8_t *, size_t, uint32_t, uint32_t, const uint8_t *, size_t, uint8_t *, size_t);
    uint32_t (*invalidate)(uint32_t, uint8_t *, size_t);
    uint32_t (*pack)(uint32_t, uint32_t, uint32_t, uint32_t, uint32_t, uint32_t, uint32_t, uint32_t, uint32_t,
                     uint8_t *, size_t);
    uint32_t (*unpack)(uint32_t, uint32_t, uint8_t *, size_t);
};

static const struct calls library = { mmu_check, mmu_set_register, mmu_clear, mmu_map, mmu_unmap,
                                      mmu_protect, mmu_look, mmu_access, mmu_access_cached, mmu_rights,
                                      mmu_invalidate, mmu_pack, mmu_unpack };
static const struct calls contender = { plain_check, plain_set_register, plain_clear, plain_map, plain_unmap,
                                        plain_protect, plain_look, plain_access, plain_access_cached, plain_rights,
                                        plain_invalidate, plain_pack, plain_unpack };

#endif
