/* What stands in QEMU's place in the test: memory, a processor, and a translation that answers as the test says. */
#ifndef TEST_QEMU_PLACE_H
#define TEST_QEMU_PLACE_H

#include "qemu/osdep.h"
#include "mmu-hash32.h"
#include "mmu.h"

#define ENTRIES 32 /* Room for the entries of a vector. */
#define ALL_RIGHTS (PAGE_READ | PAGE_WRITE | PAGE_EXEC)

extern PowerPCCPU cpu;
extern CPUPPCState *const env;

/* The guest's memory: the table that SDR1 names, all of it, its first page alone, or none. */
extern uint8_t table[];
extern enum lent { LENT_WHOLE, LENT_PART, LENT_NONE } lent;

/* How often QEMU's translation was asked and the dirty log told by the last ask, and of what. */
extern unsigned own_calls, dirty_calls;
extern hwaddr dirty_address, dirty_length;

/* What the translation in QEMU's place answers, and the second words that it leaves: n offsets and words. */
struct own {
    bool done;
    uint32_t physical, fault, effective;
    int rights;
    size_t n, offsets[ENTRIES];
    uint32_t words[ENTRIES];
};
extern struct own own;

/* Checks so far; the first that fails ends the program. */
extern unsigned checks;
void expect(bool good, const char *what);

/* One translation asked of the glue; what it answers is in these two, and in the processor after a fault. */
extern hwaddr physical;
extern int rights;
bool ask(uint32_t kind, uint32_t mode, uint32_t address, bool guest_visible);

/* A processor with zero registers but SDR1, a table of zeros, and zeros in `own`. */
void clear(uint32_t sdr1);

/* Asks the glue each recorded access of a file, and QEMU's place too where both are asked; how many there were. */
unsigned check_vectors(const char *name, bool both);

#endif
