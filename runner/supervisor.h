/*
 * supervisor.h - demand paging for several programs over one hashed page table; every translation is mmu_access's.
 *
 * A core asks sv_access for each load, store and fetch of the running program. A page that is not mapped gets a frame,
 * a store to a shared page gets a copy; what cannot be mended is handed back with the library's record. Frames are
 * taken away by a clock that goes by R, and written back where C says so. docs/RUNNER.md explains it.
 */
#ifndef SUPERVISOR_H
#define SUPERVISOR_H

#include "mmu.h"

#include <stdbool.h>
#include <stdio.h>

#define SV_PROGRAMS 64u
#define SV_PAGES (1u << 20)
#define SV_LEAST_FRAMES 4u

/* Rights of a page, numbered as Linux's PROT_ flags. */
enum { SV_READ = 1, SV_WRITE = 2, SV_EXECUTE = 4 };

/* The bytes of a page while it is not mapped. A shared store has bytes of a file, and its frame serves all users. */
struct sv_store {
    uint8_t bytes[MMU_PAGE_SIZE];
    uint32_t frame; /* of a shared store: the frame that has its bytes, 0 for none */
    bool shared;
};

struct sv_page {
    struct sv_store *store; /* NULL: all bytes are zero */
    uint32_t frame;         /* the frame while the page is mapped, else 0 */
    uint8_t rights;         /* what the program may do: a sum of SV_READ .. */
    bool used;              /* the page is the program's */
    bool changed;           /* C stood in an entry that was taken out while the frame stayed */
};

struct sv_program {
    unsigned number;
    struct sv_page *pages;   /* SV_PAGES of them */
    uint32_t executable;     /* bit n: segment n has a page with SV_EXECUTE; the others get N */
};

/* Which programs have mapped a frame, by their numbers; all of them at the same page. */
struct sv_frame {
    uint64_t users;
    uint32_t page;
};

/* What is counted. The first three are in the order of MMU_FETCH .., the faults in that of MMU_RULE_NO_EXECUTE .. */
#define SV_COUNTS(X)                                                                                                   \
    X(fetches_asked) X(loads_asked) X(stores_asked) X(faults_no_execute) X(faults_no_match) X(faults_guarded)          \
    X(faults_protection) X(maps) X(maps_into_secondary) X(maps_full) X(unmaps) X(protects) X(looks)                    \
    X(frames_taken_away) X(written_back) X(second_chances) X(shared_again) X(copies_on_write) X(turns)
#define SV_COUNT(name) SV_##name,
enum { SV_COUNTS(SV_COUNT) SV_COUNT_END };
#undef SV_COUNT

struct supervisor {
    uint8_t registers[MMU_REGISTERS_SIZE_SHORT];
    uint8_t *memory; /* physical memory: the page table, then the frames */
    uint32_t sdr1, first_frame, last_frame, hand, victim;
    struct sv_frame *frames; /* by frame number */
    struct sv_program *programs[SV_PROGRAMS], *running;
    bool plain_vsids; /* VSID = program * 4096 + segment: the same page of all programs has the same two groups */
    bool verbose;     /* one line for each fault */
    void (*lift)(uint32_t page); /* a page of the running program has changed: the core forgets what it knows of it */
    uint64_t count[SV_COUNT_END];
    uint64_t met[MMU_GROUP_ENTRIES + 1u]; /* maps by the number of valid entries that the primary group had */
};

/* The bytes of physical memory that so many frames need beside the table. */
size_t sv_memory_size(uint32_t sdr1, uint32_t frames);

/* An empty table at physical address 0 and all frames free; memory has sv_memory_size bytes. */
void sv_start(struct supervisor *sv, uint8_t *memory, uint32_t sdr1, uint32_t frames);

/* A program without pages, and one that ends. */
void sv_add(struct supervisor *sv, struct sv_program *program, unsigned number);
void sv_remove(struct supervisor *sv, struct sv_program *program);

/* From now on the program runs: the segment registers are its own. */
void sv_run(struct supervisor *sv, struct sv_program *program);

/* Asks mmu_access, mends what can be mended and asks again: done, or the fault that the program has earned. */
struct mmu_answer sv_access(struct supervisor *sv, uint32_t kind, uint32_t address, uint32_t length);

/* Copies between the running program's memory and the caller's bytes; false where its rights do not allow it. */
bool sv_copy(struct supervisor *sv, uint32_t kind, uint32_t address, void *bytes, uint32_t length);

/* Puts bytes into the stores of pages before the program runs. */
void sv_fill(struct sv_program *program, uint32_t address, const void *bytes, uint32_t length, bool shared);

/* The pages from first up to last, last not among them: gives them rights, takes them from the program. */
void sv_set_rights(struct supervisor *sv, struct sv_program *program, uint32_t first, uint32_t last, uint8_t rights);
void sv_forget(struct supervisor *sv, struct sv_program *program, uint32_t first, uint32_t last);

/* A fault in a sentence: what was asked, the rule that decided and what it went by. */
void sv_explain(char *text, size_t size, uint32_t kind, const struct mmu_answer *answer);

/* A library's refusal that no supervisor may meet, or no memory: says so and ends. */
void sv_fail(const char *what, uint32_t result, unsigned program, uint32_t page);

#endif
