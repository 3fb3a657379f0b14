/*
 * runner.h - a static PowerPC Linux program: its process, the loader, the system calls and the core.
 */
#ifndef RUNNER_H
#define RUNNER_H

#include "supervisor.h"

/* The program and its heap lie below MMAP_START, what mmap gives from there on up to the stack. */
#define MMAP_START 0x30000000u
#define STACK_TOP 0x80000000u
#define STACK_PAGES 256u

/* Each frame that is laid makes two mappings of the host, of which Linux allows some 65,000. */
#define CORE_MOST_FRAMES 16384u

struct process {
    struct sv_program space;
    uint32_t pc, stack, heap_start, heap_end, mmap_next;
    FILE *in, *out;
    int status;    /* -1 while it runs */
    void *context; /* the core's registers while another program runs */
};

extern struct supervisor supervisor;
extern uint64_t system_calls;

/* Says a sentence on standard error, and ends the runner with status 2. */
void bad_input(const char *format, ...);

/* Ends a process with a status and says why. */
void end_process(struct process *process, int status, const char *format, ...);

/* Loads the program argv[0] into a process; like is a process that has the same file, or NULL. */
void load_program(struct process *process, const struct process *like, int argc, char **argv);

/* A system call of the running process: the answer for r3, an error as a negative number. */
uint32_t system_call(struct process *process, uint32_t number, const uint32_t argument[6]);

/* Opens the core over physical memory of so many bytes, which it makes; every: all accesses are asked. */
uint8_t *core_open(size_t memory_size, bool every);

/* Makes a process ready to run, and runs it until it ends or, where turn is not 0, for turn page faults or one call. */
void core_prepare(struct process *process);
void core_run(struct process *process, unsigned turn);

#endif
