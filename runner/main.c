/*
 * main.c - runs a static PowerPC Linux program, or several copies of it at once, over the library.
 */
#define _POSIX_C_SOURCE 200809L
#include "runner.h"

#include <errno.h>
#include <stdarg.h>
#include <stdlib.h>
#include <string.h>
#include <unistd.h>

static const char usage[] =
    "runner [OPTIONS] PROGRAM [ARGUMENTS]: runs a static 32-bit PowerPC Linux program over libmmu\n"
    "  -f N     frames of 4 KB for all programs together, 4 to 16384; 64 without it\n"
    "  -p N     copies of the program at once over one page table, 1 to 64; they need -o\n"
    "  -q N     a turn ends after N misses of the core's TLB, at least 10, or a system call; 100 without it\n"
    "  -i FILE  standard input; empty without it\n"
    "  -o NAME  standard output of copy N goes to NAME.N; without it that of the one program to standard output\n"
    "  -e       every fetch, load and store is asked, not only those that the core's TLB does not know\n"
    "  -n       plain VSIDs, program * 4096 + segment; without it they are spread\n"
    "  -m MASK  SDR1's mask: the table has 64 KB * (MASK + 1)\n"
    "  -c FILE  writes the counts\n"
    "  -v       a line for each fault: its cause and the rule that decided\n";

struct options {
    uint32_t frames, mask;
    unsigned copies, turn;
    bool every;
    const char *in, *out, *counts;
};

struct supervisor supervisor;
static struct process processes[SV_PROGRAMS];
static FILE *counts;

void bad_input(const char *format, ...)
{
    va_list list;
    va_start(list, format);
    fputs("runner: ", stderr);
    vfprintf(stderr, format, list);
    fputc('\n', stderr);
    va_end(list);
    exit(2);
}

void end_process(struct process *process, int status, const char *format, ...)
{
    va_list list;
    va_start(list, format);
    fprintf(stderr, "runner: program %u ended: ", process->space.number);
    vfprintf(stderr, format, list);
    fputc('\n', stderr);
    va_end(list);
    process->status = status;
}

static FILE *open_file(const char *name, const char *mode)
{
    FILE *file = fopen(name, mode);
    if (!file)
        bad_input("%s: %s", name, strerror(errno));
    return file;
}

static uint32_t number_of(int option, const char *text, uint32_t least, uint32_t most)
{
    char *end;
    unsigned long number = strtoul(text, &end, 0);
    if (*text < '0' || *text > '9' || *end || number < least || number > most)
        bad_input("-%c %s: a number from %u to %u is wanted", option, text, (unsigned)least, (unsigned)most);
    return (uint32_t)number;
}

static struct options read_options(int argc, char **argv)
{
    struct options o = { 64, 0, 1, 100, false, "/dev/null", NULL, NULL };
    int option;
    while ((option = getopt(argc, argv, "+f:p:q:i:o:m:c:env")) != -1)
        switch (option) {
        case 'f': o.frames = number_of(option, optarg, SV_LEAST_FRAMES, CORE_MOST_FRAMES); break;
        case 'p': o.copies = number_of(option, optarg, 1, SV_PROGRAMS); break;
        case 'q': o.turn = number_of(option, optarg, 10, 1000000); break;
        case 'm': o.mask = number_of(option, optarg, 0, 0x1FF); break;
        case 'i': o.in = optarg; break;
        case 'o': o.out = optarg; break;
        case 'c': o.counts = optarg; break;
        case 'e': o.every = true; break;
        case 'n': supervisor.plain_vsids = true; break;
        case 'v': supervisor.verbose = true; break;
        default: fputs(usage, stderr); exit(2);
        }
    if (optind == argc) {
        fputs(usage, stderr);
        exit(2);
    }
    if (o.copies > 1 && !o.out)
        bad_input("several programs need -o");
    if (o.mask & (o.mask + 1u))
        bad_input("-m %u: a mask has ones only at its low end", (unsigned)o.mask);
    return o;
}

static void start_process(unsigned number, const struct options *o, int argc, char **argv)
{
    struct process *process = &processes[number];
    char name[4096];
    process->status = -1;
    process->in = open_file(o->in, "rb");
    snprintf(name, sizeof name, "%s.%u", o->out ? o->out : "", number);
    process->out = o->out ? open_file(name, "wb") : stdout;
    sv_add(&supervisor, &process->space, number);
    load_program(process, number ? processes : NULL, argc, argv);
    core_prepare(process);
}

/* In turns until all have ended; the status of the first that did not end with 0. */
static int run_all(const struct options *o)
{
    int status = 0;
    for (unsigned running = o->copies; running;) {
        running = 0;
        for (unsigned i = 0; i < o->copies; i++) {
            if (processes[i].status >= 0)
                continue;
            core_run(&processes[i], o->copies > 1 ? o->turn : 0);
            running++;
            if (processes[i].status >= 0)
                sv_remove(&supervisor, &processes[i].space);
        }
    }
    for (unsigned i = 0; i < o->copies; i++) {
        bool lost = ferror(processes[i].out);
        if (fclose(processes[i].out) != 0 || lost)
            bad_input("the output of program %u cannot be written", i);
        status = status ? status : processes[i].status;
    }
    return status;
}

/* At the end, however it comes: the counts of a run that a refusal stopped are worth as much. */
static void write_counts(void)
{
#define NAME(count) #count,
    static const char *const names[] = { SV_COUNTS(NAME) };
    for (int i = 0; i < SV_COUNT_END; i++)
        fprintf(counts, "%s %llu\n", names[i], (unsigned long long)supervisor.count[i]);
    fprintf(counts, "system_calls %llu\n", (unsigned long long)system_calls);
    for (uint32_t i = 0; i <= MMU_GROUP_ENTRIES; i++)
        fprintf(counts, "maps_that_met_%u %llu\n", (unsigned)i, (unsigned long long)supervisor.met[i]);
}

int main(int argc, char **argv)
{
    struct options o = read_options(argc, argv);
    if (o.counts) {
        counts = open_file(o.counts, "w");
        atexit(write_counts);
    }
    sv_start(&supervisor, core_open(sv_memory_size(o.mask, o.frames), o.every), o.mask, o.frames);
    for (unsigned i = 0; i < o.copies; i++)
        start_process(i, &o, argc - optind, argv + optind);
    return run_all(&o);
}
