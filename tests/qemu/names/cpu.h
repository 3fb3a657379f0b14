/*
 * The names of QEMU that the glue uses, declared anew for the test: what each is for is QEMU's, the text is ours.
 * The functions are defined by tests/qemu/glue.c.
 */
#ifndef TEST_QEMU_CPU_H
#define TEST_QEMU_CPU_H

#include <stdbool.h>
#include <stdint.h>

#define PAGE_READ 1
#define PAGE_WRITE 2
#define PAGE_EXEC 4
#define TARGET_PAGE_BITS 12
#define SPR_DSISR 18
#define SPR_DAR 19
#define SPR_SDR1 25
#define POWERPC_EXCP_DSI 3
#define POWERPC_EXCP_ISI 4
#define MEMTXATTRS_UNSPECIFIED 0

typedef uint32_t target_ulong;
typedef uint64_t hwaddr;
typedef uint64_t vaddr;
typedef int AddressSpace;
typedef int MemTxAttrs;
typedef enum { MMU_DATA_LOAD, MMU_DATA_STORE, MMU_INST_FETCH } MMUAccessType;

typedef struct {
    AddressSpace *as;
    int32_t exception_index;
} CPUState;

typedef struct {
    target_ulong spr[1024], sr[32], IBAT[2][8], DBAT[2][8], nip;
    uint32_t nb_BATs;
    int error_code;
} CPUPPCState;

typedef struct {
    CPUState state;
    CPUPPCState env;
} PowerPCCPU;

#define CPU(cpu) (&(cpu)->state)

void *address_space_map(AddressSpace *as, hwaddr address, hwaddr *length, bool is_write, MemTxAttrs attributes);
void address_space_unmap(AddressSpace *as, void *start, hwaddr length, bool is_write, hwaddr written);

#endif
