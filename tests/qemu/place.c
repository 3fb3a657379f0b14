#include "place.h"
#include "mmu-glue.h"

PowerPCCPU cpu;
CPUPPCState *const env = &cpu.env;
uint8_t table[(size_t)32 << 20]; /* The longest that SDR1 can name. */
enum lent lent;
unsigned checks, own_calls, dirty_calls;
hwaddr dirty_address, dirty_length;
struct own own;

void expect(bool good, const char *what)
{
    checks++;
    if (!good) {
        fprintf(stderr, "not so: %s (check %u)\n", what, checks);
        exit(1);
    }
}

void *address_space_map(AddressSpace *as, hwaddr address, hwaddr *length, bool is_write, MemTxAttrs attributes)
{
    hwaddr origin = env->spr[SPR_SDR1] & MMU_SDR1_ORIGIN, size = MMU_TABLE_SIZE(env->spr[SPR_SDR1]);
    (void)as;
    (void)attributes;
    expect(is_write, "memory is lent for writing");
    if (lent == LENT_NONE || address < origin || address >= origin + size)
        return NULL;
    if (*length > origin + size - address)
        *length = origin + size - address;
    if (lent == LENT_PART && *length > MMU_PAGE_SIZE)
        *length = MMU_PAGE_SIZE;
    return table + (address - origin);
}

void address_space_unmap(AddressSpace *as, void *start, hwaddr length, bool is_write, hwaddr written)
{
    (void)as;
    (void)length;
    (void)is_write;
    if (written == 0)
        return;
    dirty_calls++;
    dirty_address = (env->spr[SPR_SDR1] & MMU_SDR1_ORIGIN) + (hwaddr)((uint8_t *)start - table);
    dirty_length = written;
}

void *g_memdup2(const void *bytes, size_t size)
{
    void *copy = malloc(size);
    expect(copy != NULL, "memory for a copy");
    return memcpy(copy, bytes, size);
}

void g_free(void *bytes)
{
    free(bytes);
}

bool ppc_hash32_xlate(PowerPCCPU *of, vaddr address, MMUAccessType type, hwaddr *physical, int *page_bits, int *rights,
                      int mmu_idx, bool guest_visible)
{
    size_t i;
    (void)of;
    (void)address;
    (void)mmu_idx;
    (void)guest_visible;
    own_calls++;
    *page_bits = TARGET_PAGE_BITS;
    *physical = own.physical;
    *rights = own.rights;
    for (i = 0; i < own.n; i++)
        mmu_put_word(table, own.offsets[i], own.words[i]);
    if (own.done)
        return true;
    cpu.state.exception_index = type == MMU_INST_FETCH ? POWERPC_EXCP_ISI : POWERPC_EXCP_DSI;
    if (type == MMU_INST_FETCH) {
        env->error_code = (int)own.fault;
    } else {
        env->spr[SPR_DAR] = own.effective;
        env->spr[SPR_DSISR] = own.fault;
    }
    return false;
}

hwaddr physical;
int rights;

bool ask(uint32_t kind, uint32_t mode, uint32_t address, bool guest_visible)
{
    static const MMUAccessType types[] = { MMU_INST_FETCH, MMU_DATA_LOAD, MMU_DATA_STORE };
    bool translated = (mode & (kind == MMU_FETCH ? MMU_MODE_IR : MMU_MODE_DR)) != 0;
    int page_bits = 0, index = (mode & MMU_MODE_PR ? 0 : 1) | (translated ? 0 : 2);
    bool done;
    cpu.state.exception_index = -1;
    env->error_code = -1;
    env->spr[SPR_DAR] = env->spr[SPR_DSISR] = 0xEEEEEEEEu;
    physical = 0xEEEEEEEEu;
    rights = -1;
    own_calls = dirty_calls = 0;
    done = mmu_glue_xlate(&cpu, address, types[kind], &physical, &page_bits, &rights, index, guest_visible);
    expect(!done || page_bits == TARGET_PAGE_BITS, "a page has 4 KB");
    return done;
}

void clear(uint32_t sdr1)
{
    memset(env, 0, sizeof *env);
    memset(&own, 0, sizeof own);
    lent = LENT_WHOLE;
    env->nb_BATs = 4;
    env->spr[SPR_SDR1] = sdr1;
    memset(table, 0, MMU_TABLE_SIZE(sdr1));
    mmu_glue_forget();
}
