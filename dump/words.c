/* Numbers, fields, rights and registers in words. */
#include "dump.h"

int order_of(uint32_t one, uint32_t other)
{
    return (one > other) - (one < other);
}

struct wimg_text wimg_text(uint32_t wimg)
{
    struct wimg_text made;
    made.text[0] = wimg & MMU_ATTRIBUTE_W ? 'W' : '-';
    made.text[1] = wimg & MMU_ATTRIBUTE_I ? 'I' : '-';
    made.text[2] = wimg & MMU_ATTRIBUTE_M ? 'M' : '-';
    made.text[3] = wimg & MMU_ATTRIBUTE_G ? 'G' : '-';
    made.text[4] = '\0';
    return made;
}

const char *pp_text(uint32_t pp)
{
    static const char *const texts[] = {"00", "01", "10", "11"};
    return texts[pp & 3u];
}

enum rights page_rights(uint32_t key, uint32_t pp)
{
    if (key == 0)
        return pp == 3 ? READ : WRITE;
    return block_rights(pp);
}

enum rights block_rights(uint32_t pp)
{
    static const enum rights by_pp[] = {NOTHING, READ, WRITE, READ};
    return by_pp[pp & 3u];
}

const char *rights_word(enum rights rights)
{
    return rights == WRITE ? "write" : rights == READ ? "read" : "none";
}

const char *rights_sentence(enum rights rights)
{
    return rights == WRITE ? "reading and writing" : rights == READ ? "reading only" : "nothing";
}

const char *kind_name(uint32_t kind)
{
    return kind == MMU_FETCH ? "fetch" : kind == MMU_LOAD ? "load" : "store";
}

uint32_t register_word(const struct registers *registers, uint32_t number)
{
    return mmu_get_word(registers->bytes, MMU_REGISTER_OFFSET(number));
}

const char *register_name(const struct registers *registers, uint32_t number, char *room)
{
    uint32_t first = MMU_REGISTER_INSTRUCTION_UPPER(0), of_side = 2 * registers->pairs;
    if (number == MMU_REGISTER_SDR1)
        sprintf(room, "SDR1");
    else if (number < first)
        sprintf(room, "SR%u", (unsigned)(number - MMU_REGISTER_SEGMENT(0)) & 15u);
    else
        sprintf(room, "%cBAT%u%c", number < first + of_side ? 'I' : 'D',
                (unsigned)((number - first) % of_side / 2) & 7u, (number - first) % 2 ? 'L' : 'U');
    return room;
}

struct size_text size_text(uint64_t bytes)
{
    struct size_text made;
    static const char *const units[] = {"bytes", "KB", "MB", "GB"};
    int unit = 0;
    while (unit < 3 && bytes && bytes % 1024 == 0) {
        bytes /= 1024;
        unit++;
    }
    sprintf(made.text, "%lu %s", (unsigned long)bytes, units[unit]);
    return made;
}
