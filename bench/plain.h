/* The thirteen calls in plain C, with the parameters of mmu.h: the contender of the benchmarks. */
#ifndef PLAIN_H
#define PLAIN_H

#include <stddef.h>
#include <stdint.h>

#ifndef PLAIN
#define PLAIN(name) plain_##name
#endif

uint32_t PLAIN(check)(const uint8_t *registers, size_t registers_len);
uint32_t PLAIN(set_register)(uint8_t *registers, size_t registers_len, uint32_t number, uint32_t word);
uint32_t PLAIN(clear)(uint32_t sdr1, uint8_t *table, size_t table_len);
uint32_t PLAIN(map)(uint32_t sdr1, uint32_t vsid, uint32_t page_index, uint32_t rpn, uint32_t wimg, uint32_t pp,
                    uint8_t *table, size_t table_len);
uint32_t PLAIN(unmap)(uint32_t sdr1, uint32_t vsid, uint32_t page_index, uint8_t *table, size_t table_len,
                      uint8_t *answer, size_t answer_len);
uint32_t PLAIN(protect)(uint32_t sdr1, uint32_t vsid, uint32_t page_index, uint32_t pp, uint8_t *table,
                        size_t table_len);
uint32_t PLAIN(look)(uint32_t sdr1, uint32_t vsid, uint32_t page_index, const uint8_t *table, size_t table_len,
                     uint8_t *answer, size_t answer_len);
uint32_t PLAIN(access)(const uint8_t *registers, size_t registers_len, uint32_t mode, uint32_t kind, uint32_t address,
                       uint32_t length, uint8_t *table, size_t table_len, uint8_t *answer, size_t answer_len);
uint32_t PLAIN(access_cached)(const uint8_t *registers, size_t registers_len, uint32_t mode, uint32_t kind,
                              uint32_t address, uint32_t length, uint8_t *table, size_t table_len, uint8_t *cache,
                              size_t cache_len, uint8_t *answer, size_t answer_len);
uint32_t PLAIN(rights)(const uint8_t *registers, size_t registers_len, uint32_t mode, uint32_t address,
                       const uint8_t *table, size_t table_len, uint8_t *answer, size_t answer_len);
uint32_t PLAIN(invalidate)(uint32_t page_index, uint8_t *cache, size_t cache_len);
uint32_t PLAIN(pack)(uint32_t v, uint32_t vsid, uint32_t h, uint32_t api, uint32_t rpn, uint32_t r, uint32_t c,
                     uint32_t wimg, uint32_t pp, uint8_t *entry, size_t entry_len);
uint32_t PLAIN(unpack)(uint32_t first, uint32_t second, uint8_t *fields, size_t fields_len);

#endif
