/*
 * mmu.h - address translation of a 32-bit PowerPC: register set (SDR1, segment registers, BATs), hashed page
 * table, access check, translation cache. A core calls mmu_access or mmu_access_cached for each load, store and fetch
 * and takes the DSI or ISI it tells. mmu_rights tells what an access would come to and marks nothing.
 *
 * Link with libmmu.a. docs/C-GUIDE.md tells how to use the calls; README.md has the manual's words beside ours.
 *
 * A slice is lent as a pointer and its length in bytes, the parameter with _len. NULL with length 0 is a slice of
 * length 0. The slices lent to one call must not overlap. All words are stored big-endian. Bit 0 is the most
 * significant bit of a word. Every call returns its result number.
 */
#ifndef MMU_H
#define MMU_H

#include <stddef.h>
#include <stdint.h>

#ifdef __cplusplus
extern "C" {
#endif

/* The version; CHANGELOG.md says what a caller must change from one to the next. */
#define MMU_VERSION_MAJOR 0
#define MMU_VERSION_MINOR 12

/* ---- Results ---------------------------------------------------------------------------------- */

#define MMU_DONE 0u                       /* Done: the call did what it was asked. */
#define MMU_DATA_STORAGE_FAULT 64u        /* DSI: a load or a store is not allowed or not mapped. */
#define MMU_INSTRUCTION_STORAGE_FAULT 65u /* ISI: a fetch is not allowed or not mapped. */

/* Refusals: table, cache and registers are left as they were. */
#define MMU_REFUSED_TABLE_LENGTH 1u   /* Table length wrong: the lent table is not as long as SDR1 says. */
#define MMU_REFUSED_SDR1 2u           /* SDR1 shape: a reserved bit, a gap in the mask, or an origin bit under it. */
#define MMU_REFUSED_BLOCK 3u          /* Block shape: a pair that is on breaks a rule of block words. */
#define MMU_REFUSED_BLOCKS_SHARE 4u   /* Two blocks of a side share an address and a V bit. */
#define MMU_REFUSED_SEGMENT 5u        /* Segment: T is 1 or one of bits 4 to 7 is set. */
#define MMU_REFUSED_ARGUMENT 6u       /* Argument out of range, or map's WIMG with W and I. */
#define MMU_REFUSED_MAPPED 7u         /* Map: the page matches already. */
#define MMU_REFUSED_NO_MATCH 8u       /* The page has no match (unmap, protect, look). */
#define MMU_REFUSED_FULL 9u           /* Map: all 16 entries of the page's two groups have V = 1. */
#define MMU_REFUSED_CONTRADICTION 10u /* Contradicting matches: RPN, WIMG or PP differs (access, look). */
#define MMU_REFUSED_LENT_LENGTH 11u /* Registers, cache, answer, entry or fields of another length; none is written. */
#define MMU_REFUSED_OPERAND_LENGTH 12u /* Access: an operand of 0 or over MMU_LONGEST_OPERAND bytes. */

/* ---- An access -------------------------------------------------------------------------------- */

/* Mode: the sum of the MSR's bits that are on, 0 to 7. */
#define MMU_MODE_PR 4u /* PR: the access is the user's (problem state), else the supervisor's. */
#define MMU_MODE_IR 2u /* IR: fetches are translated. */
#define MMU_MODE_DR 1u /* DR: loads and stores are translated. */

/* Kind of access. */
#define MMU_FETCH 0u /* Fetch: an instruction is read. */
#define MMU_LOAD 1u  /* Load: data is read. */
#define MMU_STORE 2u /* Store: data is written. */

/* Attributes (WIMG), 0 to 15: the sum of the bits that are one. */
#define MMU_ATTRIBUTE_W 8u    /* W: write-through. */
#define MMU_ATTRIBUTE_I 4u    /* I: caching inhibited. */
#define MMU_ATTRIBUTE_M 2u    /* M: memory coherence. */
#define MMU_ATTRIBUTE_G 1u    /* G: guarded. */
#define MMU_ATTRIBUTES_REAL 3u /* Attributes of every access in real mode: M and G. */

/*
 * Fault word, for DSISR (data) or SRR1 (fetch): a sum by cause; only the first cause met counts. The rule of the answer
 * tells N from G, and a block's PP from a page's.
 */
#define MMU_FAULT_NO_MATCH 0x40000000u   /* No match: the page is not in the table. */
#define MMU_FAULT_NO_EXECUTE 0x10000000u /* N or G: a fetch from a no-execute segment or a guarded page. */
#define MMU_FAULT_PROTECTION 0x08000000u /* Protection: PP, with the key where it is a page, does not allow it. */
#define MMU_FAULT_STORE 0x02000000u      /* Added where the access was a store. */

/* Interrupt offset: the vector at which the core continues after a fault. */
#define MMU_OFFSET_DATA 0x300u        /* Interrupt offset of a data storage fault. */
#define MMU_OFFSET_INSTRUCTION 0x400u /* Interrupt offset of an instruction storage fault. */

/* The operand: the bytes that one access names. Those that lie in a page, 4 KB of effective addresses, are a part. */
#define MMU_PAGE_SIZE 4096u      /* Bytes of a page. */
#define MMU_LONGEST_OPERAND 128u /* The most bytes of an operand, so that it has one part or, over a page edge, two. */

/* Rule: the step that decided an access, the first whose condition holds; 0 to 6, in the order of the steps. */
#define MMU_RULE_REAL 0u       /* Real mode: done without translation. */
#define MMU_RULE_BLOCK 1u      /* Block (BAT): done by it, or a protection fault by its PP. */
#define MMU_RULE_NO_EXECUTE 2u /* No-execute: a fetch from a segment with N, a fault. */
#define MMU_RULE_NO_MATCH 3u   /* No match: no entry (PTE) in either group, a fault. */
#define MMU_RULE_GUARDED 4u    /* Guarded: a fetch from a page with G, a fault. */
#define MMU_RULE_PROTECTION 5u /* Page protection: key and PP of a page do not allow it, a fault. */
#define MMU_RULE_DONE 6u       /* Page done: done by a page. */

/* ---- Answer: four words of unmap and look, twelve of an access -------------------------------- */

#define MMU_ANSWER_SIZE 16u        /* Length of the answer of unmap and look in bytes. */
#define MMU_ACCESS_ANSWER_SIZE 48u /* Length of the answer of an access in bytes. */
#define MMU_ANSWER_RESULT 0u      /* Byte offset of the result number. */
#define MMU_ANSWER_PHYSICAL 4u    /* Physical address of the operand's first byte, after an access that is done. */
#define MMU_ANSWER_FAULT 4u       /* Fault word, after a fault. */
#define MMU_ANSWER_SECOND 4u      /* Second entry word, after a look or an unmap that is done. */
#define MMU_ANSWER_ATTRIBUTES 8u  /* Attributes, after an access that is done. */
#define MMU_ANSWER_OFFSET 8u      /* Interrupt offset, after a fault. */
#define MMU_ANSWER_EFFECTIVE 12u  /* Effective address: the operand's, or (DAR) of the part that faults. */

/* Of an access that is done; all four are zero after a fault, the three of a second part also where there is none. */
#define MMU_ANSWER_SECOND_PHYSICAL 16u   /* Physical address of the second part's first byte. */
#define MMU_ANSWER_SECOND_ATTRIBUTES 20u /* Attributes of the second part. */
#define MMU_ANSWER_BYTES 24u             /* Bytes in the first part: all of an operand within one page. */
#define MMU_ANSWER_SECOND_BYTES 28u      /* Bytes in the second part. */

/*
 * The record of the rule that decided: of the first part where the access is done, of the part that faults after a
 * fault. All four are zero after a refusal, whose record looks like that of real mode: ask the result first.
 */
#define MMU_ANSWER_RULE 32u   /* Rule, MMU_RULE_REAL to MMU_RULE_DONE. */
#define MMU_ANSWER_DETAIL 36u /* Rule 1: number of the block pair on its side, from 0; 5 and 6: key * 4 + PP; else 0. */
#define MMU_ANSWER_GROUP 40u  /* Rules 4 to 6: number of the group (PTEG) where the entry used stands; else 0. */
#define MMU_ANSWER_ENTRY 44u  /* Rules 4 to 6: number of that entry in the group, 0 to 7, MMU_HIT_ENTRY; else 0. */

/* ---- Register page: 33 words, or 49 ------------------------------------------------------------ */

/*
 * A page has one of two lengths, and the lent length alone says which. The short page has four block pairs a side and
 * blocks of up to 256 MB. The long page, for later cores, has eight pairs a side and blocks of up to 4 GB. SDR1, the
 * segment registers and instruction pairs 0 to 3 have the same numbers on both; the data pairs do not.
 */
#define MMU_REGISTERS_SIZE_SHORT 132u                      /* Length of the short register page in bytes. */
#define MMU_REGISTERS_SIZE_LONG 196u                       /* Length of the long register page in bytes. */
#define MMU_REGISTERS_SIZE MMU_REGISTERS_SIZE_SHORT        /* The name that the short page's length had alone. */
#define MMU_REGISTER_COUNT_SHORT 33u                       /* Words of the short page, numbered 0 to 32. */
#define MMU_REGISTER_COUNT_LONG 49u                        /* Words of the long page, numbered 0 to 48. */
#define MMU_REGISTER_COUNT MMU_REGISTER_COUNT_SHORT        /* The name that the short page's number had alone. */
#define MMU_REGISTER_SDR1 0u                               /* Number of SDR1. */
#define MMU_REGISTER_SEGMENT(n) (1u + (n))                 /* Number of segment register n, 0 to 15. */
#define MMU_REGISTER_INSTRUCTION_UPPER(n) (17u + 2u * (n)) /* IBATnU: upper word of instruction pair n, 0 to 3 or 7. */
#define MMU_REGISTER_INSTRUCTION_LOWER(n) (18u + 2u * (n)) /* IBATnL: its lower word. */
#define MMU_REGISTER_DATA_UPPER(n) (25u + 2u * (n))        /* DBATnU of the short page: data pair n, 0 to 3. */
#define MMU_REGISTER_DATA_LOWER(n) (26u + 2u * (n))        /* DBATnL of the short page. */
#define MMU_REGISTER_DATA_UPPER_LONG(n) (33u + 2u * (n))   /* DBATnU of the long page: data pair n, 0 to 7. */
#define MMU_REGISTER_DATA_LOWER_LONG(n) (34u + 2u * (n))   /* DBATnL of the long page. */
#define MMU_REGISTER_OFFSET(number) (4u * (number))        /* Byte offset of a register word in either page. */
#define MMU_REGISTER_NONE 0xFFFFFFFFu                      /* No register word; mmu_set_register refuses it. */

/* SPR numbers of mtspr and mfspr: SDR1; IBAT0U, IBAT0L .. IBAT3L, DBAT0U .. DBAT3L in a row. */
#define MMU_SPR_SDR1 25u
#define MMU_SPR_IBAT0U 528u
#define MMU_SPR_DBAT0U 536u
#define MMU_SPR_DBAT3L 543u

/* Of later cores: IBAT4U, IBAT4L .. IBAT7L, DBAT4U .. DBAT7L in a row. */
#define MMU_SPR_IBAT4U 560u
#define MMU_SPR_DBAT4U 568u
#define MMU_SPR_DBAT7L 575u

/* SDR1 and segment register. */
#define MMU_SDR1_ORIGIN 0xFFFF0000u  /* Origin: the table's address, bits 0 to 15. */
#define MMU_SDR1_MASK 0x000001FFu    /* Mask: bits 23 to 31, ones only at the low end. */
#define MMU_SEGMENT_T 0x80000000u    /* T: direct-store segment, always refused. */
#define MMU_SEGMENT_KS 0x40000000u   /* Ks: the supervisor's key. */
#define MMU_SEGMENT_KP 0x20000000u   /* Kp: the user's key. */
#define MMU_SEGMENT_N 0x10000000u    /* N: no execute. */
#define MMU_SEGMENT_VSID 0x00FFFFFFu /* VSID: bits 8 to 31. */

/* Block words. */
#define MMU_BLOCK_BEPI 0xFFFE0000u    /* Upper word, BEPI: the block's effective start. */
#define MMU_BLOCK_BL 0x00001FFCu      /* Upper word, BL on the short page: the length, ones only at the low end. */
#define MMU_BLOCK_BL_LONG 0x0001FFFCu /* Upper word, BL on the long page: four bits more above it. */
#define MMU_BLOCK_VS 0x00000002u      /* Upper word, Vs: valid for the supervisor. */
#define MMU_BLOCK_VP 0x00000001u      /* Upper word, Vp: valid for the user. */
#define MMU_BLOCK_BRPN 0xFFFE0000u    /* Lower word, BRPN: the block's physical start. */
#define MMU_BLOCK_WIMG_SHIFT 3u       /* Lower word, WIMG: its place, bits 25 to 28. */
#define MMU_BLOCK_PP 0x00000003u      /* Lower word, PP: the protection. */

/*
 * BL, in its place in the upper word, of a block of so many bytes: a power of 2 from 128 KB to 256 MB, on the long page
 * to 4 GB. 4 GB does not fit in 32 bits: UINT64_C(0x100000000). A count that came to 0 in 32 bits is taken for it.
 */
#define MMU_BLOCK_BL_OF(bytes) ((uint32_t)((((uint64_t)(bytes) >> 17) - 1u) << 2) & MMU_BLOCK_BL_LONG)

/* ---- Table, groups (PTEGs) and entries (PTEs) -------------------------------------------------- */

#define MMU_TABLE_SIZE(sdr1) ((size_t)65536u * (((sdr1) & MMU_SDR1_MASK) + 1u)) /* Length of the table in bytes. */
#define MMU_GROUP_SIZE 64u    /* Length of a group in bytes; group g starts at byte 64 * g of the table. */
#define MMU_GROUP_ENTRIES 8u  /* Entries of a group. */
#define MMU_ENTRY_SIZE 8u     /* Length of an entry in bytes. */
#define MMU_ENTRY_FIRST 0u    /* Byte offset of an entry's first word. */
#define MMU_ENTRY_SECOND 4u   /* Byte offset of an entry's second word. */
/* Byte offset of an entry in the table, by the group's number and its own in the group, 0 to 7. */
#define MMU_ENTRY_OFFSET(group, entry) ((size_t)MMU_GROUP_SIZE * (group) + MMU_ENTRY_SIZE * (entry))

#define MMU_FIRST_V 0x80000000u    /* First word, V: the entry is valid. */
#define MMU_FIRST_VSID_SHIFT 7u    /* First word, VSID: its place, bits 1 to 24. */
#define MMU_FIRST_H 0x00000040u    /* First word, H: the entry stands in its secondary group. */
#define MMU_FIRST_API 0x0000003Fu  /* First word, API: the top six bits of the page index. */
#define MMU_SECOND_RPN 0xFFFFF000u /* Second word, RPN: the frame. */
#define MMU_SECOND_R 0x00000100u   /* Second word, R: the page was accessed. */
#define MMU_SECOND_C 0x00000080u   /* Second word, C: the page was changed. */
#define MMU_SECOND_WIMG_SHIFT 3u   /* Second word, WIMG: its place, bits 25 to 28. */
#define MMU_SECOND_PP 0x00000003u  /* Second word, PP: the protection. */

/* Unpacked fields: nine words. */
#define MMU_FIELDS_SIZE 36u /* Length of the unpacked fields in bytes. */
#define MMU_FIELD_V 0u      /* Byte offset of V, 0 or 1. */
#define MMU_FIELD_VSID 4u   /* Byte offset of VSID, below 2^24. */
#define MMU_FIELD_H 8u      /* Byte offset of H, 0 or 1. */
#define MMU_FIELD_API 12u   /* Byte offset of API, below 64. */
#define MMU_FIELD_RPN 16u   /* Byte offset of RPN, below 2^20. */
#define MMU_FIELD_R 20u     /* Byte offset of R, 0 or 1. */
#define MMU_FIELD_C 24u     /* Byte offset of C, 0 or 1. */
#define MMU_FIELD_WIMG 28u  /* Byte offset of WIMG, below 16. */
#define MMU_FIELD_PP 32u    /* Byte offset of PP, below 4. */

/* ---- Translation cache (TLB): 64 sets of two places --------------------------------------------- */

/*
 * The cache of mmu_access_cached and mmu_invalidate. Set s, of page indexes that end in the six bits s, has the bytes
 * from 32 * s on: place 0, then place 1, four words each, an entry's two words, the page index, and 1 for the newer
 * load, else 0. Zeros are an empty cache. Any bytes are taken, but only a cache that began as zeros, and that these two
 * calls alone wrote, keeps the promise of mmu_access_cached.
 */
#define MMU_CACHE_SIZE 2048u    /* Length of the cache in bytes. */
#define MMU_CACHE_SETS 64u      /* Sets of the cache: invalidates of 0 to 63 meet them all. */
#define MMU_CACHE_SET_SIZE 32u  /* Length of a set in bytes. */
#define MMU_CACHE_PLACE_SIZE 16u /* Length of a place in bytes. */
#define MMU_HIT_ENTRY 8u        /* The entry number in the answer where the cache answered: no entry was looked for. */

/* ---- Rights: three answers of an access and three words ------------------------------------------ */

/*
 * The answer of mmu_rights: the answers of a fetch, a load and a store of one byte, then for each the marks that it
 * would newly set in its entry, the sum of MMU_SECOND_R and MMU_SECOND_C: 0 where the access would leave every byte of
 * the table, as after each of the kind that was done before, and where it is not done or no page did it.
 */
#define MMU_RIGHTS_SIZE 156u                        /* Length of the answer of mmu_rights in bytes. */
#define MMU_RIGHTS_ANSWER(kind) (48u * (kind))      /* Byte offset of a kind's answer; mmu_read_answer reads it. */
#define MMU_RIGHTS_MARKS(kind) (144u + 4u * (kind)) /* Byte offset of the marks that this kind would newly set. */

/* ---- The thirteen calls ----------------------------------------------------------------------- */

/* Each returns MMU_DONE, a refusal or, an access alone, a fault. Of several refusals that hold, the first is told. */

/*
 * Check: whether a register page breaks a rule.
 *   registers  the register page, MMU_REGISTERS_SIZE_SHORT or MMU_REGISTERS_SIZE_LONG bytes
 * Refusals: MMU_REFUSED_LENT_LENGTH, MMU_REFUSED_SDR1, MMU_REFUSED_BLOCK, MMU_REFUSED_BLOCKS_SHARE,
 *   MMU_REFUSED_SEGMENT.
 */
uint32_t mmu_check(const uint8_t *registers, size_t registers_len);

/*
 * Replaces one register word where the new set breaks no rule.
 *   registers  the register page, MMU_REGISTERS_SIZE_SHORT or MMU_REGISTERS_SIZE_LONG bytes
 *   number     which word, below the page's MMU_REGISTER_COUNT_SHORT or MMU_REGISTER_COUNT_LONG: MMU_REGISTER_SDR1,
 *              MMU_REGISTER_SEGMENT(n) ..
 *   word       the new word
 * Refusals: MMU_REFUSED_LENT_LENGTH, MMU_REFUSED_ARGUMENT (number), then of the new set MMU_REFUSED_SDR1,
 *   MMU_REFUSED_BLOCK, MMU_REFUSED_BLOCKS_SHARE, MMU_REFUSED_SEGMENT.
 */
uint32_t mmu_set_register(uint8_t *registers, size_t registers_len, uint32_t number, uint32_t word);

/*
 * Clear: zeroes the table.
 *   sdr1   the word of SDR1
 *   table  the table, MMU_TABLE_SIZE(sdr1) bytes
 * Refusals: MMU_REFUSED_SDR1, MMU_REFUSED_TABLE_LENGTH.
 */
uint32_t mmu_clear(uint32_t sdr1, uint8_t *table, size_t table_len);

/*
 * Map: puts a page into the first entry with V = 0 in search order, R and C zero.
 *   sdr1        the word of SDR1
 *   vsid        the page's VSID, below 2^24
 *   page_index  the page within its segment, address bits 4 to 19, below 2^16
 *   rpn         its frame, below 2^20
 *   wimg        its attributes, below 16, not both W and I
 *   pp          its protection, below 4
 *   table       the table, MMU_TABLE_SIZE(sdr1) bytes
 * Refusals: MMU_REFUSED_ARGUMENT, MMU_REFUSED_SDR1, MMU_REFUSED_TABLE_LENGTH, MMU_REFUSED_MAPPED, MMU_REFUSED_FULL.
 */
uint32_t mmu_map(uint32_t sdr1, uint32_t vsid, uint32_t page_index, uint32_t rpn, uint32_t wimg, uint32_t pp,
                 uint8_t *table, size_t table_len);

/*
 * Unmap: zeroes every match of a page and answers the first match's second word, with R and C if any match had it.
 *   sdr1, vsid, page_index  as for mmu_map
 *   table                   the table, MMU_TABLE_SIZE(sdr1) bytes
 *   answer                  MMU_ANSWER_SIZE bytes, written
 * Refusals: MMU_REFUSED_LENT_LENGTH, MMU_REFUSED_ARGUMENT, MMU_REFUSED_SDR1, MMU_REFUSED_TABLE_LENGTH,
 *   MMU_REFUSED_NO_MATCH.
 */
uint32_t mmu_unmap(uint32_t sdr1, uint32_t vsid, uint32_t page_index, uint8_t *table, size_t table_len,
                   uint8_t *answer, size_t answer_len);

/*
 * Protect: puts PP into every match of a page.
 *   sdr1, vsid, page_index  as for mmu_map
 *   pp                      the new protection, below 4
 *   table                   the table, MMU_TABLE_SIZE(sdr1) bytes
 * Refusals: MMU_REFUSED_ARGUMENT, MMU_REFUSED_SDR1, MMU_REFUSED_TABLE_LENGTH, MMU_REFUSED_NO_MATCH.
 */
uint32_t mmu_protect(uint32_t sdr1, uint32_t vsid, uint32_t page_index, uint32_t pp, uint8_t *table, size_t table_len);

/*
 * Look: answers the second word of a page's first match and marks nothing.
 *   sdr1, vsid, page_index  as for mmu_map
 *   table                   the table, MMU_TABLE_SIZE(sdr1) bytes, only read
 *   answer                  MMU_ANSWER_SIZE bytes, written
 * Refusals: MMU_REFUSED_LENT_LENGTH, MMU_REFUSED_ARGUMENT, MMU_REFUSED_SDR1, MMU_REFUSED_TABLE_LENGTH, then
 *   MMU_REFUSED_CONTRADICTION or MMU_REFUSED_NO_MATCH.
 */
uint32_t mmu_look(uint32_t sdr1, uint32_t vsid, uint32_t page_index, const uint8_t *table, size_t table_len,
                  uint8_t *answer, size_t answer_len);

/*
 * Access: translates an operand of 1 to MMU_LONGEST_OPERAND bytes. Over a page edge it has two parts, each translated
 * by itself; the address after FFFFFFFF is 00000000. The first part that faults or is refused answers alone. Only where
 * every part is done are entries marked: each part that a page did sets R in its entry, and C too on a store. The
 * answer also has the rule that decided, with the block or the entry that it went by.
 *   registers  the register page, MMU_REGISTERS_SIZE_SHORT or MMU_REGISTERS_SIZE_LONG bytes
 *   mode       sum of MMU_MODE_PR, MMU_MODE_IR, MMU_MODE_DR
 *   kind       MMU_FETCH, MMU_LOAD or MMU_STORE
 *   address    the effective address of the operand's first byte
 *   length     how many bytes it has, for every kind of access; no alignment is asked for
 *   table      the table, MMU_TABLE_SIZE(SDR1 of the page) bytes, in real mode too
 *   answer     MMU_ACCESS_ANSWER_SIZE bytes, written; mmu_read_answer reads it
 * Faults: MMU_DATA_STORAGE_FAULT of a load or store, MMU_INSTRUCTION_STORAGE_FAULT of a fetch.
 * Refusals: MMU_REFUSED_LENT_LENGTH, MMU_REFUSED_ARGUMENT (mode, kind), MMU_REFUSED_OPERAND_LENGTH, MMU_REFUSED_SDR1,
 *   MMU_REFUSED_BLOCK, MMU_REFUSED_BLOCKS_SHARE, MMU_REFUSED_SEGMENT, MMU_REFUSED_TABLE_LENGTH,
 *   MMU_REFUSED_CONTRADICTION.
 */
uint32_t mmu_access(const uint8_t *registers, size_t registers_len, uint32_t mode, uint32_t kind, uint32_t address,
                    uint32_t length, uint8_t *table, size_t table_len, uint8_t *answer, size_t answer_len);

/*
 * Rights: tells what a fetch, a load and a store of one byte at an address would come to, and marks nothing. For each
 * kind the answer has the bytes that mmu_access of that kind with length 1 would write now, on the table as it is lent,
 * and the marks that it would newly set: what a TLB may keep, and what a debugger shows. A fault and contradicting
 * matches are told in the answer of their kind, and the call is done all the same.
 *   registers  the register page, MMU_REGISTERS_SIZE_SHORT or MMU_REGISTERS_SIZE_LONG bytes
 *   mode       sum of MMU_MODE_PR, MMU_MODE_IR, MMU_MODE_DR
 *   address    the effective address
 *   table      the table, MMU_TABLE_SIZE(SDR1 of the page) bytes, in real mode too; only read
 *   answer     MMU_RIGHTS_SIZE bytes, written; mmu_read_answer reads what is at MMU_RIGHTS_ANSWER(kind)
 * Refusals, those that the three accesses share; each of the three answers is then the refused access's, all marks 0:
 *   MMU_REFUSED_LENT_LENGTH (nothing is written), MMU_REFUSED_ARGUMENT (mode), MMU_REFUSED_SDR1, MMU_REFUSED_BLOCK,
 *   MMU_REFUSED_BLOCKS_SHARE, MMU_REFUSED_SEGMENT, MMU_REFUSED_TABLE_LENGTH.
 */
uint32_t mmu_rights(const uint8_t *registers, size_t registers_len, uint32_t mode, uint32_t address,
                    const uint8_t *table, size_t table_len, uint8_t *answer, size_t answer_len);

/*
 * Access with a translation cache: the access of mmu_access, but a page that the cache holds (V, VSID and page index,
 * place 0 first) is answered by the entry as loaded. Such a hit reads no byte of the table and writes none of table or
 * cache. A store to a loaded entry with C clear is no hit and goes to the table. Where every part is done, each page
 * that was taken from the table is loaded, its two words as marked: into the place that holds it, else into place 1
 * where place 0 alone has the newer load, else into place 0. It becomes the newer load. The answer is that of
 * mmu_access; after a hit its entry number is MMU_HIT_ENTRY and its group the one that the loaded H names.
 *   registers, mode, kind, address, length  as for mmu_access
 *   table      the table, MMU_TABLE_SIZE(SDR1 of the page) bytes, though every page may hit
 *   cache      the cache, MMU_CACHE_SIZE bytes, read and written
 *   answer     MMU_ACCESS_ANSWER_SIZE bytes, written; mmu_read_answer reads it
 * The promise: result, table and answer, but its entry number, are those of mmu_access, if the cache began as zeros and
 * is lent with this table alone, if each mmu_unmap and mmu_protect that was done is followed by mmu_invalidate of its
 * page index, and each mmu_clear by those of 0 to 63, all done, before the next access with the cache, and if nobody
 * else writes table or cache.
 * Faults: MMU_DATA_STORAGE_FAULT of a load or store, MMU_INSTRUCTION_STORAGE_FAULT of a fetch.
 * Refusals: MMU_REFUSED_LENT_LENGTH (the cache's too), MMU_REFUSED_ARGUMENT (mode, kind), MMU_REFUSED_OPERAND_LENGTH,
 *   MMU_REFUSED_SDR1, MMU_REFUSED_BLOCK, MMU_REFUSED_BLOCKS_SHARE, MMU_REFUSED_SEGMENT, MMU_REFUSED_TABLE_LENGTH,
 *   MMU_REFUSED_CONTRADICTION.
 */
uint32_t mmu_access_cached(const uint8_t *registers, size_t registers_len, uint32_t mode, uint32_t kind,
                           uint32_t address, uint32_t length, uint8_t *table, size_t table_len, uint8_t *cache,
                           size_t cache_len, uint8_t *answer, size_t answer_len);

/*
 * Invalidate: zeroes the set of a page index in the cache, both places, whatever pages they hold.
 *   page_index  below 2^16; its low six bits are the set's number
 *   cache       the cache, MMU_CACHE_SIZE bytes
 * Refusals: MMU_REFUSED_LENT_LENGTH, MMU_REFUSED_ARGUMENT.
 */
uint32_t mmu_invalidate(uint32_t page_index, uint8_t *cache, size_t cache_len);

/*
 * Packs nine fields into the two words of an entry; two zero words after MMU_REFUSED_ARGUMENT.
 *   v, h, r, c       0 or 1
 *   vsid, rpn        below 2^24, below 2^20
 *   api              the top six bits of the page index, below 64
 *   wimg, pp         below 16 (W and I may both be one), below 4
 *   entry            MMU_ENTRY_SIZE bytes, written
 * Refusals: MMU_REFUSED_LENT_LENGTH, MMU_REFUSED_ARGUMENT.
 */
uint32_t mmu_pack(uint32_t v, uint32_t vsid, uint32_t h, uint32_t api, uint32_t rpn, uint32_t r, uint32_t c,
                  uint32_t wimg, uint32_t pp, uint8_t *entry, size_t entry_len);

/*
 * Unpacks the two words of an entry into nine fields, at MMU_FIELD_V to MMU_FIELD_PP.
 *   first, second  the words, any bits
 *   fields         MMU_FIELDS_SIZE bytes, written
 * Refusal: MMU_REFUSED_LENT_LENGTH.
 */
uint32_t mmu_unpack(uint32_t first, uint32_t second, uint8_t *fields, size_t fields_len);

/* ---- For the caller's own use; C code, tested and not proved, not part of the archive ----------- */

/* The big-endian word at a byte offset. */
static inline uint32_t mmu_get_word(const uint8_t *bytes, size_t offset)
{
    return (uint32_t)bytes[offset] << 24 | (uint32_t)bytes[offset + 1] << 16 | (uint32_t)bytes[offset + 2] << 8
         | (uint32_t)bytes[offset + 3];
}

/* Stores a big-endian word at a byte offset. */
static inline void mmu_put_word(uint8_t *bytes, size_t offset, uint32_t word)
{
    bytes[offset] = (uint8_t)(word >> 24);
    bytes[offset + 1] = (uint8_t)(word >> 16);
    bytes[offset + 2] = (uint8_t)(word >> 8);
    bytes[offset + 3] = (uint8_t)word;
}

/*
 * The answer of an access as numbers; what its result does not have is 0. The last four say which rule decided: the
 * first part's where it is done, that of the part that faults after a fault, and nothing after a refusal.
 */
struct mmu_answer {
    uint32_t result;            /* The result number. */
    uint32_t physical;          /* Physical address, of an access that is done. */
    uint32_t attributes;        /* WIMG, of an access that is done. */
    uint32_t fault;             /* Fault word, for DSISR or SRR1, of a fault. */
    uint32_t offset;            /* Interrupt offset, of a fault. */
    uint32_t effective;         /* Effective address, of an access that is done or a fault. */
    uint32_t bytes;             /* Bytes of the operand that lie from `physical` on, of an access that is done. */
    uint32_t second_physical;   /* Physical address of the bytes after the page edge, where there is one. */
    uint32_t second_attributes; /* WIMG of those bytes. */
    uint32_t second_bytes;      /* How many they are; 0 where the operand lies within one page. */
    uint32_t rule;              /* MMU_RULE_.., of an access that is done or a fault. */
    uint32_t detail;            /* Rule 1: number of the block pair; rules 5 and 6: mmu_detail_key and mmu_detail_pp. */
    uint32_t group;             /* Rules 4 to 6: group of the entry used, which is at MMU_ENTRY_OFFSET(group, entry). */
    uint32_t entry;             /* Rules 4 to 6: its number in the group, or MMU_HIT_ENTRY. */
};

/* Reads the MMU_ACCESS_ANSWER_SIZE bytes that an access wrote; after MMU_REFUSED_LENT_LENGTH it wrote none. */
static inline struct mmu_answer mmu_read_answer(const uint8_t *answer)
{
    struct mmu_answer read;
    int done;
    read.result = mmu_get_word(answer, MMU_ANSWER_RESULT);
    done = read.result == MMU_DONE;
    read.physical = done ? mmu_get_word(answer, MMU_ANSWER_PHYSICAL) : 0u;
    read.attributes = done ? mmu_get_word(answer, MMU_ANSWER_ATTRIBUTES) : 0u;
    read.fault = done ? 0u : mmu_get_word(answer, MMU_ANSWER_FAULT);
    read.offset = done ? 0u : mmu_get_word(answer, MMU_ANSWER_OFFSET);
    read.effective = mmu_get_word(answer, MMU_ANSWER_EFFECTIVE);
    read.bytes = mmu_get_word(answer, MMU_ANSWER_BYTES);
    read.second_physical = mmu_get_word(answer, MMU_ANSWER_SECOND_PHYSICAL);
    read.second_attributes = mmu_get_word(answer, MMU_ANSWER_SECOND_ATTRIBUTES);
    read.second_bytes = mmu_get_word(answer, MMU_ANSWER_SECOND_BYTES);
    read.rule = mmu_get_word(answer, MMU_ANSWER_RULE);
    read.detail = mmu_get_word(answer, MMU_ANSWER_DETAIL);
    read.group = mmu_get_word(answer, MMU_ANSWER_GROUP);
    read.entry = mmu_get_word(answer, MMU_ANSWER_ENTRY);
    return read;
}

/* The key in the detail of MMU_RULE_PROTECTION and MMU_RULE_DONE: Ks for the supervisor, Kp for the user. */
static inline uint32_t mmu_detail_key(uint32_t detail)
{
    return detail >> 2;
}

/* The page's PP in the same detail. */
static inline uint32_t mmu_detail_pp(uint32_t detail)
{
    return detail & 3u;
}

/* A result number in words. */
static inline const char *mmu_result_name(uint32_t result)
{
    switch (result) {
    case MMU_DONE: return "done";
    case MMU_DATA_STORAGE_FAULT: return "data storage fault";
    case MMU_INSTRUCTION_STORAGE_FAULT: return "instruction storage fault";
    case MMU_REFUSED_TABLE_LENGTH: return "refused: table length wrong";
    case MMU_REFUSED_SDR1: return "refused: SDR1 shape";
    case MMU_REFUSED_BLOCK: return "refused: block shape";
    case MMU_REFUSED_BLOCKS_SHARE: return "refused: two blocks share an address";
    case MMU_REFUSED_SEGMENT: return "refused: segment register";
    case MMU_REFUSED_ARGUMENT: return "refused: argument out of range";
    case MMU_REFUSED_MAPPED: return "refused: page is mapped already";
    case MMU_REFUSED_NO_MATCH: return "refused: page has no match";
    case MMU_REFUSED_FULL: return "refused: both groups are full";
    case MMU_REFUSED_CONTRADICTION: return "refused: contradicting matches";
    case MMU_REFUSED_LENT_LENGTH: return "refused: lent length wrong";
    case MMU_REFUSED_OPERAND_LENGTH: return "refused: operand of 0 or over 128 bytes";
    default: return "unknown result";
    }
}

/* The cause in a fault word in words. */
static inline const char *mmu_cause_name(uint32_t fault)
{
    switch (fault & ~MMU_FAULT_STORE) {
    case MMU_FAULT_NO_MATCH: return "no match";
    case MMU_FAULT_NO_EXECUTE: return "no execute or guarded";
    case MMU_FAULT_PROTECTION: return "protection";
    default: return "unknown cause";
    }
}

/* A rule in words; of an access that was refused there is none to name. */
static inline const char *mmu_rule_name(uint32_t rule)
{
    switch (rule) {
    case MMU_RULE_REAL: return "real mode";
    case MMU_RULE_BLOCK: return "block";
    case MMU_RULE_NO_EXECUTE: return "no-execute";
    case MMU_RULE_NO_MATCH: return "no match";
    case MMU_RULE_GUARDED: return "guarded";
    case MMU_RULE_PROTECTION: return "page protection";
    case MMU_RULE_DONE: return "page done";
    default: return "unknown rule";
    }
}

/* The number of the short page's word that an SPR holds, MMU_REGISTER_NONE where it holds none. */
static inline uint32_t mmu_register_of_spr(uint32_t spr)
{
    if (spr == MMU_SPR_SDR1)
        return MMU_REGISTER_SDR1;
    if (spr >= MMU_SPR_IBAT0U && spr <= MMU_SPR_DBAT3L)
        return MMU_REGISTER_INSTRUCTION_UPPER(0u) + (spr - MMU_SPR_IBAT0U);
    return MMU_REGISTER_NONE;
}

/* The same of the long page, with the SPRs of pairs 4 to 7. */
static inline uint32_t mmu_register_of_spr_long(uint32_t spr)
{
    if (spr == MMU_SPR_SDR1)
        return MMU_REGISTER_SDR1;
    if (spr >= MMU_SPR_IBAT0U && spr < MMU_SPR_DBAT0U)
        return MMU_REGISTER_INSTRUCTION_UPPER(0u) + (spr - MMU_SPR_IBAT0U);
    if (spr >= MMU_SPR_DBAT0U && spr <= MMU_SPR_DBAT3L)
        return MMU_REGISTER_DATA_UPPER_LONG(0u) + (spr - MMU_SPR_DBAT0U);
    if (spr >= MMU_SPR_IBAT4U && spr < MMU_SPR_DBAT4U)
        return MMU_REGISTER_INSTRUCTION_UPPER(4u) + (spr - MMU_SPR_IBAT4U);
    if (spr >= MMU_SPR_DBAT4U && spr <= MMU_SPR_DBAT7L)
        return MMU_REGISTER_DATA_UPPER_LONG(4u) + (spr - MMU_SPR_DBAT4U);
    return MMU_REGISTER_NONE;
}

#ifdef __cplusplus
}
#endif

#endif
