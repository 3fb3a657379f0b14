/*
 * Register words that the library refuses, while the accesses have nothing to do with them: each is refused all the
 * same, and QEMU's own code must answer it. After each the program loads a word of a new page, and keeps it from
 * RESULTS on.
 */
#include "bare.h"

/* Page n, from 8 on, has the word A0 + n at its start; register 31 is its address, and each load takes the next one. */
#define LOAD TRANSLATION_ON; lwz 8, 0(31); TRANSLATION_OFF; stw 8, 0(30); addi 30, 30, 4; addi 31, 31, 0x1000

        .org 0x100
        PREPARE
        li 3, 0
        li 4, 16
        mtctr 4
1:      li 5, 0
        mtsrin 5, 3 /* The segment register that the top four bits of an address name: VSID 0. */
        addis 3, 3, 0x1000
        bdnz 1b
        li 3, 0xA8
        WORD(4, 0x00008000)
        li 5, 8
        mtctr 5
2:      stw 3, 0(4)
        addi 3, 3, 1
        addi 4, 4, 0x1000
        bdnz 2b
        WORD(31, 0x10008000)

        LOAD
        /* Refusal 5: T in a segment that nobody uses, then one of its bits 4 to 7. */
        WORD(3, 0x80000000)
        mtsr 9, 3
        LOAD
        WORD(3, 0x01000000)
        mtsr 9, 3
        LOAD
        li 3, 0
        mtsr 9, 3
        /* Refusal 3: a gap in BL. Refusal 4: two data blocks alike. */
        PAIR(DBAT3U, 0xB0000016, 0x00000002)
        LOAD
        PAIR(DBAT3U, 0xB0000002, 0x00000002)
        PAIR(DBAT2U, 0xB0000002, 0x00000002)
        LOAD
        PAIR(DBAT2U, 0, 0)
        PAIR(DBAT3U, 0, 0)
        /* Refusal 2: a gap in SDR1's mask. */
        WORD(3, 0x00010005)
        mtspr SDR1, 3
        LOAD
        mtspr SDR1, 29
        LOAD
        END
