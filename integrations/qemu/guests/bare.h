/* What the two programs without an operating system share. They stand in the firmware's place, at FFF00000. */
#define RESULTS 0x1000
#define SDR1 25
#define SRR1 27
#define IBAT0U 528
#define DBAT0U 536
#define DBAT2U 540
#define DBAT3U 542
#define TRANSLATE 0x30 /* MSR, IR and DR. */
#define END_WORD 0x600D

#define WORD(register, value) lis register, (value) >> 16; ori register, register, (value) & 0xFFFF
#define PAIR(upper_number, upper, lower) \
    WORD(3, lower); mtspr upper_number + 1, 3; WORD(3, upper); mtspr upper_number, 3
#define TRANSLATION_ON mfmsr 6; ori 6, 6, TRANSLATE; mtmsr 6; isync
#define TRANSLATION_OFF mfmsr 6; rlwinm 6, 6, 0, 28, 25; mtmsr 6; isync

/* The table at 00010000; fetches from this program by instruction block 0; data from 10000000 on by data block 0. */
#define PREPARE \
    WORD(29, 0x00010000); mtspr SDR1, 29; \
    PAIR(IBAT0U, 0xFFF00002, 0xFFF00002); PAIR(DBAT0U, 0x10000002, 0x00000002); \
    li 30, RESULTS

#define END li 3, END_WORD; stw 3, 0(30); 99: b 99b
