/*
 * zhavdurgon.h: a software AT88SC101 prepaid card, driven line by line.
 *
 * The caller keeps the whole card. Its lasting half is an image of 174 bytes
 * (bit a is in byte a / 8, the first bit of a byte being its most significant)
 * and a fuse byte; its volatile half is a ZhavVolatile. Both are handed in and
 * handed back. The library keeps nothing between calls: no globals, no heap, no
 * files, no locks. Every call is re-entrant, and calls on different cards may
 * run at the same time in any threads.
 *
 * Every pointer is non-null, also where the length beside it is 0. The buffers
 * of a call don't overlap, nor does the volatile half that zhav_step_at changes.
 * A length is that of the buffer, in bytes. Whatever else the caller passes, any
 * bytes, any words, any lengths, the call answers, and touches no byte outside
 * the buffers.
 *
 * A refused call gives a number of ZhavRefusal and changes nothing, but for a run
 * that ends in a refused step: the steps before it are done.
 *
 * What changed, newest first. The middle number goes up where an old caller would
 * break, the last one otherwise.
 *   0.1.1  zhav_reason: why a write would do nothing. zhav_version.
 *   0.1.0  The card, the step maker, the card file and the session.
 */

#ifndef ZHAVDURGON_H
#define ZHAVDURGON_H

#include <stddef.h>
#include <stdint.h>

#define ZHAV_VERSION_MAJOR 0
#define ZHAV_VERSION_MINOR 1
#define ZHAV_VERSION_PATCH 1
/* Major, minor and patch as one number, to be compared in #if. */
#define ZHAV_VERSION \
    (ZHAV_VERSION_MAJOR * 10000 + ZHAV_VERSION_MINOR * 100 + ZHAV_VERSION_PATCH)

#ifdef __cplusplus
extern "C" {
#endif

/* Bytes of the image, and the longest run. */
enum { ZHAV_IMAGE_BYTES = 174, ZHAV_MOST_STEPS = 4096 };

/* A step is a byte of line levels; a set bit is a high line. */
enum {
    ZHAV_VCC = 1,
    ZHAV_RST = 2,
    ZHAV_CLK = 4,
    ZHAV_PGM = 8,
    ZHAV_IO = 16, /* high: the host lets go of the line */
    ZHAV_FUS = 32
};

/* The fuse byte; a set bit is an unblown fuse. */
enum { ZHAV_MF = 1, ZHAV_EC_EN = 2, ZHAV_ISS = 4 };

/* The flags of the volatile half. */
enum {
    ZHAV_SV = 1,
    ZHAV_P1 = 2,
    ZHAV_R1 = 4,
    ZHAV_PROGRAMMING = 8,
    ZHAV_LATCH = 16, /* the data latched when CLK rose */
    ZHAV_E1 = 32,
    ZHAV_MATCH = 64 /* the code or key shown so far is right */
};

/* Why a call is refused. */
enum ZhavRefusal {
    ZHAV_ACCEPTED = 0,
    ZHAV_STEP_BYTE = 1,             /* a step byte over 63 */
    ZHAV_LINES_DIFFER = 2,          /* more than one line differs from the present ones */
    ZHAV_CHANGE_IN_PROGRAMMING = 3, /* RST or FUS changes in programming */
    ZHAV_CLK_FALLS_UNDER_PGM = 4,   /* CLK falls in programming with PGM high */
    ZHAV_RST_FALLS_UNDER_CLK = 5,   /* RST falls with CLK high */
    ZHAV_PGM_RISES_UNDER_CLK = 6,   /* PGM rises with CLK high */
    ZHAV_VCC_RISES = 7,             /* VCC rises with CLK or PGM high */
    ZHAV_STATE = 9,                 /* a made-up volatile half, see ZhavVolatile */
    ZHAV_MEMORY = 10,               /* the image isn't 174 bytes */
    ZHAV_FILE_SHORT = 11,           /* a file under 179 bytes */
    ZHAV_FIRST_COUNT = 12,          /* a file whose first count isn't 174 */
    ZHAV_SECOND_COUNT = 13,         /* a file whose second count isn't 1 */
    ZHAV_FUSES = 14,                /* a fuse byte over 7 */
    ZHAV_SESSION_SHORT = 15,        /* a session under 181 bytes */
    ZHAV_STEP_COUNT = 16,           /* a session whose count of steps is over 4,096 */
    ZHAV_FILE_LENGTH = 17,          /* a file whose length differs from its counts */
    ZHAV_RUN_LONG = 18,             /* a run of over 4,096 steps */
    ZHAV_ANSWERS_SHORT = 19,        /* a buffer for fewer answers than there are steps */
    ZHAV_WALK = 21,                 /* a walk over 1519 */
    ZHAV_BUFFER = 22,               /* a buffer too small for the steps of the act */
    ZHAV_NO_TRY = 23                /* no 1 in the byte of bits 96 to 103: no try left */
};

/*
 * The volatile half: line levels as in a step, the address 0 to 1519, the flags.
 * It is made up, and refused by 9, if
 *   - the line levels are over 63, the address over 1519 or the flags over 127;
 *   - VCC is off and the address or a flag is not 0;
 *   - the latch is set or programming is under way with CLK low;
 *   - VCC, CLK and PGM are high without programming;
 *   - match is set outside 81 to 103 and 1201 to 1359;
 *   - E1 is set outside 1232 to 1519.
 * No call hands back a made-up half that it was not given.
 */
typedef struct {
    uint32_t lines, address, flags;
} ZhavVolatile;

/* Both halves after a step, the pin (0, or 1: the line is released; 1 where
 * refused) and the refusal. */
typedef struct {
    ZhavVolatile half;
    uint8_t fuses, answer, refusal;
} ZhavStepped;

/* The same without the volatile half. */
typedef struct {
    uint8_t fuses, answer, refusal;
} ZhavTold;

/* Both halves after a run, the count of steps done, and the refusal. */
typedef struct {
    ZhavVolatile half;
    size_t done;
    uint8_t fuses, refusal;
} ZhavRan;

/* The flags, 0 or 1 each, all 0 where refused, and the refusal. */
typedef struct {
    uint8_t sv, p1, r1, e1, refusal;
} ZhavFlags;

/*
 * Why CLK's fall would change nothing by right: the first that holds, and what to do
 * about it.
 */
enum ZhavReason {
    ZHAV_RIGHT_IS_THERE = 0, /* the right is there: lower PGM, then CLK; a write on a 0,
                                an erase of 1s and a second blow of MF or EC_EN change
                                nothing all the same, and an erase in EC at level 2
                                erases AZ */
    ZHAV_NO_PROGRAMMING = 1, /* no programming under way: with VCC on and CLK low raise
                                PGM, set I/O (low writes, high erases), raise CLK, and
                                ask before it falls */
    ZHAV_NOTHING_STORED = 2, /* the address stores nothing: go elsewhere; 1424 to 1480
                                and 1482 to 1503 store nothing */
    ZHAV_WRONG_RST = 3,      /* RST at the wrong level: let CLK fall, then raise RST at a
                                fuse, lower it elsewhere and walk back, since its fall
                                goes to address 0 */
    ZHAV_NEVER_ALLOWED = 4,  /* never allowed for this zone at this level: no flag helps;
                                level 1 (FUS high, ISS unblown) allows it, but not in FZ,
                                nor the erase of a fuse; at level 2 AZ is erased in EC,
                                with EC_EN blown at 1232 only */
    ZHAV_SV_MISSING = 5,     /* SV missing: open the card first */
    ZHAV_P1_MISSING = 6,     /* P1 missing: bit 176 was 0 on arrival; erase it, at level
                                1 or by an erase in EC, then reset and arrive at 176
                                again */
    ZHAV_E1_MISSING = 7,     /* E1 missing: open, then show the erase key at 1200 to 1231
                                at level 2 and, with EC_EN unblown, write a 1 of EC to 0,
                                all without passing address 0 */
    ZHAV_MF_BLOWN = 8,       /* MF blown: for good, MFZ stays as it is */
    ZHAV_ISS_BLOWN = 9,      /* ISS blown: for good, the block word does nothing any
                                more, and no fuse can be blown */
    ZHAV_FUS_LOW = 10,       /* FUS low: let CLK fall, then raise FUS and start again */
    ZHAV_UNANSWERED = 255    /* no reason: the call was refused */
};

/* The reason, ZHAV_UNANSWERED where refused, and the refusal. */
typedef struct {
    uint8_t reason, refusal;
} ZhavWhy;

/* The count of steps written, 0 where refused, and the refusal. */
typedef struct {
    size_t count;
    uint8_t refusal;
} ZhavMade;

/* The fuse byte of a card file, 0 where refused, and the refusal. */
typedef struct {
    uint8_t fuses, refusal;
} ZhavCard;

/* Where in the session its steps start and how many they are, the fuse byte, all
 * 0 where refused, and the refusal. */
typedef struct {
    size_t first, steps;
    uint8_t fuses, refusal;
} ZhavSession;

/* The library's own ZHAV_VERSION, to be compared with this header's. Never refused. */
uint32_t zhav_version(void);

/* The volatile half of a fresh card: all lines low. Never refused. */
ZhavVolatile zhav_fresh(void);

/*
 * One step of the card. Refused, in this order, by 10, 14, 9 and 1 to 7.
 */
ZhavStepped zhav_step(uint8_t *image, size_t image_len, uint8_t fuses, ZhavVolatile v,
                      uint8_t n);

/*
 * One step that changes the volatile half where it stands; else as zhav_step. The
 * fuse byte is handed back: a step can blow a fuse, so the caller stores it.
 */
ZhavTold zhav_step_at(uint8_t *image, size_t image_len, uint8_t fuses, ZhavVolatile *v,
                      uint8_t n);

/*
 * Steps up to the first refused one, with one answer byte, 0 or 1, for each done;
 * the rest of the answers keeps its bytes. Refused before any step, in this
 * order, by 10, 14, 9, 18 and 19: the count is then 0. Ended by 1 to 7: the steps
 * before it are done. A longer waveform goes on by handing both halves to the
 * next run.
 */
ZhavRan zhav_run(uint8_t *image, size_t image_len, uint8_t fuses, ZhavVolatile v,
                 const uint8_t *steps, size_t steps_len, uint8_t *answers,
                 size_t answers_len);

/* SV, P1, R1 and E1, which no pin shows. Refused by 9. */
ZhavFlags zhav_flags(ZhavVolatile v);

/* The tries left: the 1s in bits 96 to 103, 0 to 8; 0 for an image of under 13
 * bytes. Never refused. */
uint32_t zhav_tries_left(const uint8_t *image, size_t image_len);

/*
 * Why CLK's fall would change nothing by right, or that the right is there: a
 * ZhavReason. PGM is taken as low already; while it is high CLK's fall itself is
 * refused, by 4. Ask while programming is under way, after CLK has risen and before
 * it falls: afterwards it is always ZHAV_NO_PROGRAMMING. RST and FUS can't change
 * then (3), so what they lack is mended after CLK's fall. The image is not changed.
 * Refused, in this order, by 10, 14 and 9.
 */
ZhavWhy zhav_reason(const uint8_t *image, size_t image_len, uint8_t fuses, ZhavVolatile v);

/*
 * The steps of a reader's usual acts, from idle (VCC on, RST, CLK and PGM low, I/O
 * 1) back to idle, FUS kept; bytes behind the count stay. fus is FUS's level and
 * d the data: 0 is low, anything else high. Each is refused by 22 if out is too
 * small.
 */

/* RST up, down: address 0. 2 steps. */
ZhavMade zhav_reset(uint8_t fus, uint8_t *out, size_t out_len);

/* On by n addresses. 2n steps. Refused by 21 before 22. */
ZhavMade zhav_walk(uint8_t fus, size_t n, uint8_t *out, size_t out_len);

/* Shows the 16 bits of a code, the most significant first. 49 steps. */
ZhavMade zhav_show16(uint8_t fus, uint16_t code, uint8_t *out, size_t out_len);

/* Shows the 32 bits of a key, the most significant first. 97 steps. */
ZhavMade zhav_show32(uint8_t fus, uint32_t key, uint8_t *out, size_t out_len);

/* Erases where d is high, writes where it is low. 6 steps. */
ZhavMade zhav_program(uint8_t fus, uint8_t d, uint8_t *out, size_t out_len);

/* Writes with RST high, as a fuse is blown. 8 steps. */
ZhavMade zhav_blow(uint8_t fus, uint8_t *out, size_t out_len);

/*
 * Opens a card with its code and its byte of bits 96 to 103 (byte 12 of the
 * image): reset, walk to 80, show the code, walk on to the first 1 of that byte,
 * write, erase. 223 steps and 2 for every 0 before that 1. Refused by 23
 * before 22.
 */
ZhavMade zhav_open(uint8_t fus, uint16_t code, uint8_t attempts, uint8_t *out,
                   size_t out_len);

/*
 * A file has sections, each after its count of two bytes, low first: memory, 174;
 * fuses, 1; in a session also steps, 0 to 4,096. Accepted, memory holds the
 * memory section.
 */

/* Refused, in this order, by 10 (memory_len), 11, 12, 13, 14 and 17. */
ZhavCard zhav_open_card(const uint8_t *file, size_t file_len, uint8_t *memory,
                        size_t memory_len);

/* Refused, in this order, by 10 (memory_len), 11 to 17. */
ZhavSession zhav_open_session(const uint8_t *file, size_t file_len, uint8_t *memory,
                              size_t memory_len);

#ifdef __cplusplus
}
#endif

#endif
