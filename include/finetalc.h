/* finetalc: text in ISO/IEC 6937 and its relatives, from one form into another, sector by sector.
 *
 * A transcript is a record of numbers that the caller keeps. The library keeps nothing between
 * calls: a record needs no freeing, and may be copied or stored and gone on with later.
 *
 * Each call returns true where it succeeds. Where it returns false, answer->number says why, as
 * docs/REFUSALS.md of the sources, installed below share/doc/finetalc, lists it. A record is to be
 * changed by the calls alone. One whose numbers cannot be those of a transcript is refused with
 * 102; any other is taken as its numbers say, so not every change by something else is noticed.
 *
 * All pointers must be to valid memory, and none may be null, even where the length is 0. What one
 * call is given must not overlap. */
#ifndef FINETALC_H
#define FINETALC_H

#include <stdbool.h>
#include <stddef.h>
#include <stdint.h>

#ifdef __cplusplus
extern "C" {
#endif

/* The forms of text. Of the control characters all but UTF-8, which has them all, have tab, line
 * feed, form feed and carriage return. */
enum {
    FINETALC_ISO6937 = 1,             /* ISO/IEC 6937 in eight bits */
    FINETALC_ISO6937_7BIT = 2,        /* the same in seven bits, by single shifts */
    FINETALC_ISO6937_7BIT_PARITY = 3, /* the same with even parity */
    FINETALC_ISO8859_16 = 4,          /* ISO/IEC 8859-16 */
    FINETALC_SAMI = 5,                /* the Sami set, ISO-IR 209 */
    FINETALC_UTF8 = 6,                /* UTF-8 */
    /* of ISO/IEC 6937 only SPACE, A to Z, a to z, 0 to 9 and ' ( ) + , - . / : = ? */
    FINETALC_BASIC = 7
};

/* How many bytes a sector may have, and an output. */
enum { FINETALC_LONGEST_SECTOR = 4096, FINETALC_LONGEST_OUTPUT = 65536 };

/* What a call answers. A value that does not come with the number is 0. */
struct finetalc_answer {
    uint64_t offset;    /* where in the source, since the start, the fault is */
    size_t taken;       /* how many bytes of the sector an offer took */
    size_t written;     /* and how many bytes of the output it wrote */
    uint32_t character; /* 7: the code point that has no coding in the target */
    uint8_t number;     /* 0 after a call that succeeds; also where memory was wanting */
    /* 4: the number of the fault that stands; then all other values are those of that fault */
    uint8_t standing;
    /* 6: why the bytes are no character, 31 to 37; 7: why the target has no coding, 37 or 38 */
    uint8_t cause;
    uint8_t depth;      /* 6, 7: how many layers lie above the one that says so */
};

enum { FINETALC_OPEN = 0, FINETALC_FAULTED = 1, FINETALC_CLOSED = 2 };

/* What a transcript has come to since it was started. */
struct finetalc_progress {
    /* the fault that stands: its number is 6, 7 or 9; all 0 where none does */
    struct finetalc_answer fault;
    uint64_t taken; /* bytes */
    uint64_t characters;
    uint64_t written; /* bytes */
    size_t held;      /* bytes taken that begin a character: up to 3 */
    uint32_t state;   /* FINETALC_OPEN, FINETALC_FAULTED or FINETALC_CLOSED */
};

/* A transcript. To be read and copied, but changed by the calls alone. */
struct finetalc_transcript {
    struct finetalc_progress progress;
    uint8_t source; /* the forms */
    uint8_t target;
    uint8_t held_bytes[4]; /* with 0 behind them */
};

/* Opens a transcript from one form into another. Refused: 101, no form has that number. */
bool finetalc_open(uint32_t source, uint32_t target, struct finetalc_transcript *transcript,
                   struct finetalc_answer *answer);

/* Starts it again, and forgets all before. Refused: 102. */
bool finetalc_start(struct finetalc_transcript *transcript, struct finetalc_answer *answer);

/* Reads the held bytes and then the sector from the front, and writes each character behind the
 * one before. Refused: 1 to 8, 102, and 0 where memory is wanting (form 7 alone wants some). After
 * 8 the rest of the sector may be offered again, with another output. After 4 nothing was taken or
 * written. What was not written of the output stays as it was. */
bool finetalc_offer(struct finetalc_transcript *transcript, const uint8_t *sector,
                    size_t sector_length, uint8_t *output, size_t output_length,
                    struct finetalc_answer *answer);

/* Ends it. Refused: 4, 5, 102, 9 where the source ends in bytes that wait for more, 0 as above. */
bool finetalc_close(struct finetalc_transcript *transcript, struct finetalc_answer *answer);

/* Tells what it has come to, which also stands in transcript->progress. Refused: 102. */
bool finetalc_status(const struct finetalc_transcript *transcript,
                     struct finetalc_progress *progress, struct finetalc_answer *answer);

#ifdef __cplusplus
}
#endif

#endif
