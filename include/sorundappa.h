/* The book of one trading day, as a program in C links it: libcabinet.a. Every function is proved for every input
 * (docs/PROMISES.md): whatever counters, numbers and bytes arrive, none counts on its caller for a check.
 *
 * As everywhere in C, each pointer is good for the length beside it, or for the array that is declared. Two things more the library
 * demands, which C does not: a pointer is never null, also where the length beside it is 0 (no room at all is the address of anything
 * and 0, not NULL and 0); and a piece that a call writes overlaps nothing else that the call is lent.
 *
 * The caller owns all memory: six words of counters, and two runs of bytes for rows and lines. Nothing is allocated, nothing is
 * kept between calls, and no byte outside what was lent is read or written.
 */
#ifndef SORUNDAPPA_H
#define SORUNDAPPA_H

#include <stddef.h>
#include <stdint.h>

#ifdef __cplusplus
extern "C" {
#endif

/* Answers, by their numbers in docs/FORMAT.md, which has the layouts and all rules too. 17 goes first; otherwise the lowest from 1 up
 * that applies is given. */
enum sorundappa_answer {
    SORUNDAPPA_DONE = 0,
    SORUNDAPPA_NUMBER_OUTSIDE = 1,  /* the number is 0 or above 4,294,967,295 */
    SORUNDAPPA_NUMBER_BELOW = 2,    /* the number is below the wanted one */
    SORUNDAPPA_NUMBER_ABOVE = 3,    /* the number is above the wanted one */
    SORUNDAPPA_NO_TYPE = 4,         /* no such type in the edition, or not its length */
    SORUNDAPPA_FIELD_BROKEN = 5,    /* a field breaks its rule */
    SORUNDAPPA_NOT_DUE = 6,         /* the event or message is not due in this phase */
    SORUNDAPPA_NOT_LISTED = 7,      /* the symbol is not on the sheet */
    SORUNDAPPA_NO_LINE = 8,         /* X, C: no line bears the original's key */
    SORUNDAPPA_LINE_DEAD = 9,       /* X, C: that line is dead */
    SORUNDAPPA_LINE_DIFFERS = 10,   /* X, C: symbol, price, size or condition differs from that line */
    SORUNDAPPA_KEY_USED = 11,       /* T, C: the new key is on a line already */
    SORUNDAPPA_LINES_FULL = 12,     /* T, C: every line is used */
    SORUNDAPPA_LISTING_BROKEN = 13, /* listing: symbol or close breaks its rule */
    SORUNDAPPA_LISTING_LATE = 14,   /* listing: a number was used up already */
    SORUNDAPPA_LISTED_ALREADY = 15, /* listing: the symbol is on the sheet already */
    SORUNDAPPA_ROWS_FULL = 16,      /* listing: every row is used */
    SORUNDAPPA_UNSOUND = 17,        /* the book is unsound, or the words are no book's */
    SORUNDAPPA_NO_SPACE = 18        /* writer: the lent space is shorter than the message */
};

/* The editions of the feed: which layouts messages have. A book is started for one, and reads its messages by no other. */
enum sorundappa_edition {
    SORUNDAPPA_NLS_PLUS = 0, /* NLS Plus 2.0, in binary: S, T, X, C and J */
    SORUNDAPPA_PLS = 1       /* PLS 1.1, in ASCII: S, T, X and C, without a consolidated volume */
};

/* The words of a book's counters. A phase is 0 before any event was taken, then 1 to 6 for O S Q M E C. The edition stays what the book was
 * started with. The book is unsound, answer 17, if the wanted number is 0 or above 4,294,967,296, the phase above 6, more rows or lines are
 * used than the rooms that are lent hold (whole cells only, and at most 256 and 65,536), or as many messages are taken as the wanted number
 * or more. Where the last word is neither 0 nor 1, the words are no book's: every call on them answers 17 too, and nothing changes. */
enum sorundappa_counter {
    SORUNDAPPA_WANTED,
    SORUNDAPPA_PHASE,
    SORUNDAPPA_ROWS,
    SORUNDAPPA_LINES,
    SORUNDAPPA_TAKEN,
    SORUNDAPPA_EDITION
};

/* The words of a row. A HAS word is 1 where the figure behind it is there, and 0, with a figure of 0, where it is absent. Prices
 * are in ten-thousandths. Last, high, low, volume and count are over the live lines of the symbol only. */
enum sorundappa_figure {
    SORUNDAPPA_SYMBOL, /* its eight bytes as one number, the first the highest */
    SORUNDAPPA_CLOSE,  /* the adjusted previous close, 0 if it is unknown */
    SORUNDAPPA_HAS_LAST,
    SORUNDAPPA_LAST,
    SORUNDAPPA_HAS_HIGH,
    SORUNDAPPA_HIGH,
    SORUNDAPPA_HAS_LOW,
    SORUNDAPPA_LOW,
    SORUNDAPPA_HAS_NET, /* 0 where there is no last or the close is 0 */
    SORUNDAPPA_NET,     /* last less close, an int64_t's bits */
    SORUNDAPPA_VOLUME,  /* the sum of the sizes of the live lines */
    SORUNDAPPA_COUNT,   /* how many live lines there are */
    SORUNDAPPA_AGREES,  /* 1 if a J was taken and the latest one's high and low are the row's, an absent one counting as 0; otherwise 0 */
    SORUNDAPPA_HAS_REPORTED,
    SORUNDAPPA_REPORTED /* the consolidated volume that a taken T, X, C or J of NLS Plus reported last */
};

/* Where each field stands in a record's bytes; numbers are big-endian, a field that the type lacks in its edition is zero. A trade is
 * control 10, price 4, size 4, condition 4. */
enum sorundappa_field {
    SORUNDAPPA_LETTER_AT = 0,
    SORUNDAPPA_TIME_AT = 1,
    SORUNDAPPA_EVENT_AT = 5,
    SORUNDAPPA_CENTRE_AT = 6,
    SORUNDAPPA_SYMBOL_AT = 7,
    SORUNDAPPA_CLASS_AT = 15,
    SORUNDAPPA_SALE_AT = 16, /* T's trade; in X and C what names the original */
    SORUNDAPPA_NEW_AT = 38,  /* C's new trade */
    SORUNDAPPA_HIGH_AT = 60,
    SORUNDAPPA_LOW_AT = 64,
    SORUNDAPPA_CLOSE_AT = 68,
    SORUNDAPPA_CONSOLIDATED_AT = 72
};

/* What sorundappa_size can be asked; below, in the same order, the values that this header was written for. */
enum sorundappa_which {
    SORUNDAPPA_SIZE_ROW,
    SORUNDAPPA_SIZE_ROWS,
    SORUNDAPPA_SIZE_LINE,
    SORUNDAPPA_SIZE_LINES,
    SORUNDAPPA_SIZE_MESSAGE,
    SORUNDAPPA_SIZE_RECORD,
    SORUNDAPPA_SIZE_COUNTERS,
    SORUNDAPPA_SIZE_FIGURES,
    SORUNDAPPA_SIZE_S,
    SORUNDAPPA_SIZE_T,
    SORUNDAPPA_SIZE_X,
    SORUNDAPPA_SIZE_C,
    SORUNDAPPA_SIZE_J,
    SORUNDAPPA_SIZE_PLS_S,
    SORUNDAPPA_SIZE_PLS_T,
    SORUNDAPPA_SIZE_PLS_X,
    SORUNDAPPA_SIZE_PLS_C
};
#define SORUNDAPPA_ROW_BYTES 30       /* of a row's cell */
#define SORUNDAPPA_MOST_ROWS 256
#define SORUNDAPPA_LINE_BYTES 40      /* of a line's cell */
#define SORUNDAPPA_MOST_LINES 65536
#define SORUNDAPPA_LONGEST_MESSAGE 85
#define SORUNDAPPA_RECORD 80          /* bytes of a record */
#define SORUNDAPPA_COUNTERS 6         /* words of a book's counters */
#define SORUNDAPPA_FIGURES 15         /* words of a row */
#define SORUNDAPPA_S_BYTES 6          /* of a message of type S of NLS Plus, and so on */
#define SORUNDAPPA_T_BYTES 45
#define SORUNDAPPA_X_BYTES 45
#define SORUNDAPPA_C_BYTES 67
#define SORUNDAPPA_J_BYTES 34
#define SORUNDAPPA_PLS_S_BYTES 10     /* of a message of type S of PLS, and so on */
#define SORUNDAPPA_PLS_T_BYTES 52
#define SORUNDAPPA_PLS_X_BYTES 52
#define SORUNDAPPA_PLS_C_BYTES 85

/* Makes the counters those of a fresh book of an edition; of a number that is no edition's, words that are no book's. What stands in the
 * rooms is not read until it is written. */
void sorundappa_start(uint64_t counters[SORUNDAPPA_COUNTERS], uint64_t edition);

/* Lists a symbol with its adjusted previous close. A symbol is one or more bytes 33 to 126, then spaces to the end: one that is
 * padded with NUL gets 13. A close is at most 2,000,000,000, and an unknown one is given as 0. Answers 0, and a row was added at the
 * end, no J taken and nothing reported; or 13 to 17, and nothing changed. */
uint8_t sorundappa_list(uint64_t counters[SORUNDAPPA_COUNTERS], uint8_t *rows, size_t rows_bytes, const uint8_t *lines,
                        size_t lines_bytes, const uint8_t symbol[8], uint32_t close);

/* Delivers a message under its number. Answers 0, and the message was taken; 1, 2, 3 or 17, and nothing changed; or 4 to 12, and the
 * number was used up and nothing else changed. */
uint8_t sorundappa_deliver(uint64_t counters[SORUNDAPPA_COUNTERS], uint8_t *rows, size_t rows_bytes, uint8_t *lines,
                           size_t lines_bytes, uint64_t number, const uint8_t *message, size_t message_bytes);

/* Reads the row of a symbol, which is searched for byte for byte. Answers 0; or 7 or 17, and every word is 0. */
uint8_t sorundappa_row(const uint64_t counters[SORUNDAPPA_COUNTERS], const uint8_t *rows, size_t rows_bytes, const uint8_t *lines,
                       size_t lines_bytes, const uint8_t symbol[8], uint64_t row[SORUNDAPPA_FIGURES]);

/* Reads a message alone, by an edition. Answers 0; or 4 or 5, and every byte of the record is 0. A number that is no edition's gets 4. */
uint8_t sorundappa_read(uint64_t edition, const uint8_t *message, size_t message_bytes, uint8_t record[SORUNDAPPA_RECORD]);

/* Writes a record's message by an edition to the front of out. Answers 0, and the bytes past the message stay as they were; or 5 or 18,
 * and all of out stays as it was. Where both apply it is 5. A number that is no edition's gets 5. By PLS the
 * record of a message that was read always comes back; its bytes do where they are in the form that is written, which has no digit more
 * than the number has, or, of a price, than four. */
uint8_t sorundappa_write(uint64_t edition, const uint8_t record[SORUNDAPPA_RECORD], uint8_t *out, size_t out_bytes);

/* One of the seventeen sizes above, as the linked library has it; 0 for any other which. */
uint64_t sorundappa_size(uint64_t which);

#ifdef __cplusplus
}
#endif

#endif
