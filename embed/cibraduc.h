/* The scorer for programs in C and C++: from the bytes of a rally log to the bytes of its score sheet.
 *
 * docs/RULES.md explains the log file, the sheet and the refusals, in sections 9, 10 and 12. The library is
 * crates/embed/out/libembed.a, which `rt lib` makes in crates/embed, for x86-64 and the System V ABI. It has no heap and no
 * input or output, and keeps nothing between calls, so threads may call it at the same time. */
#ifndef CIBRADUC_H
#define CIBRADUC_H

#include <stddef.h>
#include <stdint.h>

#ifdef __cplusplus
extern "C" {
#endif

/* The faults. */
enum {
    CIBRADUC_NO_FAULT = 0,         /* the sheet was written */
    CIBRADUC_NO_FREE_PLACE = 9,    /* more than CIBRADUC_MOST_ENTRIES entries */
    CIBRADUC_BYTES_MISSING = 11,   /* the log is empty, or ends inside a record */
    CIBRADUC_WRONG_KIND = 12,      /* the first record is not M, or a later one neither P nor L */
    CIBRADUC_WRONG_FIELD = 13,     /* a format code above 7, or a side that is neither A nor B */
    CIBRADUC_POINT_AFTER_END = 14, /* a point after the end of the match */
    CIBRADUC_DOES_NOT_FIT = 15     /* the sheet is longer than the bytes lent for it */
};

/* The limits. A match of the eight formats has at most 71 closings, so fault 9 comes from the entries alone. */
enum {
    CIBRADUC_MOST_ENTRIES = 30000, /* points and lets of a log */
    CIBRADUC_MOST_CLOSINGS = 4000  /* games, sets and matches won, each a line of the sheet */
};

typedef struct cibraduc_answer {
    size_t length;  /* bytes of the sheet; 0 where there is a fault */
    size_t place;   /* of faults 9, 11, 12 and 13 the offset in the log, from 0, of the record's first byte; of fault 14
                       the index, from 0, of the entry; otherwise 0 */
    uint8_t fault;  /* CIBRADUC_NO_FAULT, or the number of the refusal */
    uint8_t winner; /* 'A' or 'B'; 0 for nobody yet, and where there is a fault */
} cibraduc_answer;

/* Writes the sheet of the log over the first `length` of the lent bytes, without a 0 behind it. The bytes past these are
 * not changed, and after a fault none is. The log is only read.
 *
 * Neither pointer may be null, also where its length is 0, and the two ranges must not overlap. 2,048 bytes are enough
 * for any sheet. The call needs about 100 KB of stack. */
cibraduc_answer cibraduc_sheet(const uint8_t *log, size_t log_length, uint8_t *sheet, size_t sheet_length);

#ifdef __cplusplus
}
#endif

#endif
