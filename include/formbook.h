/*
 * formbook: whether every order that fits a row of our table fits a row of theirs.
 *
 * Link with libcompare.a (tools/staticlib writes it to target/staticlib/). The call allocates nothing, keeps nothing,
 * and reads and writes only what it is given. It takes less than 160 KiB of stack, and more where an order has brackets
 * in brackets to a great depth.
 */
#ifndef FORMBOOK_H
#define FORMBOOK_H

#include <stddef.h>
#include <stdint.h>

#ifdef __cplusplus
extern "C" {
#endif

/*
 * Compares row p of the table that `ours` spells with row q of the table that `theirs` spells. Both are row texts, of
 * at most 1,600 bytes each. Rows are counted from 0.
 *
 * t is 0 for theirs as they stand. With any other t theirs are turned: in and out change places in each of their
 * channel rows, so that what they receive is what we send.
 *
 * No pointer is null, even where its length is 0, and the buffer overlaps neither text.
 *
 * The result is 0 for yes: every order that fits row p of ours fits row q of theirs. Any other result is
 * code + 256 * layer + 65536 * place, and the functions below take it apart.
 *
 *   layer 0, code 1: no. The place is the length of a text at the buffer's start: an order that fits row p of ours and
 *       does not fit row q of theirs. It names channel rows by their numbers in the joined table, where row k of
 *       theirs has the number (rows of ours) + k. The rest of the buffer keeps what it had. A length may be 0: then
 *       the order is the empty document.
 *
 * With any other layer the question has a fault. The first one in this order is told, and the buffer keeps what it had:
 *
 *   layer 1: the text of ours is refused; layer 2: that of theirs.
 *       code 1: it has more than 1,600 bytes; place 0.
 *       code 2: a line is wrong; the place is 4 * line + field, of its first wrong field, both counted from 0.
 *       code 3: it has more lines than a table has rows; place 0.
 *   layer 3: the table of ours is not admitted; layer 4: that of theirs.
 *       code 11: it has no rows; place 0.
 *       code 12: a row has a number that is not that of a row; the place is the lowest such row.
 *       code 13: a row offers two inhabited element rows with a common label; the place is the lowest such row.
 *   layer 5, code 10: the tables have more rows together than one table has; place 0.
 *   layer 6, code 21: there is no such row to compare. Place 0: p is not below the number of our rows. Place 1: p is,
 *       and q is not below the number of theirs.
 *   layer 7, code 45: the answer is no, and the order's text is longer than the buffer, or than 32,768 bytes; place 0.
 */
uint64_t compare(const uint8_t *ours, size_t ours_length,
                 const uint8_t *theirs, size_t theirs_length,
                 uint64_t p, uint64_t q, uint64_t t,
                 uint8_t *buffer, size_t buffer_length);

#ifdef __cplusplus
}
#endif

/* The layers. */
enum formbook_layer {
    FORMBOOK_ANSWER = 0,      /* no fault: yes or no */
    FORMBOOK_OUR_TEXT = 1,    /* the text of ours is refused */
    FORMBOOK_THEIR_TEXT = 2,  /* the text of theirs is refused */
    FORMBOOK_OUR_TABLE = 3,   /* the table of ours is not admitted */
    FORMBOOK_THEIR_TABLE = 4, /* the table of theirs is not admitted */
    FORMBOOK_JOINING = 5,     /* the two tables cannot be joined */
    FORMBOOK_BOOK = 6,        /* there is no such row to compare */
    FORMBOOK_WRITING = 7      /* no, and the order's text is not written */
};

/* The codes, each with the layers that have it. */
enum formbook_code {
    FORMBOOK_YES = 0,             /* layer 0; the place is 0 too */
    FORMBOOK_NO = 1,              /* layer 0; the place is the length of the order's text */
    FORMBOOK_TEXT_TOO_LONG = 1,   /* layers 1 and 2 */
    FORMBOOK_WRONG_LINE = 2,      /* layers 1 and 2; the place is 4 * line + field */
    FORMBOOK_TOO_MANY_LINES = 3,  /* layers 1 and 2 */
    FORMBOOK_TOO_MANY_ROWS = 10,  /* layer 5 */
    FORMBOOK_NO_ROWS = 11,        /* layers 3 and 4 */
    FORMBOOK_NUMBER_OUTSIDE = 12, /* layers 3 and 4; the place is the row */
    FORMBOOK_LABEL_TWICE = 13,    /* layers 3 and 4; the place is the row */
    FORMBOOK_ROW_OUTSIDE = 21,    /* layer 6; the place is 1 if only q is outside */
    FORMBOOK_ORDER_TOO_LONG = 45  /* layer 7 */
};

/* The parts of a result. */
static inline unsigned formbook_code(uint64_t result) { return (unsigned)(result & 255); }
static inline unsigned formbook_layer(uint64_t result) { return (unsigned)(result >> 8 & 255); }
static inline uint64_t formbook_place(uint64_t result) { return result >> 16; }

/* Whether it is a yes, a no, or a fault: one of the three. */
static inline int formbook_is_yes(uint64_t result) { return result == 0; }
static inline int formbook_is_no(uint64_t result) {
    return formbook_layer(result) == FORMBOOK_ANSWER && formbook_code(result) == FORMBOOK_NO;
}
static inline int formbook_is_fault(uint64_t result) { return formbook_layer(result) != FORMBOOK_ANSWER; }

/* After a no: the length of the order's text at the buffer's start. */
static inline size_t formbook_order_length(uint64_t result) { return (size_t)formbook_place(result); }

/* After a wrong line: which one, and its first wrong field. */
static inline uint64_t formbook_line(uint64_t result) { return formbook_place(result) / 4; }
static inline unsigned formbook_field(uint64_t result) { return (unsigned)(formbook_place(result) % 4); }

#endif
