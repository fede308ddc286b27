/* Baranduk for C: rule tables, rule texts, acceptance, content models and the inclusion test.
 *
 * Link target/staticlib/libembed.a (`bindings/library`, x86-64 Linux). The functions need nothing but the C library's memcpy and
 * memset, keep nothing between two calls, and may be called from several threads at once.
 *
 * Every function is proved to take every input, to end, and to answer as its contract in crates/embed says. What is trusted is the
 * caller's side, which no function can check:
 *  - a pointer and its count stand for so many elements that can be read, and written where the pointer is not const; with a count of 0
 *    the pointer is not used, but must not be null;
 *  - a slice that is written overlaps no other slice of the same call, and nobody else touches the slices during the call;
 *  - 40 kilobytes of stack are free.
 * A null or dangling pointer, a count that is too large, or overlapping slices cannot be refused: what happens then is not known.
 *
 * A table is a symbol count, one mark a state (2 * sort + final) and four numbers a rule:
 *     0, symbol, 0, state     leaf rule
 *     1, left, right, state   join rule
 *     2, from, 0, to          epsilon rule
 * A tree is two numbers a node: symbol, BARANDUK_LEAF; or left node, right node, both earlier. The last node is the root.
 *
 * bindings/check-header holds this file to crates/embed_c/src/lib.rt, crates/embed/src/lib.rt and crates/paper/src/lib.rt. */
#ifndef BARANDUK_H
#define BARANDUK_H

#include <stddef.h>
#include <stdint.h>

#ifdef __cplusplus
extern "C" {
#endif

/* The limits of a table and a tree. */
#define BARANDUK_SYMBOLS 40
#define BARANDUK_STATES 60
#define BARANDUK_RULES 600
#define BARANDUK_NODES 3660
#define BARANDUK_LEAF 65535

/* The least sizes of slices that are written: marks, rule numbers, text bytes. A witness slice has at least
 * 2 * sender states * (receiver states + 1) numbers. */
#define BARANDUK_RULE_NUMBERS 2400
#define BARANDUK_TEXT 8192

/* The refusals. */
#define BARANDUK_ROOM 1           /* an output slice is too short */
#define BARANDUK_SHAPE 2          /* a line, a rule slice or a rule has no known shape */
#define BARANDUK_ORDER 3          /* the lines of a rule text are out of order, or it ends too soon */
#define BARANDUK_SIZE 4           /* too many symbols, states or rules, or no symbol */
#define BARANDUK_RANGE 5          /* a symbol, state, sort, final or mark is out of range */
#define BARANDUK_REPEAT 6         /* a rule equals an earlier one */
#define BARANDUK_LEFT_SIDE 7      /* receiver: a leaf or join rule has an earlier rule's left side */
#define BARANDUK_SORTS 8          /* receiver: a join rule breaks the sorts */
#define BARANDUK_REACHES 9        /* receiver: epsilon steps reach two states for one side of a join */
#define BARANDUK_SYMBOL_COUNTS 10 /* the symbol counts differ */
#define BARANDUK_WITNESS_ROOM 11  /* the witness slice is too short */
#define BARANDUK_TREE 12          /* the node list is no tree */
#define BARANDUK_MODEL_TEXT 13    /* the model text is malformed */
#define BARANDUK_AMBIGUOUS 14     /* a model is ambiguous */
#define BARANDUK_MODEL_STATES 15  /* the compiled table needs too many states */
#define BARANDUK_MODEL_RULES 16   /* the compiled table needs too many rules */

/* What is answered. number is 0 exactly if nothing is refused: then the values hold what the function says, 0 where it says nothing,
 * and side and place are 0. Otherwise number is the refusal, side is 1 (sender), 2 (receiver) or 0 (neither), and place is a line, rule,
 * state or node counted from 1, or 0 for the whole; the values are 0, and every slice is as it was before the call. */
struct baranduk_answer {
    uint16_t number;
    uint16_t side;
    size_t place;
    size_t first;
    size_t second;
    size_t third;
};

/* Reads a rule text: states' marks and rules' numbers stand at the fronts of the slices, the rest is unchanged.
 * marks has at least BARANDUK_STATES numbers, rules BARANDUK_RULE_NUMBERS. Values: symbols, states, rules. Refusals 1 to 6. */
struct baranduk_answer baranduk_read(const uint8_t *text, size_t text_len, uint16_t *marks, size_t marks_len,
                                     uint16_t *rules, size_t rules_len);

/* Writes a table as a rule text at the front of text, which has at least BARANDUK_TEXT bytes; the rest is unchanged.
 * Values: bytes. Refusals 4, 2, 5, 6, then 1. */
struct baranduk_answer baranduk_write(uint16_t symbols, const uint16_t *marks, size_t marks_len, const uint16_t *rules,
                                      size_t rules_len, uint8_t *text, size_t text_len);

/* Turns a model text into a table, into slices as baranduk_read's. Values: symbols, states, rules. Refusals 1, 13, 15, 14, 16. */
struct baranduk_answer baranduk_compile(const uint8_t *text, size_t text_len, uint16_t *marks, size_t marks_len,
                                        uint16_t *rules, size_t rules_len);

/* Checks a table. No values. Refusals 4, 2, 5, 6. */
struct baranduk_answer baranduk_check(uint16_t symbols, const uint16_t *marks, size_t marks_len, const uint16_t *rules,
                                      size_t rules_len);

/* Checks a table and that it can be a receiver's: deterministic and factorized. No values. Refusals 4, 2, 5, 6, then 7, 8, 9. */
struct baranduk_answer baranduk_check_receiver(uint16_t symbols, const uint16_t *marks, size_t marks_len,
                                               const uint16_t *rules, size_t rules_len);

/* Judges a tree by a table. Values: 1 if it is accepted, 0 if it is rejected. Refusals 4, 2, 5, 6, then 12. */
struct baranduk_answer baranduk_accept(uint16_t symbols, const uint16_t *marks, size_t marks_len, const uint16_t *rules,
                                       size_t rules_len, const uint16_t *nodes, size_t nodes_len);

/* Is every tree that the sender's table accepts accepted by the receiver's? Values: 0 if so, and witness is unchanged; otherwise the
 * count of nodes at the front of witness, a tree that the sender accepts and the receiver rejects, the rest being unchanged.
 * Refusals of the sender's table (side 1), of the receiver's (side 2), then 10, 11. */
struct baranduk_answer baranduk_include(uint16_t sender_symbols, const uint16_t *sender_marks, size_t sender_marks_len,
                                        const uint16_t *sender_rules, size_t sender_rules_len,
                                        uint16_t receiver_symbols, const uint16_t *receiver_marks,
                                        size_t receiver_marks_len, const uint16_t *receiver_rules,
                                        size_t receiver_rules_len, uint16_t *witness, size_t witness_len);

#ifdef __cplusplus
}
#endif

#endif
