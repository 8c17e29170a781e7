/* Object rest and spread, lowered from tree bytes to tree bytes: the functions of librest_spread.a, one of libcounting.a,
 * two of libdrawing.a, one of libjoining.a, one of libordering.a, one of libprinter.a and one of libresult.a.
 *
 * The archives are made by `tools/archives`, are for x86-64 Linux, and can be linked together. They need memcpy, memmove
 * and memset of the C library and nothing else: they allocate nothing, keep nothing between calls, and read and write no
 * file.
 *
 * Trees and lists are described in docs/FORMAT.md, lower.c is a whole program. */
#ifndef REST_SPREAD_H
#define REST_SPREAD_H

#include <stddef.h>
#include <stdint.h>

#ifdef __cplusplus
extern "C" {
#endif

/* The version of what is promised below. Compare it with rest_spread_version() before the first call: an archive of another
 * version may be linked and then do something else. An archive from before there were versions does not link. */
#define REST_SPREAD_VERSION 4

/* The longest tree that is read. */
#define REST_SPREAD_TREE_IN 16384

/* The highest depth limit, and the one where none is named. The Program is at level 1, a node in a field of another one
 * below it. */
#define REST_SPREAD_LEVELS 128

/* The longest tree and list that are written, and the work that a call needs, in bytes. */
#define REST_SPREAD_TREE_OUT 32768
#define REST_SPREAD_LIST_OUT 16384
#define REST_SPREAD_WORK 65536

/* Options, to be added up. None is implemented: they are reported back and change nothing else. 8 may be set and does
 * nothing: that option is retired. */
#define REST_SPREAD_LOOSE 1
#define REST_SPREAD_USE_BUILT_INS 2
#define REST_SPREAD_OBJECT_REST_NO_SYMBOLS 4

/* Bits of the helper mask. A Helper node (kind 21) in the tree has the number of the bit, from 1. The functions
 * themselves are in helpers/helpers.js. */
#define REST_SPREAD_OBJECT_SPREAD_2 1
#define REST_SPREAD_EXTENDS 2
#define REST_SPREAD_OBJECT_DESTRUCTURING_EMPTY 4
#define REST_SPREAD_OBJECT_WITHOUT_PROPERTIES 8
#define REST_SPREAD_TO_PROPERTY_KEY 16

/* Answers. Each refusal is given exactly if what stands beside it holds, and no refusal that comes before it is due. */
#define REST_SPREAD_LOWERED 0
/* options above 15 */
#define REST_SPREAD_UNKNOWN_OPTIONS 1
/* work_len below 65,536 */
#define REST_SPREAD_SHORT_WORK 2
/* tree_len above 16,384, which is looked at first; or the bytes are no tree, by the rules of docs/FORMAT.md */
#define REST_SPREAD_NOT_A_TREE 3
/* a node deeper than the limit. Of 3 and 4 the one that is met first in byte order is given, at one byte 3 */
#define REST_SPREAD_TOO_DEEP 4
/* an assignment, or the head of a for loop, whose target has an array rest with an object rest below it, as in
 * [...[{...a}]] = b */
#define REST_SPREAD_REST_BELOW_ARRAY_REST 5
/* an object whose rest is taken has a key that is a Literal without its form, as in var {[/q/]: a, ...r} = s, and no number
 * whose string is worked out. Of 5, 6 and 11 the one that the walk meets first is given, 5 before the keys of its target */
#define REST_SPREAD_KEY_WITHOUT_FORM 6
/* the lowered tree is longer than 32,768 bytes or than tree_out_len, or the list longer than 16,384 or than list_out_len */
#define REST_SPREAD_TOO_LONG 7
/* a depth limit of 0 or above 128, which is looked at before all else */
#define REST_SPREAD_LIMIT_OUTSIDE 9
/* an object whose rest is taken has a key that is a number, and its form is not the string of that number: decimal digits
 * without a leading zero, 0, or 0x and hexadecimal digits, up to 9,007,199,254,740,991 */
#define REST_SPREAD_OTHER_FORM 11

struct rest_spread_lowered {
    uint8_t answer;  /* 0, or the number of the refusal; at a refusal all else is 0 */
    uint8_t helpers; /* the helpers that the written tree calls */
    uint8_t options; /* those of the given options that are in force: 1, 2 and 4 */
    size_t tree_len; /* the bytes of tree_out that are the tree */
    size_t list_len; /* the bytes of list_out that are the list */
};

/* The version of the archive. It is REST_SPREAD_VERSION where header and archive belong together. */
uint32_t rest_spread_version(void);

/* Lowers a tree. The depth limit is 128.
 *
 * What the caller owes
 *   Each pointer is that of an array of so many bytes and not NULL, not even for a length of 0.
 *   The four arrays do not overlap, and nobody else writes them during the call.
 *   The stack has room for the call: every call takes some 50 KB, 32 of them for the notes of a tree; of the deepest trees
 *   that were tried none takes more than 0.7 MB, and a thread with 1 MB will do. Within a limit of 64 levels it is half of
 *   that.
 *   Nothing is asked of the limit, of the options, of the lengths, of what the bytes of tree are, or of what the others
 *   held before.
 *
 * What the caller gets, for every input
 *   The call ends. It reads tree and nothing else, and writes tree_out, list_out and work and nothing else.
 *   The answer is 0 to 7, 9 or 11, by the table above, and depends on the arguments alone.
 *   If it is 0, tree_out begins with the lowered tree, which has tree_len bytes, and list_out with its list, which has
 *   list_len; all bytes behind them are zero; helpers and options say what they say above.
 *   If it is not, tree_len, list_len, helpers and options are 0, and all bytes of tree_out and list_out are zero.
 *   All bytes of work are zero after every call.
 *   Calls with arrays of their own may run at the same time.
 *
 * What is in the list
 *   Declarations that belong outside the tree: entries, each with the mark of a statement, to be declared right before
 *   it, entries for one mark in their order; and excluded keys, to be declared ahead of the whole program.
 *
 * What is left in a result
 *   Object rest may stand in the tree below an array rest of a declaration, in a rest parameter, in a parameter of a
 *   function without a body and in a declarator without a value; object rest and spread in the values of the list's
 *   entries. An engine that does not know them refuses such a script when it is loaded. */
struct rest_spread_lowered rest_spread_lower(uint32_t options, const uint8_t *tree, size_t tree_len, uint8_t *tree_out,
                                             size_t tree_out_len, uint8_t *list_out, size_t list_out_len,
                                             uint8_t *work, size_t work_len);

/* The same within a depth limit: a tree of more levels is refused with 4. 1 to REST_SPREAD_LEVELS; 0 and everything above
 * is 9. What is answered otherwise than with 4 and 9 is answered alike at every higher limit up to REST_SPREAD_LEVELS, with
 * the same bytes. */
struct rest_spread_lowered rest_spread_lower_within(uint32_t depth, uint32_t options, const uint8_t *tree,
                                                    size_t tree_len, uint8_t *tree_out, size_t tree_out_len,
                                                    uint8_t *list_out, size_t list_out_len, uint8_t *work,
                                                    size_t work_len);

/* The answer of rest_spread_calls for an n above 32. */
#define REST_SPREAD_PATTERN_TOO_LONG 14

/* The most items of a literal whose patterns are counted. */
#define REST_SPREAD_LONGEST_PATTERN 32

struct rest_spread_counted {
    uint8_t answer;  /* 0, or 14 */
    uint32_t number; /* 0 at a refusal, and at most 601,080,390 */
};

/* How many literals lead to how many calls: of all patterns of n items of an object literal, each spread or ordinary, how
 * many give c nested calls of the helper ObjectSpread2 when they are lowered. 0 for c above n. It stands in libcounting.a.
 *
 * Nothing is asked of n and c. The call ends, reads and writes nothing else, and depends on n and c alone. */
struct rest_spread_counted rest_spread_calls(uint32_t n, uint32_t c);

/* The answer of rest_spread_draw for a zero seed. */
#define REST_SPREAD_ZERO_SEED 8

/* The bytes that have room for every drawn tree. */
#define REST_SPREAD_DRAWN 5121

struct rest_spread_drawn {
    uint8_t answer;  /* 0; 8 for a zero seed; else 7 if the tree is longer than tree_out_len */
    uint32_t next;   /* the generator's state after the tree, which is never 0; 0 at a refusal */
    size_t tree_len; /* the bytes of tree_out that are the tree; 0 at a refusal */
};

/* Draws the tree of a seed, the same everywhere. Every drawn tree is one that rest_spread_lower reads, at every limit from
 * 13 on. A series goes on from next. It stands in libdrawing.a.
 *
 * tree_out is not NULL, not even for a length of 0; nothing else is asked. The call ends and writes tree_out and nothing
 * else: the tree, and zeros behind it; at a refusal zeros. */
struct rest_spread_drawn rest_spread_draw(uint32_t seed, uint8_t *tree_out, size_t tree_out_len);

/* Marsaglia's 32-bit xorshift: left 13, right 17, left 5. xorshift_next advances it in place and returns its next number,
 * which is then its state. It stands in libdrawing.a. */
struct rest_spread_xorshift {
    uint32_t state;
};

uint32_t xorshift_next(struct rest_spread_xorshift *g);

/* Answers of rest_spread_join: the list is none that goes with the tree; an entry's statement is not there. */
#define REST_SPREAD_NOT_A_LIST 12
#define REST_SPREAD_NO_SUCH_STATEMENT 13

struct rest_spread_joined {
    uint8_t answer;  /* 0, or the first that is due of 3, 12, 13 and 7 */
    size_t tree_len; /* the bytes of tree_out that are the joined tree; 0 at a refusal */
};

/* Puts the declarations that a lowering handed out into place: each entry of list becomes a var before the statement of tree
 * that has its mark, the excluded keys one const at the head of the program. New statements take the lowest marks that both
 * leave free. It stands in libjoining.a.
 *
 * 3 if tree is no rewritten tree; 12 if list is off its layout, has more than 16,384 bytes, or has a mark inside that stands
 * twice, in it or in it and tree; 13 if no statement in the body of a Program, Block, FunctionBody, StaticBlock or Case has
 * the mark of an entry; 7 if the joined tree has more than 32,768 or tree_out_len bytes.
 *
 * None of the three is NULL, not even for a length of 0, and tree_out overlaps neither of the others; nothing else is asked.
 * The call ends and writes tree_out and nothing else: the joined tree, and zeros behind it; at a refusal zeros. It takes some
 * 0.6 MB of the stack. */
struct rest_spread_joined rest_spread_join(const uint8_t *tree, size_t tree_len, const uint8_t *list, size_t list_len,
                                           uint8_t *tree_out, size_t tree_out_len);

struct rest_spread_ordered {
    uint8_t answer; /* 0, or 3 if one of the two is no rewritten tree */
    int8_t order;   /* -1, 0 or 1: the first is less than the second, equal or greater; 0 at a refusal */
};

/* The order of two rewritten trees, such as results, of at most 32,768 bytes and of any depth: by kinds, then bit maps, then
 * fields, from the front. Temporaries go by where they first appear and not by their numbers. It stands in libordering.a.
 *
 * first and second are not NULL, not even for a length of 0, and may be the same; nothing else is asked. The call ends, reads
 * both and writes nothing. It takes some 0.8 MB of the stack. */
struct rest_spread_ordered rest_spread_order(const uint8_t *first, size_t first_len, const uint8_t *second,
                                             size_t second_len);

/* The answer of rest_spread_text for a text that is longer than its slice. */
#define REST_SPREAD_TEXT_TOO_LONG 10

/* The bytes that have room for every text. */
#define REST_SPREAD_TEXT 294912

struct rest_spread_printed {
    uint8_t answer;  /* 0; 3 if tree is no rewritten tree; else 10 if the text is longer than text_out_len */
    size_t text_len; /* the bytes of text_out that are the text; 0 at a refusal */
};

/* Prints a rewritten tree as JavaScript, a line a statement (docs/TEXT.md). What rest_spread_lower writes is one unless a
 * mark stands in it twice. It stands in libprinter.a.
 *
 * tree and text_out are not NULL, not even for a length of 0, and do not overlap; nothing else is asked. The call ends
 * and writes text_out and nothing else: the text, and zeros behind it; at a refusal zeros. */
struct rest_spread_printed rest_spread_text(const uint8_t *tree, size_t tree_len, uint8_t *text_out, size_t text_out_len);

/* 1 if an object rest is left in a rewritten tree, such as a result, which an engine of ECMAScript 2017 does not take; else 0,
 * and 0 for bytes that are none. Where one may be left: docs/RULES.md, 'What is left'. It stands in libresult.a.
 *
 * tree is not NULL, not even for a length of 0; nothing else is asked. The call ends, reads tree and writes nothing. */
uint8_t rest_spread_leftover(const uint8_t *tree, size_t tree_len);

#ifdef __cplusplus
}
#endif

#endif
