/* The ACE constraint DAG: nine calls on lent words, each in one of two fields.
 *
 * The field's number comes first in every call; another is refused before every other test:
 *   ACE_FIELD_P  elements c0 + c1 * u, where u * u = 7, with c0 and c1 modulo ACE_P
 *   ACE_FIELD_Q  elements c0 modulo ACE_Q: c1 is always 0
 * A column's entries have no second coordinate in either field, and -1 is the prime less one.
 * Records, keys, rules and limits are the same but for the longest period.
 *
 * A list has n records of three 64-bit words, places from 0:
 *   tag 0  input      key number, 0
 *   tag 1  constant   c0, c1, as the field has them
 *   tag 2  add        two places, each before the record's own
 *   tag 3  sub        two places
 *   tag 4  mul        two places
 *   tag 5  neg        a place, 0
 * It has one to ACE_MOST_ROOTS roots, places of its own in a fixed order. Two may be one place, and
 * a call may bring two to one place. Every root's place or value is answered, in that order.
 *
 * A key number is variant * 2^48 + first field + second field * 2^16 + third field * 2^32;
 * each is at most 65,535, and one that the variant lacks is 0. The variants and their fields:
 *    0 Public(index)                     11 ZK
 *    1 AuxRandAlpha                      12 IsFirst
 *    2 AuxRandBeta                       13 IsLast
 *    3 MultiAirFoldCoeff(index)          14 IsTransition
 *    4 Preprocessed(offset, index)       15 IsFirstAir(index)
 *    5 Main(offset, index)               16 IsLastAir(index)
 *    6 AuxCoord(offset, index, coord)    17 IsTransitionAir(index)
 *    7 AuxBusBoundary(index)             18 Weight0
 *    8 Reserved                          19 F
 *    9 Alpha                             20 S0
 *   10 ZPowN                             21 QuotientChunkCoord(offset, chunk, coord)
 *
 * A store is a pointer and its length in words, a text's in bytes. An empty store is a non-null pointer with
 * length 0. A store that is written, answer among them, overlaps no other store; stores that are
 * only read may overlap each other.
 *
 * What a caller lends, at least, in words, for n records, m entries and k keys:
 *   ace_step       list 3n, and 3 more where a record is new
 *   ace_build      list 3n, roots, result 3n, map n
 *   ace_compact    list 3n, roots, result 3n
 *   ace_normalize  list 3n, roots, result 3n, work 6n
 *   ace_evaluate   list 3n, roots, assignment 3m
 *   ace_prepare    lengths a word a column, entries the sum of the lengths
 *   ace_lower      as ace_prepare, list 3n, work ACE_LOWER_WORK, places a word a column, and a
 *                  result of 3 for each record that comes out: 3 * ACE_MOST_RECORDS always do
 *   ace_draw       list 3n, roots, and a text of as many bytes as the drawing has:
 *                  ACE_DRAWING_BYTES + n * ACE_DRAWING_RECORD_BYTES always do
 *   ace_emit       list 3n, roots, layout k, and a result of as many words as are written:
 *                  ACE_EMITTED_WORDS + n * ACE_EMITTED_RECORD_WORDS always do
 *   roots          1 to ACE_MOST_ROOTS, a word a root: their number is the store's length
 *   answer         ACE_ANSWER_WORDS in ace_step, ace_lower, ace_draw and ace_emit, ACE_LIST_WORDS
 *                  in ace_build, ace_compact and ace_normalize, ACE_EVALUATE_WORDS in ace_evaluate,
 *                  ACE_PREPARE_WORDS in ace_prepare
 * Less is refused, save for answer, whose length is not passed. More may be lent, save of roots:
 * words of a source behind those above are not read. A result, map, place or work store need hold
 * nothing.
 *
 * answer[0] is 0 where the call accepts; its values start at answer[1], and words that no value
 * takes are 0. Otherwise answer[0] is one of the refusals below, answer[1] the record, entry or
 * column at fault for 3, 4, 5, 12 and 14, else 0, and the words behind are 0.
 *
 * A refusal changes no store, save that ace_lower's 7 leaves its work store blank. After a call
 * that accepts, the words of a result, map or place store behind the last one filled are
 * ACE_BLANK, and a work store is so throughout; bytes behind a text are 0.
 *
 * The calls allocate nothing and keep nothing: they may run side by side on stores of their own.
 * Of a C library they need memcpy and memset alone; a box without one has to give these two.
 * The archive is for x86-64 Linux.
 */

#ifndef ACE_H
#define ACE_H

#include <stddef.h>
#include <stdint.h>

/* The word behind what a call has filled. */
#define ACE_BLANK UINT64_C(0)

/* What the calls take and answer: raised when a caller built with an older header would be wrong.
 * ace_interface() says it of the archive; a caller compares the two once. */
#define ACE_INTERFACE 3

/* The numbers of the fields. */
#define ACE_FIELD_P 1
#define ACE_FIELD_Q 2

/* The primes that coordinates and entries are below: p = 2^64 - 2^32 + 1, q = 2^31 - 2^27 + 1. */
#define ACE_P UINT64_C(18446744069414584321)
#define ACE_Q UINT64_C(2013265921)

/* The key number of ZK, an input that ace_lower may append. */
#define ACE_ZK UINT64_C(3096224743817216)

/* The most records and roots of a list, the most entries of an assignment, the most keys of a layout
 * and the most columns. */
#define ACE_MOST_RECORDS 4096
#define ACE_MOST_ROOTS 8
#define ACE_MOST_ENTRIES 4096
#define ACE_MOST_KEYS 4096
#define ACE_MOST_COLUMNS 16

/* The longest column, and the longest shared period in either field: 2^32 and 2^27. */
#define ACE_LONGEST_COLUMN 128
#define ACE_LONGEST_PERIOD UINT64_C(4294967296)
#define ACE_LONGEST_PERIOD_Q UINT64_C(134217728)

/* The words of ace_lower's work store. */
#define ACE_LOWER_WORK 12288

/* The most bytes of a drawing: these, and so many more for each record. */
#define ACE_DRAWING_BYTES 14
#define ACE_DRAWING_RECORD_BYTES 65

/* The most words that ace_emit writes: these, and so many more for each record. */
#define ACE_EMITTED_WORDS 23
#define ACE_EMITTED_RECORD_WORDS 3

/* The kinds of operations. */
#define ACE_KIND_SUB 0
#define ACE_KIND_MUL 1
#define ACE_KIND_ADD 2

/* The words of an answer: a step's, lowering's, drawing's and emitting's, a list's, evaluating's,
 * preparing's. */
#define ACE_ANSWER_WORDS 4
#define ACE_LIST_WORDS 11
#define ACE_EVALUATE_WORDS 17
#define ACE_PREPARE_WORDS 18

/* Bytes of stack that are enough for every call, by measurement: the most is taken by
 * ace_normalize of 4,096 records of which nearly all are a chain of negations. */
#define ACE_STACK 786432

/* the number of records is above 4,096, or 0 where a root is needed */
#define ACE_REFUSED_COUNT 1
/* a lent store is too short */
#define ACE_REFUSED_STORE 2
/* a tag is above 5 */
#define ACE_REFUSED_TAG 3
/* a coordinate or entry is not below the prime, a number is no key's, or an unused word is not 0 */
#define ACE_REFUSED_WORD 4
/* an operand does not come before its record */
#define ACE_REFUSED_OPERAND 5
/* a root is outside the list */
#define ACE_REFUSED_ROOT 6
/* a new record has no room */
#define ACE_REFUSED_ROOM 7
/* the assignment or layout has more than 4,096 entries */
#define ACE_REFUSED_ENTRIES 11
/* an input has no entry in the assignment or layout */
#define ACE_REFUSED_INPUT 12
/* there are more than 16 columns */
#define ACE_REFUSED_COLUMNS 13
/* a column's length is no power of two from 1 to 128 */
#define ACE_REFUSED_LENGTH 14
/* the period is no power of two from 1 to 2^32 (field 2: 2^27), or is below the longest column */
#define ACE_REFUSED_PERIOD 15
/* the text store is shorter than the text */
#define ACE_REFUSED_TEXT 41
/* the list has no operations */
#define ACE_REFUSED_OPERATIONS 42
/* there are two to eight roots, or the root is not the last operation */
#define ACE_REFUSED_LAST 43
/* the layout's length is odd */
#define ACE_REFUSED_ODD 44
/* there are no roots, or more than 8 */
#define ACE_REFUSED_ROOTS 46
/* the field's number is neither 1 nor 2 */
#define ACE_REFUSED_FIELD 49

#ifdef __cplusplus
extern "C" {
#endif

/* ACE_INTERFACE of the header that the archive was built for. */
uint64_t ace_interface(void);

/* One request (tag, first, second) on a list; n may be 0. Only an appended record is written.
 * Refuses with 49, 1, 2, 3, 4, 5, 7. Accepted: the result's place, the new n. */
void ace_step(uint64_t field, uint64_t *list, size_t list_len, uint64_t n,
              uint64_t tag, uint64_t first, uint64_t second,
              uint64_t *answer /* 4 words */);

/* A list of requests, built from nothing: result of at least 3n words, map of at least n, which
 * then holds each request's place. Refuses with 49, 1 to 5, 46, 6.
 * Accepted: count, 0, the roots' places. */
void ace_build(uint64_t field, const uint64_t *list, size_t list_len, uint64_t n,
               const uint64_t *roots, size_t roots_len,
               uint64_t *result, size_t result_len,
               uint64_t *map, size_t map_len,
               uint64_t *answer /* 11 words */);

/* The records that the roots reach: result of at least 3n words.
 * Refuses with 49, 1 to 5, 46, 6. Accepted: count, 0, the roots' places. */
void ace_compact(uint64_t field, const uint64_t *list, size_t list_len, uint64_t n,
                 const uint64_t *roots, size_t roots_len,
                 uint64_t *result, size_t result_len,
                 uint64_t *answer /* 11 words */);

/* The normalised list: result of at least 3n words, work of at least 6n.
 * Refuses with 49, 1 to 5, 46, 6. Accepted: count, rounds kept, the roots' places. */
void ace_normalize(uint64_t field, const uint64_t *list, size_t list_len, uint64_t n,
                   const uint64_t *roots, size_t roots_len,
                   uint64_t *result, size_t result_len,
                   uint64_t *work, size_t work_len,
                   uint64_t *answer /* 11 words */);

/* Each root's value under m entries of key number, c0, c1; a key's last entry counts.
 * Refuses with 49, 1 to 5, 46, 6, 11, 12. Accepted: c0, c1 of each root. */
void ace_evaluate(uint64_t field, const uint64_t *list, size_t list_len, uint64_t n,
                  const uint64_t *roots, size_t roots_len,
                  const uint64_t *assignment, size_t assignment_len, uint64_t m,
                  uint64_t *answer /* 17 words */);

/* The form of each column; lengths has a word a column, entries one an entry, column after column.
 * Refuses with 49, 13, 14, 2, 4.
 * Accepted: columns, then a form each: 0 sparse, 1 dense, 2 basis. */
void ace_prepare(uint64_t field,
                 const uint64_t *lengths, size_t lengths_len,
                 const uint64_t *entries, size_t entries_len,
                 uint64_t *answer /* 18 words */);

/* The list, n may be 0, with the columns' nodes behind it: work of at least ACE_LOWER_WORK words,
 * places of at least a word a column, which then holds the place of each column's node. The input
 * ZK is appended where columns are lowered and the list has none.
 * period is the number of rows that all columns share: where ZK is the r-th power of the generator
 * of order period, the node of a column of length P has the value of its entry r modulo P. The
 * generator of order 2^k is 7^(2^32 - 1) raised to 2^(32 - k), in field 2 31^15 to 2^(27 - k).
 * Without columns the list is copied and period is not read.
 * Refuses with 49, 1 to 5, 13, 14, 15, 7. Accepted: count. */
void ace_lower(uint64_t field, const uint64_t *list, size_t list_len, uint64_t n,
               const uint64_t *lengths, size_t lengths_len,
               const uint64_t *entries, size_t entries_len,
               uint64_t period,
               uint64_t *result, size_t result_len,
               uint64_t *work, size_t work_len,
               uint64_t *places, size_t places_len,
               uint64_t *answer /* 4 words */);

/* The list as Graphviz DOT: a line a record in order, as n0 [label="in 5"]; then a line an operand,
 * as n5 -> n3; first before second. A coordinate above half the prime is written less the prime,
 * p - 1 as -1. The roots are tested and not drawn; bytes behind the text are 0.
 * Refuses with 49, 1 to 5, 46, 6, 41. Accepted: the text's length in bytes. */
void ace_draw(uint64_t field, const uint64_t *list, size_t list_len, uint64_t n,
              const uint64_t *roots, size_t roots_len,
              uint8_t *text, size_t text_len,
              uint64_t *answer /* 4 words */);

/* The list as constants and operations, for a box whose inputs are the k keys of layout, k even; a
 * key's last place there is its input's number. The list's one root is its last operation.
 * result then holds two words a constant, c0 and c1, in the order of their first use, then three an
 * operation: its kind, and the numbers of the two nodes that it reads. Nodes are counted down from
 * their number less one to 0: the inputs, the constants, the operations. A neg is a sub from a
 * constant of zero, which is added where none stands yet. A zero fills the constants up to an even
 * number; behind the operations stand squares, each of the node before, until twice the constants
 * plus the operations is a multiple of 8. Over the inputs' values, the last operation before the
 * squares has the root's value.
 * Refuses with 49, 1 to 5, 46, 6, 11, 12, 42, 43, 44. Accepted: num_vars, the number of inputs and
 * constants, and num_ops, that of operations: 2 * (num_vars - k) + 3 * num_ops words are written. */
void ace_emit(uint64_t field, const uint64_t *list, size_t list_len, uint64_t n,
              const uint64_t *roots, size_t roots_len,
              const uint64_t *layout, size_t layout_len, uint64_t k,
              uint64_t *result, size_t result_len,
              uint64_t *answer /* 4 words */);

#ifdef __cplusplus
}
#endif

#endif
