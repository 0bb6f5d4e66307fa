/* Wickcollar for C and for whatever calls C: a station's boxes, slots and preferences into clauses, and a solver's list back into a plan.
 *
 * The functions are proved: each takes any numbers and any contents of the buffers, never reads or writes outside what it is lent, and ends.
 * docs/PROMISES.md has each promise with its theorem; crates/exports/src/lib.rt has the contracts that this page says in words.
 *
 * Link an x86-64 Linux program with target/staticlib/libexports.a, which 'tools/build exports_c' proves and writes. It needs memset of the C
 * library and nothing else, and keeps nothing between calls.
 *
 * What a caller owes, since no function can test it:
 * - A buffer is a pointer to its first entry and the number of its entries, and is all there, aligned as its type asks, and initialised.
 *   A pointer is not null even where the number is 0.
 * - A buffer or a slot that is not const overlaps no other argument while the call runs.
 *
 * What a caller gets:
 * - Each function returns WICKCOLLAR_DONE, or a refusal: wickcollar_number and wickcollar_place take it apart.
 * - On a refusal nothing is written, into no buffer and no slot. On success every slot is written, and of each buffer what is said below;
 *   the rest of it stays as it was.
 * - Answer, slots and buffers are the same for the same inputs.
 *
 * The words of a table: n, the number of boxes (1 to 64); p, the number of pairs (0 to 256); the number of slots of each box (1 to 16); for each
 * pair its first box and its second, counted from 1, its weight (1 to 1000000), and a mask for each slot of the first box: bit j - 1 is 1 where
 * slot j of the second box goes with it.
 */
#ifndef WICKCOLLAR_H
#define WICKCOLLAR_H

#include <stddef.h>
#include <stdint.h>

#ifdef __cplusplus
extern "C" {
#endif

#define WICKCOLLAR_DONE UINT64_C(0)

/* The hard part and the side of an encoding. Any other number is refused with 8. */
#define WICKCOLLAR_STANDARD UINT32_C(0)
#define WICKCOLLAR_REGULAR UINT32_C(1)
#define WICKCOLLAR_DIRECT UINT32_C(1)
#define WICKCOLLAR_SUPPORT UINT32_C(2)
#define WICKCOLLAR_FIRST UINT32_C(3)
#define WICKCOLLAR_LITERALS UINT32_C(4)
#define WICKCOLLAR_SCORE UINT32_C(5)

/* The largest table that is accepted has this many words. */
#define WICKCOLLAR_MOST_WORDS 4930

/* A refusal's number:
 *    1  the table ends before a word that is due       place: the index of that word
 *    2  words follow the last one due                  the index of the first
 *    3  n or p out of range                            the word's index
 *    4  a number of slots out of range                 the word's index
 *    5  a box of a pair out of range, or both the same the word's index
 *    6  a weight out of range                          the word's index
 *    7  a mask has a bit past the second box's slots   the word's index
 *    8  unknown hard part or side                      0
 *    9  a lent buffer is too short                     the length needed
 *   10  a list or a plan of the wrong length           the length wanted
 *   11  a list entry that is not 0 or 1,
 *       or a value that is no slot of its box          the lowest index
 *   12  a list breaks a hard clause                    the lowest such box, counted from 1
 *   13  a line of a sheet is missing, extra,
 *       ill-formed or out of range                     the line, counted from 1
 * Where several apply: 13, then 8, then 1 to 7 in the order of the words, then 10, 11, 12, then 9, for the scratch buffers first, then literals,
 * weights, list, plan, table, text. */
static inline unsigned wickcollar_number(uint64_t answer) { return (unsigned)(answer >> 56); }

static inline uint64_t wickcollar_place(uint64_t answer) { return answer & ((UINT64_C(1) << 56) - 1); }

/* Checks a table. Refuses with 1 to 7. Gives the number of its boxes and of its pairs. */
uint64_t wickcollar_check(const uint32_t *words, size_t words_length, size_t *boxes, size_t *pairs);

/* The weight of the pairs that a plan breaks: the plan has a value, its slot, for each box. Refuses with 1 to 7, 10, 11. */
uint64_t wickcollar_cost(const uint32_t *words, size_t words_length, const uint32_t *plan, size_t plan_length, uint64_t *cost);

/* The exact lengths of what wickcollar_encode writes. Refuses with 8, 1 to 7. Gives the number of variables, which is the length of a list; of
 * clauses, which is the length of the weights; of literals without closing zeros; of literals with them, which is the length of the literals; and
 * the top of the WCNF text, 1 more than all weights together. */
uint64_t wickcollar_lengths(const uint32_t *words, size_t words_length, uint32_t hard, uint32_t side, size_t *variables, size_t *clauses,
                            size_t *literals, size_t *entries, uint64_t *top);

/* What the two scratch buffers of wickcollar_encode and wickcollar_write_wcnf must hold; 0 and 0 but on the sides literals and score.
 * Refuses with 8, 1 to 7. */
uint64_t wickcollar_scratch_lengths(const uint32_t *words, size_t words_length, uint32_t hard, uint32_t side, size_t *first, size_t *second);

/* Encodes a table: its clauses in order, each its literals and then a 0, and a weight for each clause, 0 for one that is hard. Refuses with 8,
 * 1 to 7, 9. Gives the numbers of entries and of weights that were written. On the sides literals and score both scratch buffers are zero
 * after, from their first entry to their last; on the others they stay as they were. */
uint64_t wickcollar_encode(const uint32_t *words, size_t words_length, uint32_t hard, uint32_t side, int32_t *first, size_t first_length,
                           int32_t *second, size_t second_length, int32_t *literals, size_t literals_length, uint64_t *weights,
                           size_t weights_length, size_t *entries, size_t *clauses);

/* Decodes a solver's list, an entry 0 or 1 for each variable: accepted exactly where it meets every hard clause. Writes the plan, for each box
 * the value whose variable is 1, and gives its cost: the weight of the pairs that it breaks, which is the weight of the soft clauses that the
 * list falsifies. Refuses with 8, 1 to 7, 10, 11, 12, 9. */
uint64_t wickcollar_decode(const uint32_t *words, size_t words_length, uint32_t hard, uint32_t side, const uint8_t *list, size_t list_length,
                           uint32_t *plan, size_t plan_length, uint64_t *cost);

/* Makes a list of a plan, which wickcollar_decode takes back to that plan. Gives its length. Refuses with 8, 1 to 7, 10, 11, 9. */
uint64_t wickcollar_make_list(const uint32_t *words, size_t words_length, uint32_t hard, uint32_t side, const uint32_t *plan, size_t plan_length,
                              uint8_t *list, size_t list_length, size_t *entries);

/* Reads a sheet. Writes the words of its table, which is accepted, and gives the hard part, the side and the number of the words.
 * Refuses with 13, 9. */
uint64_t wickcollar_read_sheet(const uint8_t *text, size_t text_length, uint32_t *table, size_t table_length, uint32_t *hard, uint32_t *side,
                               size_t *words);

/* Writes the sheet of a table, which wickcollar_read_sheet takes back to that table. Gives its length in bytes. Refuses with 8, 1 to 7, 9. */
uint64_t wickcollar_write_sheet(const uint32_t *words, size_t words_length, uint32_t hard, uint32_t side, uint8_t *text, size_t text_length,
                                size_t *bytes);

/* Reads a sheet and the line "list=" below it, as the program decode is given them. Writes the words of the table and the entries of the list,
 * and gives the hard part, the side and both lengths. Refuses with 13, 10, 9. */
uint64_t wickcollar_read_list(const uint8_t *text, size_t text_length, uint32_t *table, size_t table_length, uint8_t *list, size_t list_length,
                              uint32_t *hard, uint32_t *side, size_t *words, size_t *entries);

/* Writes the WCNF text of a table. Gives its length in bytes. Refuses with 8, 1 to 7, 9. The scratch buffers are as after wickcollar_encode. */
uint64_t wickcollar_write_wcnf(const uint32_t *words, size_t words_length, uint32_t hard, uint32_t side, int32_t *first, size_t first_length,
                               int32_t *second, size_t second_length, uint8_t *text, size_t text_length, size_t *bytes);

#ifdef __cplusplus
}
#endif

#endif
