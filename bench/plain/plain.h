/* The jobs of include/wickcollar.h once more, in plain C and without proofs: what the proved functions are compared with. Each plain_NAME
 * takes what wickcollar_NAME takes, gives what it gives and refuses what it refuses; bench/run holds it to that on what it measures. The
 * scratch buffers are left out, since plain C counts the two candidate lists of a pair and does not write them. */
#ifndef PLAIN_H
#define PLAIN_H

#include "wickcollar.h"

enum { MOST_BOXES = 64, MOST_VALUES = 16, MOST_PAIRS = 256, MOST_WEIGHT = 1000000 };
enum { MOST_LIST = MOST_BOXES * (2 * MOST_VALUES - 1) + MOST_PAIRS };
/* No part, which is a box or a pair, has more entries or clauses than this. */
enum { PART_ENTRIES = 3 * MOST_VALUES * MOST_VALUES, PART_CLAUSES = MOST_VALUES * MOST_VALUES };

struct pair {
    int first, second;
    uint64_t weight;
    const uint32_t *rows; /* the masks, in the table */
};

/* A table that was accepted, and its encoding. Boxes count from 1, and so do the arrays. */
struct problem {
    int regular, boxes, pairs;
    uint32_t side;
    int sizes[MOST_BOXES + 1], value_base[MOST_BOXES + 1], threshold_base[MOST_BOXES + 1];
    int switch_base, variables;
    uint64_t top;
    struct pair pair_of[MOST_PAIRS];
};

/* Clauses as they are gathered in buffers that hold them. */
struct clauses {
    int32_t *literals;
    uint64_t *weights;
    size_t entries, count;
};

/* Text as it is gathered; without bytes it is only counted. */
struct text {
    uint8_t *bytes;
    size_t length;
};

static inline uint64_t refused(unsigned number, uint64_t place) { return (uint64_t)number << 56 | place; }

static inline uint32_t full(const struct problem *p, int box) { return (1u << p->sizes[box]) - 1; }

/* table.c */
uint64_t take_table(const uint32_t *words, size_t length, uint32_t hard, uint32_t side, struct problem *p);

/* sheet.c */
uint64_t plain_read_sheet(const uint8_t *text, size_t text_length, uint32_t *table, size_t table_length, uint32_t *hard, uint32_t *side,
                          size_t *words);
uint64_t plain_read_list(const uint8_t *text, size_t text_length, uint32_t *table, size_t table_length, uint8_t *list, size_t list_length,
                         uint32_t *hard, uint32_t *side, size_t *words, size_t *entries);

/* clauses.c: how many entries and clauses there are, the clauses of one part, and the whole list. Parts count from 0: the boxes, then the
 * pairs. */
void count_clauses(const struct problem *p, size_t *entries, size_t *clauses);
void add_part(const struct problem *p, int part, struct clauses *out);
uint64_t plain_encode(const uint32_t *words, size_t words_length, uint32_t hard, uint32_t side, int32_t *literals, size_t literals_length,
                      uint64_t *weights, size_t weights_length, size_t *entries, size_t *clauses);

/* decode.c */
uint64_t plain_decode(const uint32_t *words, size_t words_length, uint32_t hard, uint32_t side, const uint8_t *list, size_t list_length,
                      uint32_t *plan, size_t plan_length, uint64_t *cost);

/* text.c: the lines of the header and of a part; what stands before a number, it, and what stands after; and the whole WCNF text. */
void put_header(struct text *t, const struct problem *p);
void put_part(struct text *t, const struct problem *p, int part);
void put_named(struct text *t, const char *before, uint64_t n, const char *after);
uint64_t plain_write_wcnf(const uint32_t *words, size_t words_length, uint32_t hard, uint32_t side, uint8_t *text, size_t text_length,
                          size_t *bytes);

/* program.c: what the two programs share. */
enum { LONGEST = 65536 };
int run(uint8_t *input, uint64_t (*job)(size_t length));
void print_text(struct text *t);

#endif
