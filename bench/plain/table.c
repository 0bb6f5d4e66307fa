/* The words of a table, judged from the left. */
#include "plain.h"

struct reader {
    const uint32_t *words;
    size_t length, cursor;
    uint64_t fault;
};

/* The next word, which must lie in the range; else the fault is noted, and the answer is 0. */
static int next(struct reader *r, uint32_t low, uint32_t high, unsigned number, uint32_t *word)
{
    if (r->cursor == r->length) {
        r->fault = refused(1, r->cursor);
        return 0;
    }
    *word = r->words[r->cursor];
    if (*word < low || *word > high) {
        r->fault = refused(number, r->cursor);
        return 0;
    }
    r->cursor++;
    return 1;
}

static int take_pair(struct reader *r, const struct problem *p, struct pair *pair)
{
    uint32_t first, second, weight, row;
    if (!next(r, 1, (uint32_t)p->boxes, 5, &first) || !next(r, 1, (uint32_t)p->boxes, 5, &second))
        return 0;
    if (second == first) {
        r->fault = refused(5, r->cursor - 1);
        return 0;
    }
    if (!next(r, 1, MOST_WEIGHT, 6, &weight))
        return 0;
    *pair = (struct pair){(int)first, (int)second, weight, r->words + r->cursor};
    for (int i = 0; i < p->sizes[first]; i++)
        if (!next(r, 0, full(p, pair->second), 7, &row))
            return 0;
    return 1;
}

static void number_variables(struct problem *p)
{
    int count = 0;
    for (int b = 1; b <= p->boxes; b++) {
        p->value_base[b] = count;
        count += p->sizes[b];
    }
    for (int b = 1; b <= p->boxes && p->regular; b++) {
        p->threshold_base[b] = count - 1; /* the first threshold is number 2 */
        count += p->sizes[b] - 1;
    }
    p->switch_base = count;
    p->variables = count + (p->side == WICKCOLLAR_SUPPORT ? p->pairs : 0);
}

uint64_t take_table(const uint32_t *words, size_t length, uint32_t hard, uint32_t side, struct problem *p)
{
    struct reader r = {words, length, 0, 0};
    uint32_t boxes, pairs, size;
    if (hard > WICKCOLLAR_REGULAR || side < WICKCOLLAR_DIRECT || side > WICKCOLLAR_SCORE)
        return refused(8, 0);
    if (!next(&r, 1, MOST_BOXES, 3, &boxes) || !next(&r, 0, MOST_PAIRS, 3, &pairs))
        return r.fault;
    p->regular = hard == WICKCOLLAR_REGULAR;
    p->side = side;
    p->boxes = (int)boxes;
    p->pairs = (int)pairs;
    for (int b = 1; b <= p->boxes; b++) {
        if (!next(&r, 1, MOST_VALUES, 4, &size))
            return r.fault;
        p->sizes[b] = (int)size;
    }
    p->top = 1;
    for (int k = 0; k < p->pairs; k++) {
        if (!take_pair(&r, p, &p->pair_of[k]))
            return r.fault;
        p->top += p->pair_of[k].weight;
    }
    if (r.cursor < length)
        return refused(2, r.cursor);
    number_variables(p);
    return WICKCOLLAR_DONE;
}
