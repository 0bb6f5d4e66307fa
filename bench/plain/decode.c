/* A solver's list to a plan and its cost. */
#include "plain.h"

/* The box's value, or 0 where the list breaks one of its hard clauses. */
static int value_in(const struct problem *p, int box, const uint8_t *list)
{
    int m = p->sizes[box], value = 0, ones = 0;
    for (int j = 1; j <= m; j++)
        if (list[p->value_base[box] + j - 1]) {
            value = j;
            ones++;
        }
    if (ones != 1)
        return 0;
    for (int j = 2; j <= m && p->regular; j++)
        if (list[p->threshold_base[box] + j - 1] != (j <= value))
            return 0;
    return value;
}

uint64_t plain_decode(const uint32_t *words, size_t words_length, uint32_t hard, uint32_t side, const uint8_t *list, size_t list_length,
                      uint32_t *plan, size_t plan_length, uint64_t *cost)
{
    struct problem p;
    uint64_t refusal = take_table(words, words_length, hard, side, &p);
    int values[MOST_BOXES + 1];
    if (refusal)
        return refusal;
    if (list_length != (size_t)p.variables)
        return refused(10, (uint64_t)p.variables);
    for (size_t i = 0; i < list_length; i++)
        if (list[i] > 1)
            return refused(11, i);
    for (int b = 1; b <= p.boxes; b++) {
        values[b] = value_in(&p, b, list);
        if (values[b] == 0)
            return refused(12, (uint64_t)b);
    }
    if (plan_length < (size_t)p.boxes)
        return refused(9, (uint64_t)p.boxes);
    for (int b = 1; b <= p.boxes; b++)
        plan[b - 1] = (uint32_t)values[b];
    *cost = 0;
    for (int k = 0; k < p.pairs; k++) {
        const struct pair *pair = &p.pair_of[k];
        if (!(pair->rows[values[pair->first] - 1] >> (values[pair->second] - 1) & 1))
            *cost += pair->weight;
    }
    return WICKCOLLAR_DONE;
}
