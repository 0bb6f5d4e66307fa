/* decode in plain C: a sheet and a list line on standard input, the plan and its cost on standard output. */
#include "plain.h"

static uint8_t input[LONGEST + 1], list[MOST_LIST], output[32 * (MOST_BOXES + 1)];
static uint32_t table[WICKCOLLAR_MOST_WORDS], plan[MOST_BOXES];

static uint64_t decode(size_t length)
{
    uint32_t hard, side;
    size_t words, entries;
    uint64_t cost;
    uint64_t refusal = plain_read_list(input, length, table, WICKCOLLAR_MOST_WORDS, list, MOST_LIST, &hard, &side, &words, &entries);
    if (refusal == WICKCOLLAR_DONE)
        refusal = plain_decode(table, words, hard, side, list, entries, plan, MOST_BOXES, &cost);
    if (refusal != WICKCOLLAR_DONE)
        return refusal;
    struct text t = {output, 0};
    for (uint32_t b = 0; b < table[0]; b++)
        put_named(&t, "value=", plan[b], "\n");
    put_named(&t, "cost=", cost, "\n");
    print_text(&t);
    return WICKCOLLAR_DONE;
}

int main(void) { return run(input, decode); }
