/* A table into clauses for a solver, and the solver's list into a plan and its cost. */
#include "wickcollar.h"
#include <inttypes.h>
#include <stdio.h>

static int refused(uint64_t answer)
{
    printf("refused=%u place=%" PRIu64 "\n", wickcollar_number(answer), wickcollar_place(answer));
    return 1;
}

int main(void)
{
    /* two boxes, of 2 and 3 slots; one pair, of boxes 1 and 2, weight 7: slot 1 goes with slots 2 and 3, slot 2 with none */
    const uint32_t words[9] = {2, 1, 2, 3, 1, 2, 7, 6, 0};
    const uint8_t list[5] = {0, 1, 1, 0, 0}; /* as a solver might give it */
    const uint32_t hard = WICKCOLLAR_STANDARD, side = WICKCOLLAR_FIRST;
    int32_t first[1] = {0}, second[1] = {0}; /* the scratch, of which this side needs none */
    uint8_t text[200] = {0};
    uint32_t plan[2] = {0};
    size_t bytes = 0;
    uint64_t cost = 0, answer;

    answer = wickcollar_write_wcnf(words, 9, hard, side, first, 0, second, 0, text, sizeof text, &bytes);
    if (answer != WICKCOLLAR_DONE) return refused(answer);
    fwrite(text, 1, bytes, stdout);
    answer = wickcollar_decode(words, 9, hard, side, list, 5, plan, 2, &cost);
    if (answer != WICKCOLLAR_DONE) return refused(answer);
    printf("value=%" PRIu32 "\nvalue=%" PRIu32 "\ncost=%" PRIu64 "\n", plan[0], plan[1], cost);
    return 0;
}
