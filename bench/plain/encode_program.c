/* encode in plain C: a sheet on standard input, its WCNF text on standard output, part by part. */
#include "plain.h"

/* Text is printed when this much has gathered; a part has at most as much again. */
enum { GATHERED = 65536 };

static uint8_t input[LONGEST + 1], output[2 * GATHERED];
static uint32_t table[WICKCOLLAR_MOST_WORDS];
static struct problem problem;

static uint64_t encode(size_t length)
{
    uint32_t hard, side;
    size_t words;
    uint64_t refusal = plain_read_sheet(input, length, table, WICKCOLLAR_MOST_WORDS, &hard, &side, &words);
    if (refusal == WICKCOLLAR_DONE)
        refusal = take_table(table, words, hard, side, &problem);
    if (refusal != WICKCOLLAR_DONE)
        return refusal;
    struct text t = {output, 0};
    put_header(&t, &problem);
    for (int part = 0; part < problem.boxes + problem.pairs; part++) {
        put_part(&t, &problem, part);
        if (t.length >= GATHERED)
            print_text(&t);
    }
    print_text(&t);
    return WICKCOLLAR_DONE;
}

int main(void) { return run(input, encode); }
