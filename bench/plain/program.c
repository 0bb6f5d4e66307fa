/* What the two programs share: their input, and what they print. */
#include "plain.h"
#include <stdio.h>

void print_text(struct text *t)
{
    fwrite(t->bytes, 1, t->length, stdout);
    t->length = 0;
}

static void print_refusal(uint64_t refusal)
{
    uint8_t line[64];
    struct text t = {line, 0};
    put_named(&t, "refused=", wickcollar_number(refusal), " place=");
    put_named(&t, "", wickcollar_place(refusal), "\n");
    print_text(&t);
}

/* One byte more than an input may have tells a longer one. */
int run(uint8_t *input, uint64_t (*job)(size_t length))
{
    size_t length = fread(input, 1, LONGEST + 1, stdin);
    uint64_t refusal = length > LONGEST ? refused(9, 0) : job(length);
    if (refusal != WICKCOLLAR_DONE)
        print_refusal(refusal);
    return 0;
}
