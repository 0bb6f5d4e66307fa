/* WCNF text, and the lines of an answer. */
#include "plain.h"

static void put(struct text *t, char c)
{
    if (t->bytes)
        t->bytes[t->length] = (uint8_t)c;
    t->length++;
}

static void put_string(struct text *t, const char *s)
{
    while (*s)
        put(t, *s++);
}

static void put_number(struct text *t, uint64_t n)
{
    char digits[20];
    int count = 0;
    do {
        digits[count++] = (char)('0' + n % 10);
        n /= 10;
    } while (n > 0);
    while (count > 0)
        put(t, digits[--count]);
}

void put_named(struct text *t, const char *before, uint64_t n, const char *after)
{
    put_string(t, before);
    put_number(t, n);
    put_string(t, after);
}

static void put_literal(struct text *t, int v)
{
    put(t, ' ');
    if (v < 0)
        put(t, '-');
    put_number(t, (uint64_t)(v < 0 ? -v : v));
}

static void put_clauses(struct text *t, const struct clauses *c, uint64_t top)
{
    const int32_t *literal = c->literals;
    for (size_t i = 0; i < c->count; i++) {
        put_number(t, c->weights[i] ? c->weights[i] : top);
        while (*literal)
            put_literal(t, *literal++);
        literal++;
        put_string(t, " 0\n");
    }
}

void put_header(struct text *t, const struct problem *p)
{
    size_t entries, clauses;
    count_clauses(p, &entries, &clauses);
    put_named(t, "p wcnf ", (uint64_t)p->variables, " ");
    put_named(t, "", clauses, " ");
    put_named(t, "", p->top, "\n");
}

void put_part(struct text *t, const struct problem *p, int part)
{
    int32_t literals[PART_ENTRIES];
    uint64_t weights[PART_CLAUSES];
    struct clauses gathered = {literals, weights, 0, 0};
    add_part(p, part, &gathered);
    put_clauses(t, &gathered, p->top);
}

static size_t put_text(const struct problem *p, uint8_t *bytes)
{
    struct text t = {bytes, 0};
    put_header(&t, p);
    for (int part = 0; part < p->boxes + p->pairs; part++)
        put_part(&t, p, part);
    return t.length;
}

uint64_t plain_write_wcnf(const uint32_t *words, size_t words_length, uint32_t hard, uint32_t side, uint8_t *text, size_t text_length,
                          size_t *bytes)
{
    struct problem p;
    uint64_t refusal = take_table(words, words_length, hard, side, &p);
    if (refusal)
        return refusal;
    size_t needed = put_text(&p, NULL); /* counted first, since a refusal writes nothing */
    if (text_length < needed)
        return refused(9, needed);
    *bytes = put_text(&p, text);
    return WICKCOLLAR_DONE;
}
