/* Each function of include/wickcollar.h on lent buffers and slots; what it leaves is held here where it refuses. */
#include "lent.h"

/* a table with its two choices */
typedef struct {
    const uint32_t *words;
    size_t length;
    uint32_t hard, side;
} Asked;

static int check(Asked a, Answer wanted)
{
    size_t *b = slot(&boxes, "boxes"), *p = slot(&pairs, "pairs");
    int done = answered(wickcollar_check(a.words, a.length, b, p), wanted);
    if (!done) unchanged(&boxes), unchanged(&pairs);
    return done;
}

static int cost_of(Asked a, const uint32_t *values, size_t count, Answer wanted)
{
    int done = answered(wickcollar_cost(a.words, a.length, values, count, slot64(&cost, "cost")), wanted);
    if (!done) unchanged(&cost);
    return done;
}

static int lengths(Asked a, Answer wanted)
{
    size_t *v = slot(&variables, "variables"), *c = slot(&clauses, "clauses"), *l = slot(&literals, "literals"), *e = slot(&entries, "entries");
    int done = answered(wickcollar_lengths(a.words, a.length, a.hard, a.side, v, c, l, e, slot64(&top, "top")), wanted);
    if (!done) unchanged(&variables), unchanged(&clauses), unchanged(&literals), unchanged(&entries), unchanged(&top);
    return done;
}

static int scratch_lengths(Asked a, Answer wanted)
{
    size_t *f = slot(&first, "first"), *s = slot(&second, "second");
    int done = answered(wickcollar_scratch_lengths(a.words, a.length, a.hard, a.side, f, s), wanted);
    if (!done) unchanged(&first), unchanged(&second);
    return done;
}

typedef struct {
    size_t first, second, literals, weights, text;
} Lengths;

static int encode(Asked a, Lengths n, Answer wanted)
{
    int32_t *f = (int32_t *)lend(&first, "first", sizeof *f, n.first), *s = (int32_t *)lend(&second, "second", sizeof *s, n.second);
    int32_t *l = (int32_t *)lend(&literals, "literals", sizeof *l, n.literals);
    uint64_t *w = (uint64_t *)lend(&weights, "weights", sizeof *w, n.weights);
    size_t *e = slot(&entries, "entries"), *c = slot(&clauses, "clauses");
    int done = answered(wickcollar_encode(a.words, a.length, a.hard, a.side, f, n.first, s, n.second, l, n.literals, w, n.weights, e, c), wanted);
    if (!done) unchanged(&first), unchanged(&second), unchanged(&literals), unchanged(&weights), unchanged(&entries), unchanged(&clauses);
    return done;
}

static int decode(Asked a, const uint8_t *of, size_t count, size_t room, Answer wanted)
{
    uint32_t *p = (uint32_t *)lend(&plan, "plan", sizeof *p, room);
    int done = answered(wickcollar_decode(a.words, a.length, a.hard, a.side, of, count, p, room, slot64(&cost, "cost")), wanted);
    if (!done) unchanged(&plan), unchanged(&cost);
    return done;
}

static int make_list(Asked a, const uint32_t *values, size_t count, size_t room, Answer wanted)
{
    uint8_t *l = (uint8_t *)lend(&list, "list", sizeof *l, room);
    int done = answered(wickcollar_make_list(a.words, a.length, a.hard, a.side, values, count, l, room, slot(&entries, "entries")), wanted);
    if (!done) unchanged(&list), unchanged(&entries);
    return done;
}

static int read_sheet(const char *sheet, size_t count, size_t room, Answer wanted)
{
    uint32_t *t = (uint32_t *)lend(&table, "table", sizeof *t, room), *h = slot32(&hard, "hard"), *s = slot32(&side, "side");
    int done = answered(wickcollar_read_sheet((const uint8_t *)sheet, count, t, room, h, s, slot(&words, "words")), wanted);
    if (!done) unchanged(&table), unchanged(&hard), unchanged(&side), unchanged(&words);
    return done;
}

static int write_sheet(Asked a, size_t room, Answer wanted)
{
    uint8_t *t = (uint8_t *)lend(&text, "text", sizeof *t, room);
    int done = answered(wickcollar_write_sheet(a.words, a.length, a.hard, a.side, t, room, slot(&bytes, "bytes")), wanted);
    if (!done) unchanged(&text), unchanged(&bytes);
    return done;
}

static int read_list(const char *sheet, size_t count, size_t room, size_t list_room, Answer wanted)
{
    uint32_t *t = (uint32_t *)lend(&table, "table", sizeof *t, room), *h = slot32(&hard, "hard"), *s = slot32(&side, "side");
    uint8_t *l = (uint8_t *)lend(&list, "list", sizeof *l, list_room);
    size_t *w = slot(&words, "words"), *e = slot(&entries, "entries");
    int done = answered(wickcollar_read_list((const uint8_t *)sheet, count, t, room, l, list_room, h, s, w, e), wanted);
    if (!done) unchanged(&table), unchanged(&list), unchanged(&hard), unchanged(&side), unchanged(&words), unchanged(&entries);
    return done;
}

static int write_wcnf(Asked a, Lengths n, Answer wanted)
{
    int32_t *f = (int32_t *)lend(&first, "first", sizeof *f, n.first), *s = (int32_t *)lend(&second, "second", sizeof *s, n.second);
    uint8_t *t = (uint8_t *)lend(&text, "text", sizeof *t, n.text);
    size_t *b = slot(&bytes, "bytes");
    int done = answered(wickcollar_write_wcnf(a.words, a.length, a.hard, a.side, f, n.first, s, n.second, t, n.text, b), wanted);
    if (!done) unchanged(&first), unchanged(&second), unchanged(&text), unchanged(&bytes);
    return done;
}
