/* The clauses of the ten encodings, counted and written. */
#include "plain.h"
#include <string.h>

/* A pair as one of its boxes sees it. */
struct end {
    int own, other;
    uint32_t rows[MOST_VALUES];
};

struct sums {
    size_t clauses, literals;
    int score;
};

static struct end from_first(const struct problem *p, const struct pair *pair)
{
    struct end e = {pair->first, pair->second, {0}};
    memcpy(e.rows, pair->rows, (size_t)p->sizes[pair->first] * sizeof *e.rows);
    return e;
}

static struct end from_second(const struct problem *p, const struct pair *pair)
{
    struct end e = {pair->second, pair->first, {0}};
    for (int i = 0; i < p->sizes[pair->first]; i++)
        for (int j = 0; j < p->sizes[pair->second]; j++)
            e.rows[j] |= (pair->rows[i] >> j & 1) << i;
    return e;
}

static struct sums sums_of(const struct problem *p, const struct end *e)
{
    static const int scores[MOST_VALUES + 2] = {0, 16, 4, 1};
    struct sums s = {0, 0, 0};
    for (int i = 0; i < p->sizes[e->own]; i++) {
        if (e->rows[i] == full(p, e->other))
            continue;
        int length = 1 + __builtin_popcount(e->rows[i]);
        s.clauses++;
        s.literals += (size_t)length;
        s.score += scores[length];
    }
    return s;
}

/* The end that writes the pair's clauses, on the sides with one. */
static struct end chosen(const struct problem *p, const struct pair *pair)
{
    struct end one = from_first(p, pair);
    if (p->side == WICKCOLLAR_FIRST)
        return one;
    struct end two = from_second(p, pair);
    struct sums a = sums_of(p, &one), b = sums_of(p, &two);
    int second_wins = p->side == WICKCOLLAR_LITERALS ? b.literals < a.literals : b.score > a.score;
    return second_wins ? two : one;
}

static void count_box(const struct problem *p, int box, size_t *entries, size_t *clauses)
{
    size_t m = (size_t)p->sizes[box];
    if (!p->regular) {
        *entries += m + 1 + 3 * (m * (m - 1) / 2);
        *clauses += 1 + m * (m - 1) / 2;
    } else {
        *entries += m == 1 ? 2 : 13 * m - 14;
        *clauses += m == 1 ? 1 : 4 * m - 4;
    }
}

static void count_pair(const struct problem *p, const struct pair *pair, size_t *entries, size_t *clauses)
{
    struct sums a = {0, 0, 0}, b = {0, 0, 0};
    if (p->side == WICKCOLLAR_DIRECT) {
        for (int i = 0; i < p->sizes[pair->first]; i++)
            a.clauses += (size_t)__builtin_popcount(full(p, pair->second) & ~pair->rows[i]);
        a.literals = 2 * a.clauses;
    } else if (p->side == WICKCOLLAR_SUPPORT) {
        struct end one = from_first(p, pair), two = from_second(p, pair);
        a = sums_of(p, &one);
        b = sums_of(p, &two);
        b.literals += a.clauses + b.clauses; /* c_k in each */
    } else {
        struct end one = chosen(p, pair);
        a = sums_of(p, &one);
    }
    *clauses += a.clauses + b.clauses;
    *entries += a.literals + b.literals + a.clauses + b.clauses; /* a 0 after each */
}

void count_clauses(const struct problem *p, size_t *entries, size_t *clauses)
{
    *entries = *clauses = 0;
    for (int b = 1; b <= p->boxes; b++)
        count_box(p, b, entries, clauses);
    for (int k = 0; k < p->pairs; k++)
        count_pair(p, &p->pair_of[k], entries, clauses);
}

static void add(struct clauses *out, int literal) { out->literals[out->entries++] = literal; }

static void close_clause(struct clauses *out, uint64_t weight)
{
    add(out, 0);
    out->weights[out->count++] = weight;
}

static void add_two(struct clauses *out, uint64_t weight, int a, int b)
{
    add(out, a);
    add(out, b);
    close_clause(out, weight);
}

static void add_standard(int m, int x, struct clauses *out)
{
    for (int j = 1; j <= m; j++)
        add(out, x + j);
    close_clause(out, 0);
    for (int j = 1; j <= m; j++)
        for (int k = j + 1; k <= m; k++)
            add_two(out, 0, -(x + j), -(x + k));
}

static void add_regular(int m, int x, int r, struct clauses *out)
{
    if (m == 1) {
        add(out, x + 1);
        close_clause(out, 0);
        return;
    }
    for (int j = 3; j <= m; j++)
        add_two(out, 0, -(r + j), r + j - 1);
    add_two(out, 0, -(x + 1), -(r + 2));
    add_two(out, 0, x + 1, r + 2);
    for (int j = 2; j < m; j++) {
        add_two(out, 0, -(x + j), r + j);
        add_two(out, 0, -(x + j), -(r + j + 1));
        add(out, x + j);
        add_two(out, 0, -(r + j), r + j + 1);
    }
    add_two(out, 0, -(x + m), r + m);
    add_two(out, 0, x + m, -(r + m));
}

static void add_box(const struct problem *p, int box, struct clauses *out)
{
    if (p->regular)
        add_regular(p->sizes[box], p->value_base[box], p->threshold_base[box], out);
    else
        add_standard(p->sizes[box], p->value_base[box], out);
}

static void add_direct(const struct problem *p, const struct pair *pair, struct clauses *out)
{
    int x = p->value_base[pair->first], y = p->value_base[pair->second];
    for (int i = 0; i < p->sizes[pair->first]; i++)
        for (int j = 0; j < p->sizes[pair->second]; j++)
            if (!(pair->rows[i] >> j & 1))
                add_two(out, pair->weight, -(x + i + 1), -(y + j + 1));
}

/* The support clauses of one end, each with the literal `tail` unless that is 0. */
static void add_end(const struct problem *p, const struct end *e, uint64_t weight, int tail, struct clauses *out)
{
    int x = p->value_base[e->own], y = p->value_base[e->other];
    for (int i = 0; i < p->sizes[e->own]; i++) {
        if (e->rows[i] == full(p, e->other))
            continue;
        add(out, -(x + i + 1));
        for (int j = 0; j < p->sizes[e->other]; j++)
            if (e->rows[i] >> j & 1)
                add(out, y + j + 1);
        if (tail)
            add(out, tail);
        close_clause(out, weight);
    }
}

static void add_pair(const struct problem *p, int k, struct clauses *out)
{
    const struct pair *pair = &p->pair_of[k];
    int c = p->switch_base + k + 1;
    if (p->side == WICKCOLLAR_DIRECT) {
        add_direct(p, pair, out);
    } else if (p->side == WICKCOLLAR_SUPPORT) {
        struct end one = from_first(p, pair), two = from_second(p, pair);
        add_end(p, &one, pair->weight, c, out);
        add_end(p, &two, pair->weight, -c, out);
    } else {
        struct end one = chosen(p, pair);
        add_end(p, &one, pair->weight, 0, out);
    }
}

void add_part(const struct problem *p, int part, struct clauses *out)
{
    if (part < p->boxes)
        add_box(p, part + 1, out);
    else
        add_pair(p, part - p->boxes, out);
}

uint64_t plain_encode(const uint32_t *words, size_t words_length, uint32_t hard, uint32_t side, int32_t *literals, size_t literals_length,
                      uint64_t *weights, size_t weights_length, size_t *entries, size_t *clauses)
{
    struct problem p;
    uint64_t refusal = take_table(words, words_length, hard, side, &p);
    if (refusal)
        return refusal;
    size_t entries_due, clauses_due;
    count_clauses(&p, &entries_due, &clauses_due);
    if (literals_length < entries_due)
        return refused(9, entries_due);
    if (weights_length < clauses_due)
        return refused(9, clauses_due);
    struct clauses out = {literals, weights, 0, 0};
    for (int part = 0; part < p.boxes + p.pairs; part++)
        add_part(&p, part, &out);
    *entries = out.entries;
    *clauses = out.count;
    return WICKCOLLAR_DONE;
}
