/* The worked example of the scope document, two boxes of 2 and 3 values, one pair of weight 7, masks 011 and 000, in all ten encodings: its lengths,
 * clauses and texts, written down by hand. */
#include "calls.h"

static const uint32_t EXAMPLE[9] = {2, 1, 2, 3, 1, 2, 7, 6, 0};

#define STANDARD_LITERALS 1, 2, 0, -1, -2, 0, 3, 4, 5, 0, -3, -4, 0, -3, -5, 0, -4, -5, 0
#define REGULAR_LITERALS \
    -1, -6, 0, 1, 6, 0, -2, 6, 0, 2, -6, 0, -8, 7, 0, -3, -7, 0, 3, 7, 0, -4, 7, 0, -4, -8, 0, 4, -7, 8, 0, -5, 8, 0, 5, -8, 0
#define STANDARD_TEXT "8 1 2 0\n8 -1 -2 0\n8 3 4 5 0\n8 -3 -4 0\n8 -3 -5 0\n8 -4 -5 0\n"
#define REGULAR_TEXT \
    "8 -1 -6 0\n8 1 6 0\n8 -2 6 0\n8 2 -6 0\n8 -8 7 0\n8 -3 -7 0\n8 3 7 0\n8 -4 7 0\n8 -4 -8 0\n8 4 -7 8 0\n8 -5 8 0\n8 5 -8 0\n"
#define DIRECT_TEXT "7 -1 -3 0\n7 -2 -3 0\n7 -2 -4 0\n7 -2 -5 0\n"
#define FIRST_TEXT "7 -1 4 5 0\n7 -2 0\n"
#define SCORE_TEXT "7 -3 0\n7 -4 1 0\n7 -5 1 0\n"
#define REST "boxes=2\nvalues=2\nvalues=3\npairs=1\nfirst=1\nsecond=2\nweight=7\nallow=011\nallow=000\n"

typedef struct {
    uint32_t hard, side;
    size_t variables, clauses, literals, entries, hard_clauses, first, second;
    int32_t clause_list[60];
    const char *text, *sheet;
} Encoding;

static const Encoding ENCODINGS[10] = {
    {WICKCOLLAR_STANDARD, WICKCOLLAR_DIRECT, 5, 10, 21, 31, 6, 0, 0, {STANDARD_LITERALS, -1, -3, 0, -2, -3, 0, -2, -4, 0, -2, -5, 0},
     "p wcnf 5 10 8\n" STANDARD_TEXT DIRECT_TEXT, "hard=standard\nside=direct\n" REST},
    {WICKCOLLAR_STANDARD, WICKCOLLAR_SUPPORT, 6, 11, 27, 38, 6, 0, 0,
     {STANDARD_LITERALS, -1, 4, 5, 6, 0, -2, 6, 0, -3, -6, 0, -4, 1, -6, 0, -5, 1, -6, 0},
     "p wcnf 6 11 8\n" STANDARD_TEXT "7 -1 4 5 6 0\n7 -2 6 0\n7 -3 -6 0\n7 -4 1 -6 0\n7 -5 1 -6 0\n", "hard=standard\nside=support\n" REST},
    {WICKCOLLAR_STANDARD, WICKCOLLAR_FIRST, 5, 8, 17, 25, 6, 0, 0, {STANDARD_LITERALS, -1, 4, 5, 0, -2, 0},
     "p wcnf 5 8 8\n" STANDARD_TEXT FIRST_TEXT, "hard=standard\nside=first\n" REST},
    {WICKCOLLAR_STANDARD, WICKCOLLAR_LITERALS, 5, 8, 17, 25, 6, 6, 8, {STANDARD_LITERALS, -1, 4, 5, 0, -2, 0},
     "p wcnf 5 8 8\n" STANDARD_TEXT FIRST_TEXT, "hard=standard\nside=literals\n" REST},
    {WICKCOLLAR_STANDARD, WICKCOLLAR_SCORE, 5, 9, 18, 27, 6, 6, 8, {STANDARD_LITERALS, -3, 0, -4, 1, 0, -5, 1, 0},
     "p wcnf 5 9 8\n" STANDARD_TEXT SCORE_TEXT, "hard=standard\nside=score\n" REST},
    {WICKCOLLAR_REGULAR, WICKCOLLAR_DIRECT, 8, 16, 33, 49, 12, 0, 0, {REGULAR_LITERALS, -1, -3, 0, -2, -3, 0, -2, -4, 0, -2, -5, 0},
     "p wcnf 8 16 8\n" REGULAR_TEXT DIRECT_TEXT, "hard=regular\nside=direct\n" REST},
    {WICKCOLLAR_REGULAR, WICKCOLLAR_SUPPORT, 9, 17, 39, 56, 12, 0, 0,
     {REGULAR_LITERALS, -1, 4, 5, 9, 0, -2, 9, 0, -3, -9, 0, -4, 1, -9, 0, -5, 1, -9, 0},
     "p wcnf 9 17 8\n" REGULAR_TEXT "7 -1 4 5 9 0\n7 -2 9 0\n7 -3 -9 0\n7 -4 1 -9 0\n7 -5 1 -9 0\n", "hard=regular\nside=support\n" REST},
    {WICKCOLLAR_REGULAR, WICKCOLLAR_FIRST, 8, 14, 29, 43, 12, 0, 0, {REGULAR_LITERALS, -1, 4, 5, 0, -2, 0},
     "p wcnf 8 14 8\n" REGULAR_TEXT FIRST_TEXT, "hard=regular\nside=first\n" REST},
    {WICKCOLLAR_REGULAR, WICKCOLLAR_LITERALS, 8, 14, 29, 43, 12, 6, 8, {REGULAR_LITERALS, -1, 4, 5, 0, -2, 0},
     "p wcnf 8 14 8\n" REGULAR_TEXT FIRST_TEXT, "hard=regular\nside=literals\n" REST},
    {WICKCOLLAR_REGULAR, WICKCOLLAR_SCORE, 8, 15, 30, 45, 12, 6, 8, {REGULAR_LITERALS, -3, 0, -4, 1, 0, -5, 1, 0},
     "p wcnf 8 15 8\n" REGULAR_TEXT SCORE_TEXT, "hard=regular\nside=score\n" REST},
};

static Asked asked(const Encoding *e)
{
    Asked a;
    a.words = EXAMPLE;
    a.length = 9;
    a.hard = e->hard;
    a.side = e->side;
    return a;
}

static Lengths exact(const Encoding *e)
{
    Lengths n;
    n.first = e->first;
    n.second = e->second;
    n.literals = e->entries;
    n.weights = e->clauses;
    n.text = strlen(e->text);
    return n;
}

/* Room past what is needed, and on the sides that want no scratch some all the same. */
static Lengths ample(const Encoding *e)
{
    Lengths n = exact(e);
    n.first += 2;
    n.second += 3;
    n.literals += 5;
    n.weights += 4;
    n.text += 6;
    return n;
}

static void name_encoding(const char *function, const Encoding *e)
{
    snprintf(trying, sizeof trying, "%s, hard %u, side %u", function, (unsigned)e->hard, (unsigned)e->side);
}

static void scratch_after(const Encoding *e)
{
    if (e->side >= WICKCOLLAR_LITERALS) zeroed(&first), zeroed(&second);
    else unchanged(&first), unchanged(&second);
}
