/* What link.c lends, and how it holds what came of it: each buffer and slot lies between margins and holds a pattern, so that what a call wrote,
 * and what it left alone, can be told. */
#include "wickcollar.h"

#include <inttypes.h>
#include <stdio.h>
#include <string.h>

static unsigned passed = 0, failed = 0;
static char trying[160] = "";

static void hold(int good, const char *what)
{
    if (good) {
        passed++;
        return;
    }
    failed++;
    printf("%s: %s\n", trying, what);
}

/* ---- what is lent */

enum { MARGIN = 64, ROOM = 1 << 20 };

typedef struct {
    const char *name;
    size_t size, length;
    union {
        uint64_t aligned;
        unsigned char bytes[MARGIN + ROOM + MARGIN];
    } in;
} Lent;

static unsigned char pattern(size_t at) { return (unsigned char)(0xA5 + 7 * at + at / 256); }

static void *lend(Lent *lent, const char *name, size_t size, size_t length)
{
    size_t at, all = MARGIN + size * length + MARGIN;
    lent->name = name;
    lent->size = size;
    lent->length = length;
    for (at = 0; at < all; at++) lent->in.bytes[at] = pattern(at);
    return lent->in.bytes + MARGIN;
}

/* Its first entries are these, and the rest of it and both margins are as they were. */
static void holds(const Lent *lent, const void *wanted, size_t count)
{
    char what[120];
    size_t at, end = MARGIN + count * lent->size, all = MARGIN + lent->size * lent->length + MARGIN;
    int kept = count <= lent->length;
    for (at = 0; at < MARGIN; at++) kept = kept && lent->in.bytes[at] == pattern(at);
    for (at = end; at < all; at++) kept = kept && lent->in.bytes[at] == pattern(at);
    snprintf(what, sizeof what, "%s was written outside its %u entries", lent->name, (unsigned)count);
    hold(kept, what);
    snprintf(what, sizeof what, "%s has other entries", lent->name);
    if (count > 0) hold(memcmp(lent->in.bytes + MARGIN, wanted, count * lent->size) == 0, what);
}

static void unchanged(const Lent *lent) { holds(lent, NULL, 0); }

static void zeroed(const Lent *lent)
{
    static const unsigned char zeros[64] = {0};
    holds(lent, zeros, lent->length);
}

static void gave(const Lent *slot, uint64_t wanted)
{
    uint32_t small = (uint32_t)wanted;
    if (slot->size == sizeof small) holds(slot, &small, 1);
    else holds(slot, &wanted, 1);
}

static Lent boxes, pairs, cost, variables, clauses, literals, entries, top, first, second, weights, plan, list, table, text, hard, side, words, bytes;

static size_t *slot(Lent *lent, const char *name) { return (size_t *)lend(lent, name, sizeof(size_t), 1); }

static uint64_t *slot64(Lent *lent, const char *name) { return (uint64_t *)lend(lent, name, sizeof(uint64_t), 1); }

static uint32_t *slot32(Lent *lent, const char *name) { return (uint32_t *)lend(lent, name, sizeof(uint32_t), 1); }

/* ---- answers */

typedef struct {
    unsigned number; /* 0: no refusal */
    uint64_t place;
} Answer;

static const Answer DONE = {0, 0};

static Answer refusal(unsigned number, uint64_t place)
{
    Answer wanted;
    wanted.number = number;
    wanted.place = place;
    return wanted;
}

static int answered(uint64_t answer, Answer wanted)
{
    char what[120];
    int good = wickcollar_number(answer) == wanted.number && wickcollar_place(answer) == wanted.place;
    snprintf(what, sizeof what, "answered %u at %" PRIu64 ", wanted %u at %" PRIu64, wickcollar_number(answer), wickcollar_place(answer),
             wanted.number, wanted.place);
    hold(good && (answer == WICKCOLLAR_DONE) == (wanted.number == 0), what);
    return answer == WICKCOLLAR_DONE;
}
