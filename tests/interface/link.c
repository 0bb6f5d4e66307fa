/* Calls every function of include/wickcollar.h in the archive, as a station's program would, on the worked example of the scope document and on
 * refusals. C11, and C++ too. A line for each check that fails; the last line is the tally. */
#include "example.h"

static void try_lengths(const Encoding *e)
{
    name_encoding("lengths", e);
    if (lengths(asked(e), DONE)) {
        gave(&variables, e->variables), gave(&clauses, e->clauses), gave(&literals, e->literals), gave(&entries, e->entries);
        gave(&top, 8);
    }
    name_encoding("scratch_lengths", e);
    if (scratch_lengths(asked(e), DONE)) gave(&first, e->first), gave(&second, e->second);
}

static void try_encode_into(const Encoding *e, Lengths n)
{
    uint64_t wanted[20];
    size_t at;
    for (at = 0; at < e->clauses; at++) wanted[at] = at < e->hard_clauses ? 0 : 7;
    if (!encode(asked(e), n, DONE)) return;
    holds(&literals, e->clause_list, e->entries);
    holds(&weights, wanted, e->clauses);
    gave(&entries, e->entries), gave(&clauses, e->clauses);
    scratch_after(e);
}

static void try_wcnf_into(const Encoding *e, Lengths n)
{
    if (!write_wcnf(asked(e), n, DONE)) return;
    holds(&text, e->text, strlen(e->text));
    gave(&bytes, strlen(e->text));
    scratch_after(e);
}

static void try_short(const Encoding *e)
{
    Lengths n = exact(e);
    name_encoding("encode, weights one short", e);
    n.weights--, encode(asked(e), n, refusal(9, e->clauses));
    name_encoding("encode, literals and weights one short", e);
    n.literals--, encode(asked(e), n, refusal(9, e->entries));
    name_encoding("write_wcnf, text one short", e);
    n.text--, write_wcnf(asked(e), n, refusal(9, strlen(e->text)));
    if (e->second == 0) return;
    name_encoding("second and all after it one short", e);
    n.second--, encode(asked(e), n, refusal(9, e->second)), write_wcnf(asked(e), n, refusal(9, e->second));
    name_encoding("all one short", e);
    n.first--, encode(asked(e), n, refusal(9, e->first)), write_wcnf(asked(e), n, refusal(9, e->first));
    name_encoding("no room", e);
    memset(&n, 0, sizeof n);
    encode(asked(e), n, refusal(9, e->first)), write_wcnf(asked(e), n, refusal(9, e->first));
}

/* The list of a plan by the document: a variable a value, a threshold for each value but the first, and 0 for the support side's own. */
static size_t list_of(const Encoding *e, const uint32_t *values, uint8_t *made)
{
    static const uint32_t sizes[2] = {2, 3};
    size_t count = 0, box;
    uint32_t value;
    for (box = 0; box < 2; box++)
        for (value = 1; value <= sizes[box]; value++) made[count++] = values[box] == value;
    for (box = 0; box < 2 && e->hard == WICKCOLLAR_REGULAR; box++)
        for (value = 2; value <= sizes[box]; value++) made[count++] = values[box] >= value;
    if (e->side == WICKCOLLAR_SUPPORT) made[count++] = 0;
    return count;
}

/* Each plan into its list and back, with its cost. */
static void try_plans(const Encoding *e)
{
    uint32_t values[2];
    uint8_t made[9];
    for (values[0] = 1; values[0] <= 2; values[0]++)
        for (values[1] = 1; values[1] <= 3; values[1]++) {
            size_t count = list_of(e, values, made);
            name_encoding("make_list", e);
            if (make_list(asked(e), values, 2, count, DONE)) holds(&list, made, count), gave(&entries, count);
            if (make_list(asked(e), values, 2, count + 3, DONE)) holds(&list, made, count), gave(&entries, count);
            make_list(asked(e), values, 2, count - 1, refusal(9, count));
            name_encoding("decode", e);
            if (decode(asked(e), made, count, 2, DONE)) holds(&plan, values, 2), gave(&cost, values[0] == 1 && values[1] > 1 ? 0 : 7);
            if (decode(asked(e), made, count, 4, DONE)) holds(&plan, values, 2), gave(&cost, values[0] == 1 && values[1] > 1 ? 0 : 7);
            decode(asked(e), made, count, 1, refusal(9, 2));
            name_encoding("cost", e);
            if (cost_of(asked(e), values, 2, DONE)) gave(&cost, values[0] == 1 && values[1] > 1 ? 0 : 7);
        }
}

static void try_sheets(const Encoding *e)
{
    static const uint8_t zeros[9] = {0};
    char with_list[160];
    size_t count = strlen(e->sheet), at, all;
    name_encoding("read_sheet", e);
    if (read_sheet(e->sheet, count, 9, DONE)) holds(&table, EXAMPLE, 9), gave(&hard, e->hard), gave(&side, e->side), gave(&words, 9);
    if (read_sheet(e->sheet, count, 12, DONE)) holds(&table, EXAMPLE, 9), gave(&hard, e->hard), gave(&side, e->side), gave(&words, 9);
    read_sheet(e->sheet, count, 8, refusal(9, 9));
    name_encoding("write_sheet", e);
    if (write_sheet(asked(e), count, DONE)) holds(&text, e->sheet, count), gave(&bytes, count);
    if (write_sheet(asked(e), count + 5, DONE)) holds(&text, e->sheet, count), gave(&bytes, count);
    write_sheet(asked(e), count - 1, refusal(9, count));
    name_encoding("read_list", e);
    all = (size_t)snprintf(with_list, sizeof with_list, "%slist=", e->sheet);
    for (at = 0; at < e->variables; at++) with_list[all++] = '0';
    with_list[all++] = '\n';
    if (read_list(with_list, all, 9, e->variables, DONE)) {
        holds(&table, EXAMPLE, 9), holds(&list, zeros, e->variables);
        gave(&hard, e->hard), gave(&side, e->side), gave(&words, 9), gave(&entries, e->variables);
    }
    if (read_list(with_list, all, 12, e->variables + 2, DONE)) holds(&table, EXAMPLE, 9), holds(&list, zeros, e->variables);
    read_list(with_list, all, 8, e->variables, refusal(9, 9));
    read_list(with_list, all, 8, e->variables - 1, refusal(9, e->variables));
    read_list(with_list, all - 2, 8, 0, refusal(13, 12));
}

/* ---- refusals */

static const struct {
    const char *what;
    uint32_t words[10];
    size_t length;
    unsigned number;
    uint64_t place;
} BAD[] = {
    {"an empty table", {2, 1, 2, 3, 1, 2, 7, 6, 0}, 0, 1, 0},
    {"one word short", {2, 1, 2, 3, 1, 2, 7, 6, 0}, 8, 1, 8},
    {"one word more", {2, 1, 2, 3, 1, 2, 7, 6, 0, 0}, 10, 2, 9},
    {"no box", {0, 1, 2, 3, 1, 2, 7, 6, 0}, 9, 3, 0},
    {"65 boxes", {65, 1, 2, 3, 1, 2, 7, 6, 0}, 9, 3, 0},
    {"257 pairs", {2, 257, 2, 3, 1, 2, 7, 6, 0}, 9, 3, 1},
    {"the largest number of pairs", {2, UINT32_MAX, 2, 3, 1, 2, 7, 6, 0}, 9, 3, 1},
    {"no value", {2, 1, 2, 0, 1, 2, 7, 6, 0}, 9, 4, 3},
    {"17 values", {2, 1, 17, 3, 1, 2, 7, 6, 0}, 9, 4, 2},
    {"first box 3 of 2", {2, 1, 2, 3, 3, 2, 7, 6, 0}, 9, 5, 4},
    {"a box with itself", {2, 1, 2, 3, 1, 1, 7, 6, 0}, 9, 5, 5},
    {"weight 0", {2, 1, 2, 3, 1, 2, 0, 6, 0}, 9, 6, 6},
    {"weight 1000001", {2, 1, 2, 3, 1, 2, 1000001, 6, 0}, 9, 6, 6},
    {"a bit past the second box", {2, 1, 2, 3, 1, 2, 7, 8, 0}, 9, 7, 7},
    {"the highest bit", {2, 1, 2, 3, 1, 2, 7, 6, UINT32_C(1) << 31}, 9, 7, 8},
};

/* Each function that takes a table, given one that is refused. */
static void every_function(Asked a, Answer wanted, int with_choices)
{
    static const uint32_t values[2] = {1, 2};
    static const uint8_t entries5[5] = {1, 0, 0, 1, 0};
    Lengths n = exact(&ENCODINGS[4]);
    if (!with_choices) check(a, wanted), cost_of(a, values, 2, wanted);
    lengths(a, wanted);
    scratch_lengths(a, wanted);
    encode(a, n, wanted);
    decode(a, entries5, 5, 2, wanted);
    make_list(a, values, 2, 9, wanted);
    write_sheet(a, 200, wanted);
    write_wcnf(a, n, wanted);
    memset(&n, 0, sizeof n); /* the table is judged before any room */
    encode(a, n, wanted);
    decode(a, entries5, 3, 0, wanted);
    make_list(a, values, 1, 0, wanted);
    write_sheet(a, 0, wanted);
    write_wcnf(a, n, wanted);
}

static void try_bad_tables(void)
{
    static const uint32_t unknown[6][2] = {{2, 1}, {0, 0}, {1, 6}, {UINT32_MAX, 1}, {0, UINT32_MAX}, {UINT32_C(1) << 31, UINT32_C(1) << 31}};
    Asked a;
    size_t at;
    for (at = 0; at < sizeof BAD / sizeof BAD[0]; at++) {
        snprintf(trying, sizeof trying, "%s", BAD[at].what);
        a.words = BAD[at].words, a.length = BAD[at].length;
        a.hard = (uint32_t)at % 2, a.side = (uint32_t)at % 5 + 1;
        every_function(a, refusal(BAD[at].number, BAD[at].place), 0);
    }
    for (at = 0; at < 6; at++) {
        snprintf(trying, sizeof trying, "hard %u, side %u", (unsigned)unknown[at][0], (unsigned)unknown[at][1]);
        a.words = EXAMPLE, a.length = at % 2 ? 9 : 8; /* the choices are judged before the table */
        a.hard = unknown[at][0], a.side = unknown[at][1];
        every_function(a, refusal(8, 0), 1);
    }
}

static void try_bad_plans_and_lists(void)
{
    static const uint32_t values[3] = {1, 4, 1}, none[2] = {0, 4}, three[2] = {3, 1};
    static const uint8_t two[6] = {0, 1, 0, 2, 255, 0}, both[5] = {0, 1, 0, 1, 1}, zeros[5] = {0}, thresholds[8] = {0, 1, 0, 0, 1, 1, 0, 1};
    const Asked a = asked(&ENCODINGS[2]);
    snprintf(trying, sizeof trying, "plans that are none");
    cost_of(a, values, 3, refusal(10, 2)), make_list(a, values, 3, 0, refusal(10, 2));
    cost_of(a, values, 1, refusal(10, 2)), make_list(a, values, 1, 0, refusal(10, 2));
    cost_of(a, values, 0, refusal(10, 2)), make_list(a, values, 0, 9, refusal(10, 2));
    cost_of(a, values, 2, refusal(11, 1)), make_list(a, values, 2, 0, refusal(11, 1));
    cost_of(a, none, 2, refusal(11, 0)), make_list(a, none, 2, 9, refusal(11, 0));
    cost_of(a, three, 2, refusal(11, 0)), make_list(a, three, 2, 9, refusal(11, 0));
    snprintf(trying, sizeof trying, "lists that are none");
    decode(a, two, 4, 0, refusal(10, 5)), decode(a, two, 6, 2, refusal(10, 5)), decode(a, two, 0, 2, refusal(10, 5));
    decode(a, two, 5, 0, refusal(11, 3));
    decode(a, both, 5, 0, refusal(12, 2)), decode(a, zeros, 5, 2, refusal(12, 1));
    decode(asked(&ENCODINGS[7]), thresholds, 8, 2, refusal(12, 2));
}

static void faulty(const char *what, const char *sheet, uint64_t line)
{
    snprintf(trying, sizeof trying, "read_sheet, %s", what);
    read_sheet(sheet, strlen(sheet), 9, refusal(13, line)), read_sheet(sheet, strlen(sheet), 0, refusal(13, line));
    snprintf(trying, sizeof trying, "read_list, %s", what);
    read_list(sheet, strlen(sheet), 9, 5, refusal(13, line)), read_list(sheet, strlen(sheet), 0, 0, refusal(13, line));
}

static void try_bad_sheets(void)
{
#define SHEET "hard=standard\nside=first\n" REST
    faulty("empty", "", 1);
    faulty("unknown side", "hard=standard\nside=last\n" REST, 2);
    faulty("weight 0", "hard=standard\nside=first\nboxes=2\nvalues=2\nvalues=3\npairs=1\nfirst=1\nsecond=2\nweight=0\nallow=011\nallow=000\n", 9);
    faulty("a line missing", "hard=standard\nside=first\nboxes=2\nvalues=2\nvalues=3\npairs=1\nfirst=1\nsecond=2\nweight=7\nallow=011\n", 11);
    faulty("another line", SHEET "more=1\n", 12);
    snprintf(trying, sizeof trying, "read_list");
    read_list(SHEET, strlen(SHEET), 9, 5, refusal(13, 12));
    read_list(SHEET "list=01020\n", strlen(SHEET) + 11, 9, 5, refusal(13, 12));
    read_list(SHEET "list=01000\n\n", strlen(SHEET) + 12, 9, 5, refusal(13, 13));
    read_list(SHEET "list=0100\n", strlen(SHEET) + 10, 0, 0, refusal(10, 5));
    read_list(SHEET "list=010000\n", strlen(SHEET) + 12, 9, 9, refusal(10, 5));
    if (read_list(SHEET "list=01100\n", strlen(SHEET) + 11, 9, 5, DONE)) {
        static const uint8_t entries5[5] = {0, 1, 1, 0, 0};
        holds(&table, EXAMPLE, 9), holds(&list, entries5, 5), gave(&hard, 0), gave(&side, 3), gave(&words, 9), gave(&entries, 5);
    }
}

/* ---- the smallest table and the largest */

static void try_smallest(void)
{
    static const uint32_t one[3] = {1, 0, 1}, value[1] = {1};
    static const int32_t clause[2] = {1, 0};
    static const uint64_t weight[1] = {0};
    static const uint8_t yes[1] = {1}, no[1] = {0};
    Asked a = {one, 3, 0, 1};
    Lengths n = {0, 0, 2, 1, 0};
    snprintf(trying, sizeof trying, "one box, one value, no pair");
    n.text = strlen("p wcnf 1 1 1\n1 1 0\n");
    if (check(a, DONE)) gave(&boxes, 1), gave(&pairs, 0);
    if (lengths(a, DONE)) gave(&variables, 1), gave(&clauses, 1), gave(&literals, 1), gave(&entries, 2), gave(&top, 1);
    if (encode(a, n, DONE)) holds(&literals, clause, 2), holds(&weights, weight, 1), gave(&entries, 2), gave(&clauses, 1);
    if (write_wcnf(a, n, DONE)) holds(&text, "p wcnf 1 1 1\n1 1 0\n", n.text), gave(&bytes, n.text);
    if (decode(a, yes, 1, 1, DONE)) holds(&plan, value, 1), gave(&cost, 0);
    decode(a, no, 1, 1, refusal(12, 1));
}

/* 64 boxes of 16 values, 256 pairs that allow nothing, of the largest weight. */
static void try_largest(void)
{
    static uint32_t largest[WICKCOLLAR_MOST_WORDS], ones[64];
    static int32_t wanted[220736];
    static uint64_t wanted_weights[73280];
    Asked a = {largest, WICKCOLLAR_MOST_WORDS, WICKCOLLAR_STANDARD, WICKCOLLAR_DIRECT};
    Lengths n = {0, 0, 220736, 73280, 0};
    size_t at = 2, to = 0, pair;
    int32_t box, i, j;
    snprintf(trying, sizeof trying, "the largest table");
    largest[0] = 64, largest[1] = 256;
    for (box = 0; box < 64; box++) {
        largest[at++] = 16, ones[box] = 1;
        for (i = 1; i <= 16; i++) wanted[to++] = 16 * box + i;
        for (to++, i = 1; i <= 16; i++)
            for (j = i + 1; j <= 16; j++) wanted[to++] = -(16 * box + i), wanted[to++] = -(16 * box + j), to++;
    }
    for (pair = 0; pair < 256; pair++) {
        uint32_t x = (uint32_t)pair % 64 + 1, y = x % 64 + 1;
        largest[at++] = x, largest[at++] = y, largest[at++] = 1000000, at += 16;
        for (i = 1; i <= 16; i++)
            for (j = 1; j <= 16; j++) wanted[to++] = -(16 * ((int32_t)x - 1) + i), wanted[to++] = -(16 * ((int32_t)y - 1) + j), to++;
    }
    for (pair = 0; pair < 73280; pair++) wanted_weights[pair] = pair < 7744 ? 0 : 1000000;
    hold(at == WICKCOLLAR_MOST_WORDS && to == 220736, "the test counts its words or its clauses wrongly");
    if (check(a, DONE)) gave(&boxes, 64), gave(&pairs, 256);
    if (cost_of(a, ones, 64, DONE)) gave(&cost, 256000000);
    if (lengths(a, DONE)) gave(&variables, 1024), gave(&clauses, 73280), gave(&literals, 147456), gave(&entries, 220736), gave(&top, 256000001);
    if (encode(a, n, DONE)) holds(&literals, wanted, 220736), holds(&weights, wanted_weights, 73280), gave(&entries, 220736), gave(&clauses, 73280);
    n.weights--, encode(a, n, refusal(9, 73280));
    n.literals--, encode(a, n, refusal(9, 220736));
}

/* ---- the list of the document, by name */

static void try_document(void)
{
    static const uint8_t p6[5] = {0, 1, 1, 0, 0}, p7[5] = {1, 0, 0, 1, 0}, p8[8] = {0, 1, 0, 0, 1, 1, 1, 1};
    static const uint32_t plan6[2] = {2, 1}, plan7[2] = {1, 2}, plan8[2] = {2, 3};
    snprintf(trying, sizeof trying, "P6");
    if (decode(asked(&ENCODINGS[2]), p6, 5, 2, DONE)) holds(&plan, plan6, 2), gave(&cost, 7);
    snprintf(trying, sizeof trying, "P7");
    if (decode(asked(&ENCODINGS[2]), p7, 5, 2, DONE)) holds(&plan, plan7, 2), gave(&cost, 0);
    snprintf(trying, sizeof trying, "P8");
    if (decode(asked(&ENCODINGS[7]), p8, 8, 2, DONE)) holds(&plan, plan8, 2), gave(&cost, 7);
    snprintf(trying, sizeof trying, "a refusal taken apart");
    hold(wickcollar_number(UINT64_MAX) == 255 && wickcollar_place(UINT64_MAX) == (UINT64_C(1) << 56) - 1, "the largest answer");
    hold(wickcollar_number((UINT64_C(13) << 56) + 12) == 13 && wickcollar_place((UINT64_C(13) << 56) + 12) == 12, "13 at 12");
}

int main(void)
{
    size_t at;
    const Encoding *e;
    snprintf(trying, sizeof trying, "check");
    if (check(asked(&ENCODINGS[0]), DONE)) gave(&boxes, 2), gave(&pairs, 1);
    for (at = 0; at < 10; at++) {
        e = &ENCODINGS[at];
        try_lengths(e);
        name_encoding("encode", e);
        try_encode_into(e, exact(e)), try_encode_into(e, ample(e));
        name_encoding("write_wcnf", e);
        try_wcnf_into(e, exact(e)), try_wcnf_into(e, ample(e));
        try_short(e);
        try_plans(e);
        try_sheets(e);
    }
    try_document();
    try_bad_tables();
    try_bad_plans_and_lists();
    try_bad_sheets();
    try_smallest();
    try_largest();
    printf("%u passed, %u failed\n", passed, failed);
    return failed > 0;
}
