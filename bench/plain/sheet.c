/* The house sheet, and the sheet with its list line, read. */
#include "plain.h"
#include <string.h>

struct reader {
    const uint8_t *text;
    size_t length, cursor, line;
};

/* What a sheet says, before anything is handed on. */
struct sheet {
    uint32_t hard, side;
    size_t words;
    uint32_t table[WICKCOLLAR_MOST_WORDS];
};

/* The value of the next line, which must have this key; without one the answer is null. */
static const uint8_t *take(struct reader *r, const char *key, size_t *length)
{
    size_t key_length = strlen(key);
    const uint8_t *start = r->text + r->cursor;
    const uint8_t *feed = memchr(start, '\n', r->length - r->cursor);
    r->line++;
    if (!feed || (size_t)(feed - start) < key_length || memcmp(start, key, key_length) != 0)
        return NULL;
    *length = (size_t)(feed - start) - key_length;
    r->cursor += (size_t)(feed - start) + 1;
    return start + key_length;
}

/* Each of these takes a line and answers 0 where it is at fault. */
static int take_word(struct reader *r, const char *key, const char *const *known, uint32_t count, uint32_t *word)
{
    size_t length;
    const uint8_t *value = take(r, key, &length);
    for (uint32_t i = 0; value && i < count; i++)
        if (strlen(known[i]) == length && memcmp(known[i], value, length) == 0) {
            *word = i;
            return 1;
        }
    return 0;
}

static int take_number(struct reader *r, const char *key, uint32_t low, uint32_t high, uint32_t *word)
{
    size_t length;
    const uint8_t *value = take(r, key, &length);
    uint32_t n = 0;
    if (!value || length == 0 || length > 7 || (length > 1 && value[0] == '0'))
        return 0;
    for (size_t i = 0; i < length; i++) {
        if (value[i] < '0' || value[i] > '9')
            return 0;
        n = n * 10 + (value[i] - '0');
    }
    *word = n;
    return low <= n && n <= high;
}

static int take_row(struct reader *r, uint32_t width, uint32_t *word)
{
    size_t length;
    const uint8_t *value = take(r, "allow=", &length);
    uint32_t mask = 0;
    if (!value || length != width)
        return 0;
    for (uint32_t j = 0; j < width; j++) {
        if (value[j] != '0' && value[j] != '1')
            return 0;
        mask |= (uint32_t)(value[j] - '0') << j;
    }
    *word = mask;
    return 1;
}

static int take_pair(struct reader *r, struct sheet *s)
{
    const uint32_t *sizes = s->table + 1; /* that of box 1 is the table's word 2 */
    uint32_t boxes = s->table[0], *pair = s->table + s->words;
    if (!take_number(r, "first=", 1, boxes, &pair[0]) || !take_number(r, "second=", 1, boxes, &pair[1]) || pair[1] == pair[0] ||
        !take_number(r, "weight=", 1, MOST_WEIGHT, &pair[2]))
        return 0;
    for (uint32_t i = 0; i < sizes[pair[0]]; i++)
        if (!take_row(r, sizes[pair[1]], &pair[3 + i]))
            return 0;
    s->words += 3 + sizes[pair[0]];
    return 1;
}

static int take_sheet(struct reader *r, struct sheet *s)
{
    static const char *const hards[] = {"standard", "regular"};
    static const char *const sides[] = {"direct", "support", "first", "literals", "score"};
    if (!take_word(r, "hard=", hards, 2, &s->hard) || !take_word(r, "side=", sides, 5, &s->side) ||
        !take_number(r, "boxes=", 1, MOST_BOXES, &s->table[0]))
        return 0;
    s->side += WICKCOLLAR_DIRECT;
    for (uint32_t b = 1; b <= s->table[0]; b++)
        if (!take_number(r, "values=", 1, MOST_VALUES, &s->table[1 + b]))
            return 0;
    if (!take_number(r, "pairs=", 0, MOST_PAIRS, &s->table[1]))
        return 0;
    s->words = 2 + s->table[0];
    for (uint32_t k = 0; k < s->table[1]; k++)
        if (!take_pair(r, s))
            return 0;
    return 1;
}

static void hand_on(const struct sheet *s, uint32_t *table, uint32_t *hard, uint32_t *side, size_t *words)
{
    memcpy(table, s->table, s->words * sizeof *table);
    *hard = s->hard;
    *side = s->side;
    *words = s->words;
}

uint64_t plain_read_sheet(const uint8_t *text, size_t text_length, uint32_t *table, size_t table_length, uint32_t *hard, uint32_t *side,
                          size_t *words)
{
    struct reader r = {text, text_length, 0, 0};
    struct sheet s;
    if (!take_sheet(&r, &s))
        return refused(13, r.line);
    if (r.cursor < r.length)
        return refused(13, r.line + 1);
    if (table_length < s.words)
        return refused(9, s.words);
    hand_on(&s, table, hard, side, words);
    return WICKCOLLAR_DONE;
}

static size_t variables_of(const struct sheet *s)
{
    size_t count = s->side == WICKCOLLAR_SUPPORT ? s->table[1] : 0;
    for (uint32_t b = 1; b <= s->table[0]; b++)
        count += s->table[1 + b] + (s->hard == WICKCOLLAR_REGULAR ? s->table[1 + b] - 1 : 0);
    return count;
}

uint64_t plain_read_list(const uint8_t *text, size_t text_length, uint32_t *table, size_t table_length, uint8_t *list, size_t list_length,
                         uint32_t *hard, uint32_t *side, size_t *words, size_t *entries)
{
    struct reader r = {text, text_length, 0, 0};
    struct sheet s;
    size_t length;
    if (!take_sheet(&r, &s))
        return refused(13, r.line);
    const uint8_t *value = take(&r, "list=", &length);
    if (!value)
        return refused(13, r.line);
    for (size_t i = 0; i < length; i++)
        if (value[i] != '0' && value[i] != '1')
            return refused(13, r.line);
    if (r.cursor < r.length)
        return refused(13, r.line + 1);
    size_t wanted = variables_of(&s);
    if (length != wanted)
        return refused(10, wanted);
    if (list_length < wanted)
        return refused(9, wanted);
    if (table_length < s.words)
        return refused(9, s.words);
    hand_on(&s, table, hard, side, words);
    for (size_t i = 0; i < length; i++)
        list[i] = (uint8_t)(value[i] - '0');
    *entries = length;
    return WICKCOLLAR_DONE;
}
