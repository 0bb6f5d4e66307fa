/* Shows that link.c can fail: linked with --wrap, each function is the archive's own with one fault more, where SLIP in the environment names it. */
#include "wickcollar.h"

#include <stdlib.h>
#include <string.h>

static int slip(const char *name)
{
    const char *chosen = getenv("SLIP");
    return chosen != NULL && strcmp(chosen, name) == 0;
}

#define WRAPPED(name, ...) \
    uint64_t __real_wickcollar_##name(__VA_ARGS__); \
    uint64_t __wrap_wickcollar_##name(__VA_ARGS__); \
    uint64_t __wrap_wickcollar_##name(__VA_ARGS__)

WRAPPED(check, const uint32_t *words, size_t words_length, size_t *boxes, size_t *pairs)
{
    if (slip("check: the counts swapped")) return __real_wickcollar_check(words, words_length, pairs, boxes);
    return __real_wickcollar_check(words, words_length, boxes, pairs);
}

WRAPPED(cost, const uint32_t *words, size_t words_length, const uint32_t *plan, size_t plan_length, uint64_t *cost)
{
    uint64_t answer = __real_wickcollar_cost(words, words_length, plan, plan_length, cost);
    if (answer != WICKCOLLAR_DONE && slip("cost: the slot written on a refusal")) *cost = 0;
    return answer;
}

WRAPPED(lengths, const uint32_t *words, size_t words_length, uint32_t hard, uint32_t side, size_t *variables, size_t *clauses, size_t *literals,
        size_t *entries, uint64_t *top)
{
    if (slip("lengths: literals and entries swapped"))
        return __real_wickcollar_lengths(words, words_length, hard, side, variables, clauses, entries, literals, top);
    return __real_wickcollar_lengths(words, words_length, hard, side, variables, clauses, literals, entries, top);
}

WRAPPED(scratch_lengths, const uint32_t *words, size_t words_length, uint32_t hard, uint32_t side, size_t *first, size_t *second)
{
    if (slip("scratch_lengths: both swapped")) return __real_wickcollar_scratch_lengths(words, words_length, hard, side, second, first);
    return __real_wickcollar_scratch_lengths(words, words_length, hard, side, first, second);
}

WRAPPED(encode, const uint32_t *words, size_t words_length, uint32_t hard, uint32_t side, int32_t *first, size_t first_length, int32_t *second,
        size_t second_length, int32_t *literals, size_t literals_length, uint64_t *weights, size_t weights_length, size_t *entries, size_t *clauses)
{
    uint64_t answer;
    size_t more = slip("encode: one weight too few is taken") ? 1 : 0;
    if (slip("encode: the last two slots swapped")) {
        size_t *other = entries;
        entries = clauses, clauses = other;
    }
    answer = __real_wickcollar_encode(words, words_length, hard, side, first, first_length, second, second_length, literals, literals_length, weights,
                                      weights_length + more, entries, clauses);
    if (slip("encode: a literal past the lent ones")) literals[literals_length] = 0;
    return answer;
}

WRAPPED(decode, const uint32_t *words, size_t words_length, uint32_t hard, uint32_t side, const uint8_t *list, size_t list_length, uint32_t *plan,
        size_t plan_length, uint64_t *cost)
{
    uint64_t answer = __real_wickcollar_decode(words, words_length, hard, side, list, list_length, plan, plan_length, cost);
    if (answer != WICKCOLLAR_DONE && plan_length > 0 && slip("decode: the plan written on a refusal")) plan[0] = 1;
    return answer;
}

WRAPPED(make_list, const uint32_t *words, size_t words_length, uint32_t hard, uint32_t side, const uint32_t *plan, size_t plan_length, uint8_t *list,
        size_t list_length, size_t *entries)
{
    uint64_t answer = __real_wickcollar_make_list(words, words_length, hard, side, plan, plan_length, list, list_length, entries);
    if (answer == WICKCOLLAR_DONE && *entries < list_length && slip("make_list: an entry past the list")) list[*entries] = 0;
    return answer;
}

WRAPPED(read_sheet, const uint8_t *text, size_t text_length, uint32_t *table, size_t table_length, uint32_t *hard, uint32_t *side, size_t *words)
{
    if (slip("read_sheet: the choices swapped")) return __real_wickcollar_read_sheet(text, text_length, table, table_length, side, hard, words);
    return __real_wickcollar_read_sheet(text, text_length, table, table_length, hard, side, words);
}

WRAPPED(write_sheet, const uint32_t *words, size_t words_length, uint32_t hard, uint32_t side, uint8_t *text, size_t text_length, size_t *bytes)
{
    if (slip("write_sheet: a byte before the text")) text[-1] = 0;
    return __real_wickcollar_write_sheet(words, words_length, hard, side, text, text_length, bytes);
}

WRAPPED(read_list, const uint8_t *text, size_t text_length, uint32_t *table, size_t table_length, uint8_t *list, size_t list_length, uint32_t *hard,
        uint32_t *side, size_t *words, size_t *entries)
{
    uint64_t answer = __real_wickcollar_read_list(text, text_length, table, table_length, list, list_length, hard, side, words, entries);
    return answer != WICKCOLLAR_DONE && slip("read_list: the place one too high") ? answer + 1 : answer;
}

WRAPPED(write_wcnf, const uint32_t *words, size_t words_length, uint32_t hard, uint32_t side, int32_t *first, size_t first_length, int32_t *second,
        size_t second_length, uint8_t *text, size_t text_length, size_t *bytes)
{
    uint64_t answer = __real_wickcollar_write_wcnf(words, words_length, hard, side, first, first_length, second, second_length, text, text_length, bytes);
    if (answer == WICKCOLLAR_DONE && second_length > 0 && slip("write_wcnf: the scratch left as it was used")) second[0] = -1;
    return answer;
}
