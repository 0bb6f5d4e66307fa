/* Both sides of one job in one process: the proved library over its C interface, and plain C.
 *
 * inside JOB time ROUNDS   holds both to the same results, and prints for each round the nanoseconds of the processor that one call takes,
 *                          ours and plain C's
 * inside JOB WHO CALLS     calls one of them (0 ours, 1 plain C) so many times, for whoever counts instructions
 *
 * JOB is 0 to read a sheet, 1 to encode, 2 to decode, 3 to write WCNF text, 4 to read a sheet with its list line. Standard input has a sheet
 * and a list line, of any length. */
#include "plain/plain.h"
#include <stdio.h>
#include <stdlib.h>
#include <string.h>
#include <time.h>

enum { PARTS = MOST_BOXES + MOST_PAIRS, MOST_TEXT = 1 << 22 };

/* All that a job may write. */
struct results {
    uint64_t answer, cost, weights[PARTS * PART_CLAUSES];
    size_t length, second_length;
    uint32_t hard, side, table[WICKCOLLAR_MOST_WORDS], plan[MOST_BOXES];
    int32_t literals[PARTS * PART_ENTRIES];
    uint8_t list[MOST_LIST], text[MOST_TEXT];
};

static struct results results[2];
static uint8_t sheet[1 << 20], list[MOST_LIST];
static uint32_t table[WICKCOLLAR_MOST_WORDS], hard, side;
static int32_t first[PART_ENTRIES], second[PART_ENTRIES];
static size_t input_length, sheet_length, words, list_length, first_length, second_length;

static void read_ours(struct results *r)
{
    r->answer = wickcollar_read_sheet(sheet, sheet_length, r->table, WICKCOLLAR_MOST_WORDS, &r->hard, &r->side, &r->length);
}

static void read_plain(struct results *r)
{
    r->answer = plain_read_sheet(sheet, sheet_length, r->table, WICKCOLLAR_MOST_WORDS, &r->hard, &r->side, &r->length);
}

static void encode_ours(struct results *r)
{
    r->answer = wickcollar_encode(table, words, hard, side, first, first_length, second, second_length, r->literals, PARTS * PART_ENTRIES,
                                  r->weights, PARTS * PART_CLAUSES, &r->length, &r->second_length);
}

static void encode_plain(struct results *r)
{
    r->answer = plain_encode(table, words, hard, side, r->literals, PARTS * PART_ENTRIES, r->weights, PARTS * PART_CLAUSES, &r->length,
                             &r->second_length);
}

static void decode_ours(struct results *r)
{
    r->answer = wickcollar_decode(table, words, hard, side, list, list_length, r->plan, MOST_BOXES, &r->cost);
}

static void decode_plain(struct results *r)
{
    r->answer = plain_decode(table, words, hard, side, list, list_length, r->plan, MOST_BOXES, &r->cost);
}

static void write_ours(struct results *r)
{
    r->answer = wickcollar_write_wcnf(table, words, hard, side, first, first_length, second, second_length, r->text, MOST_TEXT, &r->length);
}

static void write_plain(struct results *r)
{
    r->answer = plain_write_wcnf(table, words, hard, side, r->text, MOST_TEXT, &r->length);
}

static void read_list_ours(struct results *r)
{
    r->answer = wickcollar_read_list(sheet, input_length, r->table, WICKCOLLAR_MOST_WORDS, r->list, MOST_LIST, &r->hard, &r->side, &r->length,
                                     &r->second_length);
}

static void read_list_plain(struct results *r)
{
    r->answer = plain_read_list(sheet, input_length, r->table, WICKCOLLAR_MOST_WORDS, r->list, MOST_LIST, &r->hard, &r->side, &r->length,
                                &r->second_length);
}

typedef void call(struct results *);
static call *const calls[5][2] = {{read_ours, read_plain},
                                    {encode_ours, encode_plain},
                                    {decode_ours, decode_plain},
                                    {write_ours, write_plain},
                                    {read_list_ours, read_list_plain}};

static void stop(const char *why)
{
    fprintf(stderr, "inside: %s\n", why);
    exit(2);
}

/* The sheet is what stands before the list line. */
static void take_input(void)
{
    input_length = fread(sheet, 1, sizeof sheet, stdin);
    if (plain_read_list(sheet, input_length, table, WICKCOLLAR_MOST_WORDS, list, MOST_LIST, &hard, &side, &words, &list_length))
        stop("no sheet with a list line on standard input");
    sheet_length = input_length - strlen("list=\n") - list_length;
    if (wickcollar_scratch_lengths(table, words, hard, side, &first_length, &second_length) != WICKCOLLAR_DONE)
        stop("the library refuses the table");
    if (first_length > PART_ENTRIES || second_length > PART_ENTRIES)
        stop("the scratch buffers are too short");
}

/* Buffers are compared whole, so that what lies past the results is compared too. */
static void compare(call *const pair[2])
{
    for (int who = 0; who < 2; who++)
        pair[who](&results[who]);
    if (results[0].answer != WICKCOLLAR_DONE)
        stop("the library refuses");
    if (memcmp(&results[0], &results[1], sizeof results[0]) != 0)
        stop("the library and plain C do not give the same");
}

static double spent(call *job, int who, long times)
{
    struct timespec a, b;
    clock_gettime(CLOCK_PROCESS_CPUTIME_ID, &a);
    for (long i = 0; i < times; i++)
        job(&results[who]);
    clock_gettime(CLOCK_PROCESS_CPUTIME_ID, &b);
    return (double)(b.tv_sec - a.tv_sec) * 1e9 + (double)(b.tv_nsec - a.tv_nsec);
}

/* A round takes ours 10 milliseconds at least, so that neither the clock nor starting counts. */
static void measure(call *const pair[2], int rounds)
{
    long times = 1;
    while (spent(pair[0], 0, times) < 1e7)
        times *= 2;
    for (int i = 0; i < rounds; i++) {
        double a = spent(pair[0], 0, times), b = spent(pair[1], 1, times);
        printf("%.1f %.1f\n", a / (double)times, b / (double)times);
    }
}

int main(int count, char **words_given)
{
    if (count != 4 || words_given[1][0] < '0' || words_given[1][0] > '4')
        stop("usage: inside JOB time ROUNDS, inside JOB WHO CALLS");
    call *const *pair = calls[words_given[1][0] - '0'];
    int times = atoi(words_given[3]);
    take_input();
    if (words_given[2][0] == 't') {
        compare(pair);
        measure(pair, times);
    } else {
        spent(pair[words_given[2][0] == '1'], 0, times);
    }
    return 0;
}
