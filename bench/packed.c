/*
 * The packed runs, clocked and plain: by hand what the scope says of them, eight terms at their bound too; then random rows,
 * answered by the archive and by the plain model.
 */
#include "bench.h"
#include "column.h"

#include <stdio.h>
#include <string.h>

#define MOST_NUMBERS (DSP_MOST_ROWS * DSP_MOST_TERMS)
#define MOST_SUMS (2 * DSP_MOST_ROWS)
#define MOST_CLOCKS DSP_PACKED_CLOCKS(DSP_MOST_TERMS, DSP_MOST_ROWS)
#define SUM_GUARD 1234567
#define WORD_GUARD UINT64_C(0x5afe5afe5afe5afe)

/* What a run writes, and the word that it returns. */
struct told {
    uint64_t word;
    int32_t answers[MOST_SUMS + 1];
    uint64_t list[MOST_CLOCKS + 1];
};

/* A run's lengths: its numbers, its answers and its list. */
struct size {
    size_t numbers, sums, clocks;
};

static int8_t high[MOST_NUMBERS], low[MOST_NUMBERS], right[MOST_NUMBERS];
static struct told archive, plain, model;

static struct size size_of(uint64_t terms, uint64_t rows)
{
    return (struct size){ (size_t)(rows * terms), (size_t)(2 * rows), (size_t)DSP_PACKED_CLOCKS(terms, rows) };
}

/* What is lent to be written, and a guard behind it. */
static void lend_sums(struct told *told, struct size size)
{
    for (size_t i = 0; i < size.sums; i++)
        told->answers[i] = 5 + (int32_t)i;
    for (size_t i = 0; i < size.clocks; i++)
        told->list[i] = 6 + i;
    told->answers[size.sums] = SUM_GUARD;
    told->list[size.clocks] = WORD_GUARD;
}

static int untouched(const struct told *told, struct size size)
{
    int same = 1;
    for (size_t i = 0; i < size.sums; i++)
        same &= told->answers[i] == 5 + (int32_t)i;
    for (size_t i = 0; i < size.clocks; i++)
        same &= told->list[i] == 6 + i;
    return same;
}

static int guards_stand(const struct told *told, struct size size)
{
    return told->answers[size.sums] == SUM_GUARD && told->list[size.clocks] == WORD_GUARD;
}

/* The archive's two runs of the rows. */
static void run_lent(uint64_t terms, uint64_t rows, struct size size)
{
    size_t n = size.numbers;
    lend_sums(&archive, size);
    lend_sums(&plain, size);
    archive.word = dsp_packed_clocked(terms, rows, high, n, low, n, right, n, archive.answers, size.sums, archive.list, size.clocks);
    plain.word = dsp_packed_plain(terms, rows, high, n, low, n, right, n, plain.answers, size.sums);
    expect(guards_stand(&archive, size) && guards_stand(&plain, size), "a run writes no word beside those lent");
}

static void run(uint64_t terms, uint64_t rows) { run_lent(terms, rows, size_of(terms, rows)); }

/* Both runs are refused alike, and write nothing. */
static void refused(uint64_t terms, uint64_t rows, struct size size, unsigned number, unsigned place, const char *what)
{
    run_lent(terms, rows, size);
    expect_refusal(archive.word, number, place, what);
    expect_refusal(plain.word, number, place, what);
    expect(untouched(&archive, size) && untouched(&plain, size), "a refused run writes nothing");
}

/* A row that was run has these sums, in both runs. */
static int has(size_t row, int32_t high_sum, int32_t low_sum)
{
    const int32_t sums[] = { high_sum, low_sum };
    return !DSP_IS_REFUSED(archive.word) && plain.word == 0 && memcmp(archive.answers + 2 * row, sums, sizeof sums) == 0
        && memcmp(plain.answers + 2 * row, sums, sizeof sums) == 0;
}

/* So many numbers of each array. */
static void fill_rows(size_t numbers, int a, int d, int b)
{
    memset(high, a, numbers);
    memset(low, d, numbers);
    memset(right, b, numbers);
}

static void refusals(void)
{
    struct size one = size_of(7, 1), short_rows = one, more_sums = one, short_list = one;
    short_rows.numbers--;
    more_sums.sums++;
    short_list.clocks--;
    refused(9, 1, size_of(9, 1), DSP_BAD_TERMS, 0, "9 terms");
    refused(0, 0, (struct size){ 0, 2, 3 }, DSP_BAD_TERMS, 0, "0 terms, before 0 rows");
    refused(8, 0, (struct size){ 0, 2, 11 }, DSP_BAD_ROWS, 0, "0 rows");
    refused(8, DSP_MOST_ROWS + 1, one, DSP_BAD_ROWS, 0, "4,097 rows");
    refused(UINT64_MAX, UINT64_MAX, one, DSP_BAD_TERMS, 0, "2^64 - 1 terms");
    refused(1, UINT64_MAX, one, DSP_BAD_ROWS, 0, "2^64 - 1 rows");
    refused(7, 1, short_rows, DSP_BAD_LENGTH, 0, "a row one number short");
    refused(7, 1, more_sums, DSP_BAD_LENGTH, 0, "an answer too many");
    run_lent(7, 1, short_list);
    expect_refusal(archive.word, DSP_BAD_LENGTH, 0, "a list word too few");
    expect(untouched(&archive, short_list), "a run refused for its list writes nothing");
    expect_refusal(dsp_packed_plain(1, 1, NULL, 0, NULL, 0, NULL, 0, NULL, 0), DSP_BAD_LENGTH, 0, "no numbers at all");
}

/* 8 times -128 by -128 is 131072, and -128 by 127 is -16256. */
static void eight_terms_fit(void)
{
    fill_rows(8, -128, -128, -128);
    right[3] = -127;
    run(8, 1);
    expect(archive.word == 12 && has(0, 130944, 130944), "eight terms all -128 but one b, -127");
    fill_rows(8, -128, -128, -128);
    low[7] = -127;
    run(8, 1);
    expect(archive.word == 12 && has(0, 131072, 130944), "eight terms all -128 but one d, -127");
    fill_rows(8, 127, -128, 127);
    run(8, 1);
    expect(archive.word == 12 && has(0, 129032, -130048), "d all -128 with b all 127");
    fill_rows(8, -128, 127, -128);
    run(8, 1);
    expect(archive.word == 12 && has(0, 131072, -130048), "b all -128 with d all 127");
    fill_rows(16, 1, -128, -128);
    low[0] = low[15] = 0;
    run(8, 2);
    expect(archive.word == 13 && has(0, -1024, 114688) && has(1, -1024, 114688), "-128 in the last of a row and the first of the next");
    fill_rows(7 * 9, -128, -128, -128);
    run(7, 9);
    expect(archive.word == 19 && has(8, 114688, 114688), "seven terms all -128 in nine rows");
}

/* Rows of eight terms, of which some are overfull. */
static void overfull(uint64_t rows, const unsigned *which, size_t count, const char *what)
{
    fill_rows(8 * (size_t)rows, 1, -127, -128);
    for (size_t i = 0; i < count; i++)
        memset(low + 8 * which[i], -128, 8);
    refused(8, rows, size_of(8, rows), DSP_OVERFULL_ROW, which[0], what);
}

static void overfull_rows(void)
{
    struct size short_list = size_of(8, 5), short_sums = short_list;
    short_list.clocks--;
    short_sums.sums--;
    fill_rows(8, -128, -128, -128);
    refused(8, 1, size_of(8, 1), DSP_OVERFULL_ROW, 0, "eight terms all -128");
    expect(archive.word == UINT64_C(281474976710670), "14 at row 0 is 2^48 + 14");
    overfull(5, (const unsigned[]){ 0 }, 1, "the first row of five");
    overfull(5, (const unsigned[]){ 2 }, 1, "a middle row of five");
    overfull(5, (const unsigned[]){ 4 }, 1, "the last row of five");
    overfull(5, (const unsigned[]){ 1, 3 }, 2, "the lower of two rows");
    overfull(5, (const unsigned[]){ 2, 3, 4 }, 3, "the lowest of three rows");
    refused(8, 5, short_sums, DSP_BAD_LENGTH, 0, "an answer too few, before an overfull row");
    run_lent(8, 5, short_list);
    expect_refusal(archive.word, DSP_BAD_LENGTH, 0, "a list word too few, before an overfull row");
    expect_refusal(plain.word, DSP_OVERFULL_ROW, 2, "which the plain run, without a list, is refused for");
    overfull(DSP_MOST_ROWS, (const unsigned[]){ DSP_MOST_ROWS - 1 }, 1, "the last row of 4,096");
    expect(archive.word == UINT64_C(281474977758990), "14 at row 4095 is 2^48 + 256 * 4095 + 14");
}

void packed_by_hand(void)
{
    fill_rows(1, 1, -1, 1);
    run(1, 1);
    expect(archive.word == 5 && archive.list[4] == 262143 && has(0, 1, -1), "the row (1, -1, 1)");
    fill_rows(7, -128, -128, -128);
    run(7, 1);
    expect(archive.word == 11 && has(0, 114688, 114688), "seven terms all -128");
    refusals();
    eight_terms_fit();
    overfull_rows();
}

/* ---- random rows */

/* Both runs of the archive answer as the model does; returns whether they are accepted. */
static int same_as_model(uint64_t terms, uint64_t rows)
{
    struct size size = size_of(terms, rows);
    size_t n = size.numbers;
    run(terms, rows);
    lend_sums(&model, size);
    model.word = column_packed(terms, rows, high, n, low, n, right, n, model.answers, size.sums, model.list, size.clocks);
    expect(archive.word == model.word, "the archive and the model return the same word");
    expect(memcmp(archive.answers, model.answers, size.sums * sizeof model.answers[0]) == 0, "the same answers");
    expect(memcmp(archive.list, model.list, size.clocks * sizeof model.list[0]) == 0, "the same list");
    expect(memcmp(archive.answers, plain.answers, size.sums * sizeof plain.answers[0]) == 0, "the plain run's answers");
    expect(plain.word == (DSP_IS_REFUSED(archive.word) ? archive.word : 0), "the plain run is refused alike");
    return !DSP_IS_REFUSED(archive.word);
}

static void random_rows(uint64_t terms, uint64_t rows)
{
    for (size_t i = 0; i < rows * terms; i++) {
        high[i] = (int8_t)(uint8_t)draw_word(8);
        low[i] = (int8_t)(uint8_t)draw_word(8);
        right[i] = (int8_t)(uint8_t)draw_word(8);
    }
    expect(same_as_model(terms, rows) && archive.word == rows + terms + 3, "the clocks are rows + terms + 3");
}

/* -128, but one time in so many another number close to an end. */
static int8_t near_the_bound(unsigned one_in)
{
    static const int8_t others[] = { -127, -126, 127, 0 };
    return draw() % one_in ? -128 : others[draw() % 4];
}

static int random_rows_near_the_bound(void)
{
    uint64_t rows = 1 + draw() % 12;
    unsigned one_in = 2 + (unsigned)(draw() % 60);
    for (size_t i = 0; i < rows * 8; i++) {
        high[i] = (int8_t)(uint8_t)draw_word(8);
        low[i] = near_the_bound(one_in);
        right[i] = near_the_bound(one_in);
    }
    return same_as_model(8, rows);
}

void random_packed_runs(void)
{
    unsigned long near = 10000, accepted = 0;
    for (uint64_t terms = 1; terms <= DSP_MOST_TERMS; terms++)
        for (uint64_t rows = 1; rows <= DSP_MOST_ROWS; rows *= 8)
            random_rows(terms, rows);
    printf("packed: 1 to 8 terms, 1 to 4,096 rows, 0 differences\n");
    for (unsigned long i = 0; i < near; i++)
        accepted += (unsigned long)random_rows_near_the_bound();
    printf("packed near the bound: %lu runs of 8 terms, of which %lu accepted, 0 differences\n", near, accepted);
    expect(accepted * 10 > near && (near - accepted) * 10 > near, "one run near the bound in ten is accepted, and one refused");
}
