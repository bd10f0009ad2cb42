/*
 * Measures the calls of libdsp48e2.a against the plain C model, which makes the same checks.
 *
 *   benchmark time [BLOCKS]                                  the tables, from BLOCKS blocks of each side a row
 *   benchmark count archive|plain|kit packed|random SLICES CLOCKS   so many clocks and nothing else, for a counter of instructions
 *   benchmark count-runs archive|plain|kit clocked|plain TERMS ROWS random|nearly RUNS   so many packed runs, likewise
 *
 * With KIT_SIDE a third side is linked: the model again, by the kit's compiler, its functions named kit_... The sides run in
 * one process, a block of each in turn, and each of them is first in turn, so that what else the machine does falls on all.
 * A row has the times of the fastest blocks, and after each C side's time the median of the blocks' ratios to it.
 */
#include "scene.h"
#include "column.h"

#include <stdio.h>
#include <stdlib.h>
#include <string.h>
#include <time.h>

#define MOST_BLOCKS 999
#define SCENES 8
#define BLOCK_SLICE_CLOCKS 16384

typedef uint64_t clock_call(uint64_t, const uint64_t *, size_t, uint64_t *, size_t, const uint64_t *, size_t, uint64_t *, size_t);
typedef uint64_t clocked_call(uint64_t, uint64_t, const int8_t *, size_t, const int8_t *, size_t, const int8_t *, size_t, int32_t *, size_t,
                              uint64_t *, size_t);
typedef uint64_t plain_call(uint64_t, uint64_t, const int8_t *, size_t, const int8_t *, size_t, const int8_t *, size_t, int32_t *, size_t);

#ifdef KIT_SIDE
clock_call kit_clock;
clocked_call kit_packed;
plain_call kit_plain;
#define SIDES 3
static clock_call *const clock_of[SIDES] = { dsp_clock, column_clock, kit_clock };
static clocked_call *const clocked_of[SIDES] = { dsp_packed_clocked, column_packed, kit_packed };
static plain_call *const plain_of[SIDES] = { dsp_packed_plain, column_plain, kit_plain };
#else
#define SIDES 2
static clock_call *const clock_of[SIDES] = { dsp_clock, column_clock };
static clocked_call *const clocked_of[SIDES] = { dsp_packed_clocked, column_packed };
static plain_call *const plain_of[SIDES] = { dsp_packed_plain, column_plain };
#endif

static size_t blocks = 31;

static void fail(const char *what)
{
    fprintf(stderr, "benchmark: %s\n", what);
    exit(1);
}

/* ---- blocks and their medians */

static double now(void)
{
    struct timespec t;
    clock_gettime(CLOCK_MONOTONIC, &t);
    return (double)t.tv_sec * 1e9 + (double)t.tv_nsec;
}

static int by_size(const void *left, const void *right)
{
    double l = *(const double *)left, r = *(const double *)right;
    return (l > r) - (l < r);
}

static double median(double *values, size_t count)
{
    qsort(values, count, sizeof values[0], by_size);
    return count % 2 ? values[count / 2] : (values[count / 2 - 1] + values[count / 2]) / 2;
}

static double least(const double *values, size_t count)
{
    double found = values[0];
    for (size_t i = 1; i < count; i++)
        if (values[i] < found)
            found = values[i];
    return found;
}

struct row { double time[SIDES], ratio[SIDES]; };

/* What is measured: work(side) does one block's work of a side, 0 being the archive, and returns its time. */
static struct row measure(double (*work)(int side), double units)
{
    static double times[SIDES][MOST_BLOCKS], ratios[MOST_BLOCKS];
    struct row row;
    for (int side = 0; side < SIDES; side++)
        work(side);
    for (size_t i = 0; i < blocks; i++)
        for (size_t turn = 0; turn < SIDES; turn++) {
            int side = (int)((i + turn) % SIDES);
            times[side][i] = work(side) / units;
        }
    for (int side = 0; side < SIDES; side++) {
        for (size_t i = 0; i < blocks; i++)
            ratios[i] = times[0][i] / times[side][i];
        row.time[side] = least(times[side], blocks);
        row.ratio[side] = median(ratios, blocks);
    }
    return row;
}

static void print_row(const char *what, const char *setting, size_t high, size_t wide, struct row row)
{
    printf("%-8s %-7s %5zu %5zu %10.2f", what, setting, high, wide, row.time[0]);
    for (int side = 1; side < SIDES; side++)
        printf(" %10.2f %8.3f", row.time[side], row.ratio[side]);
    printf("\n");
    fflush(stdout);
}

/* Every side has to have left the same. */
static void compare_sides(const void *left, size_t size)
{
    for (int side = 1; side < SIDES; side++)
        if (memcmp(left, (const char *)left + (size_t)side * size, size) != 0)
            fail("the archive and the model differ");
}

/* ---- one clock */

static struct scene scenes[SCENES];
static size_t scene_count, block_clocks;
static uint64_t registers[SIDES][DSP_MOST_SLICES * DSP_REGISTER_WORDS], outputs[SIDES][DSP_MOST_SLICES * DSP_OUTPUT_WORDS];

static void draw_scenes(int packed, size_t count)
{
    seed_scenes(count);
    scene_count = packed ? 1 : SCENES;
    for (size_t i = 0; i < scene_count; i++)
        packed ? packed_scene(&scenes[i], count) : random_scene(&scenes[i], count);
    block_clocks = BLOCK_SLICE_CLOCKS / count / scene_count;
}

static void run_scene(const struct scene *scene, int side, size_t clocks)
{
    size_t count = scene->count;
    clock_call *call = clock_of[side];
    uint64_t refused = 0;
    memset(registers[side], 0, sizeof registers[side]);
    for (size_t t = 0; t < clocks; t++)
        refused |= call(count, scene->attributes, count * DSP_ATTRIBUTE_WORDS, registers[side], count * DSP_REGISTER_WORDS,
                        scene->ports[t % SCENE_CLOCKS], count * DSP_PORT_WORDS, outputs[side], count * DSP_OUTPUT_WORDS);
    if (refused)
        fail("a clock was refused");
}

static double clock_block(int side)
{
    double start = now();
    for (size_t i = 0; i < scene_count; i++)
        run_scene(&scenes[i], side, block_clocks);
    return now() - start;
}

static void clock_row(int packed, size_t count)
{
    draw_scenes(packed, count);
    struct row row = measure(clock_block, (double)(block_clocks * scene_count * count));
    compare_sides(registers, sizeof registers[0]);
    compare_sides(outputs, sizeof outputs[0]);
    print_row("clock", packed ? "packed" : "random", count, 1, row);
}

/* ---- the packed runs */

#define MOST_NUMBERS (DSP_MOST_ROWS * DSP_MOST_TERMS)
#define MOST_LIST DSP_PACKED_CLOCKS(DSP_MOST_TERMS, DSP_MOST_ROWS)

static int8_t high[MOST_NUMBERS], low[MOST_NUMBERS], right[MOST_NUMBERS];
static int32_t answers[SIDES][2 * DSP_MOST_ROWS];
static uint64_t list[SIDES][MOST_LIST];
static size_t terms, rows, repeats;

static void draw_rows(size_t wide, size_t tall, size_t terms_in_a_block)
{
    terms = wide;
    rows = tall;
    repeats = 1 + terms_in_a_block / (wide * tall);
    for (size_t i = 0; i < wide * tall; i++) {
        uint64_t bits = draw();
        high[i] = (int8_t)(bits & 255);
        low[i] = (int8_t)(bits >> 8 & 255);
        right[i] = (int8_t)(bits >> 16 & 255);
    }
}

static double clocked_block(int side)
{
    size_t n = terms * rows, clocks = DSP_PACKED_CLOCKS(terms, rows);
    clocked_call *call = clocked_of[side];
    double start = now();
    for (size_t i = 0; i < repeats; i++)
        if (call(terms, rows, high, n, low, n, right, n, answers[side], 2 * rows, list[side], clocks) != clocks)
            fail("a packed run was refused");
    return now() - start;
}

static double plain_block(int side)
{
    size_t n = terms * rows;
    plain_call *call = plain_of[side];
    double start = now();
    for (size_t i = 0; i < repeats; i++)
        if (call(terms, rows, high, n, low, n, right, n, answers[side], 2 * rows))
            fail("a plain run was refused");
    return now() - start;
}

static void packed_rows(void)
{
    static const size_t widths[] = { 1, 4, 7, 8 };
    for (size_t i = 0; i < sizeof widths / sizeof widths[0]; i++)
        for (size_t tall = 1; tall <= DSP_MOST_ROWS; tall *= 16) {
            size_t wide = widths[i];
            draw_rows(wide, tall, 4096);
            struct row clocked = measure(clocked_block, (double)(repeats * DSP_PACKED_CLOCKS(wide, tall) * wide));
            draw_rows(wide, tall, 65536);
            struct row plain = measure(plain_block, (double)(repeats * tall * wide));
            compare_sides(answers, sizeof answers[0]);
            compare_sides(list, sizeof list[0]);
            print_row("clocked", "packed", tall, wide, clocked);
            print_row("plain", "packed", tall, wide, plain);
        }
}

/* ---- the commands */

static int side_of(const char *name)
{
    static const char *const names[] = { "archive", "plain", "kit" };
    for (int side = 0; side < SIDES; side++)
        if (strcmp(name, names[side]) == 0)
            return side;
    fail("no such side");
    return 0;
}

static void time_all(void)
{
    static const size_t heights[] = { 1, 2, 3, 4, 5, 6, 7, 8, 10, 12, 14, 16, 18, 20, 22, 24 };
    printf("# what   setting  tall  wide  archive ns   plain ns    ratio     kit ns    ratio\n");
    printf("# clock: slices, 1, nanoseconds a slice-clock; clocked: rows, terms, nanoseconds a slice-clock; plain: rows, terms, nanoseconds a term\n");
    for (int packed = 1; packed >= 0; packed--)
        for (size_t i = 0; i < sizeof heights / sizeof heights[0]; i++)
            clock_row(packed, heights[i]);
    packed_rows();
}

static void count_one(char **words)
{
    int side = side_of(words[0]), packed = strcmp(words[1], "packed") == 0;
    size_t count = strtoul(words[2], NULL, 10), clocks = strtoul(words[3], NULL, 10);
    if (count < 1 || count > DSP_MOST_SLICES)
        fail("1 to 24 slices");
    draw_scenes(packed, count);
    for (size_t i = 0; i < scene_count; i++)
        run_scene(&scenes[i], side, clocks / scene_count);
}

/* Every d and every b -128, but the last b of each row: what a look for overfull rows has to look at whole. */
static void nearly_overfull(void)
{
    memset(low, -128, terms * rows);
    memset(right, -128, terms * rows);
    for (size_t row = 0; row < rows; row++)
        right[(row + 1) * terms - 1] = -127;
}

/* So many runs of random rows, or of nearly overfull ones. */
static void count_runs(char **words)
{
    int side = side_of(words[0]), clocked = strcmp(words[1], "clocked") == 0;
    size_t wide = strtoul(words[2], NULL, 10), tall = strtoul(words[3], NULL, 10);
    if (wide < 1 || wide > DSP_MOST_TERMS || tall < 1 || tall > DSP_MOST_ROWS)
        fail("1 to 8 terms, 1 to 4096 rows");
    draw_rows(wide, tall, 0);
    if (strcmp(words[4], "nearly") == 0)
        nearly_overfull();
    repeats = strtoul(words[5], NULL, 10);
    if (clocked)
        clocked_block(side);
    else
        plain_block(side);
}

int main(int argc, char **argv)
{
    if (argc == 6 && strcmp(argv[1], "count") == 0) {
        count_one(argv + 2);
        return 0;
    }
    if (argc == 8 && strcmp(argv[1], "count-runs") == 0) {
        count_runs(argv + 2);
        return 0;
    }
    if (argc < 2 || argc > 3 || strcmp(argv[1], "time") != 0)
        fail("time [BLOCKS], count archive|plain|kit packed|random SLICES CLOCKS, "
             "or count-runs archive|plain|kit clocked|plain TERMS ROWS random|nearly RUNS");
    if (argc == 3)
        blocks = strtoul(argv[2], NULL, 10);
    if (blocks < 1 || blocks > MOST_BLOCKS)
        fail("1 to 999 blocks");
    time_all();
    return 0;
}
