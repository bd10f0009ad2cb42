/*
 * The bench's part for PREADDWRAP, the mark that the pre-adder wrapped. The checks by hand: both ends from both sides, each bit
 * of INMODE that lets a number in, and the clock in which the mark shows. Then what the random clocks met: there the true sum
 * is worked out from the lent words, and the mark and AD are held against it.
 */
#include "bench.h"

#include <stdio.h>

#define LEAST_SUM INT64_C(-67108864)
#define MOST_SUM INT64_C(67108863)
#define ONES27 UINT64_C(0x7ffffff)
#define ONES30 UINT64_C(0x3fffffff)

/* ---- the checks by hand */

static void give(size_t k, int64_t d, int64_t a, uint64_t inmode)
{
    ATTRIBUTE(k, AMULTSEL) = 1;
    PORT(k, D) = (uint64_t)d & ONES27;
    PORT(k, A) = (uint64_t)a & ONES30;
    PORT(k, INMODE) = inmode;
}

static void expect_mark(uint64_t mark, const char *what)
{
    expect(clock_of(1) == 0, what);
    expect(OUTPUT(0, PREADDWRAP) == mark, what);
}

/* One slice with d and a on its ports, in every setting of three attributes that the mark does not go by. */
static void expect_mark_of(int64_t d, int64_t a, uint64_t inmode, uint64_t mark, const char *what)
{
    for (unsigned setting = 0; setting < 8; setting++) {
        cleared_column(1);
        ATTRIBUTE(0, ADREG) = setting & 1;
        ATTRIBUTE(0, USE_MULT) = setting >> 1 & 1;
        ATTRIBUTE(0, PREG) = setting >> 2;
        give(0, d, a, inmode);
        expect_mark(mark, what);
        expect(REGISTER(0, AD) == 0, "an AD that is not enabled");
        PORT(0, CE) = DSP_CE_ALL;
        expect_mark(mark, what);
        PORT(0, RST) = DSP_RST_ALL;
        expect_mark(mark, what);
    }
}

/* The marks of d + a and of d - a. */
static const struct { int64_t d, a; uint64_t of_sum, of_difference; } pairs[] = {
    { 0, 0, 0, 0 },
    { MOST_SUM, 0, 0, 0 }, { LEAST_SUM, 0, 0, 0 }, { 0, MOST_SUM, 0, 0 }, { 0, LEAST_SUM, 0, 1 },
    { MOST_SUM, 1, 1, 0 }, { MOST_SUM, -1, 0, 1 }, { LEAST_SUM, 1, 0, 1 }, { LEAST_SUM, -1, 1, 0 },
    { 1, MOST_SUM, 1, 0 }, { -1, MOST_SUM, 0, 0 }, { -2, MOST_SUM, 0, 1 }, { -1, LEAST_SUM, 1, 0 },
    { MOST_SUM, MOST_SUM, 1, 0 }, { LEAST_SUM, LEAST_SUM, 1, 0 }, { MOST_SUM, LEAST_SUM, 0, 1 }, { LEAST_SUM, MOST_SUM, 0, 1 },
    /* Numbers of 26 bits, -33554432 to 33554431, and one past them. */
    { 33554431, 33554431, 0, 0 }, { 33554431, -33554432, 0, 0 }, { -33554432, 33554431, 0, 0 }, { -33554432, -33554432, 0, 0 },
    { 33554432, 33554431, 0, 0 }, { 33554432, 33554432, 1, 0 }, { 33554432, -33554432, 0, 1 }, { -33554433, -33554432, 1, 0 },
};

static void both_ends(void)
{
    for (size_t i = 0; i < sizeof pairs / sizeof pairs[0]; i++) {
        int64_t d = pairs[i].d, a = pairs[i].a;
        expect_mark_of(d, a, TAKE_D, pairs[i].of_sum, "the mark of a sum");
        expect_mark_of(d, a, TAKE_D | SUBTRACT, pairs[i].of_difference, "the mark of a difference");
        expect_mark_of(d, a, 0, 0, "0 + a does not wrap");
        expect_mark_of(d, a, SUBTRACT, a == LEAST_SUM, "0 - a wraps for one a alone");
        expect_mark_of(d, a, TAKE_D | CLEAR_A, 0, "d + 0 does not wrap, whatever A shows");
        expect_mark_of(d, a, TAKE_D | CLEAR_A | SUBTRACT, 0, "d - 0 does not wrap, whatever A shows");
        expect_mark_of(d, a, CLEAR_A | SUBTRACT, 0, "0 - 0 does not wrap");
    }
}

/* The pre-adder reads 27 bits of A. */
static void high_bits_of_a(void)
{
    for (int64_t high = 0; high < 8; high++) {
        expect_mark_of(MOST_SUM, high << 27 | 1, TAKE_D, 1, "67108863 + 1, and other bits in A");
        expect_mark_of(MOST_SUM, high << 27, TAKE_D, 0, "67108863 + 0, and other bits in A");
    }
}

/* With AMULTSEL 0 there is d in no INMODE that is accepted, and 0 + a does not wrap. */
static void without_d(void)
{
    for (size_t i = 0; i < sizeof pairs / sizeof pairs[0]; i++)
        for (unsigned clear_a = 0; clear_a <= CLEAR_A; clear_a += CLEAR_A) {
            cleared_column(1);
            give(0, pairs[i].d, pairs[i].a, clear_a);
            ATTRIBUTE(0, AMULTSEL) = 0;
            expect_mark(0, "a slice that multiplies A");
        }
}

/* 67108863 + 1, then 0 + 0 while AD keeps what it loaded. P is AD times 1, so it shows what AD shows. */
static void in_its_own_clock(void)
{
    const uint64_t wrapped = 0xfffffc000000;
    for (unsigned adreg = 0; adreg < 2; adreg++) {
        cleared_column(1);
        ATTRIBUTE(0, USE_MULT) = 1;
        ATTRIBUTE(0, ADREG) = adreg;
        PORT(0, B) = 1, PORT(0, OPMODE) = 5, PORT(0, CE) = DSP_CE_ALL;
        give(0, MOST_SUM, 1, TAKE_D);
        expect_mark(1, "a sum that wraps lights the mark in its own clock");
        expect(OUTPUT(0, P) == (adreg ? 0 : wrapped) && REGISTER(0, AD) == 67108864, "AD shows it then only without its register");
        PORT(0, CE) = 0;
        give(0, 0, 0, TAKE_D);
        expect_mark(0, "a clock later the mark is gone");
        expect(OUTPUT(0, P) == (adreg ? wrapped : 0) && REGISTER(0, AD) == 67108864, "AD's register still holds what wrapped");
    }
}

/* Registers before the pre-adder delay what it takes in, those after it delay nothing. */
static void behind_registers(void)
{
    cleared_column(1);
    ATTRIBUTE(0, AREG) = ATTRIBUTE(0, ACASCREG) = ATTRIBUTE(0, DREG) = ATTRIBUTE(0, INMODEREG) = 1;
    ATTRIBUTE(0, ADREG) = ATTRIBUTE(0, MREG) = ATTRIBUTE(0, PREG) = 1;
    PORT(0, CE) = DSP_CE_ALL;
    give(0, LEAST_SUM, 1, TAKE_D | SUBTRACT);
    expect_mark(0, "numbers that are only being loaded");
    give(0, 0, 0, 0);
    expect_mark(1, "numbers that were loaded a clock ago");
    expect_mark(0, "numbers that were loaded two clocks ago");
}

/* A1 or A2, by INMODE bit 0, with one register in use and with two. */
static void by_a1(void)
{
    for (unsigned areg = 1; areg <= 2; areg++)
        for (unsigned held = 0; held < 4; held++) {
            cleared_column(1);
            ATTRIBUTE(0, AREG) = ATTRIBUTE(0, ACASCREG) = areg;
            REGISTER(0, A1) = held & 1;
            REGISTER(0, A2) = held >> 1;
            give(0, MOST_SUM, 0, TAKE_D | TAKE_A1);
            expect_mark(held & 1, "67108863 and A1");
            PORT(0, INMODE) = TAKE_D;
            expect_mark(held >> 1, "67108863 and A2");
        }
}

/* Each slice of each column wraps alone, and all six words of each are written. */
static void in_one_slice(void)
{
    for (unsigned count = 1; count <= DSP_MOST_SLICES; count++)
        for (unsigned lit = 0; lit < count; lit++) {
            cleared_column(count);
            for (unsigned k = 0; k < count; k++)
                give(k, MOST_SUM, k == lit, TAKE_D);
            expect(clock_of(count) == 0, "a column in which one slice wraps");
            for (unsigned k = 0; k < count; k++) {
                expect(OUTPUT(k, PREADDWRAP) == (k == lit), "the mark of the slice that wraps");
                expect(OUTPUT(k, P) == 0 && OUTPUT(k, PATTERNDETECT) == 1 && OUTPUT(k, PATTERNBDETECT) == 0, "P beside a mark");
                expect(OUTPUT(k, OVERFLOW) == 0 && OUTPUT(k, UNDERFLOW) == 0, "the flags beside a mark");
            }
        }
}

/* What the slice below hands up: its A path, or its A1. */
static void by_the_cascade(void)
{
    for (unsigned held = 0; held < 3; held++) {
        cleared_column(2);
        ATTRIBUTE(0, AREG) = held ? 2 : 0;
        ATTRIBUTE(0, ACASCREG) = held;
        ATTRIBUTE(1, A_INPUT) = 1;
        REGISTER(0, A1) = held == 1;
        REGISTER(0, A2) = held == 2;
        give(0, MOST_SUM, held == 0, 0);
        give(1, MOST_SUM, 0, TAKE_D);
        expect(clock_of(2) == 0, "an A from the slice below");
        expect(OUTPUT(0, PREADDWRAP) == 0 && OUTPUT(1, PREADDWRAP) == 1, "it wraps in the slice above");
    }
}

void preaddwrap_by_hand(void)
{
    both_ends();
    high_bits_of_a();
    without_d();
    in_its_own_clock();
    behind_registers();
    by_a1();
    in_one_slice();
    by_the_cascade();
}

/* ---- what the random clocks met */

/* A register before the edge, which the clock has kept. */
#define HELD(k, name) DSP_WORD(registers.before + 1, DSP_REGISTER_WORDS, k, DSP_REGISTER_##name)

/* The ways out: by sum and by difference, below and above. */
#define WAYS 4

/* Slices whose true sum is out, with each ADREG; is the last one that is not out; is the first one that is. */
static unsigned long wrapped[2][WAYS], at_end[WAYS], past_end[WAYS];

/* Slices whose true sum is out, with each USE_MULT. */
static unsigned long wrapped_with[2];

static int64_t signed27(uint64_t word)
{
    int64_t low = (int64_t)(word & ONES27);
    return low > MOST_SUM ? low - (int64_t)ONES27 - 1 : low;
}

static int64_t true_sum(size_t k, uint64_t inmode, uint64_t a_path)
{
    int64_t d = signed27(ATTRIBUTE(k, DREG) ? HELD(k, D) : PORT(k, D)), a = signed27(inmode & TAKE_A1 ? HELD(k, A1) : a_path);
    if (!(inmode & TAKE_D))
        d = 0;
    if (inmode & CLEAR_A)
        a = 0;
    return inmode & SUBTRACT ? d - a : d + a;
}

static void count_preaddwrap(size_t k, uint64_t inmode, int64_t sum)
{
    int above = sum > 0, way = (inmode & SUBTRACT ? 2 : 0) + above;
    unsigned wraps = sum < LEAST_SUM || sum > MOST_SUM;
    expect(OUTPUT(k, PREADDWRAP) == wraps, "the mark of the true sum");
    if (PORT(k, CE) & DSP_CE_AD && !(PORT(k, RST) & DSP_RST_D))
        expect(REGISTER(k, AD) == ((uint64_t)sum & ONES27), "AD loads 27 bits of the true sum");
    wrapped[ATTRIBUTE(k, ADREG)][way] += wraps;
    wrapped_with[ATTRIBUTE(k, USE_MULT)] += wraps;
    at_end[way] += sum == (above ? MOST_SUM : LEAST_SUM);
    past_end[way] += sum == (above ? MOST_SUM + 1 : LEAST_SUM - 1);
}

void count_preaddwraps(size_t count)
{
    uint64_t acin = 0;
    for (size_t k = 0; k < count; k++) {
        uint64_t inmode = ATTRIBUTE(k, INMODEREG) ? HELD(k, INMODE) : PORT(k, INMODE);
        uint64_t a_path = ATTRIBUTE(k, AREG) ? HELD(k, A2) : ATTRIBUTE(k, A_INPUT) ? acin : PORT(k, A);
        count_preaddwrap(k, inmode, true_sum(k, inmode, a_path));
        acin = ATTRIBUTE(k, AREG) == 2 && ATTRIBUTE(k, ACASCREG) == 1 ? HELD(k, A1) : a_path;
    }
}

static unsigned long rarest(const unsigned long *by_way)
{
    unsigned long least = by_way[0];
    for (unsigned way = 1; way < WAYS; way++)
        least = by_way[way] < least ? by_way[way] : least;
    return least;
}

void tell_preaddwraps(unsigned long clocks)
{
    unsigned long bypassed = rarest(wrapped[0]), held = rarest(wrapped[1]), at = rarest(at_end), past = rarest(past_end);
    printf("pre-adders that wrapped in accepted clocks: %lu with USE_MULT 0, %lu with 1; each way out, by sum and by difference, "
           "below and above, at least %lu times with ADREG 0, %lu with 1; each end itself %lu, one past it %lu\n",
           wrapped_with[0], wrapped_with[1], bypassed, held, at, past);
    expect(bypassed * 1000 > clocks && held * 1000 > clocks, "each way out with each ADREG for every 1,000 random clocks");
    expect(at * 1000 > clocks && past * 1000 > clocks, "each end itself, and one past it, for every 1,000");
    expect(wrapped_with[0] * 100 > clocks && wrapped_with[1] * 100 > clocks, "one that wraps with each USE_MULT for every 100");
}
