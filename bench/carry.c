/*
 * The bench's part for the carry (02, Ask 7). The checks by hand: where it is made and where it is hidden, its register, the way
 * up. Then sums of 96 bits and wider through stacks of slices, held against an addition by words.
 */
#include "bench.h"

#include <stdio.h>

#define ONES (DSP_REFUSED - 1)

/* OPMODE: X A:B and Z C, with a select of W or Y beside them, and X A:B alone. */
enum { ADD_AB_C = 51, WITH_Y_ONES = 59, WITH_Y_C = 63, WITH_W_P = 179, WITH_W_RND = 307, WITH_W_C = 435, AB_ALONE = 3 };

static void give(unsigned k, uint64_t ab, uint64_t c, uint64_t opmode)
{
    PORT(k, A) = ab >> 18;
    PORT(k, B) = ab & 0x3ffff;
    PORT(k, C) = c;
    PORT(k, OPMODE) = opmode;
}

/* ---- where it is made, and where it is hidden */

static void expect_shown(unsigned k, uint64_t p, uint64_t carry, const char *what)
{
    expect(OUTPUT(k, P) == p && OUTPUT(k, CARRY) == carry, what);
}

/* 1 exactly if X + Z + CIN is at least 2^48. */
static void sums(void)
{
    static const struct { uint64_t ab, c, cin, p, carry; } cases[] = {
        { 0, 0, 0, 0, 0 }, { 0, 0, 1, 1, 0 }, { ONES, 0, 0, ONES, 0 }, { 0, ONES, 0, ONES, 0 }, { ONES - 1, 0, 1, ONES, 0 },
        { ONES, 1, 0, 0, 1 }, { 1, ONES, 0, 0, 1 }, { ONES, 0, 1, 0, 1 }, { 0, ONES, 1, 0, 1 }, { ONES, ONES, 0, ONES - 1, 1 },
        { ONES, ONES, 1, ONES, 1 }, { UINT64_C(1) << 47, UINT64_C(1) << 47, 0, 0, 1 }, { UINT64_C(1) << 47, ONES >> 1, 0, ONES, 0 },
    };
    for (size_t i = 0; i < sizeof cases / sizeof cases[0]; i++) {
        cleared_column(1);
        give(0, cases[i].ab, cases[i].c, ADD_AB_C);
        PORT(0, CARRYIN) = cases[i].cin;
        expect(clock_of(1) == 0, "a sum of A:B and C");
        expect_shown(0, cases[i].p, cases[i].carry, "the carry of a sum");
    }
}

/* The same words, 2^48 - 1 and 1, where another mode, another select or lanes hide it. P is worked out here. */
static void hidden(void)
{
    static const struct { uint64_t use_simd, opmode, alumode, p; } cases[] = {
        { 0, ADD_AB_C, 1, ONES - 2 }, { 0, ADD_AB_C, 2, ONES }, { 0, ADD_AB_C, 3, 2 }, { 0, ADD_AB_C, 4, ONES - 1 },
        { 0, ADD_AB_C, 12, 1 }, { 0, WITH_Y_ONES, 0, ONES }, { 0, WITH_Y_C, 0, 1 }, { 0, WITH_W_P, 0, 0 },
        { 0, WITH_W_RND, 0, 0 }, { 0, WITH_W_C, 0, 1 }, { DSP_SIMD_TWO24, ADD_AB_C, 0, 0xffffff000000 },
        { DSP_SIMD_FOUR12, ADD_AB_C, 0, 0xfffffffff000 },
    };
    for (size_t i = 0; i < sizeof cases / sizeof cases[0]; i++) {
        cleared_column(1);
        give(0, ONES, 1, cases[i].opmode);
        ATTRIBUTE(0, USE_SIMD) = cases[i].use_simd;
        ATTRIBUTE(0, PREG) = cases[i].opmode == WITH_W_P;
        PORT(0, ALUMODE) = cases[i].alumode;
        PORT(0, CE) = DSP_CE_P;
        REGISTER(0, CARRY) = 1;
        expect(clock_of(1) == 0 && REGISTER(0, P) == cases[i].p, "a sum that hides its carry");
        expect(REGISTER(0, CARRY) == 0 && OUTPUT(0, CARRY) == ATTRIBUTE(0, PREG), "a carry that is hidden");
    }
}

/* CIN alone makes it, by each CARRYINSEL: slice 1 adds A:B all ones over a slice that shows a negative P and a carry. */
static void by_carryinsel(void)
{
    static const struct { uint64_t carryinsel, cin; } cases[] = { { 0, 1 }, { 1, 0 }, { 2, 1 }, { 3, 1 }, { 5, 0 }, { 7, 1 } };
    for (size_t i = 0; i < sizeof cases / sizeof cases[0]; i++) {
        cleared_column(2);
        ATTRIBUTE(0, PREG) = ATTRIBUTE(1, PREG) = 1;
        REGISTER(0, P) = REGISTER(1, P) = UINT64_C(1) << 47;
        REGISTER(0, CARRY) = 1;
        give(1, ONES, 0, AB_ALONE);
        PORT(1, CARRYIN) = 1;
        PORT(1, CARRYINSEL) = cases[i].carryinsel;
        PORT(1, CE) = DSP_CE_P;
        expect(clock_of(2) == 0, "a CIN of each kind");
        expect(REGISTER(1, CARRY) == cases[i].cin && REGISTER(1, P) == (cases[i].cin ? 0 : ONES), "CIN alone makes the carry");
    }
}

/* ---- its register, and the way up */

/* It loads by CE P, is kept without it, and RST P clears it whatever CE is; with PREG 1 the register is shown, with PREG 0 not. */
static void register_of_carry(void)
{
    for (unsigned bits = 0; bits < 32; bits++) {
        uint64_t preg = bits & 1, held = bits >> 1 & 1, made = bits >> 2 & 1, enabled = bits >> 3 & 1, reset = bits >> 4 & 1;
        cleared_column(1);
        ATTRIBUTE(0, PREG) = preg;
        REGISTER(0, CARRY) = held;
        give(0, ONES, made, ADD_AB_C);
        PORT(0, CE) = enabled ? DSP_CE_P : DSP_CE_ALL & ~DSP_CE_P;
        PORT(0, RST) = reset ? DSP_RST_P : DSP_RST_ALL & ~DSP_RST_P;
        expect(clock_of(1) == 0 && OUTPUT(0, CARRY) == (preg ? held : made), "the carry that is shown");
        expect(REGISTER(0, CARRY) == (reset ? 0 : enabled ? made : held), "the carry's register after the edge");
    }
}

/* Slice 1 adds the carry below to 0: the register's where slice 0 has PREG 1, else the settled one; of before the edge. */
static void from_below(void)
{
    for (unsigned bits = 0; bits < 8; bits++) {
        uint64_t preg = bits & 1, held = bits >> 1 & 1, made = bits >> 2 & 1;
        cleared_column(2);
        ATTRIBUTE(0, PREG) = preg;
        REGISTER(0, CARRY) = held;
        give(0, ONES, made, ADD_AB_C);
        PORT(0, CE) = DSP_CE_ALL;
        PORT(0, CARRYINSEL) = PORT(1, CARRYINSEL) = 2;
        PORT(0, CARRYIN) = PORT(1, CARRYIN) = 1;
        expect(clock_of(2) == 0, "a carry handed up");
        expect(OUTPUT(1, P) == (preg ? held : made), "the carry that the slice below shows");
        expect(REGISTER(0, P) == (made ? 0 : ONES), "at the bottom CARRYINSEL 2 takes 0");
    }
}

/* Without registers a carry runs up the whole column in one clock; with PREG 1 it goes a slice a clock. */
static void ripple(void)
{
    for (unsigned preg = 0; preg < 2; preg++) {
        cleared_column(DSP_MOST_SLICES);
        for (unsigned k = 0; k < DSP_MOST_SLICES; k++) {
            ATTRIBUTE(k, PREG) = preg;
            give(k, ONES, 0, ADD_AB_C);
            PORT(k, CARRYINSEL) = k ? 2 : 0;
            PORT(k, CE) = DSP_CE_P;
        }
        PORT(0, CARRYIN) = 1;
        for (unsigned clock = 0; clock <= DSP_MOST_SLICES; clock++) {
            expect(clock_of(DSP_MOST_SLICES) == 0, "a column of all ones and a carry");
            for (unsigned k = 0; k < DSP_MOST_SLICES; k++)
                if (!preg || clock > 0)
                    expect_shown(k, !preg || k < clock ? 0 : ONES, !preg || k < clock, "a carry on its way up");
        }
    }
}

void carry_by_hand(void)
{
    sums();
    hidden();
    by_carryinsel();
    register_of_carry();
    from_below();
    ripple();
}

/* ---- wide sums at random */

static uint64_t u[DSP_MOST_SLICES], v[DSP_MOST_SLICES], sum[DSP_MOST_SLICES];

/* Two numbers of n words, often such that a carry runs far; and their sum, by words of 16 bits. */
static void draw_numbers(unsigned n)
{
    uint64_t carry = 0;
    for (unsigned i = 0; i < n; i++) {
        u[i] = draw_word(48) & ONES;
        v[i] = draw() % 2 ? (ONES - u[i]) : draw_word(48) & ONES;
        sum[i] = 0;
        for (unsigned low = 0; low < 48; low += 16) {
            uint64_t part = (u[i] >> low & 0xffff) + (v[i] >> low & 0xffff) + carry;
            sum[i] |= (part & 0xffff) << low;
            carry = part >> 16;
        }
    }
}

/* A column that may hold anything, with a stack of n slices in it that add A:B and C by PREG 1 alone. */
static size_t draw_stack(unsigned n, unsigned *base)
{
    size_t count = n + draw() % (DSP_MOST_SLICES - n + 1);
    *base = (unsigned)(draw() % (count - n + 1));
    cleared_column(count);
    for (size_t k = 0; k < count; k++) {
        for (unsigned i = 0; i < DSP_REGISTER_WORDS; i++)
            DSP_WORD(lend(&registers), DSP_REGISTER_WORDS, k, i) = draw() % 2;
        ATTRIBUTE(k, PREG) = k >= *base && k < *base + n ? 1 : draw() % 2;
    }
    return count;
}

/* Clock t: each slice of the stack is fed where it is due, and gets other words where it is not. */
static void feed(size_t count, unsigned n, unsigned base, unsigned t)
{
    for (unsigned k = 0; k < count; k++) {
        unsigned i = k - base, due = k >= base && i < n && i == t;
        give(k, due ? u[i] : draw() & ONES, due ? v[i] : draw() & ONES, ADD_AB_C);
        PORT(k, D) = draw() & 0x7ffffff;
        PORT(k, CARRYINSEL) = due ? (i ? 2 : 0) : draw() % 3;
        PORT(k, CARRYIN) = due && !i ? 0 : draw() % 2;
        PORT(k, CE) = draw() & DSP_CE_ALL;
        PORT(k, RST) = due ? 0 : draw() & DSP_RST_ALL;
        if (due)
            PORT(k, CE) |= DSP_CE_P;
    }
}

static void wide_sum(unsigned n)
{
    unsigned base;
    size_t count = draw_stack(n, &base);
    draw_numbers(n);
    for (unsigned t = 0; t <= n; t++) {
        feed(count, n, base, t);
        expect(clock_of(count) == 0, "a clock of a wide sum");
        if (t > 0)
            expect(OUTPUT(base + t - 1, P) == sum[t - 1], "a word of a wide sum, a clock after it was fed");
    }
}

void random_wide_sums(unsigned long calls)
{
    unsigned long wider = 0;
    for (unsigned long i = 0; i < calls; i++) {
        unsigned n = i % 4 ? 2 : 1 + (unsigned)(draw() % DSP_MOST_SLICES);
        wider += n > 2;
        wide_sum(n);
    }
    printf("wide sums: %lu, of which %lu of more than 96 bits, 0 differences\n", calls, wider);
}
