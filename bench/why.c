/*
 * The bench's part for dsp_why. The checks by hand: every refusal in its order, every place and every rule. Then random calls,
 * held against the plain model, against the archive's clock and adder on the same words, and against the rule that they name.
 */
#include "bench.h"
#include "column.h"

#include <stdio.h>
#include <string.h>

#define ONES (DSP_REFUSED - 1)

static struct lent why;

static void asked_column(size_t count)
{
    cleared_column(count);
    fill(&why, DSP_WHY_WORDS, 77);
}

static uint64_t why_of(uint64_t count, uint64_t slice)
{
    static const uint64_t zeros[DSP_WHY_WORDS];
    keep(&attributes);
    keep(&registers);
    keep(&ports);
    keep(&why);
    uint64_t word = dsp_why(count, lend(&attributes), attributes.length, lend(&registers), registers.length,
                            lend(&ports), ports.length, slice, lend(&why), why.length);
    expect(kept(&attributes) && kept(&registers) && kept(&ports), "why writes no attribute, no register and no port");
    expect(guarded(&why), "why writes no word beside its answer");
    expect(word == 0 || DSP_IS_REFUSED(word), "why returns 0 or a refusal");
    if (why.length != DSP_WHY_WORDS)
        expect(DSP_IS_REFUSED(word) && kept(&why), "an answer of a wrong length is left as it was");
    else if (DSP_IS_REFUSED(word))
        expect(memcmp(lend(&why), zeros, sizeof zeros) == 0, "a refused answer is zeros");
    return word;
}

static void expect_why(uint64_t count, uint64_t slice, const uint64_t *expected, const char *what)
{
    expect(why_of(count, slice) == 0, what);
    expect(memcmp(lend(&why), expected, DSP_WHY_WORDS * sizeof expected[0]) == 0, what);
}

/* ---- the refusals, each before all that come after it */

static void counts(void)
{
    static const uint64_t wrong[] = { 0, 25, UINT64_MAX, UINT64_C(1) << 32 | 1 };
    for (size_t i = 0; i < sizeof wrong / sizeof wrong[0]; i++) {
        asked_column(wrong[i] == 25 ? 25 : 1);
        expect_refusal(why_of(wrong[i], 0), DSP_BAD_COUNT, 0, "a count that is none");
        ATTRIBUTE(0, AREG) = 3;
        expect_refusal(why_of(wrong[i], UINT64_MAX), DSP_BAD_COUNT, 0, "a count that is none, before a slice that is none");
        fill(&why, DSP_WHY_WORDS - 1, 77);
        expect_refusal(why_of(wrong[i], UINT64_MAX), DSP_BAD_COUNT, 0, "a count that is none, before an answer too short");
        expect_refusal(dsp_why(wrong[i], NULL, 0, NULL, 0, NULL, 0, 0, NULL, 0), DSP_BAD_COUNT, 0, "no slices and no words");
    }
}

static void lengths(void)
{
    struct lent *lents[] = { &attributes, &registers, &ports, &why };
    for (unsigned i = 0; i < 4; i++)
        for (int off = -1; off <= 1; off += 2) {
            asked_column(2);
            ATTRIBUTE(1, AREG) = REGISTER(1, A1) = PORT(1, A) = UINT64_MAX;
            fill(lents[i], lents[i]->length + (size_t)off, 77);
            expect_refusal(why_of(2, 0), DSP_BAD_LENGTH, 0, "a length one off");
            expect_refusal(why_of(2, 2), DSP_BAD_LENGTH, 0, "a length one off, before a slice that is none");
            fill(lents[i], 0, 0);
            expect_refusal(why_of(2, 0), DSP_BAD_LENGTH, 0, "a length of 0");
        }
    for (unsigned count = 1; count <= DSP_MOST_SLICES; count++) {
        asked_column(count);
        fill(&attributes, count * DSP_ATTRIBUTE_USE_SIMD, 0);
        expect_refusal(why_of(count, 0), DSP_BAD_LENGTH, 0, "21 attributes a slice");
    }
    expect_refusal(dsp_why(1, NULL, 0, NULL, 0, NULL, 0, 0, NULL, 0), DSP_BAD_LENGTH, 0, "no words at all");
    asked_column(1);
    expect_refusal(dsp_why(1, NULL, 0, NULL, 0, NULL, 0, 0, lend(&why), why.length), DSP_BAD_LENGTH, 0, "an answer alone");
    for (size_t i = 0; i < DSP_WHY_WORDS; i++)
        expect(lend(&why)[i] == 0, "an answer alone is zeros");
    expect(guarded(&why), "an answer alone, between its guards");
}

/* Of cleared slices all are answered alike, and none above them. */
static void slices(void)
{
    static const uint64_t cleared[DSP_WHY_WORDS] = { [DSP_WHY_CIN_PLACE] = DSP_PLACE_CARRYIN, [DSP_WHY_RULE] = DSP_RULE_SUM };
    for (unsigned count = 1; count <= DSP_MOST_SLICES; count++) {
        const uint64_t none[] = { count, count + 1, DSP_MOST_SLICES, UINT64_C(1) << 32, UINT64_MAX };
        for (unsigned k = 0; k < count; k++) {
            asked_column(count);
            expect_why(count, k, cleared, "a cleared slice adds nothing");
        }
        for (size_t i = 0; i < sizeof none / sizeof none[0]; i++) {
            asked_column(count);
            expect_refusal(why_of(count, none[i]), DSP_BAD_SLICE, 0, "a slice at or above the count");
            ATTRIBUTE(count - 1, AREG) = REGISTER(count - 1, A1) = PORT(count - 1, A) = UINT64_MAX;
            expect_refusal(why_of(count, none[i]), DSP_BAD_SLICE, 0, "a slice at or above the count, before any word");
        }
    }
}

/* One word that breaks each of the numbers 3 to 9, and none before it. */
static const struct { struct lent *lent; unsigned words, word; uint64_t value; } faults[] = {
    { &attributes, DSP_ATTRIBUTE_WORDS, DSP_ATTRIBUTE_ACASCREG, 1 },
    { &registers, DSP_REGISTER_WORDS, DSP_REGISTER_M, UINT64_C(1) << 45 },
    { &ports, DSP_PORT_WORDS, DSP_PORT_RST, 1 << 10 },
    { &ports, DSP_PORT_WORDS, DSP_PORT_INMODE, 4 },
    { &ports, DSP_PORT_WORDS, DSP_PORT_OPMODE, 64 },
    { &ports, DSP_PORT_WORDS, DSP_PORT_ALUMODE, 8 },
    { &ports, DSP_PORT_WORDS, DSP_PORT_CARRYINSEL, 4 },
};

static void plant(unsigned number, unsigned k)
{
    unsigned i = number - DSP_BAD_ATTRIBUTE;
    DSP_WORD(lend(faults[i].lent), faults[i].words, k, faults[i].word) = faults[i].value;
}

/* At the lowest slice that breaks it, whatever comes later breaks below, and whichever slice is asked. */
static void settings(void)
{
    for (unsigned first = DSP_BAD_ATTRIBUTE; first <= DSP_BAD_CARRYINSEL; first++)
        for (unsigned later = first; later <= DSP_BAD_CARRYINSEL; later++)
            for (unsigned k = 0; k < DSP_MOST_SLICES; k++) {
                asked_column(DSP_MOST_SLICES);
                plant(later, later > first ? 0 : DSP_MOST_SLICES - 1);
                plant(first, k);
                plant(first, DSP_MOST_SLICES - 1);
                expect_refusal(why_of(DSP_MOST_SLICES, (k + later) % DSP_MOST_SLICES), first, k, "a column that a clock refuses");
                expect_refusal(clock_of(DSP_MOST_SLICES), first, k, "the clock's own refusal");
            }
}

/* Every word of every record one past its width. */
static void limits(void)
{
    static const unsigned attribute_widths[] = DSP_ATTRIBUTE_WIDTHS, register_widths[] = DSP_REGISTER_WIDTHS;
    static const unsigned port_widths[] = DSP_PORT_WIDTHS;
    static const struct { struct lent *lent; const unsigned *widths; unsigned words; } records[] = {
        { &attributes, attribute_widths, DSP_ATTRIBUTE_WORDS }, { &registers, register_widths, DSP_REGISTER_WORDS },
        { &ports, port_widths, DSP_PORT_WORDS },
    };
    for (unsigned r = 0; r < 3; r++)
        for (unsigned k = 0; k < 3; k++)
            for (unsigned i = 0; i < records[r].words; i++) {
                asked_column(3);
                DSP_WORD(lend(records[r].lent), records[r].words, k, i) = UINT64_C(1) << records[r].widths[i];
                expect_refusal(why_of(3, 2 - k), DSP_BAD_ATTRIBUTE + r, k, "a word one past its width");
            }
}

/* ---- the places, by values worked out here */

/* Slice 1 with a value of its own in each place, over a slice that shows 0x800000000005 and a carry. */
static void a_value_in_each_place(void)
{
    asked_column(2);
    ATTRIBUTE(0, PREG) = ATTRIBUTE(1, PREG) = ATTRIBUTE(1, USE_MULT) = 1;
    ATTRIBUTE(1, RND) = 0x100;
    REGISTER(0, P) = 0x800000000005;
    REGISTER(0, CARRY) = 1;
    REGISTER(1, P) = 0x60007;
    PORT(1, A) = 0x3ffffffe; /* -2 to the multiplier; A:B is 0xfffffff80003 */
    PORT(1, B) = 3;
    PORT(1, C) = 0xf0;
    PORT(1, CARRYIN) = 1;
}

static void places(void)
{
    /* OPMODE, CARRYINSEL and the answer. M is -2 * 3; a shift by 17 of 0x800000000005 keeps the sign, of 0x60007 leaves 3. */
    static const struct { uint64_t opmode, carryinsel, why[DSP_WHY_WORDS]; } cases[] = {
        { 0, 0, { 0, 0, 0, 0, 1, 0, 0, 0, 0, DSP_PLACE_CARRYIN, DSP_RULE_SUM, 0, 1 } },
        { 21, 1, { 0, 0xfffffffffffa, 0, 0x800000000005, 0, 0, DSP_PLACE_M, 0, DSP_PLACE_PCIN,
                   DSP_PLACE_NOT_PCIN_BIT47, DSP_RULE_SUM, 0, 0x7fffffffffff } },
        { 170, 3, { 0x60007, 0x60007, 0xffffffffffff, 0x60007, 1, DSP_PLACE_P, DSP_PLACE_P, DSP_PLACE_ONES, DSP_PLACE_P,
                    DSP_PLACE_PCIN_BIT47, DSP_RULE_SUM, 0, 0x120015 } },
        { 319, 5, { 0x100, 0xfffffff80003, 0xf0, 0xf0, 1, DSP_PLACE_RND, DSP_PLACE_AB, DSP_PLACE_C, DSP_PLACE_C,
                    DSP_PLACE_NOT_P_BIT47, DSP_RULE_SUM, 0, 0xfffffff802e4 } },
        { 464, 7, { 0xf0, 0, 0, 0xffffc0000000, 0, DSP_PLACE_C, 0, 0, DSP_PLACE_PCIN_SHIFTED,
                    DSP_PLACE_P_BIT47, DSP_RULE_SUM, 0, 0xffffc00000f0 } },
        { 96, 0, { 0, 0, 0, 3, 1, 0, 0, 0, DSP_PLACE_P_SHIFTED, DSP_PLACE_CARRYIN, DSP_RULE_SUM, 0, 4 } },
        { 48, 2, { 0, 0, 0, 0xf0, 1, 0, 0, 0, DSP_PLACE_C, DSP_PLACE_CARRY_BELOW, DSP_RULE_SUM, 0, 0xf1 } },
    };
    for (size_t i = 0; i < sizeof cases / sizeof cases[0]; i++) {
        a_value_in_each_place();
        PORT(1, OPMODE) = cases[i].opmode;
        PORT(1, CARRYINSEL) = cases[i].carryinsel;
        expect_why(2, 1, cases[i].why, "the places that OPMODE and CARRYINSEL say");
        PORT(1, RST) = DSP_RST_ALL;
        PORT(1, CE) = i % 2 ? DSP_CE_ALL : 0;
        expect_why(2, 1, cases[i].why, "an edge that loads nothing has the same places");
    }
}

/* A place is what the select says: all that is selected here is 0. */
static void places_of_zeros(void)
{
    static const uint64_t sums[DSP_WHY_WORDS] = {
        0, 0, 0, 0, 0, DSP_PLACE_RND, DSP_PLACE_AB, DSP_PLACE_C, DSP_PLACE_C, DSP_PLACE_PCIN_BIT47, DSP_RULE_SUM, 0, 0 };
    static const uint64_t product[DSP_WHY_WORDS] = {
        0, 0, 0, 0, 1, 0, DSP_PLACE_M, 0, DSP_PLACE_PCIN, DSP_PLACE_NOT_PCIN_BIT47, DSP_RULE_NOT_SUM, 0, ONES - 1 };
    static const uint64_t bottom[DSP_WHY_WORDS] = { [DSP_WHY_CIN_PLACE] = DSP_PLACE_CARRY_BELOW, [DSP_WHY_RULE] = DSP_RULE_SUM };
    asked_column(1);
    PORT(0, CARRYINSEL) = 2;
    PORT(0, CARRYIN) = 1;
    expect_why(1, 0, bottom, "the carry below the bottom is 0");
    asked_column(1);
    PORT(0, OPMODE) = 319;
    PORT(0, CARRYINSEL) = 3;
    expect_why(1, 0, sums, "places that hold 0");
    ATTRIBUTE(0, USE_MULT) = 1;
    PORT(0, OPMODE) = 21;
    PORT(0, ALUMODE) = 2;
    PORT(0, CARRYINSEL) = 1;
    expect_why(1, 0, product, "a product of 0, and PCIN at the bottom");
}

/* What is in effect comes from the registers where they are in use, and the ports have other values. */
static void registers_in_use(void)
{
    /* A:B is 5 * 2^18 + 7; Z - (W + X + Y + CIN) is 11 - (9 + 0x140007 + 11 + 1). */
    static const uint64_t difference[DSP_WHY_WORDS] = {
        9, 0x140007, 11, 11, 1, DSP_PLACE_RND, DSP_PLACE_AB, DSP_PLACE_C, DSP_PLACE_C, DSP_PLACE_CARRYIN,
        DSP_RULE_DIFFERENCE, 0, 0xffffffebffef };
    /* M is -13 in 45 bits; 2^48 - 1 - (Z + X + CIN) is 2^48 - 1 - (17 - 13 + 1). */
    static const uint64_t product[DSP_WHY_WORDS] = {
        0, 0xfffffffffff3, 0, 17, 1, 0, DSP_PLACE_M, 0, DSP_PLACE_P, DSP_PLACE_NOT_P_BIT47, DSP_RULE_NOT_SUM, 0, 0xfffffffffffa };
    asked_column(1);
    for (unsigned i = DSP_ATTRIBUTE_CREG; i <= DSP_ATTRIBUTE_USE_MULT; i++)
        lend(&attributes)[i] = 1;
    ATTRIBUTE(0, AREG) = ATTRIBUTE(0, ACASCREG) = ATTRIBUTE(0, BREG) = 2;
    ATTRIBUTE(0, BCASCREG) = 1;
    ATTRIBUTE(0, RND) = 9;
    for (unsigned i = 0; i < DSP_REGISTER_OPMODE; i++)
        lend(&registers)[i] = 4;
    for (unsigned i = 0; i < DSP_PORT_OPMODE; i++)
        lend(&ports)[i] = 2;
    REGISTER(0, A2) = 5, REGISTER(0, B2) = 7, REGISTER(0, C) = 11, REGISTER(0, P) = 17, REGISTER(0, M) = 0x1ffffffffff3;
    REGISTER(0, OPMODE) = 319, REGISTER(0, ALUMODE) = 3, REGISTER(0, CARRYIN) = 1;
    expect_why(1, 0, difference, "A:B, C, CARRYIN and the controls from registers");
    REGISTER(0, OPMODE) = 37, REGISTER(0, ALUMODE) = 2, REGISTER(0, CARRYINSEL) = 5;
    expect_why(1, 0, product, "M and the controls from registers");
}

/* What goes up: slice 0 shows 5 + 7 on P, its A1 on ACOUT, its B on BCOUT. */
static void cascades(void)
{
    static const uint64_t product[DSP_WHY_WORDS] = {
        0, 3, 0, 12, 0, 0, DSP_PLACE_M, 0, DSP_PLACE_PCIN, DSP_PLACE_CARRYIN, DSP_RULE_SUM, 0, 15 };
    static const uint64_t pair[DSP_WHY_WORDS] = {
        0, 0x240005, 0, 12, 0, 0, DSP_PLACE_AB, 0, DSP_PLACE_PCIN, DSP_PLACE_CARRYIN, DSP_RULE_SUM, 0, 0x240011 };
    asked_column(2);
    PORT(0, B) = 5, PORT(0, C) = 7, PORT(0, OPMODE) = 15;
    ATTRIBUTE(1, USE_MULT) = 1;
    PORT(1, A) = 3, PORT(1, B) = 1, PORT(1, OPMODE) = 21;
    expect_why(2, 1, product, "the P that the slice below shows in this clock, and a product");
    ATTRIBUTE(0, AREG) = 2, ATTRIBUTE(0, ACASCREG) = 1, REGISTER(0, A1) = 9;
    ATTRIBUTE(1, A_INPUT) = ATTRIBUTE(1, B_INPUT) = 1;
    PORT(1, OPMODE) = 19;
    expect_why(2, 1, pair, "A:B from the slice below");
}

/* D + A is 67108863 + 1, which is read as -67108864. */
static void pre_adder(void)
{
    static const uint64_t product[DSP_WHY_WORDS] = {
        0, 0xfffff4000000, 0, 0, 0, 0, DSP_PLACE_M, 0, 0, DSP_PLACE_CARRYIN, DSP_RULE_SUM, 0, 0xfffff4000000 };
    asked_column(1);
    ATTRIBUTE(0, USE_MULT) = ATTRIBUTE(0, AMULTSEL) = 1;
    PORT(0, A) = 1, PORT(0, D) = 67108863, PORT(0, B) = 3, PORT(0, INMODE) = 4, PORT(0, OPMODE) = 5;
    expect_why(1, 0, product, "a product of the pre-adder's sum, which wraps");
}

/* ---- the rules, by values worked out here */

/* X 12 from A:B, Z 10 from C, CIN 1. Y is all ones where OPMODE is 59, else 0. */
static void rules(void)
{
    static const struct { uint64_t alumode, opmode, rule, result; } cases[] = {
        { 0, 51, DSP_RULE_SUM, 23 }, { 0, 59, DSP_RULE_SUM, 22 },
        { 1, 51, DSP_RULE_SUM_NOT_Z, 2 }, { 1, 59, DSP_RULE_SUM_NOT_Z, 1 },
        { 2, 51, DSP_RULE_NOT_SUM, ONES - 23 }, { 2, 59, DSP_RULE_NOT_SUM, ONES - 22 },
        { 3, 51, DSP_RULE_DIFFERENCE, ONES - 2 }, { 3, 59, DSP_RULE_DIFFERENCE, ONES - 1 },
        { 4, 51, DSP_RULE_XOR, 6 }, { 4, 59, DSP_RULE_XNOR, ONES - 6 },
        { 5, 51, DSP_RULE_XNOR, ONES - 6 }, { 5, 59, DSP_RULE_XOR, 6 },
        { 6, 51, DSP_RULE_XNOR, ONES - 6 }, { 6, 59, DSP_RULE_XOR, 6 },
        { 7, 51, DSP_RULE_XOR, 6 }, { 7, 59, DSP_RULE_XNOR, ONES - 6 },
        { 12, 51, DSP_RULE_AND, 8 }, { 12, 59, DSP_RULE_OR, 14 },
        { 13, 51, DSP_RULE_AND_NOT_Z, 4 }, { 13, 59, DSP_RULE_OR_NOT_Z, ONES - 2 },
        { 14, 51, DSP_RULE_NAND, ONES - 8 }, { 14, 59, DSP_RULE_NOR, ONES - 14 },
        { 15, 51, DSP_RULE_NOT_X_OR_Z, ONES - 4 }, { 15, 59, DSP_RULE_NOT_X_AND_Z, 2 },
    };
    for (size_t i = 0; i < sizeof cases / sizeof cases[0]; i++) {
        int ones = cases[i].opmode == 59;
        const uint64_t expected[DSP_WHY_WORDS] = { 0, 12, ones ? ONES : 0, 10, 1,
            0, DSP_PLACE_AB, ones ? DSP_PLACE_ONES : 0, DSP_PLACE_C, DSP_PLACE_CARRYIN, cases[i].rule, 0, cases[i].result };
        asked_column(1);
        PORT(0, B) = 12, PORT(0, C) = 10, PORT(0, CARRYIN) = 1;
        PORT(0, OPMODE) = cases[i].opmode;
        PORT(0, ALUMODE) = cases[i].alumode;
        expect_why(1, 0, expected, "the rule of a mode and of Y");
    }
}

/* X from A:B and Z from C, CIN 1: the result in one lane, in two and in four. The logic modes see 48 bits. */
static void rules_in_lanes(void)
{
    static const struct { uint64_t ab, c, alumode, rule, results[3]; } cases[] = {
        { 0xffffffffffff, 1, 0, DSP_RULE_SUM, { 1, 0xffffff000001, 0xfffffffff001 } },
        { 0, 0, 1, DSP_RULE_SUM_NOT_Z, { 0, 0xffffff000000, 0xfffffffff000 } },
        { 0x000800fff001, 0x000800001002, 2, DSP_RULE_NOT_SUM, { 0xffeffefffffb, 0xffeffffffffb, 0xfffffffffffb } },
        { 1, 0, 3, DSP_RULE_DIFFERENCE, { 0xfffffffffffe, 0xfffffe, 0xffe } },
        { 0xfff000fff00f, 0x0f0fff0f0fff, 12, DSP_RULE_AND, { 0x0f00000f000f, 0x0f00000f000f, 0x0f00000f000f } },
    };
    for (size_t i = 0; i < sizeof cases / sizeof cases[0]; i++)
        for (unsigned simd = DSP_SIMD_ONE48; simd <= DSP_SIMD_FOUR12; simd++) {
            const uint64_t expected[DSP_WHY_WORDS] = { 0, cases[i].ab, 0, cases[i].c, 1, 0, DSP_PLACE_AB, 0, DSP_PLACE_C,
                DSP_PLACE_CARRYIN, cases[i].rule, simd, cases[i].results[simd] };
            asked_column(1);
            ATTRIBUTE(0, USE_SIMD) = simd;
            PORT(0, A) = cases[i].ab >> 18, PORT(0, B) = cases[i].ab & 0x3ffff, PORT(0, C) = cases[i].c;
            PORT(0, OPMODE) = 51, PORT(0, ALUMODE) = cases[i].alumode, PORT(0, CARRYIN) = 1;
            expect_why(1, 0, expected, "the rule of a mode, in lanes");
        }
}

void why_by_hand(void)
{
    counts();
    lengths();
    slices();
    settings();
    limits();
    places();
    places_of_zeros();
    registers_in_use();
    cascades();
    pre_adder();
    rules();
    rules_in_lanes();
}

/* ---- what an answer says of itself */

/* A rule on the operands' bits in one lane, the lowest of which is bit low. */
static uint64_t sum_in_lane(const uint64_t *v, unsigned low, unsigned width)
{
    uint64_t ones = (UINT64_C(1) << width) - 1, z = v[DSP_WHY_Z] >> low & ones;
    uint64_t rest = (v[DSP_WHY_W] >> low & ones) + (v[DSP_WHY_X] >> low & ones) + (v[DSP_WHY_Y] >> low & ones);
    if (low == 0)
        rest += v[DSP_WHY_CIN];
    switch (v[DSP_WHY_RULE]) {
    case DSP_RULE_SUM: return (z + rest) & ones;
    case DSP_RULE_SUM_NOT_Z: return (ones - z + rest) & ones;
    case DSP_RULE_NOT_SUM: return (ones - (z + rest)) & ones;
    default: return (z - rest) & ones;
    }
}

static uint64_t by_its_rule(const uint64_t *v)
{
    static const unsigned widths[] = { 48, 24, 12 };
    uint64_t x = v[DSP_WHY_X], z = v[DSP_WHY_Z], not_x = ONES - x, not_z = ONES - z, sum = 0;
    switch (v[DSP_WHY_RULE]) {
    case DSP_RULE_XOR: return (x & not_z) | (not_x & z);
    case DSP_RULE_XNOR: return (x & z) | (not_x & not_z);
    case DSP_RULE_AND: return x & z;
    case DSP_RULE_OR: return x | z;
    case DSP_RULE_AND_NOT_Z: return x & not_z;
    case DSP_RULE_OR_NOT_Z: return x | not_z;
    case DSP_RULE_NAND: return not_x | not_z;
    case DSP_RULE_NOR: return not_x & not_z;
    case DSP_RULE_NOT_X_OR_Z: return not_x | z;
    case DSP_RULE_NOT_X_AND_Z: return not_x & z;
    }
    for (unsigned low = 0, width = widths[v[DSP_WHY_LANES]]; low < 48; low += width)
        sum |= sum_in_lane(v, low, width) << low;
    return sum;
}

/* ---- random calls */

/* Which operand came from which place, which rules were applied, and where a result was seen, over all answers. */
static unsigned long answered, in_lanes[3], added, shown, loaded, carried;
static unsigned long from[DSP_WHY_CIN + 1][DSP_PLACE_CARRY_BELOW + 1], by_rule[DSP_RULE_NOT_X_AND_Z + 1];

static uint64_t draw_opmode(const uint64_t *a, int logic)
{
    /* The last of X and of W and the last two of Z read P, the last of Y is not for logic. */
    static const uint64_t xs[] = { 0, 3, 2 }, ys[] = { 0, 2, 3 }, zs[] = { 0, 1, 3, 5, 2, 6 }, ws[] = { 0, 2, 3, 1 };
    unsigned held = a[DSP_ATTRIBUTE_PREG] == 1;
    uint64_t x = xs[draw() % (2 + held)], y = ys[draw() % (logic ? 2 : 3)], z = zs[draw() % (4 + 2 * held)];
    uint64_t w = logic ? 0 : ws[draw() % (3 + held)];
    if (!logic && a[DSP_ATTRIBUTE_USE_MULT] == 1 && draw() % 2)
        x = y = 1;
    return w << 7 | z << 4 | y << 2 | x;
}

/* Control words that the slice's attributes allow, for every place and every rule, whichever of register and port is in use. */
static void draw_controls(const uint64_t *a, uint64_t *r, uint64_t *p)
{
    static const uint64_t logic_modes[] = { 4, 5, 6, 7, 12, 13, 14, 15 }, carries[] = { 0, 1, 2, 3, 5, 7 };
    int logic = draw() % 2 == 0;
    unsigned carry_count = a[DSP_ATTRIBUTE_PREG] == 1 ? 6 : 4;
    p[DSP_PORT_OPMODE] = draw_opmode(a, logic);
    r[DSP_REGISTER_OPMODE] = draw_opmode(a, logic);
    p[DSP_PORT_ALUMODE] = logic ? logic_modes[draw() % 8] : draw() % 4;
    r[DSP_REGISTER_ALUMODE] = logic ? logic_modes[draw() % 8] : draw() % 4;
    p[DSP_PORT_CARRYINSEL] = carries[draw() % carry_count];
    r[DSP_REGISTER_CARRYINSEL] = carries[draw() % carry_count];
}

/* One call in ten or so is asked amiss: of another count, of no slice, or with a length off. */
static void draw_amiss(uint64_t *count, uint64_t *slice)
{
    struct lent *lents[] = { &attributes, &registers, &ports, &why }, *off = lents[draw() % 4];
    switch (draw() % 50) {
    case 0: *count = 0; break;
    case 1: *count += DSP_MOST_SLICES; break;
    case 2: *slice = *count + draw() % 3; break;
    case 3: *slice = draw(); break;
    case 4: fill(off, off->length + (draw() % 2 ? 1 : (size_t)-1), 0); break;
    }
}

/* The carry beside a result, by the operands and their places: only a sum of X, Z and CIN in one lane has one, and no product. */
static uint64_t carry_beside(const uint64_t *v)
{
    if (v[DSP_WHY_LANES] != DSP_SIMD_ONE48 || v[DSP_WHY_RULE] != DSP_RULE_SUM || v[DSP_WHY_X_PLACE] == DSP_PLACE_M)
        return 0;
    if (v[DSP_WHY_W_PLACE] != DSP_PLACE_ZERO || v[DSP_WHY_Y_PLACE] != DSP_PLACE_ZERO)
        return 0;
    return (v[DSP_WHY_X] + v[DSP_WHY_Z] + v[DSP_WHY_CIN]) >> 48;
}

/* The archive's clock and adder on the same words: the refusal is the clock's, the result is P's and the adder's. */
static void held_against_the_archive(uint64_t count, uint64_t k, uint64_t word)
{
    const uint64_t *v = lend(&why), alumode = ATTRIBUTE(k, ALUMODEREG) == 1 ? REGISTER(k, ALUMODE) : PORT(k, ALUMODE);
    expect(clock_of(count) == word, "a clock gives the same refusal");
    if (word)
        return;
    if (v[DSP_WHY_LANES] == DSP_SIMD_ONE48) {
        uint64_t sum = dsp_adder(v[DSP_WHY_W], v[DSP_WHY_X], v[DSP_WHY_Y], v[DSP_WHY_Z], v[DSP_WHY_CIN], alumode);
        expect(sum == v[DSP_WHY_RESULT], "the adder on the operands gives the result");
        added++;
    }
    if (ATTRIBUTE(k, PREG) == 0) {
        expect(OUTPUT(k, P) == v[DSP_WHY_RESULT] && OUTPUT(k, CARRY) == carry_beside(v), "P shows the result, and its carry");
        carried += OUTPUT(k, CARRY);
        shown++;
    }
    if (PORT(k, CE) & DSP_CE_P && !(PORT(k, RST) & DSP_RST_P)) {
        expect(REGISTER(k, P) == v[DSP_WHY_RESULT] && REGISTER(k, CARRY) == carry_beside(v), "P loads the result, and its carry");
        loaded++;
    }
}

static void count_answer(const uint64_t *v)
{
    answered++;
    for (unsigned operand = DSP_WHY_W; operand <= DSP_WHY_CIN; operand++) {
        expect(v[operand + DSP_WHY_W_PLACE] <= DSP_PLACE_CARRY_BELOW, "a place");
        from[operand][v[operand + DSP_WHY_W_PLACE]]++;
    }
    expect(v[DSP_WHY_RULE] <= DSP_RULE_NOT_X_AND_Z && v[DSP_WHY_LANES] <= DSP_SIMD_FOUR12, "a rule, and lanes");
    by_rule[v[DSP_WHY_RULE]]++;
    in_lanes[v[DSP_WHY_LANES]]++;
    expect(by_its_rule(v) == v[DSP_WHY_RESULT], "the rule on the operands gives the result");
}

static void random_why(void)
{
    uint64_t slices = draw_column(), count = slices, slice = draw() % slices, other[DSP_WHY_WORDS + 1];
    for (size_t k = 0; k < slices; k++)
        if (draw() % 4)
            draw_controls(&ATTRIBUTE(k, AREG), &REGISTER(k, A1), &PORT(k, A));
    fill(&why, DSP_WHY_WORDS, draw());
    draw_amiss(&count, &slice);
    memcpy(other, lend(&why), sizeof other);
    uint64_t expected = column_why(count, lend(&attributes), attributes.length, lend(&registers), registers.length,
                                   lend(&ports), ports.length, slice, other, why.length);
    uint64_t word = why_of(count, slice);
    expect(word == expected, "the archive and the model return the same word");
    expect(memcmp(other, lend(&why), sizeof other) == 0, "the same answer");
    if (word == 0)
        count_answer(lend(&why));
    /* Of the other refusals, 13 is none of a clock's, and 2 may be for the answer's own length. */
    if (word == 0 || (DSP_NUMBER(word) >= DSP_BAD_ATTRIBUTE && DSP_NUMBER(word) <= DSP_BAD_CARRYINSEL))
        held_against_the_archive(count, slice, word);
}

/* ---- what the random calls met */

#define BIT(place) (1u << DSP_PLACE_##place)

/* The places that each operand can come from. */
static const unsigned can_be[] = {
    [DSP_WHY_W] = BIT(ZERO) | BIT(P) | BIT(RND) | BIT(C),
    [DSP_WHY_X] = BIT(ZERO) | BIT(M) | BIT(P) | BIT(AB),
    [DSP_WHY_Y] = BIT(ZERO) | BIT(ONES) | BIT(C),
    [DSP_WHY_Z] = BIT(ZERO) | BIT(PCIN) | BIT(P) | BIT(C) | BIT(PCIN_SHIFTED) | BIT(P_SHIFTED),
    [DSP_WHY_CIN] = BIT(CARRYIN) | BIT(PCIN_BIT47) | BIT(NOT_PCIN_BIT47) | BIT(P_BIT47) | BIT(NOT_P_BIT47) |
                    BIT(CARRY_BELOW),
};

/* How often the rarest place of an operand was met, and that no other was. */
static unsigned long rarest_place(void)
{
    unsigned long rarest = answered;
    for (unsigned operand = DSP_WHY_W; operand <= DSP_WHY_CIN; operand++)
        for (unsigned place = 0; place <= DSP_PLACE_CARRY_BELOW; place++)
            if (can_be[operand] >> place & 1)
                rarest = from[operand][place] < rarest ? from[operand][place] : rarest;
            else
                expect(from[operand][place] == 0, "no operand comes from another's place");
    return rarest;
}

static unsigned long rarest_rule(void)
{
    unsigned long rarest = answered;
    for (unsigned rule = DSP_RULE_SUM; rule <= DSP_RULE_NOT_X_AND_Z; rule++)
        rarest = by_rule[rule] < rarest ? by_rule[rule] : rarest;
    expect(by_rule[DSP_RULE_NONE] == 0, "an answer has a rule");
    return rarest;
}

void random_whys(unsigned long calls)
{
    for (unsigned long i = 0; i < calls; i++)
        random_why();
    printf("why: %lu calls, of which %lu accepted, 0 differences; every place of an operand at least %lu times, every rule %lu\n",
           calls, answered, rarest_place(), rarest_rule());
    expect(rarest_place() * 100 > calls && rarest_rule() * 200 > calls, "every place and every rule, often enough");
    printf("slices in accepted whys: %lu of one lane, %lu of two, %lu of four\n", in_lanes[0], in_lanes[1], in_lanes[2]);
    printf("their results: %lu given by the adder, %lu shown by P, of which %lu with a carry, %lu loaded by P\n", added, shown, carried, loaded);
    expect(in_lanes[1] * 20 > calls && in_lanes[2] * 20 > calls, "an accepted why in lanes for every 20");
    expect(added * 10 > calls && shown * 10 > calls && loaded * 10 > calls, "a result of each kind for every 10");
    expect(carried * 500 > calls, "a carry that is shown for every 500");
}
