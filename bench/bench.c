/*
 * The bench: every call of libdsp48e2.a, accepted and refused, on lent arrays that stand between guard words.
 *
 *   bench [SEED [CALLS]]
 *
 * The checks by hand come from the scope; then random calls, CALLS of clocks and of whys, are answered by the archive and by
 * the plain model, which was written apart from it. Prints what it did; fails on the first difference.
 */
#include "bench.h"
#include "column.h"

#include <inttypes.h>
#include <stdio.h>
#include <stdlib.h>
#include <string.h>

#define GUARD UINT64_C(0x5afe5afe5afe5afe)

static unsigned long checks;

void expect(int holds, const char *what)
{
    checks++;
    if (!holds) {
        printf("FAILED: %s\n", what);
        exit(1);
    }
}

void expect_refusal(uint64_t word, unsigned number, unsigned place, const char *what)
{
    expect(DSP_IS_REFUSED(word) && DSP_NUMBER(word) == number && DSP_PLACE(word) == place, what);
}

/* ---- lent words between guards */

struct lent attributes, registers, ports, outputs;

uint64_t *lend(struct lent *lent) { return lent->words + 1; }

void fill(struct lent *lent, size_t length, uint64_t value)
{
    lent->length = length;
    lent->words[0] = GUARD;
    for (size_t i = 0; i < length; i++)
        lent->words[1 + i] = value;
    lent->words[1 + length] = GUARD;
}

void keep(struct lent *lent) { memcpy(lent->before, lent->words, sizeof lent->words); }

int kept(const struct lent *lent)
{
    return memcmp(lent->before, lent->words, (lent->length + 2) * sizeof lent->words[0]) == 0;
}

int guarded(const struct lent *lent)
{
    return lent->words[0] == GUARD && lent->words[1 + lent->length] == GUARD;
}

void cleared_column(size_t count)
{
    fill(&attributes, count * DSP_ATTRIBUTE_WORDS, 0);
    fill(&registers, count * DSP_REGISTER_WORDS, 0);
    fill(&ports, count * DSP_PORT_WORDS, 0);
    fill(&outputs, count * DSP_OUTPUT_WORDS, 77);
}

uint64_t clock_of(uint64_t count)
{
    keep(&attributes);
    keep(&registers);
    keep(&ports);
    keep(&outputs);
    uint64_t word = dsp_clock(count, lend(&attributes), attributes.length, lend(&registers), registers.length,
                              lend(&ports), ports.length, lend(&outputs), outputs.length);
    expect(kept(&attributes) && kept(&ports), "a clock writes no attribute and no port");
    expect(guarded(&registers) && guarded(&outputs), "a clock writes no word beside those lent");
    if (DSP_IS_REFUSED(word))
        expect(kept(&registers) && kept(&outputs), "a refused clock writes nothing");
    return word;
}

/* ---- the checks by hand */

static void heights(void)
{
    for (unsigned count = 1; count <= DSP_MOST_SLICES; count++) {
        cleared_column(count);
        expect(clock_of(count) == 0, "1 to 24 cleared slices are accepted");
        for (size_t i = 0; i < outputs.length; i++)
            expect(lend(&outputs)[i] == (i % DSP_OUTPUT_WORDS == DSP_OUTPUT_PATTERNDETECT), "a cleared slice shows PD alone");
    }
    cleared_column(0);
    expect_refusal(clock_of(0), DSP_BAD_COUNT, 0, "0 slices");
    cleared_column(25);
    expect_refusal(clock_of(25), DSP_BAD_COUNT, 0, "25 slices");
    cleared_column(1);
    expect_refusal(clock_of(UINT64_MAX), DSP_BAD_COUNT, 0, "2^64 - 1 slices");
    expect_refusal(clock_of(UINT64_C(1) << 32 | 1), DSP_BAD_COUNT, 0, "2^32 + 1 slices");
    expect_refusal(dsp_clock(1, NULL, 0, NULL, 0, NULL, 0, NULL, 0), DSP_BAD_LENGTH, 0, "no words at all");
    expect_refusal(dsp_clear(1, NULL, 0), DSP_BAD_LENGTH, 0, "no registers at all");
}

static void lengths(void)
{
    struct lent *lents[] = { &attributes, &registers, &ports, &outputs };
    for (unsigned i = 0; i < 4; i++)
        for (int off = -1; off <= 1; off += 2) {
            cleared_column(2);
            fill(lents[i], lents[i]->length + (size_t)off, 0);
            expect_refusal(clock_of(2), DSP_BAD_LENGTH, 0, "a length one off");
            fill(lents[i], 0, 0);
            expect_refusal(clock_of(2), DSP_BAD_LENGTH, 0, "a length of 0");
        }
    for (unsigned count = 1; count <= DSP_MOST_SLICES; count++) {
        cleared_column(count);
        fill(&attributes, count * DSP_ATTRIBUTE_USE_SIMD, 0);
        expect_refusal(clock_of(count), DSP_BAD_LENGTH, 0, "21 attributes a slice");
        cleared_column(count);
        fill(&outputs, count * DSP_OUTPUT_CARRY, 77);
        expect_refusal(clock_of(count), DSP_BAD_LENGTH, 0, "6 outputs a slice");
        fill(&outputs, count * (DSP_OUTPUT_WORDS + 1), 77);
        expect_refusal(clock_of(count), DSP_BAD_LENGTH, 0, "8 outputs a slice");
        cleared_column(count);
        fill(&registers, count * DSP_REGISTER_CARRY, 0);
        expect_refusal(clock_of(count), DSP_BAD_LENGTH, 0, "18 registers a slice");
        expect_refusal(dsp_clear(count, lend(&registers), registers.length), DSP_BAD_LENGTH, 0, "clearing 18 registers a slice");
    }
}

/* Every word of every slice at its limit and one past it. */
static void limits(struct lent *lent, const unsigned *widths, size_t words, unsigned number)
{
    for (unsigned k = 0; k < 3; k++)
        for (size_t i = 0; i < words; i++) {
            cleared_column(3);
            lend(lent)[words * k + i] = UINT64_C(1) << widths[i];
            expect_refusal(clock_of(3), number, k, "a word one past its width");
            lend(lent)[words * k + i] = UINT64_MAX;
            expect_refusal(clock_of(3), number, k, "a word of 64 ones");
        }
}

static void forbidden(void)
{
    static const struct { unsigned word; uint64_t value; unsigned number; } settings[] = {
        { DSP_PORT_INMODE, 4, DSP_BAD_INMODE }, { DSP_PORT_OPMODE, 64, DSP_BAD_OPMODE },
        { DSP_PORT_ALUMODE, 8, DSP_BAD_ALUMODE }, { DSP_PORT_CARRYINSEL, 4, DSP_BAD_CARRYINSEL },
    };
    for (unsigned k = 0; k < DSP_MOST_SLICES; k++)
        for (unsigned i = 0; i < sizeof settings / sizeof settings[0]; i++) {
            cleared_column(DSP_MOST_SLICES);
            DSP_WORD(lend(&ports), DSP_PORT_WORDS, k, settings[i].word) = settings[i].value;
            DSP_WORD(lend(&ports), DSP_PORT_WORDS, DSP_MOST_SLICES - 1, settings[i].word) = settings[i].value;
            expect_refusal(clock_of(DSP_MOST_SLICES), settings[i].number, k, "a forbidden setting, at its lowest slice");
        }
}

/* Settings of USE_SIMD that are none, and those that a slice which multiplies may not have. */
static void forbidden_lanes(void)
{
    static const struct { uint64_t use_simd, use_mult; } settings[] = {
        { 3, 0 }, { 4, 0 }, { UINT64_MAX, 0 }, { 3, 1 }, { DSP_SIMD_TWO24, 1 }, { DSP_SIMD_FOUR12, 1 },
    };
    for (unsigned k = 0; k < DSP_MOST_SLICES; k++)
        for (unsigned i = 0; i < sizeof settings / sizeof settings[0]; i++) {
            cleared_column(DSP_MOST_SLICES);
            DSP_WORD(lend(&attributes), DSP_ATTRIBUTE_WORDS, k, DSP_ATTRIBUTE_USE_SIMD) = settings[i].use_simd;
            DSP_WORD(lend(&attributes), DSP_ATTRIBUTE_WORDS, k, DSP_ATTRIBUTE_USE_MULT) = settings[i].use_mult;
            DSP_WORD(lend(&attributes), DSP_ATTRIBUTE_WORDS, DSP_MOST_SLICES - 1, DSP_ATTRIBUTE_USE_SIMD) = 3;
            lend(&registers)[DSP_REGISTER_P] = UINT64_MAX;
            lend(&ports)[DSP_PORT_OPMODE] = 64;
            expect_refusal(clock_of(DSP_MOST_SLICES), DSP_BAD_ATTRIBUTE, k, "forbidden lanes, before registers and ports");
        }
}

static void worked_example(void)
{
    cleared_column(1);
    lend(&ports)[DSP_PORT_B] = 5;
    lend(&ports)[DSP_PORT_C] = 7;
    lend(&ports)[DSP_PORT_OPMODE] = 15;
    expect(clock_of(1) == 0 && lend(&outputs)[DSP_OUTPUT_P] == 12, "B 5 and C 7 with OPMODE 15 show 12");
}

static void neighbours(void)
{
    cleared_column(2);
    for (unsigned k = 0; k < 2; k++) {
        DSP_WORD(lend(&attributes), DSP_ATTRIBUTE_WORDS, k, DSP_ATTRIBUTE_PREG) = 1;
        DSP_WORD(lend(&registers), DSP_REGISTER_WORDS, k, DSP_REGISTER_P) = k ? 2 : 40;
        DSP_WORD(lend(&ports), DSP_PORT_WORDS, k, DSP_PORT_OPMODE) = k ? 18 : 12;
        DSP_WORD(lend(&ports), DSP_PORT_WORDS, k, DSP_PORT_CE) = DSP_CE_P;
    }
    lend(&ports)[DSP_PORT_C] = 100;
    expect(clock_of(2) == 0, "two slices");
    expect(DSP_WORD(lend(&registers), DSP_REGISTER_WORDS, 0, DSP_REGISTER_P) == 100, "the lower slice loads C");
    expect(DSP_WORD(lend(&registers), DSP_REGISTER_WORDS, 1, DSP_REGISTER_P) == 42, "the upper slice adds the P of before the edge");
}

/* P in a setting of lanes, with A:B as X and C where OPMODE takes it. */
static uint64_t shown_in(uint64_t use_simd, uint64_t ab, uint64_t c, uint64_t opmode, uint64_t alumode, uint64_t cin)
{
    cleared_column(1);
    lend(&attributes)[DSP_ATTRIBUTE_USE_SIMD] = use_simd;
    lend(&ports)[DSP_PORT_A] = ab >> 18;
    lend(&ports)[DSP_PORT_B] = ab & 0x3ffff;
    lend(&ports)[DSP_PORT_C] = c;
    lend(&ports)[DSP_PORT_OPMODE] = opmode;
    lend(&ports)[DSP_PORT_ALUMODE] = alumode;
    lend(&ports)[DSP_PORT_CARRYIN] = cin;
    expect(clock_of(1) == 0, "a clock in lanes");
    return lend(&outputs)[DSP_OUTPUT_P];
}

/* Worked out lane by lane: C is Y with OPMODE 15, Z with 51 and W with 387; P is that of one lane, of two and of four. */
static void lanes(void)
{
    static const struct { uint64_t ab, c, opmode, alumode, cin, p[3]; } sums[] = {
        { 0xffffffffffff, 1, 15, 0, 0, { 0, 0xffffff000000, 0xfffffffff000 } },
        { 0xffffffffffff, 1, 15, 0, 1, { 1, 0xffffff000001, 0xfffffffff001 } },
        { 0x800800800800, 0x800800800800, 387, 0, 0, { 0x001001001000, 0x001000001000, 0 } },
        { 0x001002003004, 0, 51, 1, 0, { 0x001002003003, 0x001001003003, 0x000001002003 } },
        { 0, 0, 51, 1, 1, { 0, 0xffffff000000, 0xfffffffff000 } },
        { 0x000800fff001, 0x000800001002, 15, 2, 1, { 0xffeffefffffb, 0xffeffffffffb, 0xfffffffffffb } },
        { 1, 0, 51, 3, 0, { 0xffffffffffff, 0xffffff, 0xfff } },
        { 1, 0, 51, 3, 1, { 0xfffffffffffe, 0xfffffe, 0xffe } },
        { 12, 10, 51, 12, 1, { 8, 8, 8 } },
    };
    for (size_t i = 0; i < sizeof sums / sizeof sums[0]; i++)
        for (unsigned simd = DSP_SIMD_ONE48; simd <= DSP_SIMD_FOUR12; simd++)
            expect(shown_in(simd, sums[i].ab, sums[i].c, sums[i].opmode, sums[i].alumode, sums[i].cin) == sums[i].p[simd],
                   "a sum in lanes");
}

/* Every content of the four flag registers: a flag is lit only while PD and PBD are both 0, and only with PREG 1. */
static void flags_by_registers(void)
{
    /* OVERFLOW and UNDERFLOW, by PDPAST and PBDPAST. */
    static const uint64_t lit[2][2][2] = { { { 0, 0 }, { 0, 1 } }, { { 1, 0 }, { 1, 1 } } }, dark[2] = { 0, 0 };
    for (unsigned held = 0; held < 32; held++) {
        uint64_t preg = held >> 4, pdpast = held >> 3 & 1, pbdpast = held >> 2 & 1, pd = held >> 1 & 1, pbd = held & 1;
        const uint64_t *expected = preg && !pd && !pbd ? lit[pdpast][pbdpast] : dark;
        cleared_column(1);
        lend(&attributes)[DSP_ATTRIBUTE_PREG] = preg;
        lend(&registers)[DSP_REGISTER_PD] = pd;
        lend(&registers)[DSP_REGISTER_PBD] = pbd;
        lend(&registers)[DSP_REGISTER_PDPAST] = pdpast;
        lend(&registers)[DSP_REGISTER_PBDPAST] = pbdpast;
        expect(clock_of(1) == 0, "a clock with flags");
        expect(lend(&outputs)[DSP_OUTPUT_OVERFLOW] == expected[0], "OVERFLOW by its registers");
        expect(lend(&outputs)[DSP_OUTPUT_UNDERFLOW] == expected[1], "UNDERFLOW by its registers");
    }
}

/* An accumulator with the mask of 46 bits: what C adds, and the sum and the four flags that the next clock shows. */
static void sums_and_flags(void)
{
    static const struct { int64_t c, p; uint64_t flags[4]; } steps[] = {
        { 5, 5, { 1, 0, 0, 0 } }, { -8, -3, { 0, 1, 0, 0 } }, { 3, 0, { 1, 0, 0, 0 } }, { -1, -1, { 0, 1, 0, 0 } },
        { 0x400000000000, 0x3fffffffffff, { 1, 0, 0, 0 } }, { 1, 0x400000000000, { 0, 0, 1, 0 } },
        { 1, 0x400000000001, { 0, 0, 0, 0 } }, { -2, 0x3fffffffffff, { 1, 0, 0, 0 } },
        { -0x7fffffffffff, -0x400000000000, { 0, 1, 0, 0 } }, { -1, -0x400000000001, { 0, 0, 0, 1 } },
        { 1, -0x400000000000, { 0, 1, 0, 0 } }, { 0x7fffffffffff, 0x3fffffffffff, { 1, 0, 0, 0 } },
        { -0x7fffffffffff - 1, -0x400000000001, { 0, 0, 1, 0 } },
    };
    cleared_column(1);
    lend(&attributes)[DSP_ATTRIBUTE_PREG] = 1;
    lend(&attributes)[DSP_ATTRIBUTE_MASK] = 0x3fffffffffff;
    lend(&ports)[DSP_PORT_OPMODE] = 44;
    for (size_t i = 0; i < sizeof steps / sizeof steps[0]; i++) {
        lend(&ports)[DSP_PORT_C] = (uint64_t)steps[i].c & (DSP_REFUSED - 1);
        lend(&ports)[DSP_PORT_CE] = DSP_CE_P;
        expect(clock_of(1) == 0, "a sum that is loaded");
        lend(&ports)[DSP_PORT_CE] = 0;
        expect(clock_of(1) == 0, "a sum that is kept");
        expect(lend(&outputs)[DSP_OUTPUT_P] == ((uint64_t)steps[i].p & (DSP_REFUSED - 1)), "the sum");
        expect(memcmp(lend(&outputs) + DSP_OUTPUT_PATTERNDETECT, steps[i].flags, sizeof steps[i].flags) == 0, "the flags of a sum");
    }
}

static void clearing(void)
{
    fill(&registers, 3 * DSP_REGISTER_WORDS, UINT64_MAX);
    keep(&registers);
    expect_refusal(dsp_clear(0, lend(&registers), registers.length), DSP_BAD_COUNT, 0, "clearing 0 slices");
    expect_refusal(dsp_clear(25, lend(&registers), registers.length), DSP_BAD_COUNT, 0, "clearing 25 slices");
    expect_refusal(dsp_clear(2, lend(&registers), registers.length), DSP_BAD_LENGTH, 0, "clearing 2 of 3 slices");
    expect(kept(&registers), "a refused clear writes nothing");
    expect(dsp_clear(3, lend(&registers), registers.length) == 0 && guarded(&registers), "clearing 3 slices");
    for (size_t i = 0; i < registers.length; i++)
        expect(lend(&registers)[i] == 0, "a cleared register is 0");
}

static void adder(void)
{
    const uint64_t ones = DSP_REFUSED - 1;
    expect(dsp_adder(0, 5, 7, 0, 0, 0) == 12, "mode 0, X 5, Y 7");
    expect(dsp_adder(0, 1, 0, 0, 0, 3) == ones, "mode 3, Z 0, X 1");
    expect(dsp_adder(0, 0, 0, 5, 1, 3) == 4, "mode 3, Z 5, CIN 1");
    expect(dsp_adder(0, 0, 0, 0, 0, 1) == ones, "mode 1, all 0");
    expect(dsp_adder(0, 0, 0, 0, 1, 1) == 0, "mode 1, CIN 1 only");
    expect(dsp_adder(ones, ones, ones, ones, 1, 0) == 281474976710653u, "mode 0, four operands all ones, CIN 1");
    expect(dsp_adder(0, 12, 0, 10, 0, 12) == 8 && dsp_adder(0, 12, ones, 10, 0, 12) == 14, "mode 12, X 12, Z 10");
    expect(dsp_adder(0, DSP_REFUSED, 0, 0, 0, 8) == DSP_REFUSED + 5, "a word over its width, before the mode");
    expect(dsp_adder(0, 0, 0, 0, 2, 0) == DSP_REFUSED + 5 && dsp_adder(0, 0, 0, 0, 0, 16) == DSP_REFUSED + 5, "CIN 2, ALUMODE 16");
    for (uint64_t mode = 8; mode < 12; mode++)
        expect(dsp_adder(0, 0, 0, 0, 0, mode) == DSP_REFUSED + 8, "modes 8 to 11");
    expect(dsp_adder(1, 0, 0, 0, 0, 4) == DSP_REFUSED + 8 && dsp_adder(0, 0, 1, 0, 0, 4) == DSP_REFUSED + 8, "a logic mode with W 1, or Y 1");
}

/* ---- random calls, answered twice */

static uint64_t state;

uint64_t draw(void)
{
    state += UINT64_C(0x9e3779b97f4a7c15);
    uint64_t z = state;
    z = (z ^ (z >> 30)) * UINT64_C(0xbf58476d1ce4e5b9);
    z = (z ^ (z >> 27)) * UINT64_C(0x94d049bb133111eb);
    return z ^ (z >> 31);
}

uint64_t draw_word(unsigned width)
{
    uint64_t top = UINT64_C(1) << (width - 1), all = top * 2 - 1;
    switch (draw() % 8) {
    case 0: return 0;
    case 1: return 1;
    case 2: return all;
    case 3: return top;
    case 4: return top - 1;
    default: return draw() % 1000 ? draw() & all : draw();
    }
}

static void draw_record(uint64_t *words, const unsigned *widths, size_t count)
{
    for (size_t i = 0; i < count; i++)
        words[i] = draw_word(widths[i]);
}

static const unsigned attribute_widths[] = DSP_ATTRIBUTE_WIDTHS;
static const unsigned register_widths[] = DSP_REGISTER_WIDTHS;
static const unsigned port_widths[] = DSP_PORT_WIDTHS;

/* An INMODE that the slice's attributes allow. */
static uint64_t draw_inmode(const uint64_t *a)
{
    uint64_t allowed = CLEAR_A;
    if (a[DSP_ATTRIBUTE_AREG])
        allowed |= TAKE_A1;
    if (a[DSP_ATTRIBUTE_AMULTSEL])
        allowed |= TAKE_D | SUBTRACT;
    if (a[DSP_ATTRIBUTE_BREG])
        allowed |= TAKE_B1;
    return draw() & allowed;
}

/* Both numbers of the pre-adder are boundaries of 27 bits, and are let in: the true sum is often at an end, or one past it. */
static void draw_pre_adder(uint64_t *a, uint64_t *r, uint64_t *p)
{
    static const uint64_t boundaries[] = { 0, 1, 0x7ffffff, 0x4000000, 0x3ffffff };
    a[DSP_ATTRIBUTE_AMULTSEL] = 1;
    p[DSP_PORT_INMODE] = (draw_inmode(a) & ~(uint64_t)CLEAR_A) | TAKE_D;
    r[DSP_REGISTER_INMODE] = (draw_inmode(a) & ~(uint64_t)CLEAR_A) | TAKE_D;
    p[DSP_PORT_D] = boundaries[draw() % 5];
    r[DSP_REGISTER_D] = boundaries[draw() % 5];
    p[DSP_PORT_A] = boundaries[draw() % 5];
    r[DSP_REGISTER_A1] = boundaries[draw() % 5];
    r[DSP_REGISTER_A2] = boundaries[draw() % 5];
}

/* A sum of A:B and C or PCIN alone, mode 0, often with A:B all ones: it shows its carry, where it has one and one lane. */
static void draw_carry(uint64_t *r, uint64_t *p)
{
    static const uint64_t opmodes[] = { 51, 51, 51, 19, 3, 83 };
    p[DSP_PORT_OPMODE] = opmodes[draw() % 6];
    r[DSP_REGISTER_OPMODE] = opmodes[draw() % 6];
    p[DSP_PORT_ALUMODE] = r[DSP_REGISTER_ALUMODE] = 0;
    if (draw() % 2) {
        p[DSP_PORT_A] = r[DSP_REGISTER_A2] = 0x3fffffff;
        p[DSP_PORT_B] = r[DSP_REGISTER_B2] = 0x3ffff;
    }
}

/*
 * Mostly legal: the lists are kept, and the control words are those of a sum of A:B, C and PCIN, in lanes or not, or of a
 * product.
 */
static void draw_slice(uint64_t *a, uint64_t *r, uint64_t *p)
{
    static const unsigned pairs[][2] = { { 0, 0 }, { 1, 1 }, { 2, 1 }, { 2, 2 } };
    /* The last four take the product. */
    static const uint64_t opmodes[] = { 0, 3, 12, 15, 16, 31, 48, 51, 80, 256, 287, 399, 5, 21, 53, 405 };
    draw_record(a, attribute_widths, DSP_ATTRIBUTE_WORDS);
    draw_record(r, register_widths, DSP_REGISTER_WORDS);
    draw_record(p, port_widths, DSP_PORT_WORDS);
    if (draw() % 16 == 0)
        return;
    unsigned i = (unsigned)(draw() % 4), j = (unsigned)(draw() % 4);
    a[DSP_ATTRIBUTE_AREG] = pairs[i][0];
    a[DSP_ATTRIBUTE_ACASCREG] = pairs[i][1];
    a[DSP_ATTRIBUTE_BREG] = pairs[j][0];
    a[DSP_ATTRIBUTE_BCASCREG] = pairs[j][1];
    a[DSP_ATTRIBUTE_USE_MULT] = draw() % 2;
    a[DSP_ATTRIBUTE_USE_SIMD] = a[DSP_ATTRIBUTE_USE_MULT] ? DSP_SIMD_ONE48 : draw() % 3;
    unsigned sums = a[DSP_ATTRIBUTE_USE_MULT] ? 16 : 12;
    p[DSP_PORT_OPMODE] = opmodes[draw() % sums];
    r[DSP_REGISTER_OPMODE] = opmodes[draw() % sums];
    p[DSP_PORT_ALUMODE] = draw() % 4;
    r[DSP_REGISTER_ALUMODE] = draw() % 4;
    p[DSP_PORT_INMODE] = draw_inmode(a);
    r[DSP_REGISTER_INMODE] = draw_inmode(a);
    p[DSP_PORT_CARRYINSEL] = draw() % 3;
    r[DSP_REGISTER_CARRYINSEL] = draw() % 2 ? 2 : draw() % 2 * 3;
    if (draw() % 4 == 0)
        draw_pre_adder(a, r, p);
    if (draw() % 4 == 0)
        draw_carry(r, p);
}

size_t draw_column(void)
{
    size_t count = 1 + draw() % (draw() % 16 ? 3 : DSP_MOST_SLICES);
    cleared_column(count);
    for (size_t k = 0; k < count; k++)
        draw_slice(lend(&attributes) + DSP_ATTRIBUTE_WORDS * k, lend(&registers) + DSP_REGISTER_WORDS * k,
                   lend(&ports) + DSP_PORT_WORDS * k);
    return count;
}

/* The slices of accepted clocks, by their lanes; and those that show a carry, by PREG. */
static unsigned long accepted_in[3], carried_with[2];

static void random_clock(unsigned long *accepted)
{
    static uint64_t other_registers[MOST * DSP_REGISTER_WORDS], other_outputs[MOST * DSP_OUTPUT_WORDS];
    size_t count = draw_column();
    memcpy(other_registers, lend(&registers), registers.length * sizeof other_registers[0]);
    memcpy(other_outputs, lend(&outputs), outputs.length * sizeof other_outputs[0]);
    uint64_t other = column_clock(count, lend(&attributes), attributes.length, other_registers, registers.length,
                                  lend(&ports), ports.length, other_outputs, outputs.length);
    uint64_t word = clock_of(count);
    *accepted += word == 0;
    for (size_t k = 0; word == 0 && k < count; k++) {
        accepted_in[ATTRIBUTE(k, USE_SIMD)]++;
        carried_with[ATTRIBUTE(k, PREG)] += OUTPUT(k, CARRY);
    }
    expect(word == other, "the archive and the model return the same word");
    expect(memcmp(other_registers, lend(&registers), registers.length * sizeof other_registers[0]) == 0, "the same registers");
    expect(memcmp(other_outputs, lend(&outputs), outputs.length * sizeof other_outputs[0]) == 0, "the same outputs");
    if (word == 0)
        count_preaddwraps(count);
}

static void random_adder(void)
{
    uint64_t ones = DSP_REFUSED - 1, y = draw() % 4 ? (draw() % 2 ? ones : 0) : draw_word(48);
    uint64_t w = draw() % 2 ? 0 : draw_word(48), x = draw_word(48), z = draw_word(48), cin = draw_word(1), mode = draw_word(4);
    expect(dsp_adder(w, x, y, z, cin, mode) == column_adder(w, x, y, z, cin, mode), "the archive and the model add alike");
}

static void by_hand(void)
{
    heights();
    lengths();
    limits(&attributes, attribute_widths, DSP_ATTRIBUTE_WORDS, DSP_BAD_ATTRIBUTE);
    limits(&registers, register_widths, DSP_REGISTER_WORDS, DSP_BAD_REGISTER);
    limits(&ports, port_widths, DSP_PORT_WORDS, DSP_BAD_PORT);
    forbidden();
    forbidden_lanes();
    worked_example();
    neighbours();
    lanes();
    flags_by_registers();
    sums_and_flags();
    preaddwrap_by_hand();
    carry_by_hand();
    why_by_hand();
    clearing();
    adder();
    packed_by_hand();
}

int main(int argc, char **argv)
{
    unsigned long calls = argc > 2 ? strtoul(argv[2], NULL, 10) : 100000, accepted = 0;
    state = argc > 1 ? strtoul(argv[1], NULL, 10) : 1;
    printf("header %d.%d\n", DSP_VERSION_MAJOR, DSP_VERSION_MINOR);
    by_hand();
    printf("by hand: %lu checks\n", checks);
    for (unsigned long i = 0; i < calls; i++) {
        random_clock(&accepted);
        for (unsigned j = 0; j < 10; j++)
            random_adder();
    }
    printf("random: %lu clocks, of which %lu accepted, and %lu additions, 0 differences\n", calls, accepted, 10 * calls);
    expect(accepted * 10 > calls, "one random clock in ten is accepted");
    printf("slices in accepted clocks: %lu of one lane, %lu of two, %lu of four\n", accepted_in[0], accepted_in[1], accepted_in[2]);
    expect(accepted_in[1] * 20 > calls && accepted_in[2] * 20 > calls, "an accepted slice in lanes for every 20 random clocks");
    printf("slices that show a carry: %lu of a register, %lu as it settles\n", carried_with[1], carried_with[0]);
    expect(carried_with[0] * 100 > calls, "a carry that settles for every 100 random clocks");
    tell_preaddwraps(calls);
    random_wide_sums(calls / 10);
    random_packed_runs();
    random_whys(calls);
    return 0;
}
