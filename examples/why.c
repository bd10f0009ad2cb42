/*
 * Where did this P come from? Clocks a column of its own four times, then asks dsp_why of each slice and tells the answer in
 * words. examples/README.md works the numbers out.
 */
#include "dsp48e2.h"

#include <inttypes.h>
#include <stdio.h>

#define SLICES 9
#define CLOCKS 4

static uint64_t attributes[SLICES * DSP_ATTRIBUTE_WORDS], registers[SLICES * DSP_REGISTER_WORDS];
static uint64_t ports[SLICES * DSP_PORT_WORDS], outputs[SLICES * DSP_OUTPUT_WORDS];

#define LENGTH(words) (sizeof(words) / sizeof(words)[0])
#define ATTRIBUTE(k, name) DSP_WORD(attributes, DSP_ATTRIBUTE_WORDS, k, DSP_ATTRIBUTE_##name)
#define PORT(k, name) DSP_WORD(ports, DSP_PORT_WORDS, k, DSP_PORT_##name)

/* ---- the column */

/* The selects of OPMODE. */
enum {
    X_M = 1, X_AB = 3,
    Y_M = 1 << 2, Y_ONES = 2 << 2, Y_C = 3 << 2,
    Z_PCIN = 1 << 4, Z_P = 2 << 4, Z_C = 3 << 4, Z_FORBIDDEN = 4 << 4,
    W_RND = 2 << 7
};

/* The packed run's setting: b times a in the high part and d in the low one, added to the P below. */
static void packed(unsigned k, uint64_t a, uint64_t d, uint64_t b)
{
    ATTRIBUTE(k, AREG) = ATTRIBUTE(k, ACASCREG) = 1;
    ATTRIBUTE(k, BREG) = ATTRIBUTE(k, BCASCREG) = 2;
    ATTRIBUTE(k, DREG) = ATTRIBUTE(k, ADREG) = ATTRIBUTE(k, MREG) = ATTRIBUTE(k, PREG) = 1;
    ATTRIBUTE(k, USE_MULT) = ATTRIBUTE(k, AMULTSEL) = 1;
    PORT(k, A) = a << 18;
    PORT(k, D) = d;
    PORT(k, B) = b;
    PORT(k, INMODE) = 4; /* D + A */
    PORT(k, OPMODE) = X_M | Y_M | Z_PCIN;
}

/* A is 0, so A:B is B. */
static void ab_and_c(unsigned k, uint64_t ab, uint64_t c, uint64_t opmode, uint64_t alumode)
{
    PORT(k, B) = ab;
    PORT(k, C) = c;
    PORT(k, OPMODE) = opmode;
    PORT(k, ALUMODE) = alumode;
}

static void set_up(void)
{
    packed(0, 1, 2, 3);
    packed(1, 4, 5, 6);
    ab_and_c(2, 5, 7, X_AB | Y_C, 0);
    ab_and_c(3, 12, 10, X_AB | Z_C, 13);
    ab_and_c(4, 12, 10, X_AB | Z_C, 3);
    PORT(4, CARRYIN) = 1;
    PORT(5, OPMODE) = W_RND | Z_PCIN;
    PORT(5, CARRYINSEL) = 3; /* the sign of PCIN */
    ATTRIBUTE(5, RND) = 7;
    ab_and_c(6, 4095, 4097, X_AB | Y_C, 0);
    ab_and_c(7, 8191, 4097, X_AB | Z_C, 4);
    ATTRIBUTE(6, USE_SIMD) = ATTRIBUTE(7, USE_SIMD) = DSP_SIMD_FOUR12;
    ab_and_c(8, 0, 25, Y_C | Z_P, 0);
    ATTRIBUTE(8, PREG) = 1;
    for (unsigned k = 0; k < SLICES; k++)
        PORT(k, CE) = DSP_CE_ALL;
}

/* ---- an answer in words */

static const char *const operand_names[] = { "W", "X", "Y", "Z", "CIN" };

static const char *const place_names[] = {
    [DSP_PLACE_ZERO] = "0", [DSP_PLACE_M] = "M", [DSP_PLACE_P] = "P", [DSP_PLACE_AB] = "A:B",
    [DSP_PLACE_ONES] = "all ones", [DSP_PLACE_C] = "C", [DSP_PLACE_PCIN] = "PCIN",
    [DSP_PLACE_PCIN_SHIFTED] = "PCIN shifted by 17", [DSP_PLACE_P_SHIFTED] = "P shifted by 17", [DSP_PLACE_RND] = "RND",
    [DSP_PLACE_CARRYIN] = "CARRYIN", [DSP_PLACE_PCIN_BIT47] = "PCIN bit 47", [DSP_PLACE_NOT_PCIN_BIT47] = "not PCIN bit 47",
    [DSP_PLACE_P_BIT47] = "P bit 47", [DSP_PLACE_NOT_P_BIT47] = "not P bit 47",
    [DSP_PLACE_CARRY_BELOW] = "the carry below",
};

/* Of X and Z. */
static const char *const logic_rules[] = {
    [DSP_RULE_XOR] = "%s xor %s", [DSP_RULE_XNOR] = "%s xnor %s", [DSP_RULE_AND] = "%s and %s", [DSP_RULE_OR] = "%s or %s",
    [DSP_RULE_AND_NOT_Z] = "%s and not %s", [DSP_RULE_OR_NOT_Z] = "%s or not %s", [DSP_RULE_NAND] = "not (%s and %s)",
    [DSP_RULE_NOR] = "not (%s or %s)", [DSP_RULE_NOT_X_OR_Z] = "not %s or %s", [DSP_RULE_NOT_X_AND_Z] = "not %s and %s",
};

/* The operands that a rule reads, in the order in which they are told. */
static const struct reads { unsigned count, operands[5]; }
    by_sums = { 5, { DSP_WHY_Z, DSP_WHY_W, DSP_WHY_X, DSP_WHY_Y, DSP_WHY_CIN } }, by_logic = { 2, { DSP_WHY_X, DSP_WHY_Z } };

static int is_logic(const uint64_t *why) { return why[DSP_WHY_RULE] >= DSP_RULE_XOR; }

static uint64_t place_of(const uint64_t *why, unsigned operand) { return why[DSP_WHY_W_PLACE + operand]; }

/* What is selected is told, but for a CARRYIN of 0. */
static int is_told(const uint64_t *why, unsigned operand)
{
    if (operand == DSP_WHY_CIN)
        return why[DSP_WHY_CIN] != 0 || place_of(why, operand) != DSP_PLACE_CARRYIN;
    return place_of(why, operand) != DSP_PLACE_ZERO;
}

static const char *name_of(const uint64_t *why, unsigned operand)
{
    return is_told(why, operand) ? operand_names[operand] : "0";
}

/* Writes the sum of the told operands, without Z or with it, and returns how many they are. */
static unsigned write_sum(const uint64_t *why, int with_z, char *sum)
{
    unsigned terms = 0;
    sprintf(sum, "0");
    for (unsigned i = with_z ? 0 : 1; i < by_sums.count; i++)
        if (is_told(why, by_sums.operands[i]))
            sum += sprintf(sum, "%s%s", terms++ ? " + " : "", operand_names[by_sums.operands[i]]);
    return terms;
}

static void print_rule(const uint64_t *why)
{
    const char *x = name_of(why, DSP_WHY_X), *z = name_of(why, DSP_WHY_Z);
    char all[32], others[32];
    unsigned all_terms = write_sum(why, 1, all), other_terms = write_sum(why, 0, others);
    switch (why[DSP_WHY_RULE]) {
    case DSP_RULE_SUM: printf("%s", all); break;
    case DSP_RULE_SUM_NOT_Z: printf("not %s + %s", z, others); break;
    case DSP_RULE_NOT_SUM: printf(all_terms > 1 ? "not (%s)" : "not %s", all); break;
    case DSP_RULE_DIFFERENCE: printf(other_terms > 1 ? "%s - (%s)" : "%s - %s", z, others); break;
    default: printf(logic_rules[why[DSP_WHY_RULE]], x, z);
    }
}

static void print_answer(const uint64_t *why)
{
    static const char *const in_lanes[] = { "", " in two lanes of 24 bits", " in four lanes of 12 bits" };
    static const char *const beside_lanes[] = { "", " on 48 bits, whatever the lanes", " on 48 bits, whatever the lanes" };
    const struct reads *reads = is_logic(why) ? &by_logic : &by_sums;
    const char *before = ": ";
    printf("P %" PRIu64 " = ", why[DSP_WHY_RESULT]);
    print_rule(why);
    printf("%s", (is_logic(why) ? beside_lanes : in_lanes)[why[DSP_WHY_LANES]]);
    for (unsigned i = 0; i < reads->count; i++) {
        unsigned operand = reads->operands[i];
        if (!is_told(why, operand))
            continue;
        printf("%s%s is %s (%" PRIu64 ")", before, operand_names[operand], place_names[place_of(why, operand)], why[operand]);
        before = ", ";
    }
    printf("\n");
}

/* ---- asking */

static void tell(uint64_t slice)
{
    uint64_t why[DSP_WHY_WORDS];
    uint64_t word = dsp_why(SLICES, attributes, LENGTH(attributes), registers, LENGTH(registers), ports, LENGTH(ports),
                            slice, why, DSP_WHY_WORDS);
    if (word == 0)
        print_answer(why);
    else if (DSP_NUMBER(word) == DSP_BAD_SLICE)
        printf("refused by number %u: the column has no such slice\n", DSP_NUMBER(word));
    else
        printf("refused by number %u, at slice %u\n", DSP_NUMBER(word), DSP_PLACE(word));
}

static void tell_each_rule(void)
{
    static const unsigned modes[] = { 0, 1, 2, 3, 4, 5, 12, 13, 14, 15 }, modes_with_ones[] = { 12, 13, 14, 15 };
    printf("\nSlice 3 by each rule:\n");
    for (unsigned i = 0; i < LENGTH(modes); i++) {
        ab_and_c(3, 12, 10, X_AB | Z_C, modes[i]);
        printf("mode %u: ", modes[i]);
        tell(3);
    }
    for (unsigned i = 0; i < LENGTH(modes_with_ones); i++) {
        ab_and_c(3, 12, 10, X_AB | Y_ONES | Z_C, modes_with_ones[i]);
        printf("mode %u with Y all ones: ", modes_with_ones[i]);
        tell(3);
    }
}

int main(void)
{
    set_up();
    for (unsigned clock = 0; clock < CLOCKS; clock++)
        if (dsp_clock(SLICES, attributes, LENGTH(attributes), registers, LENGTH(registers), ports, LENGTH(ports),
                      outputs, LENGTH(outputs)) != 0)
            return 1;
    for (unsigned k = 0; k <= SLICES; k++) {
        printf("slice %u: ", k);
        tell(k);
    }
    tell_each_rule();
    PORT(3, OPMODE) = Z_FORBIDDEN;
    printf("\nWith Z select 4 in slice 3, slice 0 is ");
    tell(0);
    return 0;
}
