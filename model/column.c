#include "column.h"

#include <string.h>

#define ONES(width) (((uint64_t)1 << (width)) - 1)
#define ONES48 ONES(48)

/* A record must be words and nothing else, or lending it as words is wrong. */
typedef char attributes_are_22_words[ATTRIBUTE_WORDS == 22 ? 1 : -1];
typedef char registers_are_19_words[REGISTER_WORDS == 19 ? 1 : -1];
typedef char ports_are_11_words[PORT_WORDS == 11 ? 1 : -1];
typedef char outputs_are_7_words[OUTPUT_WORDS == 7 ? 1 : -1];
typedef char why_is_13_words[WHY_WORDS == 13 ? 1 : -1];

static const unsigned register_width[] = {
    30, 30, 18, 18, 48, 27, 27, 45, 48, 9, 4, 5, 3, 1, 1, 1, 1, 1, 1
};
static const unsigned port_width[] = { 30, 18, 48, 27, 9, 4, 5, 3, 1, 13, 10 };

enum {
    CE_A1, CE_A2, CE_B1, CE_B2, CE_C, CE_D, CE_AD, CE_M, CE_P,
    CE_CTRL, CE_ALUMODE, CE_INMODE, CE_CARRYIN
};
enum {
    RST_A, RST_B, RST_C, RST_D, RST_M, RST_P,
    RST_CTRL, RST_ALUMODE, RST_INMODE, RST_ALLCARRYIN
};

static uint64_t refusal(unsigned number, uint64_t place)
{
    return COLUMN_REFUSED + 256 * place + number;
}

static int64_t as_signed(uint64_t word, unsigned width)
{
    uint64_t sign = (uint64_t)1 << (width - 1);

    return (int64_t)((word & (sign - 1))) - (int64_t)(word & sign);
}

static int over_width(const uint64_t *words, const unsigned *width, size_t count)
{
    size_t i;

    for (i = 0; i < count; i++)
        if (words[i] >> width[i])
            return 1;
    return 0;
}

/* ---- the unit ---- */

static int is_logic(uint64_t alumode)
{
    return (alumode >= 4 && alumode <= 7) || alumode >= 12;
}

/* Logic modes are only asked with y 0 or all ones. */
static uint64_t unit(uint64_t w, uint64_t x, uint64_t y, uint64_t z,
                     uint64_t cin, uint64_t alumode)
{
    uint64_t rest = w + x + y + cin;
    uint64_t result = 0;

    switch (alumode) {
    case 0: result = z + rest; break;
    case 1: result = (ONES48 - z) + rest; break;
    case 2: result = ONES48 - (z + rest); break;
    case 3: result = z - rest; break;
    case 4: case 7: result = y == 0 ? x ^ z : ~(x ^ z); break;
    case 5: case 6: result = y == 0 ? ~(x ^ z) : x ^ z; break;
    case 12: result = y == 0 ? x & z : x | z; break;
    case 13: result = y == 0 ? x & ~z : x | ~z; break;
    case 14: result = y == 0 ? ~(x & z) : ~(x | z); break;
    case 15: result = y == 0 ? ~x | z : ~x & z; break;
    }
    return result & ONES48;
}

enum { ONE48, TWO24, FOUR12 };

/*
 * The arithmetic modes in lanes, each through the unit alone. The lane's width
 * divides 48, so cutting the unit's result leaves what the lane's own modulus
 * would, complements too.
 */
static uint64_t lanes(uint64_t w, uint64_t x, uint64_t y, uint64_t z,
                      uint64_t cin, uint64_t alumode, unsigned width)
{
    uint64_t mask = ONES(width), result = 0;
    unsigned low;

    for (low = 0; low < 48; low += width) {
        uint64_t lane = unit(w >> low & mask, x >> low & mask, y >> low & mask, z >> low & mask,
                             low == 0 ? cin : 0, alumode);

        result |= (lane & mask) << low;
    }
    return result;
}

static uint64_t split_unit(uint64_t w, uint64_t x, uint64_t y, uint64_t z,
                           uint64_t cin, uint64_t alumode, uint64_t use_simd)
{
    if (use_simd == ONE48 || is_logic(alumode))
        return unit(w, x, y, z, cin, alumode);
    return lanes(w, x, y, z, cin, alumode, use_simd == TWO24 ? 24 : 12);
}

uint64_t column_adder(uint64_t w, uint64_t x, uint64_t y, uint64_t z,
                      uint64_t cin, uint64_t alumode)
{
    if (w > ONES48 || x > ONES48 || y > ONES48 || z > ONES48 || cin > 1 || alumode > 15)
        return refusal(5, 0);
    if (alumode >= 8 && alumode <= 11)
        return refusal(8, 0);
    if (is_logic(alumode) && (w != 0 || (y != 0 && y != ONES48)))
        return refusal(8, 0);
    return unit(w, x, y, z, cin, alumode);
}

/* ---- the checks of one slice ---- */

static int depth_wrong(uint64_t reg, uint64_t cascreg)
{
    if (reg > 2)
        return 1;
    if (reg == 2)
        return cascreg != 1 && cascreg != 2;
    return cascreg != reg;
}

static int attributes_wrong(const struct attributes *at)
{
    return depth_wrong(at->areg, at->acascreg) || depth_wrong(at->breg, at->bcascreg) ||
           at->a_input > 1 || at->b_input > 1 || at->creg > 1 || at->dreg > 1 ||
           at->adreg > 1 || at->mreg > 1 || at->preg > 1 || at->opmodereg > 1 ||
           at->alumodereg > 1 || at->inmodereg > 1 || at->carryinreg > 1 ||
           at->carryinselreg > 1 || at->use_mult > 1 || at->amultsel > 1 ||
           at->rnd > ONES48 || at->pattern > ONES48 || at->mask > ONES48 ||
           at->use_simd > FOUR12 || (at->use_simd != ONE48 && at->use_mult);
}

/* The four controls in effect. */
struct control {
    uint64_t opmode, alumode, inmode, carryinsel;
};

static struct control in_effect(const struct attributes *at, const struct registers *rg,
                                const struct ports *po)
{
    struct control ct;

    ct.opmode = at->opmodereg ? rg->opmode : po->opmode;
    ct.alumode = at->alumodereg ? rg->alumode : po->alumode;
    ct.inmode = at->inmodereg ? rg->inmode : po->inmode;
    ct.carryinsel = at->carryinselreg ? rg->carryinsel : po->carryinsel;
    return ct;
}

static int inmode_wrong(const struct attributes *at, const struct control *ct)
{
    return ((ct->inmode & 12) && !at->amultsel) || ((ct->inmode & 1) && at->areg == 0) ||
           ((ct->inmode & 16) && at->breg == 0);
}

static int opmode_wrong(const struct attributes *at, const struct control *ct)
{
    uint64_t x = ct->opmode & 3, y = ct->opmode >> 2 & 3;
    uint64_t z = ct->opmode >> 4 & 7, w = ct->opmode >> 7;

    if (z == 4 || z == 7)
        return 1;
    if ((x == 1) != (y == 1))
        return 1;
    if (x == 1 && !at->use_mult)
        return 1;
    return !at->preg && (x == 2 || z == 2 || z == 6 || w == 1);
}

static int alumode_wrong(const struct control *ct)
{
    uint64_t x = ct->opmode & 3, y = ct->opmode >> 2 & 3, w = ct->opmode >> 7;

    if (ct->alumode >= 8 && ct->alumode <= 11)
        return 1;
    return is_logic(ct->alumode) && (w != 0 || (y != 0 && y != 2) || x == 1);
}

static int carryinsel_wrong(const struct attributes *at, const struct control *ct)
{
    switch (ct->carryinsel) {
    case 0: case 1: case 2: case 3: return 0;
    case 5: case 7: return !at->preg;
    default: return 1;
    }
}

/* ---- the checks of a column ---- */

uint64_t column_check_count(uint64_t count)
{
    return count >= 1 && count <= COLUMN_TALLEST ? 0 : refusal(1, 0);
}

uint64_t column_check_attributes(uint64_t count, const uint64_t *attributes)
{
    const struct attributes *at = (const struct attributes *)attributes;
    uint64_t k;

    for (k = 0; k < count; k++)
        if (attributes_wrong(&at[k]))
            return refusal(3, k);
    return 0;
}

static uint64_t check_words(uint64_t count, const uint64_t *registers, const uint64_t *ports)
{
    uint64_t k;

    for (k = 0; k < count; k++)
        if (over_width(registers + k * REGISTER_WORDS, register_width, REGISTER_WORDS))
            return refusal(4, k);
    for (k = 0; k < count; k++)
        if (over_width(ports + k * PORT_WORDS, port_width, PORT_WORDS))
            return refusal(5, k);
    return 0;
}

static uint64_t check_controls(uint64_t count, const struct attributes *at,
                               const struct control *ct)
{
    uint64_t k;

    for (k = 0; k < count; k++)
        if (inmode_wrong(&at[k], &ct[k]))
            return refusal(6, k);
    for (k = 0; k < count; k++)
        if (opmode_wrong(&at[k], &ct[k]))
            return refusal(7, k);
    for (k = 0; k < count; k++)
        if (alumode_wrong(&ct[k]))
            return refusal(8, k);
    for (k = 0; k < count; k++)
        if (carryinsel_wrong(&at[k], &ct[k]))
            return refusal(9, k);
    return 0;
}

/* ---- one slice over one clock ---- */

/* What goes from slice to slice. */
struct cascade {
    uint64_t a, b, p, carry;
};

static uint64_t shift17(uint64_t word)
{
    uint64_t fill = word >> 47 ? ONES48 ^ (ONES48 >> 17) : 0;

    return word >> 17 | fill;
}

static uint64_t extend45(uint64_t word)
{
    return word >> 44 ? word | (ONES48 ^ ONES(45)) : word;
}

static void load(uint64_t *reg, uint64_t in, const struct ports *po, unsigned ce, unsigned rst)
{
    if (po->rst >> rst & 1)
        *reg = 0;
    else if (po->ce >> ce & 1)
        *reg = in;
}

static uint64_t carry_in(const struct attributes *at, const struct registers *rg,
                         const struct ports *po, uint64_t carryinsel, const struct cascade *below)
{
    switch (carryinsel) {
    case 1: return !(below->p >> 47);
    case 2: return below->carry;
    case 3: return below->p >> 47;
    case 5: return !(rg->p >> 47);
    case 7: return rg->p >> 47;
    default: return at->carryinreg ? rg->carryin : po->carryin;
    }
}

/* The wires that the registers load from. */
struct wires {
    uint64_t ain, bin, ad, m, p, pd, pbd, carry;
    uint64_t preaddwrap; /* shown only: no register loads it */
};

/* The ends of the signed 27-bit numbers. */
#define LEAST27 (-67108864)
#define MOST27 67108863

/* Settles the pre-adder: w->ad, and w->preaddwrap where AD's 27 bits are not the true sum. */
static void pre_add(uint64_t d, uint64_t a, int subtract, struct wires *w)
{
    int64_t signed_d = as_signed(d, 27), signed_a = as_signed(a, 27);
    int64_t true_sum = subtract ? signed_d - signed_a : signed_d + signed_a;

    w->ad = (uint64_t)true_sum & ONES(27);
    w->preaddwrap = true_sum < LEAST27 || true_sum > MOST27;
}

/* Settles the multiplier's side: the pre-adder, and w->m. */
static void multiply(const struct attributes *at, const struct registers *rg,
                     const struct ports *po, uint64_t inmode,
                     uint64_t apath, uint64_t bpath, struct wires *w)
{
    uint64_t a = (inmode & 1 ? rg->a1 : apath) & ONES(27);
    uint64_t d = at->dreg ? rg->d : po->d;
    uint64_t left, right;

    if (inmode & 2)
        a = 0;
    if (!(inmode & 4))
        d = 0;
    pre_add(d, a, (inmode & 8) != 0, w);
    left = !at->amultsel ? a : at->adreg ? rg->ad : w->ad;
    right = inmode & 16 ? rg->b1 : bpath;
    w->m = (uint64_t)(as_signed(left, 27) * as_signed(right, 18)) & ONES(45);
}

/* ONE48, ALUMODE 0, W select 0 and Y select 0: elsewhere the carry is 0 (02, Ask 7). */
static int shows_carry(const struct attributes *at, const struct control *ct)
{
    return at->use_simd == ONE48 && ct->alumode == 0 && (ct->opmode >> 7) == 0 &&
           (ct->opmode >> 2 & 3) == 0;
}

/* Settles the unit's side: w->p, w->carry, w->pd and w->pbd. */
static void compute(const struct attributes *at, const struct registers *rg,
                    const struct ports *po, const struct control *ct,
                    uint64_t apath, uint64_t bpath, const struct cascade *below, struct wires *w)
{
    uint64_t mpath = extend45(at->mreg ? rg->m : w->m);
    uint64_t cpath = at->creg ? rg->c : po->c;
    uint64_t wv = 0, xv = 0, yv = 0, zv = 0, differ;
    uint64_t cin = carry_in(at, rg, po, ct->carryinsel, below);

    switch (ct->opmode & 3) {
    case 1: xv = mpath; break;
    case 2: xv = rg->p; break;
    case 3: xv = apath << 18 | bpath; break;
    }
    switch (ct->opmode >> 2 & 3) { /* 1: the product stands whole in X */
    case 2: yv = ONES48; break;
    case 3: yv = cpath; break;
    }
    switch (ct->opmode >> 4 & 7) {
    case 1: zv = below->p; break;
    case 2: zv = rg->p; break;
    case 3: zv = cpath; break;
    case 5: zv = shift17(below->p); break;
    case 6: zv = shift17(rg->p); break;
    }
    switch (ct->opmode >> 7) {
    case 1: wv = rg->p; break;
    case 2: wv = at->rnd; break;
    case 3: wv = cpath; break;
    }
    w->p = split_unit(wv, xv, yv, zv, cin, ct->alumode, at->use_simd);
    w->carry = shows_carry(at, ct) && xv + zv + cin > ONES48;
    differ = w->p ^ at->pattern;
    w->pd = (differ & ~at->mask & ONES48) == 0;
    w->pbd = (~differ & ~at->mask & ONES48) == 0;
}

static void edge(const struct attributes *at, struct registers *rg,
                 const struct ports *po, const struct wires *w)
{
    /* The second of a pair first: it takes what the first held before. */
    load(&rg->a2, at->areg == 2 ? rg->a1 : w->ain, po, CE_A2, RST_A);
    load(&rg->a1, w->ain, po, CE_A1, RST_A);
    load(&rg->b2, at->breg == 2 ? rg->b1 : w->bin, po, CE_B2, RST_B);
    load(&rg->b1, w->bin, po, CE_B1, RST_B);
    load(&rg->c, po->c, po, CE_C, RST_C);
    load(&rg->d, po->d, po, CE_D, RST_D);
    load(&rg->ad, w->ad, po, CE_AD, RST_D);
    load(&rg->m, w->m, po, CE_M, RST_M);
    load(&rg->p, w->p, po, CE_P, RST_P);
    load(&rg->pdpast, rg->pd, po, CE_P, RST_P);
    load(&rg->pbdpast, rg->pbd, po, CE_P, RST_P);
    load(&rg->pd, w->pd, po, CE_P, RST_P);
    load(&rg->pbd, w->pbd, po, CE_P, RST_P);
    load(&rg->carry, w->carry, po, CE_P, RST_P);
    load(&rg->opmode, po->opmode, po, CE_CTRL, RST_CTRL);
    load(&rg->carryinsel, po->carryinsel, po, CE_CTRL, RST_CTRL);
    load(&rg->alumode, po->alumode, po, CE_ALUMODE, RST_ALUMODE);
    load(&rg->inmode, po->inmode, po, CE_INMODE, RST_INMODE);
    load(&rg->carryin, po->carryin, po, CE_CARRYIN, RST_ALLCARRYIN);
}

/*
 * Settles one slice, shows its outputs, loads its registers, and turns the
 * cascade from the slice below into the one for the slice above. What goes up
 * is taken before the edge, so slice by slice is as good as all at once.
 */
static void slice(const struct attributes *at, struct registers *rg, const struct ports *po,
                  const struct control *ct, struct cascade *cas, struct outputs *out)
{
    struct wires w;
    uint64_t apath, bpath;

    w.ain = at->a_input ? cas->a : po->a;
    w.bin = at->b_input ? cas->b : po->b;
    apath = at->areg == 0 ? w.ain : rg->a2;
    bpath = at->breg == 0 ? w.bin : rg->b2;
    multiply(at, rg, po, ct->inmode, apath, bpath, &w);
    compute(at, rg, po, ct, apath, bpath, cas, &w);
    out->p = at->preg ? rg->p : w.p;
    out->patterndetect = at->preg ? rg->pd : w.pd;
    out->patternbdetect = at->preg ? rg->pbd : w.pbd;
    /* Only while PD and PBD are both 0: a swing through 0 lights neither (02, Ask 2). */
    out->overflow = at->preg && rg->pdpast && !rg->pd && !rg->pbd;
    out->underflow = at->preg && rg->pbdpast && !rg->pd && !rg->pbd;
    /* Of what goes into AD in this clock, whether AD and P are registers or not (02, Ask 4). */
    out->preaddwrap = w.preaddwrap;
    out->carry = at->preg ? rg->carry : w.carry;
    cas->a = at->areg == 2 && at->acascreg == 1 ? rg->a1 : apath;
    cas->b = at->breg == 2 && at->bcascreg == 1 ? rg->b1 : bpath;
    cas->p = out->p;
    cas->carry = out->carry;
    edge(at, rg, po, &w);
}

/* ---- the column ---- */

uint64_t column_clock(uint64_t count,
                      const uint64_t *attributes, size_t attributes_length,
                      uint64_t *registers, size_t registers_length,
                      const uint64_t *ports, size_t ports_length,
                      uint64_t *outputs, size_t outputs_length)
{
    const struct attributes *at = (const struct attributes *)attributes;
    struct registers *rg = (struct registers *)registers;
    const struct ports *po = (const struct ports *)ports;
    struct outputs *out = (struct outputs *)outputs;
    struct control ct[COLUMN_TALLEST];
    struct cascade cas = { 0, 0, 0, 0 };
    uint64_t k, refused = column_check_count(count);

    if (refused)
        return refused;
    if (attributes_length != count * ATTRIBUTE_WORDS || registers_length != count * REGISTER_WORDS ||
        ports_length != count * PORT_WORDS || outputs_length != count * OUTPUT_WORDS)
        return refusal(2, 0);
    if ((refused = column_check_attributes(count, attributes)) != 0)
        return refused;
    if ((refused = check_words(count, registers, ports)) != 0)
        return refused;
    for (k = 0; k < count; k++)
        ct[k] = in_effect(&at[k], &rg[k], &po[k]);
    if ((refused = check_controls(count, at, ct)) != 0)
        return refused;
    for (k = 0; k < count; k++)
        slice(&at[k], &rg[k], &po[k], &ct[k], &cas, &out[k]);
    return 0;
}

uint64_t column_clear(uint64_t count, uint64_t *registers, size_t registers_length)
{
    uint64_t refused = column_check_count(count);

    if (refused)
        return refused;
    if (registers_length != count * REGISTER_WORDS)
        return refusal(2, 0);
    memset(registers, 0, registers_length * sizeof *registers);
    return 0;
}

/* ---- why this P ---- */

enum {
    PLACE_ZERO, PLACE_M, PLACE_P, PLACE_AB, PLACE_ONES, PLACE_C, PLACE_PCIN,
    PLACE_PCIN_SHIFTED, PLACE_P_SHIFTED, PLACE_RND, PLACE_CARRYIN,
    PLACE_PCIN_SIGN, PLACE_NOT_PCIN_SIGN, PLACE_P_SIGN, PLACE_NOT_P_SIGN,
    PLACE_CARRY_BELOW, PLACES
};
enum {
    RULE_NONE, RULE_SUM, RULE_SUM_NOT_Z, RULE_NOT_SUM, RULE_DIFFERENCE,
    RULE_XOR, RULE_XNOR, RULE_AND, RULE_OR, RULE_AND_NOT_Z, RULE_OR_NOT_Z,
    RULE_NAND, RULE_NOR, RULE_NOT_X_OR_Z, RULE_NOT_X_AND_Z
};

/* The place that each select takes; those that are refused never get here. */
static const uint64_t w_from[] = { PLACE_ZERO, PLACE_P, PLACE_RND, PLACE_C };
static const uint64_t x_from[] = { PLACE_ZERO, PLACE_M, PLACE_P, PLACE_AB };
static const uint64_t y_from[] = { PLACE_ZERO, PLACE_ZERO, PLACE_ONES, PLACE_C };
static const uint64_t z_from[] = {
    PLACE_ZERO, PLACE_PCIN, PLACE_P, PLACE_C,
    PLACE_ZERO, PLACE_PCIN_SHIFTED, PLACE_P_SHIFTED, PLACE_ZERO
};
static const uint64_t cin_from[] = {
    PLACE_CARRYIN, PLACE_NOT_PCIN_SIGN, PLACE_CARRY_BELOW, PLACE_PCIN_SIGN,
    PLACE_ZERO, PLACE_NOT_P_SIGN, PLACE_ZERO, PLACE_P_SIGN
};

static uint64_t rule_of(uint64_t alumode, int y_is_ones)
{
    switch (alumode) {
    case 0: return RULE_SUM;
    case 1: return RULE_SUM_NOT_Z;
    case 2: return RULE_NOT_SUM;
    case 3: return RULE_DIFFERENCE;
    case 4: case 7: return y_is_ones ? RULE_XNOR : RULE_XOR;
    case 5: case 6: return y_is_ones ? RULE_XOR : RULE_XNOR;
    case 12: return y_is_ones ? RULE_OR : RULE_AND;
    case 13: return y_is_ones ? RULE_OR_NOT_Z : RULE_AND_NOT_Z;
    case 14: return y_is_ones ? RULE_NOR : RULE_NAND;
    case 15: return y_is_ones ? RULE_NOT_X_AND_Z : RULE_NOT_X_OR_Z;
    default: return RULE_NONE;
    }
}

/* What stands in each place, from the registers before and after an edge that loads them all. */
static void fill_places(const struct attributes *at, const struct registers *before,
                        const struct registers *after, const struct outputs *below,
                        uint64_t *value)
{
    uint64_t pcin = below ? below->p : 0;
    uint64_t apath = (at->areg ? before : after)->a2;
    uint64_t bpath = (at->breg ? before : after)->b2;

    value[PLACE_ZERO] = 0;
    value[PLACE_M] = extend45((at->mreg ? before : after)->m);
    value[PLACE_P] = before->p;
    value[PLACE_AB] = apath << 18 | bpath;
    value[PLACE_ONES] = ONES48;
    value[PLACE_C] = (at->creg ? before : after)->c;
    value[PLACE_PCIN] = pcin;
    value[PLACE_PCIN_SHIFTED] = shift17(pcin);
    value[PLACE_P_SHIFTED] = shift17(before->p);
    value[PLACE_RND] = at->rnd;
    value[PLACE_CARRYIN] = (at->carryinreg ? before : after)->carryin;
    value[PLACE_PCIN_SIGN] = pcin >> 47;
    value[PLACE_NOT_PCIN_SIGN] = !(pcin >> 47);
    value[PLACE_P_SIGN] = before->p >> 47;
    value[PLACE_NOT_P_SIGN] = !(before->p >> 47);
    value[PLACE_CARRY_BELOW] = below ? below->carry : 0;
}

static void explain(const struct attributes *at, const struct registers *before,
                    const struct registers *after, const struct outputs *below,
                    struct why *why)
{
    uint64_t opmode = (at->opmodereg ? before : after)->opmode;
    uint64_t alumode = (at->alumodereg ? before : after)->alumode;
    uint64_t value[PLACES];

    fill_places(at, before, after, below, value);
    why->w_place = w_from[opmode >> 7];
    why->x_place = x_from[opmode & 3];
    why->y_place = y_from[opmode >> 2 & 3];
    why->z_place = z_from[opmode >> 4 & 7];
    why->cin_place = cin_from[(at->carryinselreg ? before : after)->carryinsel];
    why->w = value[why->w_place];
    why->x = value[why->x_place];
    why->y = value[why->y_place];
    why->z = value[why->z_place];
    why->cin = value[why->cin_place];
    why->rule = rule_of(alumode, why->y_place == PLACE_ONES);
    why->lanes = at->use_simd;
    why->result = after->p;
}

/*
 * Asks the clock itself, on copies. A register loads even when it is bypassed,
 * so once the asked slice has loaded them all, each path is the register before
 * the edge where it is read, else the register after it, and P is the result.
 */
uint64_t column_why(uint64_t count,
                    const uint64_t *attributes, size_t attributes_length,
                    const uint64_t *registers, size_t registers_length,
                    const uint64_t *ports, size_t ports_length,
                    uint64_t slice,
                    uint64_t *why, size_t why_length)
{
    const struct attributes *at = (const struct attributes *)attributes;
    const struct registers *rg = (const struct registers *)registers;
    struct registers after[COLUMN_TALLEST];
    struct ports po[COLUMN_TALLEST];
    struct outputs out[COLUMN_TALLEST];
    uint64_t refused = column_check_count(count);

    if (why_length == WHY_WORDS)
        memset(why, 0, sizeof(struct why));
    if (refused)
        return refused;
    if (attributes_length != count * ATTRIBUTE_WORDS || registers_length != count * REGISTER_WORDS ||
        ports_length != count * PORT_WORDS || why_length != WHY_WORDS)
        return refusal(2, 0);
    if (slice >= count)
        return refusal(13, 0);
    memcpy(after, registers, count * sizeof after[0]);
    memcpy(po, ports, count * sizeof po[0]);
    po[slice].ce |= ONES(13); /* bits over the width stay, and are refused */
    po[slice].rst &= ~ONES(10);
    refused = column_clock(count, attributes, attributes_length, (uint64_t *)after, registers_length,
                           (const uint64_t *)po, ports_length, (uint64_t *)out, count * OUTPUT_WORDS);
    if (refused)
        return refused;
    explain(&at[slice], &rg[slice], &after[slice], slice ? &out[slice - 1] : NULL,
            (struct why *)why);
    return 0;
}

/* ---- the packed run ---- */

#define TERMS_MOST 8
#define ROWS_MOST 4096
#define PACKED_DELAY 3

static uint64_t check_packed(uint64_t terms, uint64_t rows, size_t a_length, size_t d_length,
                             size_t b_length, size_t answers_length)
{
    if (terms < 1 || terms > TERMS_MOST)
        return refusal(10, 0);
    if (rows < 1 || rows > ROWS_MOST)
        return refusal(11, 0);
    if (a_length != rows * terms || d_length != rows * terms || b_length != rows * terms ||
        answers_length != 2 * rows)
        return refusal(2, 0);
    return 0;
}

static int all_lowest(const int8_t *numbers, uint64_t count)
{
    while (count > 0 && numbers[count - 1] == -128)
        count--;
    return count == 0;
}

/* Eight times -128 by -128 is 2^17, one more than the low field holds; no other row leaves it. */
static uint64_t check_rows(uint64_t terms, uint64_t rows, const int8_t *d, const int8_t *b)
{
    uint64_t row;

    if (terms < TERMS_MOST)
        return 0;
    for (row = 0; row < rows; row++)
        if (all_lowest(d + row * terms, terms) && all_lowest(b + row * terms, terms))
            return refusal(14, row);
    return 0;
}

static void read_sums(uint64_t p, int32_t *answers)
{
    /* Taking the low field off first makes the division exact. */
    int64_t whole = as_signed(p, 48) - (int64_t)(p & ONES(18));

    answers[0] = (int32_t)(whole / (1 << 18) + (int64_t)(p >> 17 & 1));
    answers[1] = (int32_t)as_signed(p & ONES(18), 18);
}

/* Puts one triple on a slice's ports. */
static void drive(struct ports *po, const int8_t *a, const int8_t *d, const int8_t *b, size_t i)
{
    po->a = (uint64_t)((int64_t)a[i] * (1 << 18)) & ONES(30);
    po->d = (uint64_t)(int64_t)d[i] & ONES(27);
    po->b = (uint64_t)(int64_t)b[i] & ONES(18);
}

uint64_t column_packed(uint64_t terms, uint64_t rows,
                       const int8_t *a, size_t a_length,
                       const int8_t *d, size_t d_length,
                       const int8_t *b, size_t b_length,
                       int32_t *answers, size_t answers_length,
                       uint64_t *list, size_t list_length)
{
    static const struct attributes at = { .areg = 1, .breg = 2, .acascreg = 1, .bcascreg = 2,
        .dreg = 1, .adreg = 1, .mreg = 1, .preg = 1, .use_mult = 1, .amultsel = 1 };
    static const struct control ct = { .opmode = 21, .inmode = 4 };
    struct registers rg[TERMS_MOST];
    uint64_t clock, clocks, k, refused;

    refused = check_packed(terms, rows, a_length, d_length, b_length, answers_length);
    if (refused)
        return refused;
    clocks = rows + terms + PACKED_DELAY;
    if (list_length != clocks)
        return refusal(2, 0);
    refused = check_rows(terms, rows, d, b);
    if (refused)
        return refused;
    memset(rg, 0, sizeof rg);
    for (clock = 0; clock < clocks; clock++) {
        struct cascade cas = { 0, 0, 0, 0 };
        struct outputs out = { .p = 0 };

        for (k = 0; k < terms; k++) {
            struct ports po = { .opmode = 21, .inmode = 4, .ce = 8191 };

            if (clock >= k && clock - k < rows)
                drive(&po, a, d, b, (clock - k) * terms + k);
            slice(&at, &rg[k], &po, &ct, &cas, &out);
        }
        list[clock] = out.p;
        if (clock >= terms + PACKED_DELAY)
            read_sums(out.p, answers + 2 * (clock - terms - PACKED_DELAY));
    }
    return clocks;
}

uint64_t column_plain(uint64_t terms, uint64_t rows,
                      const int8_t *a, size_t a_length,
                      const int8_t *d, size_t d_length,
                      const int8_t *b, size_t b_length,
                      int32_t *answers, size_t answers_length)
{
    uint64_t row, term, refused;

    refused = check_packed(terms, rows, a_length, d_length, b_length, answers_length);
    if (!refused)
        refused = check_rows(terms, rows, d, b);
    if (refused)
        return refused;
    for (row = 0; row < rows; row++) {
        int32_t high = 0, low = 0;

        for (term = 0; term < terms; term++) {
            size_t i = row * terms + term;

            high += a[i] * b[i];
            low += d[i] * b[i];
        }
        answers[2 * row] = high;
        answers[2 * row + 1] = low;
    }
    return 0;
}
