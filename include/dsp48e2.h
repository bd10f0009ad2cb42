/*
 * A column of 1 to 24 DSP48E2 slices, clock by clock: the calls of libdsp48e2.a.
 *
 * All lent words are uint64_t and hold unsigned bit patterns, slice 0 (the bottom) first; a slice's words stand in the
 * order of the enums below. Every call takes whatever it is given: any number, any length, a null pointer with length 0.
 * What is malformed or forbidden is refused, and a refused call changes no lent word, but that a refused dsp_why leaves
 * zeros in the place of its answer.
 *
 * A refusal is DSP_REFUSED + 256 * place + number in the returned word, and nothing else is that large; the place is the
 * lowest slice that fails the check of that number, and of number 14 the lowest row.
 */
#ifndef DSP48E2_H
#define DSP48E2_H

#include <stddef.h>
#include <stdint.h>

#ifdef __cplusplus
extern "C" {
#endif

/*
 * The version of this header. The major number rises when a count or a meaning changes, the minor one when something comes
 * to it that changes neither. A caller that was compiled against older counts lends other lengths than are required, and is
 * refused by number 2. Major 1 had 21 attributes a slice, major 2 has 22. Major 3 has the counts of major 2, and other
 * OVERFLOW and UNDERFLOW: a P that swings through 0 within its range shows neither any more. Version 3.1 adds dsp_why with
 * its enums, and number 13; what 3.0 has is as it was. Major 4 has 6 outputs a slice, where there were 5: PREADDWRAP is the
 * last, and what 3.1 has is as it was. Version 4.1 takes packed runs of 8 terms, which 4.0 refused by number 10, and adds
 * number 14 for the rows of 8 terms that do not fit; every other call is answered as it was. Major 5 has 19 registers and 7
 * outputs a slice, where there were 18 and 6: the carry is the last of both. CARRYINSEL 2 takes it from the slice below,
 * and number 9 refuses it no more; dsp_why has a place for it.
 */
#define DSP_VERSION_MAJOR 5
#define DSP_VERSION_MINOR 0

/* The refusal rule, and what takes a refusal apart. */
#define DSP_REFUSED (UINT64_C(1) << 48)
#define DSP_IS_REFUSED(word) ((word) >= DSP_REFUSED)
#define DSP_NUMBER(word) ((unsigned)((word) & 255u))
#define DSP_PLACE(word) ((unsigned)(((word) - DSP_REFUSED) >> 8))

/* The refusal numbers. */
enum dsp_number {
    DSP_ACCEPTED = 0,
    DSP_BAD_COUNT = 1,      /* slice count is not 1 to 24 */
    DSP_BAD_LENGTH = 2,     /* a lent length differs from the required one */
    DSP_BAD_ATTRIBUTE = 3,  /* an attribute breaks its list */
    DSP_BAD_REGISTER = 4,   /* a register word exceeds its width */
    DSP_BAD_PORT = 5,       /* a port word exceeds its width */
    DSP_BAD_INMODE = 6,     /* INMODE in effect is forbidden */
    DSP_BAD_OPMODE = 7,     /* OPMODE in effect is forbidden */
    DSP_BAD_ALUMODE = 8,    /* ALUMODE in effect is forbidden */
    DSP_BAD_CARRYINSEL = 9, /* CARRYINSEL in effect is forbidden */
    DSP_BAD_TERMS = 10,     /* packed run: terms not 1 to 8 */
    DSP_BAD_ROWS = 11,      /* packed run: rows not 1 to 4,096 */
    DSP_BAD_SLICE = 13,     /* the asked slice is at or above the count */
    DSP_OVERFULL_ROW = 14   /* packed run of 8 terms: a row, which is the place, has all d and all b -128 */
};

#define DSP_MOST_SLICES 24
#define DSP_MOST_TERMS 8
#define DSP_MOST_ROWS 4096

/* A slice's attributes: its settings. */
enum dsp_attribute {
    DSP_ATTRIBUTE_AREG = 0,
    DSP_ATTRIBUTE_BREG = 1,
    DSP_ATTRIBUTE_ACASCREG = 2,
    DSP_ATTRIBUTE_BCASCREG = 3,
    DSP_ATTRIBUTE_A_INPUT = 4,
    DSP_ATTRIBUTE_B_INPUT = 5,
    DSP_ATTRIBUTE_CREG = 6,
    DSP_ATTRIBUTE_DREG = 7,
    DSP_ATTRIBUTE_ADREG = 8,
    DSP_ATTRIBUTE_MREG = 9,
    DSP_ATTRIBUTE_PREG = 10,
    DSP_ATTRIBUTE_OPMODEREG = 11,
    DSP_ATTRIBUTE_ALUMODEREG = 12,
    DSP_ATTRIBUTE_INMODEREG = 13,
    DSP_ATTRIBUTE_CARRYINREG = 14,
    DSP_ATTRIBUTE_CARRYINSELREG = 15,
    DSP_ATTRIBUTE_USE_MULT = 16,
    DSP_ATTRIBUTE_AMULTSEL = 17,
    DSP_ATTRIBUTE_RND = 18,
    DSP_ATTRIBUTE_PATTERN = 19,
    DSP_ATTRIBUTE_MASK = 20,
    DSP_ATTRIBUTE_USE_SIMD = 21,
    DSP_ATTRIBUTE_WORDS = 22
};

/*
 * The settings of USE_SIMD: the adder as one lane of 48 bits, two of 24 or four of 12. In the arithmetic modes each lane
 * works modulo its own width, CIN joins the lowest lane only, and no carry passes between lanes; the logic modes, the
 * shift by 17, the signs that CARRYINSEL takes and the detector see 48 bits. More than one lane is refused while USE_MULT
 * is 1.
 */
enum dsp_simd {
    DSP_SIMD_ONE48 = 0,
    DSP_SIMD_TWO24 = 1,
    DSP_SIMD_FOUR12 = 2
};

/* A slice's registers: what it holds between edges. The carry's loads and clears with P, by CE P and RST P. */
enum dsp_register {
    DSP_REGISTER_A1 = 0,
    DSP_REGISTER_A2 = 1,
    DSP_REGISTER_B1 = 2,
    DSP_REGISTER_B2 = 3,
    DSP_REGISTER_C = 4,
    DSP_REGISTER_D = 5,
    DSP_REGISTER_AD = 6,
    DSP_REGISTER_M = 7,
    DSP_REGISTER_P = 8,
    DSP_REGISTER_OPMODE = 9,
    DSP_REGISTER_ALUMODE = 10,
    DSP_REGISTER_INMODE = 11,
    DSP_REGISTER_CARRYINSEL = 12,
    DSP_REGISTER_CARRYIN = 13,
    DSP_REGISTER_PD = 14,
    DSP_REGISTER_PBD = 15,
    DSP_REGISTER_PDPAST = 16,
    DSP_REGISTER_PBDPAST = 17,
    DSP_REGISTER_CARRY = 18,
    DSP_REGISTER_WORDS = 19
};

/* A slice's ports: what it is given in a clock. */
enum dsp_port {
    DSP_PORT_A = 0,
    DSP_PORT_B = 1,
    DSP_PORT_C = 2,
    DSP_PORT_D = 3,
    DSP_PORT_OPMODE = 4,
    DSP_PORT_ALUMODE = 5,
    DSP_PORT_INMODE = 6,
    DSP_PORT_CARRYINSEL = 7,
    DSP_PORT_CARRYIN = 8,
    DSP_PORT_CE = 9,
    DSP_PORT_RST = 10,
    DSP_PORT_WORDS = 11
};

/*
 * A slice's outputs: what it shows in a clock. With PREG 1 OVERFLOW is 1 where PDPAST is 1 and PD and PBD are both 0,
 * UNDERFLOW where PBDPAST is 1 and PD and PBD are both 0, all read from the registers; with PREG 0 both are 0. With
 * PATTERN 0 and MASK 2^46 - 1 the sums from -2^46 to 2^46 - 1 are in range: a P that leaves it from 0 or above shows
 * OVERFLOW, one that leaves it from below 0 UNDERFLOW, and one that swings through 0 within it neither.
 *
 * PREADDWRAP tells that the pre-adder wrapped: it is 1 where the true sum D + A or difference D - A, of the signed 27-bit
 * numbers that INMODE lets in, is below -67108864 or above 67108863, so that the 27 bits which go into AD are not it. Inputs
 * kept to signed numbers of 26 bits each never light it. It settles in every slice from what the pre-adder is given in this
 * clock, whether the sum is used or not: no register holds it, and neither ADREG nor PREG delays it.
 *
 * CARRY is the carry that the slice above takes by CARRYINSEL 2; the bottom slice takes 0. It settles where the adder is one
 * lane of 48 bits and adds X, Z and CIN alone, that is with USE_SIMD 0, ALUMODE 0 and the selects of W and Y both 0 in
 * effect: 1 exactly if X + Z + CIN is at least 2^48. In every other setting it settles to 0, whatever the words are. With
 * PREG 1 the register's is shown, with PREG 0 the one that settles.
 */
enum dsp_output {
    DSP_OUTPUT_P = 0,
    DSP_OUTPUT_PATTERNDETECT = 1,
    DSP_OUTPUT_PATTERNBDETECT = 2,
    DSP_OUTPUT_OVERFLOW = 3,
    DSP_OUTPUT_UNDERFLOW = 4,
    DSP_OUTPUT_PREADDWRAP = 5,
    DSP_OUTPUT_CARRY = 6,
    DSP_OUTPUT_WORDS = 7
};

/*
 * The width of every word, in bits and in the words' order. The attributes' list is narrower: AREG and BREG are 0 to 2;
 * ACASCREG equals AREG, except that AREG 2 allows 1 or 2, and BCASCREG goes with BREG likewise; USE_SIMD is 0 to 2, and 0
 * while USE_MULT is 1.
 */
#define DSP_ATTRIBUTE_WIDTHS { 2, 2, 2, 2, 1, 1, 1, 1, 1, 1, 1, 1, 1, 1, 1, 1, 1, 1, 48, 48, 48, 2 }
#define DSP_REGISTER_WIDTHS { 30, 30, 18, 18, 48, 27, 27, 45, 48, 9, 4, 5, 3, 1, 1, 1, 1, 1, 1 }
#define DSP_PORT_WIDTHS { 30, 18, 48, 27, 9, 4, 5, 3, 1, 13, 10 }

/* The bits of the port words CE and RST. */
enum dsp_ce {
    DSP_CE_A1 = 1 << 0,
    DSP_CE_A2 = 1 << 1,
    DSP_CE_B1 = 1 << 2,
    DSP_CE_B2 = 1 << 3,
    DSP_CE_C = 1 << 4,
    DSP_CE_D = 1 << 5,
    DSP_CE_AD = 1 << 6,
    DSP_CE_M = 1 << 7,
    DSP_CE_P = 1 << 8,
    DSP_CE_CTRL = 1 << 9,
    DSP_CE_ALUMODE = 1 << 10,
    DSP_CE_INMODE = 1 << 11,
    DSP_CE_CARRYIN = 1 << 12,
    DSP_CE_ALL = (1 << 13) - 1
};

enum dsp_rst {
    DSP_RST_A = 1 << 0,
    DSP_RST_B = 1 << 1,
    DSP_RST_C = 1 << 2,
    DSP_RST_D = 1 << 3,
    DSP_RST_M = 1 << 4,
    DSP_RST_P = 1 << 5,
    DSP_RST_CTRL = 1 << 6,
    DSP_RST_ALUMODE = 1 << 7,
    DSP_RST_INMODE = 1 << 8,
    DSP_RST_ALLCARRYIN = 1 << 9,
    DSP_RST_ALL = (1 << 10) - 1
};

/* Slice k's word i of some lent words: DSP_WORD(ports, DSP_PORT_WORDS, k, DSP_PORT_OPMODE). */
#define DSP_WORD(words, count, k, i) ((words)[(size_t)(count) * (size_t)(k) + (size_t)(i)])

/*
 * The adder and logic unit on plain numbers, in one lane: W, X, Y, Z of 48 bits, CIN of 1 and ALUMODE of 4. Returns the
 * result, which is below 2^48; or DSP_REFUSED + 5 when a number is over its width; or else DSP_REFUSED + 8 for modes 8 to
 * 11, or for a logic mode with W not 0 or Y neither 0 nor all ones.
 */
uint64_t dsp_adder(uint64_t w, uint64_t x, uint64_t y, uint64_t z, uint64_t cin, uint64_t alumode);

/*
 * One clock. Lent: DSP_ATTRIBUTE_WORDS, DSP_REGISTER_WORDS, DSP_PORT_WORDS and DSP_OUTPUT_WORDS words for each of count
 * slices, each with its length in words. Returns 0, and leaves the outputs of this clock in outputs and the registers
 * after the edge in registers; or a refusal, numbers 1 to 9 in their order.
 */
uint64_t dsp_clock(uint64_t count,
                   const uint64_t *attributes, size_t attributes_length,
                   uint64_t *registers, size_t registers_length,
                   const uint64_t *ports, size_t ports_length,
                   uint64_t *outputs, size_t outputs_length);

/*
 * The words of the answer to "why this P?". W, X, Y and Z are 48-bit patterns; CIN is 0 or 1, and given in the logic modes
 * too, which ignore it. A place is one of enum dsp_place, the rule one of enum dsp_rule; the lanes are USE_SIMD as it is
 * set, in the logic modes too. The result is what the unit settles to: with PREG 0 it is shown as P, and register P loads
 * it where CE P is set and RST P is not.
 */
enum dsp_why {
    DSP_WHY_W = 0,
    DSP_WHY_X = 1,
    DSP_WHY_Y = 2,
    DSP_WHY_Z = 3,
    DSP_WHY_CIN = 4,
    DSP_WHY_W_PLACE = 5,
    DSP_WHY_X_PLACE = 6,
    DSP_WHY_Y_PLACE = 7,
    DSP_WHY_Z_PLACE = 8,
    DSP_WHY_CIN_PLACE = 9,
    DSP_WHY_RULE = 10,
    DSP_WHY_LANES = 11,
    DSP_WHY_RESULT = 12,
    DSP_WHY_WORDS = 13
};

/* Where an operand was selected from: what its select says, whatever the value is. */
enum dsp_place {
    DSP_PLACE_ZERO = 0,            /* nothing is selected; also Y where X and Y both select M, which is whole in X */
    DSP_PLACE_M = 1,               /* M, sign-extended to 48 bits */
    DSP_PLACE_P = 2,               /* register P */
    DSP_PLACE_AB = 3,              /* A:B, the A path above the B path */
    DSP_PLACE_ONES = 4,            /* all ones */
    DSP_PLACE_C = 5,               /* the C path */
    DSP_PLACE_PCIN = 6,            /* the P that the slice below shows, 0 at the bottom */
    DSP_PLACE_PCIN_SHIFTED = 7,    /* PCIN shifted right by 17, keeping the sign */
    DSP_PLACE_P_SHIFTED = 8,       /* register P shifted right by 17, keeping the sign */
    DSP_PLACE_RND = 9,             /* attribute RND */
    DSP_PLACE_CARRYIN = 10,        /* the CARRYIN path */
    DSP_PLACE_PCIN_BIT47 = 11,     /* the sign of PCIN */
    DSP_PLACE_NOT_PCIN_BIT47 = 12, /* 1 where the sign of PCIN is 0 */
    DSP_PLACE_P_BIT47 = 13,        /* the sign of register P */
    DSP_PLACE_NOT_P_BIT47 = 14,    /* 1 where the sign of register P is 0 */
    DSP_PLACE_CARRY_BELOW = 15     /* the carry that the slice below shows, 0 at the bottom */
};

/*
 * What is done with the operands: one number for one function, whatever the mode. Rules 1 to 4 are worked in the lanes of
 * USE_SIMD, each lane modulo its own width and CIN in the lowest; the others are worked on 48 bits, of X and Z alone.
 */
enum dsp_rule {
    DSP_RULE_NONE = 0,        /* in a refused answer alone */
    DSP_RULE_SUM = 1,         /* Z + W + X + Y + CIN */
    DSP_RULE_SUM_NOT_Z = 2,   /* (2^48 - 1 - Z) + W + X + Y + CIN */
    DSP_RULE_NOT_SUM = 3,     /* 2^48 - 1 - (Z + W + X + Y + CIN) */
    DSP_RULE_DIFFERENCE = 4,  /* Z - (W + X + Y + CIN) */
    DSP_RULE_XOR = 5,         /* X xor Z */
    DSP_RULE_XNOR = 6,        /* not (X xor Z) */
    DSP_RULE_AND = 7,         /* X and Z */
    DSP_RULE_OR = 8,          /* X or Z */
    DSP_RULE_AND_NOT_Z = 9,   /* X and not Z */
    DSP_RULE_OR_NOT_Z = 10,   /* X or not Z */
    DSP_RULE_NAND = 11,       /* not (X and Z) */
    DSP_RULE_NOR = 12,        /* not (X or Z) */
    DSP_RULE_NOT_X_OR_Z = 13, /* not X, or Z */
    DSP_RULE_NOT_X_AND_Z = 14 /* not X, and Z */
};

/*
 * Where the P of one slice comes from, in the clock that dsp_clock makes of the same words. Lent: DSP_ATTRIBUTE_WORDS,
 * DSP_REGISTER_WORDS and DSP_PORT_WORDS words for each of count slices, and DSP_WHY_WORDS words for the answer, each with
 * its length in words. Returns 0, and leaves in why what settles in that slice before the edge; or a refusal: numbers 1
 * and 2, then 13 at place 0, then 3 to 9 over the whole column as for a clock. A refusal leaves zeros in why; a why of
 * another length is left as it was. Nothing else that is lent changes.
 */
uint64_t dsp_why(uint64_t count,
                 const uint64_t *attributes, size_t attributes_length,
                 const uint64_t *registers, size_t registers_length,
                 const uint64_t *ports, size_t ports_length,
                 uint64_t slice,
                 uint64_t *why, size_t why_length);

/* Sets every register of count slices to 0. Returns 0, or a refusal: number 1, then 2. */
uint64_t dsp_clear(uint64_t count, uint64_t *registers, size_t registers_length);

/* The clocks of an accepted packed run, which is also the length of its list. */
#define DSP_PACKED_CLOCKS(terms, rows) ((rows) + (terms) + 3)

/*
 * The packed run, clock by clock. Lent: three arrays of rows * terms signed 8-bit numbers, row by row; 2 * rows answers,
 * the high sum (of a * b) then the low sum (of d * b) of each row; and a list of DSP_PACKED_CLOCKS(terms, rows) words.
 * Returns the clocks it stepped, and leaves the top P of each clock in list and every row's exact sums in answers; or a
 * refusal: numbers 10, 11 and 2 in that order, at place 0, then 14, whose place is the lowest overfull row. A row is
 * overfull where it has 8 terms, and all its d and all its b are -128: its low sum would be 131072, one more than the 18
 * bits of P that hold it can tell. Every other row of 1 to 8 terms fits.
 */
uint64_t dsp_packed_clocked(uint64_t terms, uint64_t rows,
                            const int8_t *a, size_t a_length,
                            const int8_t *d, size_t d_length,
                            const int8_t *b, size_t b_length,
                            int32_t *answers, size_t answers_length,
                            uint64_t *list, size_t list_length);

/* The same sums worked out directly, without the list. Returns 0, or a refusal as above. */
uint64_t dsp_packed_plain(uint64_t terms, uint64_t rows,
                          const int8_t *a, size_t a_length,
                          const int8_t *d, size_t d_length,
                          const int8_t *b, size_t b_length,
                          int32_t *answers, size_t answers_length);

#ifdef __cplusplus
}
#endif

#endif
