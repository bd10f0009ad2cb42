/*
 * A plain model of a column of DSP48E2 slices.
 *
 * All words are 64 bits and hold unsigned bit patterns, slice 0 first. The
 * structs below are the records of one slice, word for word; a column is an
 * array of them, lent as plain words with its length in words.
 *
 * Every call returns one word: below 2^48 an answer, else a refusal, which is
 * 2^48 + 256 * place + number.
 */
#ifndef COLUMN_H
#define COLUMN_H

#include <stddef.h>
#include <stdint.h>

#define COLUMN_TALLEST 24
#define COLUMN_REFUSED ((uint64_t)1 << 48)

struct attributes {
    uint64_t areg, breg, acascreg, bcascreg, a_input, b_input;
    uint64_t creg, dreg, adreg, mreg, preg;
    uint64_t opmodereg, alumodereg, inmodereg, carryinreg, carryinselreg;
    uint64_t use_mult, amultsel, rnd, pattern, mask;
    uint64_t use_simd;
};

struct registers {
    uint64_t a1, a2, b1, b2, c, d, ad, m, p;
    uint64_t opmode, alumode, inmode, carryinsel, carryin;
    uint64_t pd, pbd, pdpast, pbdpast;
    uint64_t carry;
};

struct ports {
    uint64_t a, b, c, d, opmode, alumode, inmode, carryinsel, carryin, ce, rst;
};

struct outputs {
    uint64_t p, patterndetect, patternbdetect, overflow, underflow;
    uint64_t preaddwrap;
    uint64_t carry;
};

/* Where a slice's P came from: the settled operands, the place of each, the rule. */
struct why {
    uint64_t w, x, y, z, cin;
    uint64_t w_place, x_place, y_place, z_place, cin_place;
    uint64_t rule, lanes, result;
};

#define ATTRIBUTE_WORDS (sizeof(struct attributes) / sizeof(uint64_t))
#define REGISTER_WORDS (sizeof(struct registers) / sizeof(uint64_t))
#define PORT_WORDS (sizeof(struct ports) / sizeof(uint64_t))
#define OUTPUT_WORDS (sizeof(struct outputs) / sizeof(uint64_t))
#define WHY_WORDS (sizeof(struct why) / sizeof(uint64_t))

/* The adder alone: its result, or 2^48+5, or 2^48+8. */
uint64_t column_adder(uint64_t w, uint64_t x, uint64_t y, uint64_t z,
                      uint64_t cin, uint64_t alumode);

/* One clock: 0, or a refusal, which stores nothing. */
uint64_t column_clock(uint64_t count,
                      const uint64_t *attributes, size_t attributes_length,
                      uint64_t *registers, size_t registers_length,
                      const uint64_t *ports, size_t ports_length,
                      uint64_t *outputs, size_t outputs_length);

/*
 * Where the P of one slice comes from in this clock: 0, or a refusal, which
 * leaves zeros in why. A why of another length is left as it was.
 */
uint64_t column_why(uint64_t count,
                    const uint64_t *attributes, size_t attributes_length,
                    const uint64_t *registers, size_t registers_length,
                    const uint64_t *ports, size_t ports_length,
                    uint64_t slice,
                    uint64_t *why, size_t why_length);

/* Sets all registers to 0: 0, or a refusal. */
uint64_t column_clear(uint64_t count, uint64_t *registers, size_t registers_length);

/* Refusal 1 by itself, for who meets the count before the rest. */
uint64_t column_check_count(uint64_t count);

/* Refusal 3 by itself, for who meets the attributes before any port. */
uint64_t column_check_attributes(uint64_t count, const uint64_t *attributes);

/* Packed run through the column: the clocks stepped, or a refusal. */
uint64_t column_packed(uint64_t terms, uint64_t rows,
                       const int8_t *a, size_t a_length,
                       const int8_t *d, size_t d_length,
                       const int8_t *b, size_t b_length,
                       int32_t *answers, size_t answers_length,
                       uint64_t *list, size_t list_length);

/* Packed run worked out directly: 0, or a refusal. */
uint64_t column_plain(uint64_t terms, uint64_t rows,
                      const int8_t *a, size_t a_length,
                      const int8_t *d, size_t d_length,
                      const int8_t *b, size_t b_length,
                      int32_t *answers, size_t answers_length);

#endif
