/* What the files of the bench share: checks that are counted, lent words between guards, columns, random ones too. */
#ifndef BENCH_H
#define BENCH_H

#include "dsp48e2.h"

#define MOST 25

/* The first check that does not hold ends the bench. */
void expect(int holds, const char *what);
void expect_refusal(uint64_t word, unsigned number, unsigned place, const char *what);

/* Lent words between two guard words, and what they were when they were last kept. */
struct lent {
    uint64_t words[2 + MOST * DSP_ATTRIBUTE_WORDS];
    uint64_t before[2 + MOST * DSP_ATTRIBUTE_WORDS];
    size_t length;
};

extern struct lent attributes, registers, ports, outputs;

/* Slice k's word of that name in the lent words. */
#define ATTRIBUTE(k, name) DSP_WORD(lend(&attributes), DSP_ATTRIBUTE_WORDS, k, DSP_ATTRIBUTE_##name)
#define REGISTER(k, name) DSP_WORD(lend(&registers), DSP_REGISTER_WORDS, k, DSP_REGISTER_##name)
#define PORT(k, name) DSP_WORD(lend(&ports), DSP_PORT_WORDS, k, DSP_PORT_##name)
#define OUTPUT(k, name) DSP_WORD(lend(&outputs), DSP_OUTPUT_WORDS, k, DSP_OUTPUT_##name)

uint64_t *lend(struct lent *lent);
void fill(struct lent *lent, size_t length, uint64_t value);
void keep(struct lent *lent);
int kept(const struct lent *lent);
int guarded(const struct lent *lent);

/* The bits of INMODE. */
enum { TAKE_A1 = 1, CLEAR_A = 2, TAKE_D = 4, SUBTRACT = 8, TAKE_B1 = 16 };

/* Every word 0 but the outputs, which are 77. */
void cleared_column(size_t count);

/* The archive's clock on the lent words, and that it writes what it may. */
uint64_t clock_of(uint64_t count);

uint64_t draw(void);

/* A word of some width: a boundary, or any; one in a thousand is past the width. */
uint64_t draw_word(unsigned width);

/* A random column, mostly legal; returns its slices. */
size_t draw_column(void);

/* bench/preaddwrap.c: the pre-adder's mark by hand; the marks of an accepted random clock; what so many clocks met. */
void preaddwrap_by_hand(void);
void count_preaddwraps(size_t count);
void tell_preaddwraps(unsigned long clocks);

/* bench/carry.c: the carry by hand, and so many random wide sums. */
void carry_by_hand(void);
void random_wide_sums(unsigned long calls);

/* bench/packed.c: the packed runs by hand, and random ones. */
void packed_by_hand(void);
void random_packed_runs(void);

/* bench/why.c: dsp_why by hand, and so many random calls of it. */
void why_by_hand(void);
void random_whys(unsigned long calls);

#endif
