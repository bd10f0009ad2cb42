/*
 * Plays a port listing from standard input to standard output, over the plain
 * model. Without arguments; a refusal is part of the answer and no failure.
 * Where the N line names a slice, only its first match is printed.
 */
#include "column.h"

#include <stdio.h>
#include <stdlib.h>

#define LINE_MOST 512
/* The numbers of an A line that leaves USE_SIMD out. */
#define ATTRIBUTE_WORDS_LEAST (ATTRIBUTE_WORDS - 1)

enum line { LINE_READ, LINE_BROKEN, LINE_NONE };

static char line[LINE_MOST];
static size_t line_length;
static unsigned long line_number;
static size_t numbers_given;
static unsigned long long clocks;

static void failed(const char *what)
{
    fflush(stdout);
    perror(what);
    exit(1);
}

static enum line read_line(void)
{
    int c;

    line_number++;
    line_length = 0;
    while ((c = getchar()) != '\n') {
        if (c == EOF) {
            if (ferror(stdin))
                failed("read");
            return line_length ? LINE_BROKEN : LINE_NONE;
        }
        if (line_length == LINE_MOST)
            return LINE_BROKEN;
        line[line_length++] = (char)c;
    }
    return LINE_READ;
}

/* Reads a decimal at *at and moves past it; 0 when there is none. */
static int read_number(size_t *at, uint64_t *number)
{
    size_t start = *at;
    uint64_t value = 0;

    while (*at < line_length && line[*at] >= '0' && line[*at] <= '9') {
        unsigned digit = (unsigned)(line[*at] - '0');

        if (value > (UINT64_MAX - digit) / 10)
            return 0;
        value = value * 10 + digit;
        ++*at;
    }
    if (*at == start || (line[start] == '0' && *at - start > 1))
        return 0;
    *number = value;
    return 1;
}

/* Reads the line as a tag and least to most numbers, those left out as 0; 0 when it is not that. */
static int parse_line(char tag, uint64_t *numbers, size_t least, size_t most)
{
    size_t at = 1, i;

    if (line_length == 0 || line[0] != tag)
        return 0;
    for (i = 0; i < most && (i < least || at < line_length); i++) {
        if (at == line_length || line[at] != '\t')
            return 0;
        at++;
        if (!read_number(&at, &numbers[i]))
            return 0;
    }
    numbers_given = i;
    for (; i < most; i++)
        numbers[i] = 0;
    return at == line_length;
}

static void finish(void)
{
    if (fflush(stdout) == EOF || ferror(stdout))
        failed("write");
    exit(0);
}

static void refuse(unsigned long long number, unsigned long long place)
{
    printf("R\t%llu\t%llu\t%llu\n", number, clocks, place);
    finish();
}

static void refuse_word(uint64_t returned)
{
    if (returned)
        refuse(returned & 255, (returned - COLUMN_REFUSED) >> 8);
}

/* Reads one line of a group; 0 when the input ended and may end here. */
static int want(char tag, uint64_t *numbers, size_t least, size_t most, int may_end)
{
    enum line got = read_line();

    if (got == LINE_NONE && may_end)
        return 0;
    if (got != LINE_READ || !parse_line(tag, numbers, least, most))
        refuse(12, line_number);
    return 1;
}

static void print_outputs(const struct outputs *outputs, uint64_t count)
{
    unsigned k;

    for (k = 0; k < count; k++) {
        const struct outputs *o = &outputs[k];

        printf("O\t%llu\t%u\t%llu\t%u\t%u\t%u\t%u\t%u\t%u\n", clocks, k, (unsigned long long)o->p,
               (unsigned)o->patterndetect, (unsigned)o->patternbdetect,
               (unsigned)o->overflow, (unsigned)o->underflow, (unsigned)o->preaddwrap,
               (unsigned)o->carry);
    }
}

/* What a clock prints where a slice is named: nothing, or its match, which is the last thing. */
static void print_match(const struct outputs *outputs, uint64_t slice)
{
    if (!outputs[slice].patterndetect)
        return;
    printf("M\t%llu\n", clocks);
    finish();
}

int main(void)
{
    static uint64_t attributes[COLUMN_TALLEST * ATTRIBUTE_WORDS];
    static uint64_t registers[COLUMN_TALLEST * REGISTER_WORDS];
    static uint64_t ports[COLUMN_TALLEST * PORT_WORDS];
    static uint64_t outputs[COLUMN_TALLEST * OUTPUT_WORDS];
    uint64_t column[2], count, slice, k;
    int names_slice;

    want('N', column, 1, 2, 0);
    count = column[0];
    slice = column[1];
    names_slice = numbers_given == 2;
    refuse_word(column_check_count(count));
    if (names_slice && slice >= count)
        refuse(13, 0);
    for (k = 0; k < count; k++)
        want('A', attributes + k * ATTRIBUTE_WORDS, ATTRIBUTE_WORDS_LEAST, ATTRIBUTE_WORDS, 0);
    refuse_word(column_check_attributes(count, attributes));
    column_clear(count, registers, count * REGISTER_WORDS);
    while (want('P', ports, PORT_WORDS, PORT_WORDS, 1)) {
        for (k = 1; k < count; k++)
            want('P', ports + k * PORT_WORDS, PORT_WORDS, PORT_WORDS, 0);
        refuse_word(column_clock(count, attributes, count * ATTRIBUTE_WORDS,
                                 registers, count * REGISTER_WORDS,
                                 ports, count * PORT_WORDS,
                                 outputs, count * OUTPUT_WORDS));
        if (names_slice)
            print_match((const struct outputs *)outputs, slice);
        else
            print_outputs((const struct outputs *)outputs, count);
        clocks++;
    }
    printf("E\t%llu\n", clocks);
    finish();
    return 0;
}
