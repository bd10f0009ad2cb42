/*
 * Answers calls, one a line, from standard input to standard output, over the
 * plain model. The text is the one that second/README.md describes. A line
 * that is no call stops the program, since then nothing can be compared.
 */
#include "column.h"

#include <errno.h>
#include <inttypes.h>
#include <stdio.h>
#include <stdlib.h>
#include <string.h>

#define FIELD_MOST 24

/* A lent stretch: its numbers as words, signed ones in two's complement. */
struct stretch {
    uint64_t *words;
    size_t length;
};

static unsigned long line_number = 1;

static void unreadable(void)
{
    fflush(stdout);
    fprintf(stderr, "calls: line %lu is no call\n", line_number);
    exit(1);
}

/* Reads the next field of the line; 0 at the end of the input. */
static int read_field(char *field)
{
    size_t length = 0;
    int c;

    while ((c = getchar()) == ' ')
        ;
    while (c != ' ' && c != '\n' && c != EOF) {
        if (length == FIELD_MOST)
            unreadable();
        field[length++] = (char)c;
        c = getchar();
    }
    field[length] = '\0';
    if (c == '\n')
        ungetc(c, stdin);
    return length != 0;
}

static void end_line(void)
{
    if (getchar() != '\n')
        unreadable();
    line_number++;
    putchar('\n');
}

static uint64_t read_word(void)
{
    char field[FIELD_MOST + 1], *end;
    uint64_t word;

    if (!read_field(field))
        unreadable();
    errno = 0;
    word = field[0] == '-' ? (uint64_t)strtoimax(field, &end, 10) : strtoumax(field, &end, 10);
    if (*end || errno)
        unreadable();
    return word;
}

static struct stretch read_stretch(void)
{
    struct stretch st;
    size_t i;

    st.length = (size_t)read_word();
    /* One more than asked, so that an empty stretch has an address too. */
    st.words = malloc((st.length + 1) * sizeof *st.words);
    if (!st.words)
        unreadable();
    for (i = 0; i < st.length; i++)
        st.words[i] = read_word();
    return st;
}

static void print_word(uint64_t word)
{
    printf("%" PRIu64, word);
}

static void print_stretch(struct stretch st)
{
    size_t i;

    printf(" %zu", st.length);
    for (i = 0; i < st.length; i++)
        printf(" %" PRIu64, st.words[i]);
    free(st.words);
}

static void print_signed(struct stretch st)
{
    size_t i;

    printf(" %zu", st.length);
    for (i = 0; i < st.length; i++)
        printf(" %" PRId64, (int64_t)st.words[i]);
    free(st.words);
}

static void call_adder(void)
{
    uint64_t v[6];
    int i;

    for (i = 0; i < 6; i++)
        v[i] = read_word();
    print_word(column_adder(v[0], v[1], v[2], v[3], v[4], v[5]));
}

static void call_clock(void)
{
    uint64_t count = read_word();
    struct stretch at = read_stretch(), rg = read_stretch();
    struct stretch po = read_stretch(), out = read_stretch();

    print_word(column_clock(count, at.words, at.length, rg.words, rg.length,
                            po.words, po.length, out.words, out.length));
    print_stretch(at);
    print_stretch(rg);
    print_stretch(po);
    print_stretch(out);
}

static void call_why(void)
{
    uint64_t count = read_word(), slice;
    struct stretch at = read_stretch(), rg = read_stretch(), po = read_stretch(), why;

    slice = read_word();
    why = read_stretch();
    print_word(column_why(count, at.words, at.length, rg.words, rg.length,
                          po.words, po.length, slice, why.words, why.length));
    print_stretch(at);
    print_stretch(rg);
    print_stretch(po);
    print_stretch(why);
}

static void call_clear(void)
{
    uint64_t count = read_word();
    struct stretch rg = read_stretch();

    print_word(column_clear(count, rg.words, rg.length));
    print_stretch(rg);
}

static int8_t *narrow8(struct stretch st)
{
    int8_t *narrow = malloc(st.length + 1);
    size_t i;

    if (!narrow)
        unreadable();
    for (i = 0; i < st.length; i++)
        narrow[i] = (int8_t)(int64_t)st.words[i];
    return narrow;
}

static int32_t *narrow32(struct stretch st)
{
    int32_t *narrow = malloc((st.length + 1) * sizeof *narrow);
    size_t i;

    if (!narrow)
        unreadable();
    for (i = 0; i < st.length; i++)
        narrow[i] = (int32_t)(int64_t)st.words[i];
    return narrow;
}

static void call_packed(int with_list)
{
    uint64_t terms = read_word(), rows = read_word(), returned;
    struct stretch a = read_stretch(), d = read_stretch(), b = read_stretch();
    struct stretch answers = read_stretch(), list = { NULL, 0 };
    int8_t *a8 = narrow8(a), *d8 = narrow8(d), *b8 = narrow8(b);
    int32_t *answers32 = narrow32(answers);
    size_t i;

    if (with_list) {
        list = read_stretch();
        returned = column_packed(terms, rows, a8, a.length, d8, d.length, b8, b.length,
                                 answers32, answers.length, list.words, list.length);
    } else {
        returned = column_plain(terms, rows, a8, a.length, d8, d.length, b8, b.length,
                                answers32, answers.length);
    }
    for (i = 0; i < answers.length; i++)
        answers.words[i] = (uint64_t)(int64_t)answers32[i];
    print_word(returned);
    print_signed(a);
    print_signed(d);
    print_signed(b);
    print_signed(answers);
    if (with_list)
        print_stretch(list);
    free(a8);
    free(d8);
    free(b8);
    free(answers32);
}

int main(void)
{
    char name[FIELD_MOST + 1];

    while (read_field(name)) {
        if (!strcmp(name, "adder"))
            call_adder();
        else if (!strcmp(name, "clock"))
            call_clock();
        else if (!strcmp(name, "why"))
            call_why();
        else if (!strcmp(name, "clear"))
            call_clear();
        else if (!strcmp(name, "packed"))
            call_packed(1);
        else if (!strcmp(name, "plain"))
            call_packed(0);
        else
            unreadable();
        end_line();
    }
    if (fflush(stdout) == EOF || ferror(stdout) || ferror(stdin))
        return 1;
    return 0;
}
