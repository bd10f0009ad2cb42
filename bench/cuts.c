/*
 * Plays a listing cut into pieces, at many places, and compares what is printed.
 *
 *   cuts all|SEED LISTING EXPECTED PROGRAM [WORD..]
 *
 * With "all" there is a run for each place, the two ends too, which cuts the listing in two. With a seed the places are every
 * byte of its first and last two lines, a few of each kind between them, and some drawn from all others there; a run then cuts
 * at up to MOST_CUTS of them, far apart, since it is the start of a program that costs. A piece is written to the program's
 * pipe once the program has read all before it and waits for more, which the state of its process tells, or has ended. Both
 * files have to be shorter than a pipe holds. Fails at the first run that prints otherwise; else prints how many places were
 * cut, how many there are, and the runs.
 */
#include "piped.h"

#include <ctype.h>
#include <errno.h>
#include <fcntl.h>
#include <signal.h>
#include <stdint.h>
#include <stdio.h>
#include <stdlib.h>
#include <string.h>
#include <unistd.h>

#define MOST_BYTES 32768
#define MOST_CUTS 4
#define MOST_IN_LINE 512
#define WHOLE_LINES 2
#define OF_EACH_KIND 3
#define OF_ANY_KIND 12

struct text {
    char bytes[MOST_BYTES];
    size_t length;
};

static struct text listing, expected, printed;
static size_t places[MOST_BYTES + 1], place_count, runs;
static struct piped program;

static void fail(const char *what)
{
    perror(what);
    if (program.id > 0)
        kill(program.id, SIGKILL);
    exit(2);
}

static void read_text(int file, struct text *text)
{
    ssize_t got;
    text->length = 0;
    while ((got = read(file, text->bytes + text->length, sizeof text->bytes - text->length)) > 0)
        text->length += (size_t)got;
    if (got < 0 || text->length == sizeof text->bytes)
        fail("a text that can not be read, or is too long");
    close(file);
}

static void read_file(const char *path, struct text *text)
{
    int file = open(path, O_RDONLY);
    if (file < 0)
        fail(path);
    read_text(file, text);
}

/* ---- the places */

/* A place is the count of bytes before it. The kinds are those at which a reader of pieces could go wrong. */
enum kind { IN_NUMBER, BEFORE_TAB, AFTER_TAB, BEFORE_NEWLINE, AFTER_NEWLINE, AT_LINE_LIMIT, ANY_KIND };

static char chosen[MOST_BYTES + 1];
static uint64_t random_state;

static uint64_t draw(void)
{
    random_state += UINT64_C(0x9e3779b97f4a7c15);
    uint64_t z = random_state;
    z = (z ^ (z >> 30)) * UINT64_C(0xbf58476d1ce4e5b9);
    z = (z ^ (z >> 27)) * UINT64_C(0x94d049bb133111eb);
    return z ^ (z >> 31);
}

static size_t bytes_of_line_before(size_t place)
{
    size_t start = place;
    while (start > 0 && listing.bytes[start - 1] != '\n')
        start--;
    return place - start;
}

/* Neither end of the listing is asked about. */
static int is_of_kind(size_t place, enum kind kind)
{
    unsigned char before = (unsigned char)listing.bytes[place - 1], after = (unsigned char)listing.bytes[place];
    size_t in_line = bytes_of_line_before(place);
    switch (kind) {
    case IN_NUMBER: return isdigit(before) && isdigit(after);
    case BEFORE_TAB: return after == '\t';
    case AFTER_TAB: return before == '\t';
    case BEFORE_NEWLINE: return after == '\n';
    case AFTER_NEWLINE: return before == '\n';
    case AT_LINE_LIMIT: return in_line + 1 >= MOST_IN_LINE && in_line <= MOST_IN_LINE + 1;
    default: return 1;
    }
}

/* Chooses so many more places of a kind between two others, or all where they are fewer. */
static void choose_some(enum kind kind, unsigned many, size_t after, size_t before)
{
    static size_t found[MOST_BYTES];
    size_t count = 0;
    for (size_t place = after + 1; place < before; place++)
        if (!chosen[place] && is_of_kind(place, kind))
            found[count++] = place;
    for (; many > 0 && count > 0; many--) {
        size_t drawn = (size_t)(draw() % count);
        chosen[found[drawn]] = 1;
        found[drawn] = found[--count];
    }
}

static size_t end_of_first_lines(void)
{
    size_t at = 0;
    for (unsigned newlines = 0; at < listing.length && newlines < WHOLE_LINES; at++)
        newlines += listing.bytes[at] == '\n';
    return at;
}

/* The newline at the listing's end, if it has one, ends the last line and begins none. */
static size_t start_of_last_lines(void)
{
    size_t at = listing.length;
    unsigned newlines = 0;
    while (at > 0) {
        newlines += at < listing.length && listing.bytes[at - 1] == '\n';
        if (newlines == WHOLE_LINES)
            break;
        at--;
    }
    return at;
}

static void choose_places(const char *seed)
{
    int all = strcmp(seed, "all") == 0;
    size_t first = end_of_first_lines(), last = start_of_last_lines();
    for (size_t place = 0; place <= listing.length; place++)
        chosen[place] = all || place <= first || place >= last;
    random_state = strtoul(seed, NULL, 10);
    for (enum kind kind = IN_NUMBER; kind < ANY_KIND; kind++)
        choose_some(kind, OF_EACH_KIND, first, last);
    choose_some(ANY_KIND, OF_ANY_KIND, first, last);
    for (size_t place = 0; place <= listing.length; place++)
        if (chosen[place])
            places[place_count++] = place;
    runs = all ? place_count : (place_count + MOST_CUTS - 1) / MOST_CUTS;
}

/* ---- one run */

/* A program that has refused the listing, or has found its match, takes no more of it. */
static void send_part(size_t from, size_t to)
{
    if (to > from && write(program.to, listing.bytes + from, to - from) < 0 && errno != EPIPE)
        fail("the program's pipe");
}

/* A run takes one place in so many as there are runs: its places are far apart. */
static int plays_alike(size_t run, char **words)
{
    size_t sent = 0;
    if (!start_piped(&program, words))
        fail("no pipe or no process");
    for (size_t i = run; i < place_count; i += runs) {
        send_part(sent, places[i]);
        if (wait_until_read(&program) == DOES_NOT_READ)
            fail("the program does not read");
        sent = places[i];
    }
    send_part(sent, listing.length);
    close(program.to);
    read_text(program.from, &printed);
    if (!ends_well(&program))
        return 0;
    return printed.length == expected.length && memcmp(printed.bytes, expected.bytes, printed.length) == 0;
}

int main(int argc, char **argv)
{
    if (argc < 5) {
        fprintf(stderr, "cuts: all|SEED LISTING EXPECTED PROGRAM [WORD..]\n");
        return 2;
    }
    read_file(argv[2], &listing);
    read_file(argv[3], &expected);
    choose_places(argv[1]);
    signal(SIGPIPE, SIG_IGN);
    for (size_t run = 0; run < runs; run++)
        if (!plays_alike(run, argv + 4)) {
            fprintf(stderr, "cuts: %s: it prints otherwise when cut after these bytes:", argv[2]);
            for (size_t i = run; i < place_count; i += runs)
                fprintf(stderr, " %zu", places[i]);
            fprintf(stderr, "\n");
            return 1;
        }
    printf("%zu %zu %zu\n", place_count, listing.length + 1, runs);
    return 0;
}
