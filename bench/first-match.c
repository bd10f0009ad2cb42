/*
 * Drives a program through two pipes with a listing whose N line names a slice: nothing may come back before the slice's match.
 *
 *   first-match clocks|once|more MATCH LISTING PROGRAM [WORD..]
 *
 * MATCH is the clock in which the slice matches. Then M and the clock must come, and the program must end with status 0, though
 * its input stays open. Where it is the count of clocks nothing matches: then the input is closed, and E and the count must
 * come.
 *
 *   clocks  sends a clock at a time, once the program has read the one before, has printed nothing and waits for more; of the
 *           clock of the match the last newline by itself
 *   once    sends all up to that newline in one write
 *   more    sends the whole listing in one write
 */
#include "piped.h"

#include <limits.h>
#include <poll.h>
#include <signal.h>
#include <stdio.h>
#include <stdlib.h>
#include <string.h>
#include <unistd.h>

#define MOST_BYTES 1000000

static struct piped program;
static char listing[MOST_BYTES];
static size_t length, sent;
static unsigned long slices;

static void fail(const char *what)
{
    fprintf(stderr, "first-match: after %zu bytes: %s\n", sent, what);
    if (program.id > 0)
        kill(program.id, SIGKILL);
    exit(1);
}

static void read_listing(const char *path)
{
    FILE *file = fopen(path, "r");
    length = file ? fread(listing, 1, sizeof listing - 1, file) : 0;
    if (length == sizeof listing - 1 || sscanf(listing, "N %lu", &slices) != 1 || !slices)
        fail("a listing that can not be read, or is too long");
    fclose(file);
}

/* The bytes up to and with the last newline of a clock; 0 where the listing has no such clock. */
static size_t end_of_clock(unsigned long clock)
{
    unsigned long newlines = 1 + slices + slices * (clock + 1);
    for (size_t at = 0; at < length; at++)
        if (listing[at] == '\n' && --newlines == 0)
            return at + 1;
    return 0;
}

static void send_until(size_t end)
{
    if (write(program.to, listing + sent, end - sent) != (ssize_t)(end - sent))
        fail("the program takes no more");
    sent = end;
}

/* One write that a program can take by one read. */
static void send_at_once(size_t end)
{
    if (end > PIPE_BUF)
        fail("the listing is too long for one write");
    send_until(end);
}

static void expect_silence(void)
{
    struct pollfd ready = { .fd = program.from, .events = POLLIN };
    enum after_sending now = wait_until_read(&program);
    if (now == DOES_NOT_READ)
        fail("the program does not read");
    if (now == HAS_ENDED || poll(&ready, 1, 0) != 0)
        fail("the program printed something, or ended");
}

static void send_clocks(unsigned long match)
{
    for (unsigned long clock = 0; clock < match; clock++) {
        send_until(end_of_clock(clock));
        expect_silence();
    }
    if (end_of_clock(match)) {
        send_until(end_of_clock(match) - 1);
        expect_silence();
        send_until(end_of_clock(match));
    }
}

/* Nothing but this line comes, and then the program's end. */
static void expect_last(char letter, unsigned long clocks)
{
    char expected[64], got[4096];
    size_t expected_length = (size_t)snprintf(expected, sizeof expected, "%c\t%lu\n", letter, clocks), got_length = 0;
    struct pollfd ready = { .fd = program.from, .events = POLLIN };
    ssize_t more;
    do {
        if (poll(&ready, 1, MOST_SECONDS * 1000) != 1)
            fail(got_length ? "the program does not end" : "no answer in time");
        more = read(program.from, got + got_length, sizeof got - got_length);
        if (more < 0)
            fail("its output can not be read");
        got_length += (size_t)more;
    } while (more > 0);
    if (got_length != expected_length || memcmp(got, expected, got_length) != 0)
        fail("the program prints something else");
    if (!ends_well(&program))
        fail("the program failed");
}

int main(int argc, char **argv)
{
    if (argc < 5)
        fail("clocks|once|more MATCH LISTING PROGRAM [WORD..]");
    unsigned long match = strtoul(argv[2], NULL, 10);
    read_listing(argv[3]);
    if (match && !end_of_clock(match - 1))
        fail("the listing has fewer clocks");
    signal(SIGPIPE, SIG_IGN);
    if (!start_piped(&program, argv + 4))
        fail("no pipe or no process");
    if (strcmp(argv[1], "clocks") == 0)
        send_clocks(match);
    else
        send_at_once(strcmp(argv[1], "once") == 0 ? end_of_clock(match) : length);
    if (end_of_clock(match)) {
        expect_last('M', match);
    } else {
        expect_silence();
        close(program.to);
        expect_last('E', match);
    }
    return 0;
}
