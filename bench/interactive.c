/*
 * Drives a program that plays listings through two pipes, a clock at a time.
 *
 *   interactive LISTING PROGRAM [WORD..]
 *
 * Sends the N line, the A lines and one clock's P lines, and sends the next clock once a line for each slice has come back.
 * Copies to standard output all that the program prints. Fails when a clock is not answered in time, when more comes back
 * than was asked for, or when the program ends otherwise than with status 0.
 */
#include "piped.h"

#include <poll.h>
#include <signal.h>
#include <stdio.h>
#include <stdlib.h>
#include <string.h>
#include <unistd.h>

static struct piped program;
static unsigned long clocks;

static void fail(const char *what)
{
    fprintf(stderr, "interactive: clock %lu: %s\n", clocks, what);
    if (program.id > 0)
        kill(program.id, SIGKILL);
    exit(1);
}

static void send_line(const char *line)
{
    size_t length = strlen(line);
    if (write(program.to, line, length) != (ssize_t)length)
        fail("the program takes no more");
}

/* Copies what comes and returns its lines; -1 at the end. */
static long receive(void)
{
    char text[4096];
    struct pollfd ready = { .fd = program.from, .events = POLLIN };
    long lines = 0;
    if (poll(&ready, 1, MOST_SECONDS * 1000) != 1)
        fail("no answer in time");
    ssize_t got = read(program.from, text, sizeof text);
    if (got < 0)
        fail("its output can not be read");
    for (ssize_t i = 0; i < got; i++)
        lines += text[i] == '\n';
    fwrite(text, 1, (size_t)got, stdout);
    return got ? lines : -1;
}

static void expect_lines(unsigned long count)
{
    unsigned long lines = 0;
    while (lines < count) {
        long more = receive();
        if (more < 0)
            fail("the program ended early");
        lines += (unsigned long)more;
    }
    if (lines > count)
        fail("more came back than was asked for");
}

int main(int argc, char **argv)
{
    char line[1024];
    unsigned long slices = 0, sent = 0;
    FILE *listing = argc > 2 ? fopen(argv[1], "r") : NULL;
    if (!listing || !fgets(line, sizeof line, listing) || sscanf(line, "N %lu", &slices) != 1 || !slices)
        fail("LISTING PROGRAM [WORD..]");
    signal(SIGPIPE, SIG_IGN);
    if (!start_piped(&program, argv + 2))
        fail("no pipe or no process");
    send_line(line);
    while (fgets(line, sizeof line, listing)) {
        send_line(line);
        if (line[0] == 'P' && ++sent % slices == 0) {
            expect_lines(slices);
            clocks++;
        }
    }
    close(program.to);
    while (receive() >= 0)
        ;
    if (!ends_well(&program))
        fail("the program failed");
    return fflush(stdout) == EOF;
}
