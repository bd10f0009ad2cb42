/*
 * Plays every listing of a directory through a program, one process a listing, and keeps what it prints.
 *
 *   play LISTINGS ANSWERS WORKERS SHARE SEED PROGRAM [WORD..]
 *
 * WORKERS listings are played at a time. One listing in SHARE (0: none) is not given as a file but written to a pipe in
 * pieces of random sizes, each once the program has read the piece before, so that a program's reads end anywhere. A program
 * may end before it has read all: then no more is written, and that is no failure.
 */
#include <dirent.h>
#include <fcntl.h>
#include <poll.h>
#include <sched.h>
#include <signal.h>
#include <stdint.h>
#include <stdio.h>
#include <stdlib.h>
#include <string.h>
#include <sys/ioctl.h>
#include <sys/resource.h>
#include <sys/stat.h>
#include <sys/wait.h>
#include <time.h>
#include <unistd.h>

#define MOST_SECONDS 20

static const char *listings, *answers;
static char **program;
static unsigned long share, seed;

static void fail(const char *what)
{
    perror(what);
    exit(2);
}

/* ---- pieces */

static uint64_t state;

static uint64_t draw(void)
{
    state += UINT64_C(0x9e3779b97f4a7c15);
    uint64_t z = state;
    z = (z ^ (z >> 30)) * UINT64_C(0xbf58476d1ce4e5b9);
    z = (z ^ (z >> 27)) * UINT64_C(0x94d049bb133111eb);
    return z ^ (z >> 31);
}

/* Waits until the program has read all that is in the pipe; 0 when it reads no more. */
static int drained(int pipe)
{
    struct pollfd end = { .fd = pipe, .events = 0 };
    time_t start = time(NULL);
    int waiting;
    while (ioctl(pipe, FIONREAD, &waiting) == 0 && waiting != 0) {
        if (poll(&end, 1, 0) != 0 || time(NULL) > start + MOST_SECONDS)
            return 0;
        sched_yield();
    }
    return 1;
}

/* A listing's pieces have up to 1, 16, 256 or 4,096 bytes. */
static void feed(int pipe, const char *text, size_t length)
{
    size_t most = length <= 4096 ? (size_t)1 << 4 * (draw() % 3) : (size_t)1 << 4 * (2 + draw() % 2);
    for (size_t at = 0; at < length;) {
        size_t piece = 1 + draw() % most;
        if (piece > length - at)
            piece = length - at;
        if (write(pipe, text + at, piece) != (ssize_t)piece || !drained(pipe))
            return;
        at += piece;
    }
}

static char *read_file(int file, size_t *length)
{
    struct stat known;
    if (fstat(file, &known) != 0)
        fail("fstat");
    char *text = malloc((size_t)known.st_size + 1);
    if (!text || read(file, text, (size_t)known.st_size) != known.st_size)
        fail("read");
    *length = (size_t)known.st_size;
    return text;
}

/* ---- one listing */

static void become_program(int input, int output)
{
    struct rlimit limit = { MOST_SECONDS, MOST_SECONDS };
    if (dup2(input, 0) < 0 || dup2(output, 1) < 0 || setrlimit(RLIMIT_CPU, &limit) != 0)
        _exit(126);
    signal(SIGPIPE, SIG_DFL);
    execv(program[0], program);
    perror(program[0]);
    _exit(127);
}

static int open_in(const char *directory, const char *name, int flags)
{
    char path[4096];
    snprintf(path, sizeof path, "%s/%s", directory, name);
    int file = open(path, flags | O_CLOEXEC, 0666);
    if (file < 0)
        fail(path);
    return file;
}

static void play_one(const char *name, int in_pieces)
{
    int input = open_in(listings, name, O_RDONLY), output = open_in(answers, name, O_WRONLY | O_CREAT | O_TRUNC), status;
    int ends[2] = { -1, -1 };
    if (in_pieces && pipe2(ends, O_CLOEXEC) != 0)
        fail("pipe");
    pid_t child = fork();
    if (child < 0)
        fail("fork");
    if (child == 0)
        become_program(in_pieces ? ends[0] : input, output);
    close(output);
    if (in_pieces) {
        size_t length;
        char *text = read_file(input, &length);
        close(ends[0]);
        feed(ends[1], text, length);
        close(ends[1]);
        free(text);
    }
    close(input);
    if (waitpid(child, &status, 0) != child)
        fail("waitpid");
    if (WIFSIGNALED(status))
        fprintf(stderr, "%s: ended by signal %d\n", name, WTERMSIG(status));
}

/* ---- all listings */

static int visible(const struct dirent *entry) { return entry->d_name[0] != '.'; }

static void work(struct dirent **names, int count, int worker, int workers)
{
    for (int i = worker; i < count; i += workers) {
        state = seed * UINT64_C(1000003) + (uint64_t)i;
        play_one(names[i]->d_name, share != 0 && draw() % share == 0);
    }
    exit(0);
}

int main(int argc, char **argv)
{
    struct dirent **names;
    int status, failed = 0;
    if (argc < 7) {
        fprintf(stderr, "play: LISTINGS ANSWERS WORKERS SHARE SEED PROGRAM [WORD..]\n");
        return 2;
    }
    listings = argv[1], answers = argv[2];
    int workers = atoi(argv[3]), count = scandir(listings, &names, visible, alphasort);
    share = strtoul(argv[4], NULL, 10), seed = strtoul(argv[5], NULL, 10);
    program = argv + 6;
    if (count < 0 || workers < 1)
        fail(listings);
    signal(SIGPIPE, SIG_IGN);
    for (int worker = 0; worker < workers; worker++)
        if (fork() == 0)
            work(names, count, worker, workers);
    while (wait(&status) > 0)
        failed |= status != 0;
    return failed ? 2 : 0;
}
