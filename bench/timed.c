/*
 * Runs a command and adds one line to a file: seconds elapsed, seconds of processor time, peak resident memory in kB.
 *
 *   timed FILE COMMAND [WORD..]
 *
 * Its exit status is the command's.
 */
#include <stdio.h>
#include <sys/resource.h>
#include <sys/time.h>
#include <sys/wait.h>
#include <time.h>
#include <unistd.h>

static double now(void)
{
    struct timespec t;
    clock_gettime(CLOCK_MONOTONIC, &t);
    return (double)t.tv_sec + (double)t.tv_nsec * 1e-9;
}

static double seconds(struct timeval t) { return (double)t.tv_sec + (double)t.tv_usec * 1e-6; }

int main(int argc, char **argv)
{
    struct rusage used;
    int status;
    if (argc < 3) {
        fprintf(stderr, "timed: FILE COMMAND [WORD..]\n");
        return 2;
    }
    double start = now();
    pid_t child = fork();
    if (child == 0) {
        execvp(argv[2], argv + 2);
        perror(argv[2]);
        _exit(127);
    }
    if (child < 0 || waitpid(child, &status, 0) != child || getrusage(RUSAGE_CHILDREN, &used) != 0) {
        perror("timed");
        return 2;
    }
    double elapsed = now() - start;
    FILE *file = fopen(argv[1], "a");
    if (!file || fprintf(file, "%.6f %.6f %ld\n", elapsed, seconds(used.ru_utime) + seconds(used.ru_stime), used.ru_maxrss) < 0 || fclose(file) == EOF) {
        perror(argv[1]);
        return 2;
    }
    return WIFEXITED(status) ? WEXITSTATUS(status) : 128 + WTERMSIG(status);
}
