/* A program with a pipe to its standard input and a pipe from its standard output. */
#ifndef PIPED_H
#define PIPED_H

#include <sys/types.h>

/* So long a program may take for what it has to do next. */
#define MOST_SECONDS 20

struct piped {
    pid_t id;
    int to, from;
};

/* Starts it; 0 when there is no pipe or no process. */
int start_piped(struct piped *program, char **words);

enum after_sending { WAITS_FOR_MORE, HAS_ENDED, DOES_NOT_READ };

/* Waits until it has read all that was sent and waits for more, which the state of its process tells, or has ended. */
enum after_sending wait_until_read(const struct piped *program);

/* Waits for its end; 0 when it does not come in time, or not with status 0. */
int ends_well(const struct piped *program);

#endif
