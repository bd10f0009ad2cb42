#include "piped.h"

#include <fcntl.h>
#include <sched.h>
#include <signal.h>
#include <stdio.h>
#include <string.h>
#include <sys/ioctl.h>
#include <sys/wait.h>
#include <time.h>
#include <unistd.h>

int start_piped(struct piped *program, char **words)
{
    int down[2], up[2];
    program->id = -1;
    if (pipe2(down, O_CLOEXEC) != 0 || pipe2(up, O_CLOEXEC) != 0 || (program->id = fork()) < 0)
        return 0;
    if (program->id == 0) {
        dup2(down[0], 0);
        dup2(up[1], 1);
        signal(SIGPIPE, SIG_DFL);
        execvp(words[0], words);
        perror(words[0]);
        _exit(127);
    }
    close(down[0]);
    close(up[1]);
    program->to = down[1];
    program->from = up[0];
    return 1;
}

/* The state's letter follows the command's name, which is in brackets. */
static char state_of(const struct piped *program)
{
    char path[64], text[512], *end;
    snprintf(path, sizeof path, "/proc/%ld/stat", (long)program->id);
    int file = open(path, O_RDONLY | O_CLOEXEC);
    ssize_t got = file < 0 ? -1 : read(file, text, sizeof text - 1);
    if (file >= 0)
        close(file);
    text[got < 0 ? 0 : got] = '\0';
    end = strrchr(text, ')');
    return end && end[1] == ' ' ? end[2] : '?';
}

/* It waits for more when it sleeps after its pipe was empty; the other way round it could still be at what it read last. */
enum after_sending wait_until_read(const struct piped *program)
{
    time_t began = time(NULL);
    for (;;) {
        int unread;
        int all_read = ioctl(program->to, FIONREAD, &unread) == 0 && unread == 0;
        char state = state_of(program);
        if (state == 'Z')
            return HAS_ENDED;
        if (state == 'S' && all_read)
            return WAITS_FOR_MORE;
        if (time(NULL) > began + MOST_SECONDS)
            return DOES_NOT_READ;
        sched_yield();
    }
}

int ends_well(const struct piped *program)
{
    time_t began = time(NULL);
    pid_t ended;
    int status;
    while ((ended = waitpid(program->id, &status, WNOHANG)) == 0) {
        if (time(NULL) > began + MOST_SECONDS)
            return 0;
        sched_yield();
    }
    return ended == program->id && status == 0;
}
