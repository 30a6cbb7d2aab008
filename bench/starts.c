/* Runs a command whose input is an empty pipe, and prints the seconds until it first waits for that input, its greatest
   memory in KB, and its status, as measure does: starts IN OUT COMMAND WORD.. IN is left alone. The pipe is closed once the
   command waits, so that its input is empty. Where it never waits, its status is told as 128. */
#include <fcntl.h>
#include <stdio.h>
#include <stdlib.h>
#include <string.h>
#include <sys/resource.h>
#include <sys/wait.h>
#include <time.h>
#include <unistd.h>

/* Whether the process stands in a read of its standard input: number 0 of the calls, with 0 as its first word. */
static int waits(int calls)
{
    char line[64];
    ssize_t size = pread(calls, line, sizeof line - 1, 0);
    if (size <= 0)
        return 0;
    line[size] = 0;
    return strncmp(line, "0 0x0 ", 6) == 0;
}

int main(int argc, char **argv)
{
    if (argc < 4)
        return 2;
    int ends[2];
    if (pipe(ends) < 0)
        return 2;
    struct timespec from, to, pause = {0, 20000};
    clock_gettime(CLOCK_MONOTONIC, &from);
    pid_t child = fork();
    if (child == 0) {
        int out = open(argv[2], O_WRONLY | O_CREAT | O_TRUNC, 0666);
        if (out < 0)
            _exit(127);
        dup2(ends[0], 0);
        dup2(out, 1);
        close(ends[0]);
        close(ends[1]);
        execvp(argv[3], argv + 3);
        _exit(127);
    }
    char name[64];
    snprintf(name, sizeof name, "/proc/%d/syscall", (int)child);
    int calls = open(name, O_RDONLY), status, waited = 0, ended = 0;
    struct rusage usage;
    if (child < 0 || calls < 0)
        return 2;
    while (!(waited = waits(calls)) && !(ended = wait4(child, &status, WNOHANG, &usage) == child))
        nanosleep(&pause, NULL);
    clock_gettime(CLOCK_MONOTONIC, &to);
    close(ends[1]);
    if (!ended && wait4(child, &status, 0, &usage) < 0)
        return 2;
    double seconds = (double)(to.tv_sec - from.tv_sec) + (double)(to.tv_nsec - from.tv_nsec) / 1e9;
    printf("%.6f %ld %d\n", seconds, usage.ru_maxrss, waited && WIFEXITED(status) ? WEXITSTATUS(status) : 128);
    return 0;
}
