/*
 * measure RESULT PROGRAM ARGUMENT..: runs a program and writes `SECONDS KB PROCESSOR` to the file RESULT: the time that passed, the peak
 * of its resident memory, and the processor time that it took, its own and the system's, in seconds.
 *
 * In C, because the memory of what starts a program counts as the program's own until it is replaced by it: started by Python, a
 * program that needs 500 KB is measured at 10 MB.
 */
#define _DEFAULT_SOURCE
#include <stdio.h>
#include <stdlib.h>
#include <sys/resource.h>
#include <sys/wait.h>
#include <time.h>
#include <unistd.h>

enum { NOT_RUN = 2 };

static double now(void)
{
    struct timespec time;
    clock_gettime(CLOCK_MONOTONIC, &time);
    return (double)time.tv_sec + (double)time.tv_nsec / 1e9;
}

static double in_seconds(struct timeval time)
{
    return (double)time.tv_sec + (double)time.tv_usec / 1e6;
}

int main(int count, char **arguments)
{
    if (count < 3) {
        fprintf(stderr, "usage: measure RESULT PROGRAM ARGUMENT..\n");
        return NOT_RUN;
    }
    double since = now();
    pid_t child = fork();
    if (child == 0) {
        execvp(arguments[2], arguments + 2);
        perror(arguments[2]);
        _exit(NOT_RUN);
    }
    int status = 0;
    struct rusage used;
    if (child < 0 || wait4(child, &status, 0, &used) != child) {
        perror("measure");
        return NOT_RUN;
    }
    double seconds = now() - since;
    double processor = in_seconds(used.ru_utime) + in_seconds(used.ru_stime);
    FILE *result = fopen(arguments[1], "w");
    if (result == NULL || fprintf(result, "%.3f %ld %.6f\n", seconds, used.ru_maxrss, processor) < 0 || fclose(result) != 0) {
        perror(arguments[1]);
        return NOT_RUN;
    }
    return WIFEXITED(status) ? WEXITSTATUS(status) : NOT_RUN;
}
