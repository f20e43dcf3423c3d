/* Starts programs by turns and prints the median time of a start of each, in milliseconds, and over the first one's:
 *
 *     starts COUNT INPUT PROGRAM ARGUMENTS .. [-- PROGRAM ARGUMENTS ..] ..
 *
 * Each program reads INPUT as its standard input, and what it writes is thrown away. One that cannot be started, or that ends with another
 * status than 0, ends the run. */
#define _POSIX_C_SOURCE 200809L
#include <fcntl.h>
#include <spawn.h>
#include <stdio.h>
#include <stdlib.h>
#include <string.h>
#include <sys/wait.h>
#include <time.h>

extern char **environ;

enum { PROGRAMS_MOST = 8, STARTS_MOST = 10000 };

static double taken[PROGRAMS_MOST][STARTS_MOST];

static int by_size(const void *a, const void *b) {
    double x = *(const double *)a, y = *(const double *)b;
    return (x > y) - (x < y);
}

static void fail(const char *what) {
    fprintf(stderr, "starts: FAILED: %s\n", what);
    exit(1);
}

static double start(char **arguments, const char *input) {
    posix_spawn_file_actions_t streams;
    struct timespec from, to;
    pid_t child;
    int status;
    if (posix_spawn_file_actions_init(&streams) != 0 ||
        posix_spawn_file_actions_addopen(&streams, 0, input, O_RDONLY, 0) != 0 ||
        posix_spawn_file_actions_addopen(&streams, 1, "/dev/null", O_WRONLY, 0) != 0)
        fail("the streams of a program are not prepared");
    clock_gettime(CLOCK_MONOTONIC, &from);
    if (posix_spawn(&child, arguments[0], &streams, NULL, arguments, environ) != 0)
        fail(arguments[0]);
    if (waitpid(child, &status, 0) != child || status != 0)
        fail(arguments[0]);
    clock_gettime(CLOCK_MONOTONIC, &to);
    posix_spawn_file_actions_destroy(&streams);
    return (double)(to.tv_sec - from.tv_sec) * 1e3 + (double)(to.tv_nsec - from.tv_nsec) / 1e6;
}

int main(int count, char **words) {
    char **programs[PROGRAMS_MOST];
    int starts = count > 3 ? atoi(words[1]) : 0, number = 1;
    if (starts < 1 || starts > STARTS_MOST)
        fail("it takes a count, an input and programs");
    programs[0] = words + 3;
    for (int i = 3; i < count; i++)
        if (strcmp(words[i], "--") == 0) {
            if (number == PROGRAMS_MOST || i + 1 == count)
                fail("too many programs, or none after --");
            words[i] = NULL;
            programs[number++] = words + i + 1;
        }
    for (int turn = 0; turn < starts; turn++)
        for (int i = 0; i < number; i++)
            taken[i][turn] = start(programs[i], words[2]);
    for (int i = 0; i < number; i++)
        qsort(taken[i], (size_t)starts, sizeof(double), by_size);
    for (int i = 0; i < number; i++)
        printf("%-40s%8.3f ms%8.2f\n", programs[i][0], taken[i][starts / 2], taken[i][starts / 2] / taken[0][starts / 2]);
    return 0;
}
