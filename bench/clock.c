/* Times short calls by the clock, ahead of what else runs on the machine:
 *
 *     clock PROCESSORS RUNS INPUT PROGRAM [WORD ..]
 *
 * prints the least and the median of so many runs, in milliseconds, each from before the process is made until it has ended. */
#define _GNU_SOURCE
#include <fcntl.h>
#include <sched.h>
#include <spawn.h>
#include <stdio.h>
#include <stdlib.h>
#include <sys/wait.h>
#include <time.h>
#include <unistd.h>

#define MOST_RUNS 1000

extern char **environ;

static int by_time(const void *left, const void *right) {
    double a = *(const double *)left, b = *(const double *)right;
    return a < b ? -1 : a > b;
}

static double now(void) {
    struct timespec at;
    clock_gettime(CLOCK_MONOTONIC, &at);
    return at.tv_sec * 1e3 + at.tv_nsec / 1e6;
}

static double run(const char *input, char **command) {
    posix_spawn_file_actions_t files;
    posix_spawn_file_actions_init(&files);
    posix_spawn_file_actions_addopen(&files, 0, input, O_RDONLY, 0);
    posix_spawn_file_actions_addopen(&files, 1, "/dev/null", O_WRONLY, 0);
    double start = now();
    pid_t child;
    if (posix_spawn(&child, command[0], &files, NULL, command, environ) != 0) {
        perror(command[0]);
        exit(1);
    }
    waitpid(child, NULL, 0);
    double took = now() - start;
    posix_spawn_file_actions_destroy(&files);
    return took;
}

int main(int count, char **words) {
    if (count < 5) {
        fprintf(stderr, "clock PROCESSORS RUNS INPUT PROGRAM [WORD ..]\n");
        return 2;
    }
    int processors = atoi(words[1]), runs = atoi(words[2]);
    if (runs < 1 || runs > MOST_RUNS) return 2;
    cpu_set_t set;
    CPU_ZERO(&set);
    for (int p = 0; p < processors; p++) CPU_SET(p, &set);
    sched_setaffinity(0, sizeof set, &set);
    struct sched_param ahead = {.sched_priority = 20};
    if (sched_setscheduler(0, SCHED_FIFO, &ahead) != 0) perror("not ahead of what else runs");
    static double times[MOST_RUNS];
    for (int r = 0; r < runs; r++) {
        times[r] = run(words[3], words + 4);
        usleep(20000);
    }
    qsort(times, runs, sizeof *times, by_time);
    printf("least %.2f ms, median %.2f ms\n", times[0], times[runs / 2]);
    return 0;
}
