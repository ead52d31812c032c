/* Times the book and the executive of the library for C over a set, with jobs that add:

     cc -std=c99 -O2 -Iinclude -pthread bench/executive.c crates/furnacelime_c/out/libfurnacelime_c.a KIT/c/liblibc_c.a -o executive_bench
     ./executive_bench SET.toml one [WINDOW]       takes and posts by one thread, for all processors in turn
     ./executive_bench SET.toml crew [WINDOW [STEPS]]     fl_execute; each job counts up to so many
     ./executive_bench SET.toml gated [WINDOW [STEPS]]    the same with gates that answer 0, so with a thread for each processor
     ./executive_bench SET.toml open [WINDOW]      fl_open and fl_exec_open, in turns

   It says the seconds by the clock and of the processors, without opening the book in the first case, and the nanoseconds of a row; of opening the
   least microseconds. */
#ifndef _GNU_SOURCE
#define _GNU_SOURCE
#endif
#include "furnacelime.h"
#include "furnacelime_exec.h"

#include <inttypes.h>
#include <stdio.h>
#include <time.h>

static double seconds(clockid_t clock)
{
    struct timespec at;
    clock_gettime(clock, &at);
    return (double)at.tv_sec + 1e-9 * (double)at.tv_nsec;
}

static uint32_t steps;

static int job(uint32_t task, const struct fl_row *row, void *user)
{
    uint64_t *used = (uint64_t *)user;
    volatile uint32_t step;
    used[task] += row->end.low - row->start.low;
    for (step = 0; step < steps; step++)
        continue;
    return 0;
}

static int gate(uint32_t processor, const struct fl_row *row, void *user)
{
    (void)processor;
    (void)row;
    (void)user;
    return 0;
}

static void tell(const char *what, double clock, double processors, uint64_t rows, uint64_t waits)
{
    clock = seconds(CLOCK_MONOTONIC) - clock;
    processors = seconds(CLOCK_PROCESS_CPUTIME_ID) - processors;
    printf("%s: %.3f s by the clock, %.3f s of processors, %" PRIu64 " rows of %.0f ns of processors, %" PRIu64 " waits\n", what, clock, processors,
           rows, 1e9 * processors / (double)(rows ? rows : 1), waits);
}

/* Takes and posts all rows by one thread. */
static int run_alone(const char *set, size_t length, uint32_t window, uint64_t *used)
{
    enum { HOME, OUT, OVER } at[FL_PROCESSORS] = {HOME};
    struct fl_exec exec = FL_NO_EXEC;
    struct fl_exec_about about;
    struct fl_row row;
    uint64_t rows = 0, waits = 0;
    uint32_t left, p;
    int status = fl_exec_open(&exec, set, length, window, &about);
    const double clock = seconds(CLOCK_MONOTONIC), processors = seconds(CLOCK_PROCESS_CPUTIME_ID);
    if (status != FL_DONE)
        return status;
    for (left = about.processors; left > 0;)
        for (p = 0; p < about.processors; p++) {
            if (at[p] == OVER)
                continue;
            status = at[p] == OUT ? fl_post_and_take(&exec, p, &row) : fl_take(&exec, p, &row);
            at[p] = status == FL_DONE ? OUT : status == FL_OVER ? OVER : HOME;
            rows += status == FL_DONE;
            waits += status == FL_WAIT;
            left -= status == FL_OVER;
            if (status == FL_DONE && row.task != FL_NO_TASK)
                job(row.task, &row, used);
        }
    tell("one", clock, processors, rows, waits);
    fl_exec_close(&exec);
    return FL_DONE;
}

static int run_crew(const char *set, size_t length, uint32_t window, int gated, uint64_t *used)
{
    static struct fl_ended ended;
    struct fl_crew crew = FL_NO_CREW;
    const double clock = seconds(CLOCK_MONOTONIC), processors = seconds(CLOCK_PROCESS_CPUTIME_ID);
    uint64_t rows = 0;
    uint32_t p;
    int status;
    crew.gate = gated ? gate : NULL;
    crew.job = job;
    crew.user = used;
    crew.window = window;
    status = fl_execute(set, length, &crew, &ended);
    if (status != FL_DONE)
        return status;
    for (p = 0; p < ended.about.processors; p++)
        rows += ended.posted[p];
    tell(gated ? "gated" : "crew", clock, processors, rows, ended.waits);
    return FL_DONE;
}

/* Opens and closes a plan and a book in turns, and says the least time of each. */
static int time_opening(const char *set, size_t length, uint32_t window)
{
    double plan_least = 1e9, book_least = 1e9;
    int turn, status = FL_DONE;
    for (turn = 0; turn < 400 && status == FL_DONE; turn++) {
        struct fl_plan plan = FL_NO_PLAN;
        struct fl_exec exec = FL_NO_EXEC;
        struct fl_about about;
        struct fl_exec_about exec_about;
        double began = seconds(CLOCK_MONOTONIC), took;
        status = fl_open(&plan, set, length, &about);
        took = seconds(CLOCK_MONOTONIC) - began;
        plan_least = took < plan_least ? took : plan_least;
        if (status != FL_DONE)
            break;
        fl_close(&plan);
        began = seconds(CLOCK_MONOTONIC);
        status = fl_exec_open(&exec, set, length, window, &exec_about);
        took = seconds(CLOCK_MONOTONIC) - began;
        book_least = took < book_least ? took : book_least;
        if (status == FL_DONE)
            fl_exec_close(&exec);
    }
    if (status == FL_DONE)
        printf("open: fl_open %.1f us, fl_exec_open %.1f us (%+.1f)\n", 1e6 * plan_least, 1e6 * book_least, 1e6 * (book_least - plan_least));
    return status;
}

int main(int count, char **words)
{
    static char set[1048577];
    static uint64_t used[FL_TASKS];
    FILE *file = count > 2 ? fopen(words[1], "rb") : NULL;
    const uint32_t window = count > 3 ? (uint32_t)atoi(words[3]) : FL_WINDOW;
    size_t length;
    int status;
    if (!file) {
        fputs("executive_bench SET.toml one|crew|gated|open [WINDOW [STEPS]]\n", stderr);
        return 2;
    }
    length = fread(set, 1, sizeof set, file);
    fclose(file);
    steps = count > 4 ? (uint32_t)atoi(words[4]) : 0;
    if (words[2][0] == 'c' || words[2][0] == 'g')
        status = run_crew(set, length, window, words[2][0] == 'g', used);
    else
        status = words[2][1] == 'n' ? run_alone(set, length, window, used) : time_opening(set, length, window);
    if (status != FL_DONE)
        fprintf(stderr, "executive_bench: status %d\n", status);
    return status;
}
