/* Executes a task set by the library, with a thread for each processor, and writes what ran as a trace text:

     executive SET.toml [NANOSECONDS [PRIORITY]] > ran.trace
     ./furnacelime check < ran.trace

   A unit takes that many nanoseconds, 10,000,000 where none are given; with 0 no time passes. How late the rows began is told on standard
   error. With a priority, from 1 to 99, the threads run under SCHED_FIFO, each pinned to a CPU of its own as far as there are enough: that
   wants the right to do so (root, CAP_SYS_NICE, or `ulimit -r`).

   Here a job is called on its processor's thread, so it must end by its row's end of itself; dispatch.c preempts tasks. */
#ifndef _GNU_SOURCE
#define _GNU_SOURCE
#endif
#include "furnacelime.h"
#include "furnacelime_exec.h"

#include <errno.h>
#include <inttypes.h>
#include <stdio.h>
#include <string.h>
#include <time.h>

enum { USAGE = 2, READ_FAULT = 3, WRITE_FAULT = 4 };

static const int64_t SECOND = 1000000000;

/* A row that began, and how late, in nanoseconds. */
struct ran {
    struct fl_row row;
    int64_t late;
};

/* What ran on one processor. */
struct list {
    struct ran *rows;
    size_t count, room;
};

/* An execution in time. */
struct run {
    struct list lists[FL_PROCESSORS];
    struct fl_exec_about about;
    struct timespec begun;
    uint64_t unit; /* in nanoseconds */
};

/* The clock's time of a tick. */
static struct timespec clock_of(const struct run *run, struct fl_ticks tick)
{
    const uint64_t time = (uint64_t)run->begun.tv_nsec + fl_time_of(tick, run->about.scale, run->unit);
    struct timespec at = run->begun;
    at.tv_sec += (time_t)(time / (uint64_t)SECOND);
    at.tv_nsec = (long)(time % (uint64_t)SECOND);
    return at;
}

static int64_t between(const struct timespec *from, const struct timespec *to)
{
    return (int64_t)(to->tv_sec - from->tv_sec) * SECOND + (to->tv_nsec - from->tv_nsec);
}

static int64_t since(const struct timespec *at)
{
    struct timespec now;
    clock_gettime(CLOCK_MONOTONIC, &now);
    return between(at, &now);
}

/* All threads are there: time begins a twentieth of a second later. */
static void begin(const struct fl_exec_about *about, void *user)
{
    struct run *run = (struct run *)user;
    run->about = *about;
    clock_gettime(CLOCK_MONOTONIC, &run->begun);
    if (run->unit > 0) {
        run->begun.tv_nsec += (long)(SECOND / 20);
        run->begun.tv_sec += run->begun.tv_nsec / (long)SECOND;
        run->begun.tv_nsec %= (long)SECOND;
    }
}

/* The list's next place; NULL where memory is refused. */
static struct ran *next_of(struct list *list)
{
    if (list->count == list->room) {
        const size_t room = list->room ? 2 * list->room : 4096;
        struct ran *rows = (struct ran *)realloc(list->rows, room * sizeof *rows);
        if (!rows)
            return NULL;
        list->rows = rows;
        list->room = room;
    }
    return &list->rows[list->count++];
}

/* Sleeps until the row begins, and notes it: on the processor's own thread, so its list needs no lock. */
static int gate(uint32_t processor, const struct fl_row *row, void *user)
{
    struct run *run = (struct run *)user;
    struct ran *ran = next_of(&run->lists[processor]);
    if (!ran)
        return FL_NO_MEMORY;
    ran->row = *row;
    ran->late = 0;
    if (run->unit > 0) {
        const struct timespec at = clock_of(run, row->start);
        while (clock_nanosleep(CLOCK_MONOTONIC, TIMER_ABSTIME, &at, NULL) == EINTR)
            continue;
        ran->late = since(&at);
    }
    return 0;
}

/* The task's work. Here it spins until half of the row's time is over; a program of its own has the task's code here. */
static int job(uint32_t task, const struct fl_row *row, void *user)
{
    const struct run *run = (const struct run *)user;
    const struct timespec from = clock_of(run, row->start), to = clock_of(run, row->end);
    (void)task;
    while (run->unit > 0 && since(&from) < between(&from, &to) / 2)
        continue;
    return 0;
}

static void print_ticks(struct fl_ticks ticks)
{
    uint64_t parts[4] = {ticks.high >> 32, ticks.high & UINT32_MAX, ticks.low >> 32, ticks.low & UINT32_MAX};
    char digits[40];
    int at = 40, i;
    do {
        uint64_t rest = 0;
        for (i = 0; i < 4; i++) {
            const uint64_t part = rest << 32 | parts[i];
            parts[i] = part / 10;
            rest = part % 10;
        }
        digits[--at] = (char)('0' + (int)rest);
    } while (parts[0] | parts[1] | parts[2] | parts[3]);
    fwrite(digits + at, 1, (size_t)(40 - at), stdout);
}

static int begins_with(const char *line, const char *word) { return strncmp(line, word, strlen(word)) == 0; }

/* Writes a line, and answers where the next one begins. */
static const char *copy_line(const char *line)
{
    const char *next = strchr(line, '\n') + 1;
    fwrite(line, 1, (size_t)(next - line), stdout);
    return next;
}

/* Writes a processor's rows; those that follow each other under one task are one line. Answers the number of lines. */
static size_t write_rows(const struct run *run, uint32_t processor, uint64_t posted, const char *const *names)
{
    const struct ran *rows = run->lists[processor].rows;
    size_t lines = 0;
    uint64_t k = 0;
    while (k < posted) {
        const uint64_t first = k;
        while (k < posted && rows[k].row.task == rows[first].row.task)
            k++;
        printf("row %" PRIu32 " ", processor);
        print_ticks(rows[first].row.start);
        putchar(' ');
        print_ticks(rows[k - 1].row.end);
        if (rows[first].row.task == FL_NO_TASK)
            puts(" -");
        else
            printf(" %.*s\n", (int)strcspn(names[rows[first].row.task], " "), names[rows[first].row.task]);
        lines++;
    }
    return lines;
}

/* The head of the text is that which the library writes of the set, and so are the lines that say when each period is done, in a text that
   has such; the rows and totals are those that ran. `check` judges whether they fit. */
static void write_trace(const struct run *run, const struct fl_text *text, const struct fl_ended *ended)
{
    const char *names[FL_TASKS] = {NULL}, *line = text->bytes;
    uint32_t task = 0, p;
    size_t rows = 0;
    while (!begins_with(line, "row ")) {
        if (begins_with(line, "task ") && task < FL_TASKS)
            names[task++] = line + strlen("task ");
        line = copy_line(line);
    }
    for (p = 0; p < ended->about.processors; p++)
        rows += write_rows(run, p, ended->posted[p], names);
    for (task = 0; task < ended->about.tasks; task++) {
        printf("total %.*s ", (int)strcspn(names[task], " "), names[task]);
        print_ticks(ended->ticks[task]);
        putchar('\n');
    }
    while (*line)
        line = begins_with(line, "met ") ? copy_line(line) : strchr(line, '\n') + 1;
    printf("rows %zu\n", rows);
}

static int by_size(const void *a, const void *b)
{
    const int64_t x = *(const int64_t *)a, y = *(const int64_t *)b;
    return (x > y) - (x < y);
}

/* Tells how late the rows began. */
static void tell_lateness(const struct run *run, const struct fl_ended *ended)
{
    size_t count = 0, n = 0, k;
    int64_t *late;
    uint32_t p;
    for (p = 0; p < ended->about.processors; p++)
        count += run->lists[p].count;
    late = (int64_t *)malloc((count + 1) * sizeof *late);
    if (!late || count == 0) {
        free(late);
        return;
    }
    for (p = 0; p < ended->about.processors; p++)
        for (k = 0; k < run->lists[p].count; k++)
            late[n++] = run->lists[p].rows[k].late;
    qsort(late, count, sizeof *late, by_size);
    fprintf(stderr, "executive: %zu rows; late by %.1f us in the middle, %.1f us at 99 of 100, %.1f us at most; %" PRIu64 " waits\n", count,
            (double)late[count / 2] / 1000, (double)late[count * 99 / 100] / 1000, (double)late[count - 1] / 1000, ended->waits);
    free(late);
}

/* The CPUs on which the program may run, one for each processor as far as there are enough. */
static void find_cpus(int cpus[FL_PROCESSORS])
{
    cpu_set_t set;
    int cpu, found = 0, p;
    CPU_ZERO(&set);
    if (sched_getaffinity(0, sizeof set, &set) != 0)
        CPU_SET(0, &set);
    for (cpu = 0; cpu < CPU_SETSIZE && found < FL_PROCESSORS; cpu++)
        if (CPU_ISSET((size_t)cpu, &set))
            cpus[found++] = cpu;
    for (p = found; p < FL_PROCESSORS; p++)
        cpus[p] = cpus[p - found];
}

/* Executes the set, of which the library wrote this text, and writes what ran. */
static int execute(const void *set, size_t length, const struct fl_text *text, uint64_t unit, int priority)
{
    static struct run run;
    static struct fl_ended ended;
    struct fl_crew crew = FL_NO_CREW;
    int cpus[FL_PROCESSORS], status;
    uint32_t p;
    run.unit = unit;
    crew.gate = gate;
    crew.job = job;
    crew.begin = begin;
    crew.user = &run;
    crew.priority = priority;
    if (priority) {
        find_cpus(cpus);
        crew.cpus = cpus;
    }
    status = fl_execute(set, length, &crew, &ended);
    if (status == FL_DONE) {
        write_trace(&run, text, &ended);
        tell_lateness(&run, &ended);
    } else if (status == FL_HALTED)
        fprintf(stderr, "executive: processor %" PRIu32 " failed with %" PRIu32 "\n", ended.end.processor, ended.end.why);
    else if (status == FL_NO_THREAD)
        fprintf(stderr, "executive: no thread%s: %s\n", priority ? " under SCHED_FIFO" : "", strerror(ended.error));
    else
        fprintf(stderr, "executive: the set isn't executed, with status %d\n", status);
    for (p = 0; p < FL_PROCESSORS; p++)
        free(run.lists[p].rows);
    return status;
}

/* The whole file, and its length; NULL where it can't be read. */
static char *read_file(const char *name, size_t *length)
{
    const size_t most = 1048577; /* one more than a set may have, so that a longer one is refused */
    FILE *file = fopen(name, "rb");
    char *bytes = file ? (char *)malloc(most) : NULL;
    if (bytes)
        *length = fread(bytes, 1, most, file);
    if (bytes && ferror(file)) {
        free(bytes);
        bytes = NULL;
    }
    if (file)
        fclose(file);
    return bytes;
}

/* Whether a word is a number of digits from `least` to `most`, and which. */
static int read_number(const char *word, uint64_t least, uint64_t most, uint64_t *number)
{
    const size_t digits = strspn(word, "0123456789");
    *number = strtoull(word, NULL, 10);
    return digits > 0 && digits < 19 && word[digits] == 0 && *number >= least && *number <= most;
}

int main(int count, char **words)
{
    uint64_t unit = 10000000, priority = 0;
    struct fl_text text = {NULL, 0};
    size_t length = 0;
    char *set;
    int status;
    if (count < 2 || count > 4 || (count > 2 && !read_number(words[2], 0, 1000000000, &unit)) ||
        (count > 3 && !read_number(words[3], 1, 99, &priority))) {
        fputs("executive SET.toml [NANOSECONDS [PRIORITY]]: up to 1,000,000,000 nanoseconds a unit, a priority from 1 to 99\n", stderr);
        return USAGE;
    }
    set = read_file(words[1], &length);
    if (!set) {
        fprintf(stderr, "executive: %s can't be read\n", words[1]);
        return READ_FAULT;
    }
    status = fl_trace(set, length, &text);
    if (status == FL_DONE)
        status = execute(set, length, &text, unit, (int)priority);
    else if (text.bytes)
        fputs(text.bytes, stderr);
    else
        fprintf(stderr, "executive: status %d\n", status);
    fl_free(&text);
    free(set);
    if (fflush(stdout) != 0 || ferror(stdout)) {
        fputs("executive: the text can't be written\n", stderr);
        return WRITE_FAULT;
    }
    return status;
}
