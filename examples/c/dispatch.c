/* Runs tasks by the clock, as their schedule says, and preempts them for real: a thread for each task, and for each processor a dispatcher
   that sleeps to the beginning of each row, moves the row's task to its CPU, raises it, and lowers the one before.

     dispatch [-u NANOSECONDS] [-w PERCENT] [-w TASK=PERCENT]... SET.toml FRAMES [SET.toml FRAMES]... > ran.measured
     python3 examples/python/measured.py ran.measured SET.trace [SET.trace]...

   A unit takes that many nanoseconds (1,000,000 where none are given). Each set is a mode: its schedule is repeated for so many frames, then
   the next one begins. A job here spins for that part of its work (90 percent where none is given); a program of its own has the task's code
   in its place. With -w for one task, more than 100 makes it overrun: it is lowered at the end of its last row in the period, goes on where
   its processor has nothing else to do or in its next row, and is counted.

   What ran is written as the tasks saw it by the clock, with the time at which each job was finished (docs/C.md); how late the rows began is
   told on standard error. Where SCHED_FIFO isn't allowed, tasks are moved and not raised, and that is told. C11, POSIX threads, Linux. */
#ifndef _GNU_SOURCE
#define _GNU_SOURCE
#endif
#include "furnacelime.h"

#include <errno.h>
#include <inttypes.h>
#include <pthread.h>
#include <sched.h>
#include <semaphore.h>
#include <stdatomic.h>
#include <stdio.h>
#include <string.h>
#include <sys/mman.h>
#include <time.h>
#include <unistd.h>

enum { USAGE = 2, READ_FAULT = 3, WRITE_FAULT = 4, NO_THREAD = 68 };
enum { TASKS = 256, MODES = 64, DISPATCHER_PRIORITY = 80, TASK_PRIORITY = 40 };

static const uint64_t SECOND = 1000000000, MOST_TIME = (uint64_t)1 << 62;
static const uint64_t GAP = 25000; /* nanoseconds by which a task must lag behind the clock to have been stopped */
static const uint32_t NONE = UINT32_MAX;

/* A time in which a task ran, as it saw it. */
struct ran {
    uint64_t start, end;
    uint32_t processor;
};

/* A task of a mode, with its thread. Times are in nanoseconds. */
struct task {
    char name[33];
    uint64_t work, period, offset;
    uint64_t spends;               /* of each job */
    uint64_t jobs, frame_jobs;     /* over all frames, and in one */
    uint64_t *finish;              /* when each job was finished; 0: it wasn't */
    struct ran *ran;
    size_t rows, ran_count, ran_room, ran_lost;
    struct run *run;
    pthread_t thread;
    sem_t go;                      /* one for each job that has begun */
    atomic_uint_fast64_t finished; /* how many jobs */
    pthread_mutex_t lock;          /* of what follows, and of the thread's CPU and priority */
    uint32_t holder;               /* the processor that raised it, or NONE */
    uint64_t overran;              /* how many jobs weren't finished at the end of their last row */
};

/* A row of a processor, within a frame. */
struct row {
    uint64_t start, end;
    struct task *task;    /* NULL: it is idle */
    uint64_t begins, due; /* of the frame's jobs of the task this one and those before begin by this row, are due at its end; 0: none */
};

struct rows {
    struct row *at;
    size_t count, room;
};

/* A task set whose schedule is repeated. */
struct mode {
    const char *file;
    uint64_t begin, length, frames;
    uint32_t processors, task_count;
    struct task tasks[TASKS];
    struct rows rows[FL_PROCESSORS];
};

/* A processor's dispatcher. */
struct dispatcher {
    struct run *run;
    pthread_t thread;
    uint32_t processor;
    uint64_t *late; /* of each row */
    size_t count, room;
};

struct run {
    uint64_t unit, end;
    struct timespec begun;
    struct mode *modes[MODES];
    uint32_t mode_count, processors;
    int cpus[FL_PROCESSORS];
    int raises;         /* whether SCHED_FIFO is allowed */
    atomic_int refused; /* the last errno of a thread that wasn't moved or raised */
    atomic_int over;
    struct dispatcher dispatchers[FL_PROCESSORS];
};

/* ---- Time. */

static uint64_t now(const struct run *run)
{
    struct timespec at;
    clock_gettime(CLOCK_MONOTONIC, &at);
    return (uint64_t)((int64_t)(at.tv_sec - run->begun.tv_sec) * (int64_t)SECOND + (at.tv_nsec - run->begun.tv_nsec));
}

static void sleep_until(const struct run *run, uint64_t time)
{
    const uint64_t at_most = (uint64_t)run->begun.tv_nsec + time;
    struct timespec at = run->begun;
    at.tv_sec += (time_t)(at_most / SECOND);
    at.tv_nsec = (long)(at_most % SECOND);
    while (clock_nanosleep(CLOCK_MONOTONIC, TIMER_ABSTIME, &at, NULL) == EINTR)
        continue;
}

/* How long this thread has run. */
static uint64_t used(void)
{
    struct timespec at;
    clock_gettime(CLOCK_THREAD_CPUTIME_ID, &at);
    return (uint64_t)at.tv_sec * SECOND + (uint64_t)at.tv_nsec;
}

/* ---- The tasks. */

static uint32_t processor_of(const struct run *run, int cpu)
{
    uint32_t p;
    for (p = 0; p < run->processors && run->cpus[p] != cpu; p++)
        continue;
    return p < run->processors ? p : NONE;
}

static void note(struct task *task, uint64_t start, uint64_t end, int cpu)
{
    if (start == end)
        return;
    if (task->ran_count == task->ran_room) {
        task->ran_lost++;
        return;
    }
    task->ran[task->ran_count].start = start;
    task->ran[task->ran_count].end = end;
    task->ran[task->ran_count++].processor = processor_of(task->run, cpu);
}

/* A job: spins until it has used its time, and notes when it ran: from one stop to the next, where its own clock stood still. Whether it has
   used it all before the run was over. */
static int work(struct task *task)
{
    const struct run *run = task->run;
    const uint64_t before = used();
    uint64_t start = now(run), last = start, last_used = before;
    int cpu = sched_getcpu();
    while (last_used - before < task->spends && !atomic_load(&run->over)) {
        uint64_t time, has_used;
        int on;
        do { /* all three on one CPU */
            on = sched_getcpu();
            time = now(run);
            has_used = used();
        } while (sched_getcpu() != on);
        if (on != cpu || time - last > has_used - last_used + GAP) {
            note(task, start, last, cpu);
            start = time;
            cpu = on;
        }
        last = time;
        last_used = has_used;
    }
    note(task, start, last, cpu);
    return last_used - before >= task->spends;
}

static void *do_jobs(void *argument)
{
    struct task *task = (struct task *)argument;
    uint64_t job;
    for (job = 0; job < task->jobs; job++) {
        while (sem_wait(&task->go) != 0)
            continue;
        if (!work(task))
            break;
        task->finish[job] = now(task->run);
        atomic_store(&task->finished, job + 1);
    }
    while (sem_wait(&task->go) != 0) /* until the run is over: a dispatcher may still lower it */
        continue;
    return NULL;
}

/* ---- The dispatchers. */

static int set_priority(pthread_t thread, int policy, int priority)
{
    struct sched_param parameters;
    memset(&parameters, 0, sizeof parameters);
    parameters.sched_priority = priority;
    return pthread_setschedparam(thread, policy, &parameters);
}

static int pin(pthread_t thread, int cpu)
{
    cpu_set_t set;
    CPU_ZERO(&set);
    CPU_SET((size_t)cpu, &set);
    return pthread_setaffinity_np(thread, sizeof set, &set);
}

/* Moves a task to a processor, and raises it there. */
static void raise_task(struct task *task, uint32_t processor)
{
    struct run *run = task->run;
    int error;
    pthread_mutex_lock(&task->lock);
    task->holder = processor;
    error = pin(task->thread, run->cpus[processor]);
    if (!error && run->raises)
        error = set_priority(task->thread, SCHED_FIFO, TASK_PRIORITY);
    if (error)
        atomic_store(&run->refused, error);
    pthread_mutex_unlock(&task->lock);
}

/* Lowers a task, unless another processor has raised it since. */
static void lower_task(struct task *task, uint32_t processor)
{
    struct run *run = task->run;
    pthread_mutex_lock(&task->lock);
    if (task->holder == processor) {
        const int error = run->raises ? set_priority(task->thread, SCHED_OTHER, 0) : 0;
        task->holder = NONE;
        if (error)
            atomic_store(&run->refused, error);
    }
    pthread_mutex_unlock(&task->lock);
}

/* At the end of a row: counts its task's job where it was due and isn't finished. */
static void look_at_due(const struct row *row, uint64_t frame)
{
    struct task *task = row->task;
    if (task && row->due && atomic_load(&task->finished) < frame * task->frame_jobs + row->due) {
        pthread_mutex_lock(&task->lock);
        task->overran++;
        pthread_mutex_unlock(&task->lock);
    }
}

/* A row ends, and the next one of its processor begins, or none. */
static void change_rows(struct dispatcher *own, const struct row *last, const struct row *next)
{
    struct task *old = last ? last->task : NULL, *task = next ? next->task : NULL;
    if (task && task != old)
        raise_task(task, own->processor);
    if (task && next->begins)
        sem_post(&task->go);
    if (old && old != task)
        lower_task(old, own->processor);
}

static void *dispatch(void *argument)
{
    struct dispatcher *own = (struct dispatcher *)argument;
    const struct run *run = own->run;
    const struct row *last = NULL;
    uint64_t last_frame = 0;
    uint32_t m;
    for (m = 0; m < run->mode_count; m++) {
        const struct mode *mode = run->modes[m];
        const struct rows *rows = &mode->rows[own->processor];
        uint64_t frame;
        size_t k;
        for (frame = 0; frame < mode->frames; frame++)
            for (k = 0; k < rows->count; k++) {
                const uint64_t at = mode->begin + frame * mode->length + rows->at[k].start;
                sleep_until(run, at);
                own->late[own->count++] = now(run) - at;
                if (last)
                    look_at_due(last, last_frame);
                change_rows(own, last, &rows->at[k]);
                last = &rows->at[k];
                last_frame = frame;
            }
    }
    sleep_until(run, run->end);
    if (last)
        look_at_due(last, last_frame);
    change_rows(own, last, NULL);
    return NULL;
}

/* ---- Reading the modes. */

static void *room_for(size_t count, size_t size)
{
    void *at = calloc(count ? count : 1, size);
    if (!at) {
        fputs("dispatch: there is no memory\n", stderr);
        exit(FL_NO_MEMORY);
    }
    return at;
}

static void add_row(struct rows *rows, struct row row)
{
    if (rows->count == rows->room) {
        const size_t room = rows->room ? 2 * rows->room : 256;
        struct row *at = (struct row *)realloc(rows->at, room * sizeof *at);
        if (!at) {
            fputs("dispatch: there is no memory\n", stderr);
            exit(FL_NO_MEMORY);
        }
        rows->at = at;
        rows->room = room;
    }
    rows->at[rows->count++] = row;
}

/* Adds a row, cut where a period of its task ends: so each piece is of one job. */
static void add_pieces(struct rows *rows, struct row row)
{
    const uint64_t end = row.end;
    while (row.task) {
        const uint64_t job = (row.start - row.task->offset) / row.task->period;
        const uint64_t stop = row.task->offset + (job + 1) * row.task->period;
        row.begins = row.due = job + 1; /* the first and the last piece of a job keep these */
        row.end = stop < end ? stop : end;
        if (row.task->frame_jobs < job + 1)
            row.task->frame_jobs = job + 1;
        row.task->rows++;
        add_row(rows, row);
        if (row.end == end)
            return;
        row.start = row.end;
    }
    add_row(rows, row);
}

/* A place for each job of each task. */
struct ends {
    uint64_t *first, *last;
};

/* Keeps `begins` in the first row of each job, and `due` in its last one, where it is due by the end of the frame. */
static void mark_rows(struct mode *mode)
{
    struct ends ends[TASKS];
    uint32_t t, p;
    size_t k, pass;
    for (t = 0; t < mode->task_count; t++) {
        ends[t].first = (uint64_t *)room_for(mode->tasks[t].frame_jobs, sizeof(uint64_t));
        ends[t].last = (uint64_t *)room_for(mode->tasks[t].frame_jobs, sizeof(uint64_t));
        memset(ends[t].first, 0xff, mode->tasks[t].frame_jobs * sizeof(uint64_t));
    }
    for (pass = 0; pass < 2; pass++)
        for (p = 0; p < mode->processors; p++)
            for (k = 0; k < mode->rows[p].count; k++) {
                struct row *row = &mode->rows[p].at[k];
                uint64_t *first, *last;
                if (!row->task)
                    continue;
                first = &ends[row->task - mode->tasks].first[row->due - 1];
                last = &ends[row->task - mode->tasks].last[row->due - 1];
                if (pass == 0) {
                    *first = row->start < *first ? row->start : *first;
                    *last = row->end > *last ? row->end : *last;
                } else {
                    const uint64_t stop = row->task->offset + row->due * row->task->period;
                    row->begins = row->start == *first ? row->begins : 0;
                    row->due = row->end == *last && stop <= mode->length ? row->due : 0;
                }
            }
    for (t = 0; t < mode->task_count; t++) {
        free(ends[t].first);
        free(ends[t].last);
    }
}

/* Whether all periods end where the frame does, so that another may follow. */
static int is_closed(const struct mode *mode)
{
    uint32_t t;
    for (t = 0; t < mode->task_count; t++)
        if (mode->tasks[t].offset > 0 || mode->length % mode->tasks[t].period != 0) {
            fprintf(stderr, "dispatch: %s can't be repeated or followed: a period of task %s is open at the end of its horizon\n", mode->file,
                    mode->tasks[t].name);
            return 0;
        }
    return 1;
}

static struct task *task_named(struct mode *mode, const char *name)
{
    uint32_t t;
    for (t = 0; t < mode->task_count; t++)
        if (strcmp(mode->tasks[t].name, name) == 0)
            return &mode->tasks[t];
    return NULL;
}

static void read_task(struct mode *mode, const char *line, uint64_t unit)
{
    struct task *task = &mode->tasks[mode->task_count++];
    uint64_t work = 0, period = 0, offset = 0;
    sscanf(line, "task %32s %" SCNu64 " %" SCNu64 " %" SCNu64, task->name, &work, &period, &offset);
    task->work = work * unit;
    task->period = period * unit;
    task->offset = offset * unit;
    task->holder = NONE;
}

/* Reads a mode from the trace text of its set. */
static void read_trace(struct mode *mode, const char *text, uint64_t unit)
{
    long double scale = 1;
    const char *line;
    for (line = text; *line; line = strchr(line, '\n') + 1) {
        uint64_t number = 0;
        char name[33], start[48], end[48];
        uint32_t p = 0;
        if (sscanf(line, "processors %" SCNu32, &p) == 1)
            mode->processors = p;
        else if (sscanf(line, "horizon %" SCNu64, &number) == 1)
            mode->length = number * unit;
        else if (sscanf(line, "scale %47s", start) == 1)
            scale = strtold(start, NULL);
        else if (strncmp(line, "task ", 5) == 0)
            read_task(mode, line, unit);
        else if (sscanf(line, "row %" SCNu32 " %47s %47s %32s", &p, start, end, name) == 4) {
            struct row row;
            memset(&row, 0, sizeof row);
            row.start = (uint64_t)(strtold(start, NULL) / scale * (long double)unit + 0.5L);
            row.end = (uint64_t)(strtold(end, NULL) / scale * (long double)unit + 0.5L);
            row.task = task_named(mode, name);
            add_pieces(&mode->rows[p], row);
        }
    }
    mark_rows(mode);
}

/* The whole file, and its length; NULL where it can't be read. */
static char *read_file(const char *name, size_t *length)
{
    const size_t most = 1048577; /* one more than a set may have, so that a longer one is refused */
    FILE *file = fopen(name, "rb");
    char *bytes = file ? (char *)malloc(most) : NULL;
    if (bytes)
        *length = fread(bytes, 1, most, file);
    if (bytes && ferror(file)) {
        free(bytes);
        bytes = NULL;
    }
    if (file)
        fclose(file);
    return bytes;
}

/* Adds the mode of a file to the run; a status. */
static int add_mode(struct run *run, const char *file, uint64_t frames)
{
    struct mode *mode = (struct mode *)room_for(1, sizeof *mode);
    struct fl_text text = {NULL, 0};
    size_t length = 0;
    char *set = read_file(file, &length);
    int status;
    mode->file = file;
    mode->frames = frames;
    mode->begin = run->end;
    run->modes[run->mode_count++] = mode;
    if (!set) {
        fprintf(stderr, "dispatch: %s can't be read\n", file);
        return READ_FAULT;
    }
    status = fl_trace(set, length, &text);
    free(set);
    if (status == FL_DONE)
        read_trace(mode, text.bytes, run->unit);
    else
        fprintf(stderr, "dispatch: %s: %s", file, text.bytes ? text.bytes : "no memory\n");
    fl_free(&text);
    if (status != FL_DONE)
        return status;
    if (frames > (MOST_TIME - run->end) / mode->length) {
        fputs("dispatch: the frames take more time than a clock of 2^62 nanoseconds has\n", stderr);
        return USAGE;
    }
    if (run->mode_count > 1 && mode->processors != run->processors) {
        fprintf(stderr, "dispatch: %s has another number of processors\n", file);
        return FL_BAD_INPUT;
    }
    run->processors = mode->processors;
    run->end += frames * mode->length;
    return frames > 1 && !is_closed(mode) ? FL_BAD_INPUT : FL_DONE;
}

/* ---- The run. */

/* The CPUs on which the program may run, one for each processor as far as there are enough. */
static void find_cpus(struct run *run)
{
    cpu_set_t set;
    uint32_t found = 0, p;
    int cpu;
    CPU_ZERO(&set);
    if (sched_getaffinity(0, sizeof set, &set) != 0)
        CPU_SET(0, &set);
    for (cpu = 0; cpu < CPU_SETSIZE && found < run->processors; cpu++)
        if (CPU_ISSET((size_t)cpu, &set))
            run->cpus[found++] = cpu;
    if (found < run->processors)
        fprintf(stderr, "dispatch: the sets have %" PRIu32 " processors, and there are %" PRIu32 " CPUs: some processors share one\n", run->processors,
                found);
    for (p = found; p < run->processors; p++)
        run->cpus[p] = run->cpus[p - found];
}

/* Looks whether threads may be raised, and keeps the memory from being paged. */
static void find_rights(struct run *run)
{
    const int error = set_priority(pthread_self(), SCHED_FIFO, DISPATCHER_PRIORITY);
    run->raises = error == 0;
    if (error)
        fprintf(stderr, "dispatch: SCHED_FIFO isn't allowed here (%s): tasks are moved and not raised, so they share their CPU as the system has it\n",
                strerror(error));
    else if (mlockall(MCL_CURRENT | MCL_FUTURE) != 0)
        fprintf(stderr, "dispatch: memory isn't locked (%s)\n", strerror(errno));
    set_priority(pthread_self(), SCHED_OTHER, 0);
}

/* Makes room for what a task notes, and starts its thread; an errno. */
static int start_task(struct run *run, struct mode *mode, struct task *task)
{
    pthread_mutexattr_t attributes;
    int error = pthread_mutexattr_init(&attributes);
    if (error)
        return error;
    task->run = run;
    task->jobs = mode->frames * task->frame_jobs;
    task->finish = (uint64_t *)room_for(task->jobs, sizeof *task->finish);
    task->ran_room = 8 * task->rows * mode->frames + 1024;
    task->ran = (struct ran *)room_for(task->ran_room, sizeof *task->ran);
    atomic_init(&task->finished, 0);
    error = pthread_mutexattr_setprotocol(&attributes, PTHREAD_PRIO_INHERIT);
    if (!error)
        error = pthread_mutex_init(&task->lock, &attributes);
    pthread_mutexattr_destroy(&attributes);
    if (!error && sem_init(&task->go, 0, 0) != 0)
        error = errno;
    return error ? error : pthread_create(&task->thread, NULL, do_jobs, task);
}

/* Makes room for how late rows are, and starts the dispatcher of a processor; an errno. */
static int start_dispatcher(struct run *run, uint32_t processor)
{
    struct dispatcher *own = &run->dispatchers[processor];
    int error;
    uint32_t m;
    own->run = run;
    own->processor = processor;
    for (m = 0; m < run->mode_count; m++)
        own->room += run->modes[m]->frames * run->modes[m]->rows[processor].count;
    own->late = (uint64_t *)room_for(own->room, sizeof *own->late);
    error = pthread_create(&own->thread, NULL, dispatch, own);
    if (!error)
        error = pin(own->thread, run->cpus[processor]);
    if (!error && run->raises)
        error = set_priority(own->thread, SCHED_FIFO, DISPATCHER_PRIORITY);
    return error;
}

/* Runs all modes. What can't be started ends the program, since threads that were started wait for their jobs. */
static void run_modes(struct run *run)
{
    uint32_t m, t, p;
    int error = 0;
    find_cpus(run);
    find_rights(run);
    for (m = 0; m < run->mode_count; m++)
        for (t = 0; t < run->modes[m]->task_count && !error; t++)
            error = start_task(run, run->modes[m], &run->modes[m]->tasks[t]);
    clock_gettime(CLOCK_MONOTONIC, &run->begun);
    run->begun.tv_nsec += (long)(SECOND / 10);
    run->begun.tv_sec += run->begun.tv_nsec / (long)SECOND;
    run->begun.tv_nsec %= (long)SECOND;
    for (p = 0; p < run->processors && !error; p++)
        error = start_dispatcher(run, p);
    if (error) {
        fprintf(stderr, "dispatch: a thread can't be started: %s\n", strerror(error));
        exit(NO_THREAD);
    }
    for (p = 0; p < run->processors; p++)
        pthread_join(run->dispatchers[p].thread, NULL);
    atomic_store(&run->over, 1);
    for (m = 0; m < run->mode_count; m++)
        for (t = 0; t < run->modes[m]->task_count; t++) {
            sem_post(&run->modes[m]->tasks[t].go);
            pthread_join(run->modes[m]->tasks[t].thread, NULL);
        }
}

/* ---- What is told. */

/* Of a task the times in which it ran, and its jobs: when each was released, due, and finished. */
static void write_task(const struct mode *mode, uint32_t m, const struct task *task, size_t *rows, uint64_t *jobs)
{
    uint64_t job;
    size_t k;
    for (k = 0; k < task->ran_count; k++, ++*rows)
        printf("row %" PRIu32 " %" PRIu32 " %" PRIu64 " %" PRIu64 " %s\n", m, task->ran[k].processor, task->ran[k].start, task->ran[k].end, task->name);
    for (job = 0; job < task->jobs; job++) {
        const uint64_t frame = job / task->frame_jobs, release = task->offset + job % task->frame_jobs * task->period;
        if (release + task->period > mode->length)
            continue; /* it is open at the end */
        printf("job %" PRIu32 " %s %" PRIu64 " %" PRIu64, m, task->name, mode->begin + frame * mode->length + release,
               mode->begin + frame * mode->length + release + task->period);
        task->finish[job] ? (void)printf(" %" PRIu64 "\n", task->finish[job]) : (void)puts(" -");
        ++*jobs;
    }
}

static void write_measured(const struct run *run)
{
    uint64_t jobs = 0;
    size_t rows = 0;
    uint32_t m, t;
    printf("run-measured 1\nprocessors %" PRIu32 "\nunit %" PRIu64 "\nmodes %" PRIu32 "\n", run->processors, run->unit, run->mode_count);
    for (m = 0; m < run->mode_count; m++)
        printf("mode %" PRIu32 " %" PRIu64 " %" PRIu64 " %" PRIu64 "\n", m, run->modes[m]->begin, run->modes[m]->length, run->modes[m]->frames);
    for (m = 0; m < run->mode_count; m++)
        for (t = 0; t < run->modes[m]->task_count; t++)
            write_task(run->modes[m], m, &run->modes[m]->tasks[t], &rows, &jobs);
    printf("rows %zu\njobs %" PRIu64 "\n", rows, jobs);
}

static int by_size(const void *a, const void *b)
{
    const uint64_t x = *(const uint64_t *)a, y = *(const uint64_t *)b;
    return (x > y) - (x < y);
}

static void tell_lateness(struct dispatcher *own)
{
    uint64_t sum = 0;
    size_t k;
    for (k = 0; k < own->count; k++)
        sum += own->late[k];
    qsort(own->late, own->count, sizeof *own->late, by_size);
    fprintf(stderr, "dispatch: processor %" PRIu32 ": %zu rows, late by %.1f us on average, %.1f us at 99 of 100, %.1f us at most\n", own->processor,
            own->count, (double)sum / 1000 / (double)own->count, (double)own->late[own->count * 99 / 100] / 1000,
            (double)own->late[own->count - 1] / 1000);
}

static void tell_tasks(const struct mode *mode)
{
    uint32_t t;
    for (t = 0; t < mode->task_count; t++) {
        const struct task *task = &mode->tasks[t];
        if (task->overran > 0)
            fprintf(stderr, "dispatch: %s: task %s overran %" PRIu64 " of %" PRIu64 " jobs\n", mode->file, task->name, task->overran, task->jobs);
        if (task->ran_lost > 0)
            fprintf(stderr, "dispatch: %s: of task %s %zu times in which it ran aren't kept\n", mode->file, task->name, task->ran_lost);
    }
}

static void free_run(struct run *run)
{
    uint32_t m, t, p;
    for (m = 0; m < run->mode_count; m++) {
        for (t = 0; t < run->modes[m]->task_count; t++) {
            free(run->modes[m]->tasks[t].finish);
            free(run->modes[m]->tasks[t].ran);
        }
        for (p = 0; p < FL_PROCESSORS; p++)
            free(run->modes[m]->rows[p].at);
        free(run->modes[m]);
    }
    for (p = 0; p < FL_PROCESSORS; p++)
        free(run->dispatchers[p].late);
}

/* ---- The words. */

/* Whether a word is a number of digits from `least` to `most`, and which. */
static int read_number(const char *word, uint64_t least, uint64_t most, uint64_t *number)
{
    const size_t digits = strspn(word, "0123456789");
    *number = strtoull(word, NULL, 10);
    return digits > 0 && digits < 19 && word[digits] == 0 && *number >= least && *number <= most;
}

static int usage(void)
{
    fputs("dispatch [-u NANOSECONDS] [-w PERCENT] [-w TASK=PERCENT]... SET.toml FRAMES [SET.toml FRAMES]...: a unit of 1 to 1,000,000,000\n"
          "nanoseconds, up to 1,000 percent of the work, up to 1,000,000 frames of each of up to 64 sets\n",
          stderr);
    return USAGE;
}

/* What each job spins for, by the words of -w: of those that speak of a task the last one counts. */
static int share_out(struct run *run, char **shares, int count)
{
    uint32_t m, t;
    int i;
    for (m = 0; m < run->mode_count; m++)
        for (t = 0; t < run->modes[m]->task_count; t++)
            run->modes[m]->tasks[t].spends = run->modes[m]->tasks[t].work / 100 * 90;
    for (i = 0; i < count; i++) {
        const char *sign = strchr(shares[i], '=');
        const size_t length = sign ? (size_t)(sign - shares[i]) : 0;
        uint64_t percent;
        int found = 0;
        if (!read_number(sign ? sign + 1 : shares[i], 0, 1000, &percent))
            return usage();
        for (m = 0; m < run->mode_count; m++)
            for (t = 0; t < run->modes[m]->task_count; t++) {
                struct task *task = &run->modes[m]->tasks[t];
                if (sign && (strlen(task->name) != length || strncmp(task->name, shares[i], length) != 0))
                    continue;
                task->spends = task->work / 100 * percent;
                found = 1;
            }
        if (!found) {
            fprintf(stderr, "dispatch: no set has the task of -w %s\n", shares[i]);
            return USAGE;
        }
    }
    return FL_DONE;
}

int main(int count, char **words)
{
    static struct run run;
    static char *shares[TASKS];
    int share_count = 0, option, status = FL_DONE, at;
    uint32_t m, p;
    run.unit = 1000000;
    while ((option = getopt(count, words, "u:w:")) != -1) {
        if (option == 'u' && !read_number(optarg, 1, 1000000000, &run.unit))
            return usage();
        if (option == 'w' && share_count < TASKS)
            shares[share_count++] = optarg;
        else if (option != 'u')
            return usage();
    }
    if (optind == count || (count - optind) % 2 != 0 || count - optind > 2 * MODES)
        return usage();
    for (at = optind; at < count && status == FL_DONE; at += 2) {
        uint64_t frames;
        if (!read_number(words[at + 1], 1, 1000000, &frames))
            status = usage();
        else if (run.mode_count > 0 && !is_closed(run.modes[run.mode_count - 1]))
            status = FL_BAD_INPUT;
        else
            status = add_mode(&run, words[at], frames);
    }
    if (status == FL_DONE)
        status = share_out(&run, shares, share_count);
    if (status == FL_DONE) {
        run_modes(&run);
        write_measured(&run);
        for (p = 0; p < run.processors; p++)
            tell_lateness(&run.dispatchers[p]);
        for (m = 0; m < run.mode_count; m++)
            tell_tasks(run.modes[m]);
        if (atomic_load(&run.refused))
            fprintf(stderr, "dispatch: some thread wasn't moved, raised or lowered: %s\n", strerror(atomic_load(&run.refused)));
    }
    free_run(&run);
    if (fflush(stdout) != 0 || ferror(stdout)) {
        fputs("dispatch: the text can't be written\n", stderr);
        return WRITE_FAULT;
    }
    return status;
}
