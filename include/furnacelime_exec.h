/* An executive over the book of furnacelime.h: POSIX threads, one for each processor, take the processors' rows, have the program's gate and
 * the task's job run them, and post them.
 *
 *     static int gate(uint32_t processor, const struct fl_row *row, void *user) { ... wait until row->start ...; return 0; }
 *     static int job(uint32_t task, const struct fl_row *row, void *user) { ... the task's work ...; return 0; }
 *
 *     struct fl_crew crew = FL_NO_CREW;
 *     struct fl_ended ended;
 *     crew.gate = gate;
 *     crew.job = job;
 *     status = fl_execute(set, length, &crew, &ended);
 *
 * For each row the gate of its processor is called and then, where the row has a task, the task's job; both without the lock. So
 *  - the gate is called for one processor by one thread, in the order of the processor's rows, once for each row;
 *  - a task's job is called by one thread at a time, in the order of the task's rows, on whichever processors these are, and what an
 *    earlier call wrote is seen by a later one;
 *  - gates of different processors and jobs of different tasks are called at once;
 *  - no processor is `window` rounds or more ahead of the one that is furthest behind.
 * Where the crew has a gate, a priority or CPUs, a processor's rows are run by its own thread. Where it has none of them, nothing ties them to it, and a
 * job is called by whichever thread is there: by one for all tasks while jobs take up to a microsecond, which costs less than to share the rows
 * out; else by one for each CPU; and while hardly a row is posted for a fifth of a millisecond, by twice as many each time. So jobs may wait
 * for one another there too, and meet within a millisecond or two.
 * With `frames` the schedule is run so often, one time after the other: rows are told later by a frame's length each time, so that no tick lies
 * between two frames, and what ran stays a valid schedule. That wants a set of which no period is open where a frame begins or ends. The next
 * frame's book is opened at the end of the one before, which takes as long as fl_exec_open.
 * A gate or a job that answers another number than 0 has failed: rows that are out are finished, and nothing new is handed out. Either may
 * block; the others go on at least a quarter of a window ahead of it, at most a window, then sleep. Neither may leave by longjmp,
 * pthread_exit or an exception.
 *
 * Nothing is proved of the C here: that it calls the book with the lock held, runs each row that it was handed once between its take and
 * its post, and posts only what answered 0. What the book keeps is proved, whatever is called.
 *
 * It wants POSIX of 2001 or later (_POSIX_C_SOURCE), and for pinning Linux and _GNU_SOURCE, defined before the first header is included.
 * In C it is C99, in C++ C++11. */
#ifndef FURNACELIME_EXEC_H
#define FURNACELIME_EXEC_H

#include <errno.h>
#include <pthread.h>
#include <sched.h>
#include <semaphore.h>
#include <string.h>
#include <time.h>
#include <unistd.h>
#include "furnacelime.h"

#if !defined(_POSIX_C_SOURCE) || _POSIX_C_SOURCE < 200112L
#error "furnacelime_exec.h wants _POSIX_C_SOURCE at 200112L or above, defined before the first header"
#endif

#ifdef __cplusplus
extern "C" {
#endif

/* fl_execute: a lock could not be made, or a thread could not be started, pinned, or given its priority; `error` of struct fl_ended says
 * why, as errno does. */
#define FL_NO_THREAD 68

/* fl_execute: there is to be more than one frame, and the set can't be repeated (`about.repeats` is 0). */
#define FL_NO_REPEAT 69

/* Who runs the rows, and how. Set it to FL_NO_CREW, then the members that matter. */
struct fl_crew {
    int (*gate)(uint32_t processor, const struct fl_row *row, void *user);        /* or NULL */
    int (*job)(uint32_t task, const struct fl_row *row, void *user);              /* or NULL */
    void (*begin)(const struct fl_exec_about *about, void *user);                 /* or NULL; called once by the caller's thread, without
                                                                                     the lock, when all threads are there and wait */
    void *user;                                                                   /* is handed to all three */
    uint32_t window;                                                              /* from 1 to 1024; 0 is FL_WINDOW */
    int priority;                                                                 /* that of SCHED_FIFO; 0 is the caller's policy */
    const int *cpus;                                                              /* NULL, or the CPU of each processor's thread */
    pthread_mutex_t *lock;                                                        /* NULL, or the lock that the program holds around
                                                                                     its other calls of the library meanwhile; it isn't
                                                                                     held by the caller, and isn't recursive */
    uint64_t frames;                                                              /* how often the schedule is run; 0 is once */
};

#define FL_NO_CREW {NULL, NULL, NULL, NULL, 0, 0, NULL, NULL, 0}

/* How an execution ended. Where nothing ran, `about` is told if the set was opened, `error` at FL_NO_THREAD, and all else is 0. */
struct fl_ended {
    struct fl_exec_about about;
    struct fl_exec_end end;          /* whether a gate or job failed; if so the row of the lowest processor at which one did */
    uint64_t posted[FL_PROCESSORS];  /* of each processor the number of its rows that ran: the first ones, over all frames */
    struct fl_ticks ticks[FL_TASKS]; /* of each task the ticks of its rows that ran */
    uint64_t frames;                 /* how many frames ran whole */
    uint64_t waits;                  /* how often a thread slept that had no row to run */
    int error;
};

/* When a tick comes, in the time units of which a unit of the set has `unit`, rounded. Below 2^53 it is off by less than 1. */
static inline uint64_t fl_time_of(struct fl_ticks at, struct fl_ticks scale, uint64_t unit)
{
    const long double half = 18446744073709551616.0L;
    return (uint64_t)(((long double)at.high * half + (long double)at.low) / ((long double)scale.high * half + (long double)scale.low)
                          * (long double)unit + 0.5L);
}

/* ---- The rest is the executive's own. */

/* A processor, between its rows. */
struct fl_lane {
    uint32_t processor;
    int waits;           /* its next row can't be taken yet; who posts what it waits for takes for it */
    uint32_t waiters;    /* a bit for each processor that waits until this one posts a row without a task */
    uint64_t goes_on_at; /* while it waits at the end of the window: as many rows all have posted when it goes on */
    struct fl_want want; /* while it waits behind an earlier row of its task: when it goes on */
    int status;          /* of the last take */
    struct fl_row row;   /* what it gave */
};

struct fl_execution;

/* A thread. It is idle while it sleeps until it is called, and active while it isn't and doesn't watch. */
struct fl_worker {
    struct fl_execution *in;
    pthread_t thread;
    sem_t bed;
    uint32_t number;
    uint32_t at;   /* the processor whose row it ran last */
    uint32_t rows; /* how many rows it ran */
    uint32_t turn; /* the turn in which it was last counted as active */
    uint32_t vain; /* for how many waits in a row it looked in vain */
};

/* What is read without the lock stands apart from what is written with it, with the threads in between: else each try at the lock would fetch
 * memory that its holder is about to write. */
struct fl_execution {
    const struct fl_crew *crew;
    pthread_mutex_t *lock;
    uint32_t processors;
    uint32_t cpus; /* how many CPUs there are, at most one for each processor */
    uint32_t window;
    int alone;     /* the lock is the execution's own, and one thread wants it */
    int roams;     /* a row is run by any thread, and not by that of its processor */
    int looks;     /* each thread has a CPU, and no priority: it looks for a while before it sleeps */
    uint64_t frames;
    const void *set;
    size_t length;
    struct fl_ended *told;
    struct fl_ticks shift; /* the tick at which the frame begins; it is written where no row is out */
    struct fl_worker workers[FL_PROCESSORS];
    struct fl_exec exec;
    struct fl_lane lanes[FL_PROCESSORS];
    uint64_t counts[FL_PROCESSORS];  /* of each processor the rows that it has posted in the frame */
    uint64_t least;                  /* the least of them; it is written with the lock, and looked at without it */
    uint32_t last;                   /* how many processors have posted no more */
    uint32_t full;                   /* a bit for each processor that waits at the end of the window */
    uint32_t behind[FL_TASKS];       /* a bit for each processor that waits behind an earlier row of the task */
    struct fl_ticks given[FL_TASKS]; /* of each task the ticks that are posted in the frame */
    uint32_t ready;   /* a bit for each processor whose row is out and that no thread runs */
    uint32_t working; /* how many processors haven't come to their end */
    uint32_t idle;    /* a bit for each thread that is */
    uint32_t calls;   /* a bit for each thread that is to be called once the lock is free: it then finds it so */
    uint32_t active;  /* how many threads are, beside those that have run the same row since before the turn */
    uint32_t wanted;  /* how many should be at most */
    uint32_t turn;    /* how often fewer were wanted */
    uint32_t less;    /* for how many timed rows fewer would have done */
    int watched;      /* a thread watches over the active ones */
    uint64_t ran;     /* how many rows ran */
    uint64_t waits;
    uint32_t ended;   /* how many processors are at the end of the frame */
    int stopped;      /* a thread could not be started, a row failed, or the next frame could not be opened */
    int status;       /* that of the last opening */
    uint32_t arrived; /* how many threads are there */
    pthread_cond_t called; /* the caller waits for all threads, and later a thread watches */
    uint64_t posted[FL_PROCESSORS];
    struct fl_ticks ticks[FL_TASKS];
};

/* Ticks later by others, below 2^128. */
static inline struct fl_ticks fl_later(struct fl_ticks at, struct fl_ticks by)
{
    struct fl_ticks sum;
    sum.low = at.low + by.low;
    sum.high = at.high + by.high + (sum.low < at.low);
    return sum;
}

/* The ticks from one to another. */
static inline struct fl_ticks fl_between(struct fl_ticks from, struct fl_ticks to)
{
    struct fl_ticks rest;
    rest.low = to.low - from.low;
    rest.high = to.high - from.high - (to.low < from.low);
    return rest;
}

/* A bit for a processor or a thread. */
static inline uint32_t fl_bit(uint32_t number)
{
    return (uint32_t)1 << number;
}

/* Has a thread called that is idle. The lock is held. */
static inline void fl_call(struct fl_execution *in, uint32_t number)
{
    in->idle &= ~fl_bit(number);
    in->calls |= fl_bit(number);
    in->workers[number].turn = in->turn;
    in->active++;
}

/* Has some idle thread called, where there is one. The lock is held. */
static inline void fl_call_idle(struct fl_execution *in)
{
    uint32_t number = 0;
    if (in->idle == 0)
        return;
    while (!(in->idle & fl_bit(number)))
        number++;
    fl_call(in, number);
}

/* Lays the row of a processor out for a thread, or notes that the processor has come to its end, by what its last take gave. The lock is held. */
static inline void fl_lay_out(struct fl_execution *in, struct fl_lane *lane)
{
    if (lane->status == FL_DONE) {
        in->ready |= fl_bit(lane->processor);
        if (!in->roams && in->idle & fl_bit(lane->processor))
            fl_call(in, lane->processor);
    } else if (--in->working == 0) {
        in->calls |= in->idle;
        in->idle = 0;
        pthread_cond_signal(&in->called);
    }
}

/* Has a processor wait no more. The lock is held. */
static inline void fl_wake(struct fl_execution *in, struct fl_lane *lane)
{
    lane->waits = 0;
    fl_lay_out(in, lane);
}

/* Lets the lock go, also where it is that of one thread, and calls the threads that are to be called. */
static inline void fl_unlock_and_call(struct fl_execution *in)
{
    uint32_t calls = in->calls, number;
    in->calls = 0;
    pthread_mutex_unlock(in->lock);
    for (number = 0; calls; number++, calls >>= 1)
        if (calls & 1)
            sem_post(&in->workers[number].bed);
}

static inline void fl_unlock(struct fl_execution *in)
{
    if (!in->alone)
        fl_unlock_and_call(in);
}

/* Sleeps until it is called. */
static inline void fl_await_call(struct fl_worker *self)
{
    while (sem_wait(&self->bed) != 0)
        continue;
}

/* How often a thread looks before it sleeps. */
#if defined(__GNUC__)
enum { FL_LOOKS = 2000 };
static inline uint64_t fl_least(const struct fl_execution *in) { return __atomic_load_n(&in->least, __ATOMIC_RELAXED); }
static inline void fl_set_least(struct fl_execution *in, uint64_t least) { __atomic_store_n(&in->least, least, __ATOMIC_RELAXED); }
#else
enum { FL_LOOKS = 0 };
static inline uint64_t fl_least(const struct fl_execution *in) { return in->least; }
static inline void fl_set_least(struct fl_execution *in, uint64_t least) { in->least = least; }
#endif

/* Lets a moment pass. */
static inline void fl_pause(void)
{
#if defined(__GNUC__) && (defined(__x86_64__) || defined(__i386__))
    __builtin_ia32_pause();
#endif
}

/* A thread that finds the lock held tries it so often, each time after a pause of twice as many moments, up to so many: about as long as a sleep and its
 * end take. Meanwhile who has it goes through some rows with the book at hand, since to fetch the book from another CPU takes as long as several
 * rows. Then the thread tries so often after a turn that it gives to others, and then sleeps until it has the lock. */
enum { FL_TRIES = 12, FL_PAUSE = 256, FL_TURNS = 20 };

/* Tries the lock for a while. Whether it was taken. */
static inline int fl_try(pthread_mutex_t *lock)
{
    int tries, moments, pause = 1;
    for (tries = FL_TRIES; tries > 0; tries--) {
        for (moments = pause; moments > 0; moments--)
            fl_pause();
        pause = pause < FL_PAUSE ? 2 * pause : FL_PAUSE;
        if (pthread_mutex_trylock(lock) == 0)
            return 1;
    }
    for (tries = FL_TURNS; tries > 0; tries--) {
        sched_yield();
        if (pthread_mutex_trylock(lock) == 0)
            return 1;
    }
    return 0;
}

/* Takes the lock. A thread with a priority gives its CPU to none below it, and sleeps at once where the lock is held. */
static inline void fl_lock(struct fl_execution *in)
{
    pthread_mutex_t *lock = in->lock;
    if (in->alone || pthread_mutex_trylock(lock) == 0)
        return;
    if (in->crew->priority || !fl_try(lock))
        pthread_mutex_lock(lock);
}

/* Notes that a processor waits behind an earlier row: until the ticks of its task's earlier rows are posted, or, where its next row has no task,
 * until the processor that it waits for posts such a row. No ring of waiting ones closes: whoever is waited for has posted less, and who has
 * posted least waits for nobody. The lock is held. */
static inline void fl_mark_behind(struct fl_execution *in, struct fl_lane *lane)
{
    uint32_t *waiters = &in->lanes[lane->row.waits_for].waiters;
    fl_exec_want(&in->exec, lane->processor, &lane->want);
    if (lane->want.task != FL_NO_TASK)
        waiters = &in->behind[lane->want.task];
    *waiters |= fl_bit(lane->processor);
}

/* Takes for a processor that waits; if it must wait behind an earlier row, it waits on. So no thread is woken that would only sleep again. The
 * lock is held. */
static inline void fl_take_for(struct fl_execution *in, struct fl_lane *lane)
{
    lane->status = fl_take(&in->exec, lane->processor, &lane->row);
    if (lane->status == FL_WAIT)
        fl_mark_behind(in, lane);
    else
        fl_wake(in, lane);
}

/* Takes for those that waited behind the row that a processor posted. The lock is held. */
static inline void fl_take_for_waiters(struct fl_execution *in, struct fl_lane *lane, uint32_t task)
{
    uint32_t *waiters = task == FL_NO_TASK ? &lane->waiters : &in->behind[task];
    uint32_t left = *waiters, p;
    for (p = 0; left; p++, left >>= 1) {
        struct fl_lane *waiter = &in->lanes[p];
        if (!(left & 1) || !waiter->waits)
            continue;
        if (task != FL_NO_TASK && (in->given[task].low != waiter->want.before.low || in->given[task].high != waiter->want.before.high))
            continue;
        *waiters &= ~fl_bit(p);
        fl_take_for(in, waiter);
    }
}

/* Takes for those that waited at the end of the window until all have posted as many rows. The lock is held. */
static inline void fl_take_for_full(struct fl_execution *in)
{
    uint32_t left = in->full, p;
    for (p = 0; left; p++, left >>= 1) {
        struct fl_lane *waiter = &in->lanes[p];
        if (!(left & 1) || !waiter->waits || waiter->goes_on_at > in->least)
            continue;
        in->full &= ~fl_bit(p);
        fl_take_for(in, waiter);
    }
}

/* Notes for what a processor waits that was told to: an earlier row, or at the end of the window that three quarters of that are free, since a
 * sleep costs as much as many rows. Whether it waits: if not, it took again. The lock is held. */
static inline int fl_must_wait(struct fl_execution *in, struct fl_lane *lane)
{
    const uint64_t posted = in->counts[lane->processor];
    if (posted < in->counts[lane->row.waits_for] + in->window) {
        fl_mark_behind(in, lane);
        return 1;
    }
    lane->goes_on_at = posted - (in->window + 2) / 4;
    if (in->least < lane->goes_on_at && !in->stopped) {
        in->full |= fl_bit(lane->processor);
        return 1;
    }
    lane->status = fl_take(&in->exec, lane->processor, &lane->row);
    return 0;
}

/* Notes that a processor has posted this row, and takes for those that waited for it. The lock is held. */
static inline void fl_note_post(struct fl_execution *in, struct fl_lane *lane, const struct fl_row *ran)
{
    uint32_t p;
    in->ran++;
    if (ran->task != FL_NO_TASK)
        in->given[ran->task] = fl_later(in->given[ran->task], fl_between(ran->start, ran->end));
    fl_take_for_waiters(in, lane, ran->task);
    if (in->counts[lane->processor]++ > in->least || --in->last > 0)
        return;
    fl_set_least(in, in->least + 1);
    for (p = 0; p < in->processors; p++)
        in->last += in->counts[p] == in->least;
    fl_take_for_full(in);
}

/* Ends all: the row of this processor failed, or the next frame could not be opened. The lock is held. */
static inline void fl_stop(struct fl_execution *in, struct fl_lane *lane)
{
    uint32_t p;
    in->stopped = 1;
    lane->status = FL_HALTED;
    for (p = 0; p < in->processors; p++)
        if (in->lanes[p].waits) {
            in->lanes[p].status = FL_HALTED;
            fl_wake(in, &in->lanes[p]);
        }
}

/* Runs a row that was taken. 0, or why it failed. The lock isn't held. */
static inline int fl_run(const struct fl_execution *in, const struct fl_lane *lane)
{
    const struct fl_crew *crew = in->crew;
    struct fl_row shown;
    int why = 0;
    shown.start = fl_later(lane->row.start, in->shift);
    shown.end = fl_later(lane->row.end, in->shift);
    shown.task = lane->row.task;
    shown.waits_for = lane->row.waits_for;
    if (crew->gate)
        why = crew->gate(lane->processor, &shown, crew->user);
    if (why == 0 && crew->job && shown.task != FL_NO_TASK)
        why = crew->job(shown.task, &shown, crew->user);
    return why;
}

/* Posts a row that ran and takes the next one, or halts the book. The lock is held. */
static inline void fl_put_back(struct fl_execution *in, struct fl_lane *lane, int why)
{
    if (why != 0) {
        fl_halt(&in->exec, lane->processor, (uint32_t)why);
        fl_stop(in, lane);
        return;
    }
    lane->status = fl_post_and_take(&in->exec, lane->processor, &lane->row);
}

/* Counts what the book's frame ran. The lock is held. */
static inline void fl_count_frame(struct fl_execution *in)
{
    struct fl_ended *told = in->told;
    uint32_t k;
    fl_exec_tell(&in->exec, in->posted, FL_PROCESSORS, in->ticks, FL_TASKS, &told->end);
    for (k = 0; k < told->about.processors; k++)
        told->posted[k] += in->posted[k];
    for (k = 0; k < told->about.tasks; k++)
        told->ticks[k] = fl_later(told->ticks[k], in->ticks[k]);
    told->frames += !told->end.halted;
    if (told->end.halted) {
        told->end.start = fl_later(told->end.start, in->shift);
        told->end.end = fl_later(told->end.end, in->shift);
    }
}

/* Opens the book of the next frame in place of the one that ended, and takes for all that wait at its end. The lock is held, and no row is
 * out. */
static inline void fl_open_frame(struct fl_execution *in, struct fl_lane *lane)
{
    uint32_t p;
    fl_count_frame(in);
    fl_exec_close(&in->exec);
    in->status = fl_exec_open(&in->exec, in->set, in->length, in->window, &in->told->about);
    if (in->status != FL_DONE) {
        fl_stop(in, lane);
        return;
    }
    in->shift = fl_later(in->shift, in->told->about.end);
    in->ended = 0;
    fl_set_least(in, 0);
    in->last = in->processors;
    memset(in->given, 0, sizeof in->given);
    memset(in->counts, 0, sizeof in->counts);
    for (p = 0; p < in->processors; p++)
        if (in->lanes[p].waits)
            fl_take_for(in, &in->lanes[p]);
    lane->status = fl_take(&in->exec, lane->processor, &lane->row);
}

/* At the end of a frame: whether a processor waits for the others. If not, it is the last one, and took from the next book. The lock is held. */
static inline int fl_ends_frame(struct fl_execution *in, struct fl_lane *lane)
{
    if (++in->ended < in->processors)
        return 1;
    fl_open_frame(in, lane);
    return 0;
}

/* Sees to a processor's next row, by what its last take gave: it waits, or has one. The lock is held. */
static inline void fl_go_on(struct fl_execution *in, struct fl_lane *lane)
{
    while (!lane->waits && (lane->status == FL_WAIT || (lane->status == FL_OVER && in->told->frames + 1 < in->frames)))
        lane->waits = lane->status == FL_WAIT ? fl_must_wait(in, lane) : fl_ends_frame(in, lane);
    if (!lane->waits)
        fl_lay_out(in, lane);
}

/* ---- How many threads are active, where any thread may run a row: one where rows are short, since to share them out takes longer than to run
 * them, else one for each CPU; and more and more, while those that are active get nothing done, since a job may block. */

/* A row is short up to so many nanoseconds, and long from so many on. */
enum { FL_SHORT = 1000, FL_LONG = 50000 };

/* Of short rows one in so many is timed; fewer threads are wanted after so many rows that were shorter; who watches looks whenever so many
 * nanoseconds have passed, and is content with so many rows. */
enum { FL_TIMED = 16, FL_LESS = 8, FL_WATCH = 200000, FL_FEW = 4 };

static inline struct timespec fl_now(void)
{
    struct timespec at;
    clock_gettime(CLOCK_MONOTONIC, &at);
    return at;
}

/* Counts a thread as active that isn't. The lock is held. */
static inline void fl_count_active(struct fl_execution *in, struct fl_worker *self)
{
    in->active += self->turn != in->turn;
    self->turn = in->turn;
}

/* Has more threads active. The lock is held. */
static inline void fl_want_more(struct fl_execution *in, uint32_t wanted)
{
    in->wanted = wanted;
    in->less = 0;
    if (wanted == in->processors)
        pthread_cond_signal(&in->called);
}

/* Has fewer threads active: of those that run rows each is counted again when its row ends, since that may go on for long. One is to watch. The
 * lock is held. */
static inline void fl_want_fewer(struct fl_execution *in, uint32_t wanted)
{
    in->wanted = wanted;
    in->less = 0;
    if (!in->watched)
        fl_call_idle(in);
    in->active = 0;
    in->turn++;
}

/* Goes by how long a row took that began then. A long one may have lost its CPU, so it adds no more threads than there are CPUs. The lock is
 * held. */
static inline void fl_judge(struct fl_execution *in, struct timespec began, struct timespec ended)
{
    const double took = 1e9 * (double)(ended.tv_sec - began.tv_sec) + (double)(ended.tv_nsec - began.tv_nsec);
    const uint32_t wanted = took <= FL_SHORT ? 1 : took < FL_LONG ? in->cpus : in->processors;
    if (wanted > in->wanted && in->wanted < in->cpus)
        fl_want_more(in, in->cpus);
    else if (wanted < in->wanted && ++in->less >= FL_LESS)
        fl_want_fewer(in, wanted);
    else if (wanted >= in->wanted)
        in->less = 0;
}

/* Whether a thread is to watch, or to watch on. The lock is held. */
static inline int fl_is_to_watch(const struct fl_execution *in)
{
    return in->wanted < in->processors && in->working > 0;
}

/* Watches until all threads are wanted: while those that are active run few rows, twice as many are. The lock is held, but while it sleeps. */
static inline void fl_watch(struct fl_execution *in)
{
    in->watched = 1;
    while (fl_is_to_watch(in)) {
        struct timespec until = fl_now();
        const uint64_t seen = in->ran;
        if (in->calls) {
            fl_unlock(in);
            fl_lock(in);
        }
        until.tv_sec += (until.tv_nsec + FL_WATCH) / 1000000000L;
        until.tv_nsec = (until.tv_nsec + FL_WATCH) % 1000000000L;
        while (fl_is_to_watch(in) && pthread_cond_timedwait(&in->called, in->lock, &until) == 0)
            continue;
        if (!fl_is_to_watch(in) || in->ran - seen >= FL_FEW)
            continue;
        fl_want_more(in, in->wanted < in->processors / 2 ? 2 * in->wanted : in->processors);
        fl_call_idle(in);
    }
    in->watched = 0;
}

/* ---- The threads. */

/* Looks without the lock whether a thread's own processor may go on that is at the end of the window, for about as long as a sleep and its end take;
 * where that was in vain for four waits in a row, at every 64th alone. Whether its row is ready. The lock is held, but while it looks. */
static inline int fl_look(struct fl_execution *in, struct fl_worker *self)
{
    const uint64_t goes_on_at = in->lanes[self->number].goes_on_at;
    int looks;
    if (!in->looks || !(in->full & fl_bit(self->number)) || (self->vain >= 4 && self->vain++ % 64 != 0))
        return 0;
    fl_unlock(in);
    for (looks = FL_LOOKS; looks > 0 && fl_least(in) < goes_on_at; looks--)
        fl_pause();
    fl_lock(in);
    self->vain = in->ready & fl_bit(self->number) ? 0 : self->vain + 1;
    return self->vain == 0;
}

/* What a thread does that has no row to run: it watches, or is idle until it is called. The lock is held, but while it sleeps. */
static inline void fl_rest(struct fl_execution *in, struct fl_worker *self)
{
    in->active--;
    self->turn = in->turn - 1;
    if (fl_is_to_watch(in) && !in->watched) {
        fl_watch(in);
        return;
    }
    if (fl_look(in, self) || in->working == 0)
        return;
    in->waits++;
    in->idle |= fl_bit(self->number);
    fl_unlock(in);
    fl_await_call(self);
    fl_lock(in);
}

/* Whether a thread that any row would do for may run one: it isn't one too many, nor is it to watch. The lock is held. */
static inline int fl_may_run(const struct fl_execution *in)
{
    return in->active <= in->wanted && (in->active == 1 || !fl_is_to_watch(in) || in->watched);
}

/* The processor whose row a thread is to run: its own, or where it roams the next one that is ready. A null pointer where there is none. It isn't
 * ready any more then. The lock is held. */
static inline struct fl_lane *fl_pick(struct fl_execution *in, struct fl_worker *self)
{
    fl_count_active(in, self);
    if (in->roams ? in->ready == 0 || !fl_may_run(in) : !(in->ready & fl_bit(self->at)))
        return NULL;
    while (in->roams) {
        self->at = self->at + 1 < in->processors ? self->at + 1 : 0;
        if (in->ready & fl_bit(self->at))
            break;
    }
    in->ready &= ~fl_bit(self->at);
    return &in->lanes[self->at];
}

/* Runs the row of a processor, and sees to its next one. The lock is held, but while it runs. */
static inline void fl_run_ready(struct fl_execution *in, struct fl_worker *self, struct fl_lane *lane)
{
    const int is_timed = in->roams && (in->wanted > 1 || self->rows++ % FL_TIMED == 0);
    const struct fl_row row = lane->row;
    struct timespec began = {0, 0}, ended = {0, 0};
    int why;
    if (in->ready && in->active < in->wanted && in->roams)
        fl_call_idle(in);
    fl_unlock(in);
    if (is_timed)
        began = fl_now();
    why = fl_run(in, lane);
    if (is_timed)
        ended = fl_now();
    fl_lock(in);
    fl_put_back(in, lane, why);
    if (why == 0)
        fl_note_post(in, lane, &row);
    if (lane->status == FL_DONE)
        fl_lay_out(in, lane);
    else
        fl_go_on(in, lane);
    if (is_timed)
        fl_judge(in, began, ended);
}

/* Runs rows until each processor has come to its end. The lock is held, but while one runs. */
static inline void fl_serve_several(struct fl_execution *in, struct fl_worker *self)
{
    while (in->working > 0) {
        struct fl_lane *lane = fl_pick(in, self);
        if (lane)
            fl_run_ready(in, self, lane);
        else
            fl_rest(in, self);
    }
}

/* Runs the rows of the only processor until it has come to its end. It waits for none, none waits for it, and one thread runs them all: so nobody goes by
 * what is noted of a post. The lock is held, but while a row runs. */
static inline void fl_serve_one(struct fl_execution *in)
{
    struct fl_lane *lane = &in->lanes[0];
    while (in->working > 0) {
        int why;
        fl_unlock(in);
        why = fl_run(in, lane);
        fl_lock(in);
        fl_put_back(in, lane, why);
        if (lane->status != FL_DONE)
            fl_go_on(in, lane);
    }
}

/* What a thread does. */
static inline void *fl_serve(void *argument)
{
    struct fl_worker *self = (struct fl_worker *)argument;
    struct fl_execution *in = self->in;
    pthread_mutex_lock(in->lock);
    if (++in->arrived == in->processors)
        pthread_cond_signal(&in->called);
    pthread_mutex_unlock(in->lock);
    fl_await_call(self);
    fl_lock(in);
    if (in->processors == 1)
        fl_serve_one(in);
    else
        fl_serve_several(in, self);
    fl_unlock(in);
    return NULL;
}

/* Sets the attributes that the crew asks for; an errno. */
static inline int fl_set_attributes(pthread_attr_t *attributes, const struct fl_crew *crew, uint32_t processor)
{
    int error = 0;
    if (crew->priority) {
        struct sched_param parameters;
        memset(&parameters, 0, sizeof parameters);
        parameters.sched_priority = crew->priority;
        error = pthread_attr_setinheritsched(attributes, PTHREAD_EXPLICIT_SCHED);
        if (!error)
            error = pthread_attr_setschedpolicy(attributes, SCHED_FIFO);
        if (!error)
            error = pthread_attr_setschedparam(attributes, &parameters);
    }
    if (crew->cpus && !error) {
#if defined(__linux__) && defined(_GNU_SOURCE)
        const int cpu = crew->cpus[processor];
        cpu_set_t set;
        if (cpu < 0 || cpu >= CPU_SETSIZE)
            return EINVAL;
        CPU_ZERO(&set);
        CPU_SET((size_t)cpu, &set);
        error = pthread_attr_setaffinity_np(attributes, sizeof set, &set);
#else
        error = ENOTSUP;
#endif
    }
    (void)processor;
    return error;
}

/* Starts a thread, which is idle; an errno. */
static inline int fl_start(struct fl_execution *in, uint32_t number)
{
    struct fl_worker *worker = &in->workers[number];
    pthread_attr_t attributes;
    int error;
    worker->in = in;
    worker->number = worker->at = number;
    if (sem_init(&worker->bed, 0, 0) != 0)
        return errno;
    error = pthread_attr_init(&attributes);
    if (!error) {
        error = fl_set_attributes(&attributes, in->crew, number);
        if (!error)
            error = pthread_create(&worker->thread, &attributes, fl_serve, worker);
        pthread_attr_destroy(&attributes);
    }
    if (error)
        sem_destroy(&worker->bed);
    return error;
}

/* Makes the execution's own lock, by which a thread of high priority lends it to the one that it waits for; an errno. */
static inline int fl_make_lock(pthread_mutex_t *lock, const struct fl_crew *crew)
{
    pthread_mutexattr_t attributes;
    int error = pthread_mutexattr_init(&attributes);
    if (error)
        return error;
#if defined(_POSIX_THREAD_PRIO_INHERIT) && _POSIX_THREAD_PRIO_INHERIT > 0
    if (crew->priority)
        error = pthread_mutexattr_setprotocol(&attributes, PTHREAD_PRIO_INHERIT);
#endif
    (void)crew;
    if (!error)
        error = pthread_mutex_init(lock, &attributes);
    pthread_mutexattr_destroy(&attributes);
    return error;
}

/* Makes a condition that may be awaited by the clock that nobody sets; an errno. */
static inline int fl_make_condition(pthread_cond_t *condition)
{
    pthread_condattr_t attributes;
    int error = pthread_condattr_init(&attributes);
    if (error)
        return error;
    error = pthread_condattr_setclock(&attributes, CLOCK_MONOTONIC);
    if (!error)
        error = pthread_cond_init(condition, &attributes);
    pthread_condattr_destroy(&attributes);
    return error;
}

/* Takes the first row of each processor, and has threads called for them. The lock is held, and all threads are idle. */
static inline void fl_begin(struct fl_execution *in)
{
    uint32_t p;
    in->working = in->last = in->processors;
    for (p = 0; p < in->processors; p++) {
        in->lanes[p].processor = p;
        in->lanes[p].status = fl_take(&in->exec, p, &in->lanes[p].row);
        fl_go_on(in, &in->lanes[p]);
    }
    if (in->roams) {
        fl_want_fewer(in, 1);
        fl_call_idle(in);
    }
}

/* Starts a thread for each processor, has all begin at once, and waits until they end; an errno. The lock isn't held. */
static inline int fl_run_lanes(struct fl_execution *in, const struct fl_exec_about *about)
{
    uint32_t started, p;
    int error = fl_make_condition(&in->called);
    if (error)
        return error;
    for (started = 0; started < in->processors && !error; started += !error)
        error = fl_start(in, started);
    pthread_mutex_lock(in->lock);
    while (!error && in->arrived < in->processors)
        pthread_cond_wait(&in->called, in->lock);
    pthread_mutex_unlock(in->lock);
    if (!error && in->crew->begin)
        in->crew->begin(about, in->crew->user);
    pthread_mutex_lock(in->lock);
    in->idle = (uint32_t)(((uint64_t)1 << started) - 1);
    if (error)
        in->calls = in->idle;
    else
        fl_begin(in);
    fl_unlock_and_call(in);
    for (p = 0; p < started; p++)
        pthread_join(in->workers[p].thread, NULL);
    for (p = 0; p < started; p++)
        sem_destroy(&in->workers[p].bed);
    pthread_cond_destroy(&in->called);
    return error;
}

/* Executes an open book, and tells how it ended. */
static inline int fl_execute_open(struct fl_execution *in, struct fl_ended *ended)
{
    const long online = sysconf(_SC_NPROCESSORS_ONLN), cpus = online > 0 ? online : 1;
    in->processors = ended->about.processors;
    in->alone = in->processors == 1 && !in->crew->lock;
    in->roams = in->processors > 1 && !in->crew->gate && !in->crew->priority && !in->crew->cpus;
    in->looks = !in->roams && !in->crew->priority && cpus >= (long)in->processors;
    in->wanted = in->processors;
    in->cpus = cpus < (long)in->processors ? (uint32_t)cpus : in->processors;
    ended->error = fl_run_lanes(in, &ended->about);
    ended->waits = in->waits;
    if (ended->error)
        return FL_NO_THREAD;
    if (in->status != FL_DONE)
        return in->status;
    pthread_mutex_lock(in->lock);
    fl_count_frame(in);
    pthread_mutex_unlock(in->lock);
    return ended->end.halted ? FL_HALTED : FL_DONE;
}

/* Executes the schedule of a task set.
 *  FL_DONE: all rows ran. FL_HALTED: a gate or a job failed, and `end` tells where; the rows that `posted` counts ran.
 *  FL_NO_THREAD, FL_NO_REPEAT, and each other status of fl_exec_open: nothing ran, and no gate or job was called. But FL_NO_MEMORY is told
 *  also where `frames` counts some: these ran, and there was no memory for the next one's book. FL_WRONG_CALL is told besides where `crew` or
 *  `ended` is a null pointer. At each status all threads have ended and all memory is given back. */
static inline int fl_execute(const void *set, size_t length, const struct fl_crew *crew, struct fl_ended *ended)
{
    struct fl_execution in;
    pthread_mutex_t own;
    int status;
    if (!crew || !ended)
        return FL_WRONG_CALL;
    memset(ended, 0, sizeof *ended);
    memset(&in, 0, sizeof in);
    in.crew = crew;
    in.set = set;
    in.length = length;
    in.told = ended;
    in.frames = crew->frames;
    in.window = crew->window ? crew->window : FL_WINDOW;
    in.lock = crew->lock ? crew->lock : &own;
    if (!crew->lock) {
        ended->error = fl_make_lock(&own, crew);
        if (ended->error)
            return FL_NO_THREAD;
    }
    pthread_mutex_lock(in.lock);
    status = fl_exec_open(&in.exec, set, length, in.window, &ended->about);
    pthread_mutex_unlock(in.lock);
    if (status == FL_DONE) {
        status = crew->frames > 1 && !ended->about.repeats ? FL_NO_REPEAT : fl_execute_open(&in, ended);
        pthread_mutex_lock(in.lock);
        fl_exec_close(&in.exec);
        pthread_mutex_unlock(in.lock);
    }
    if (!crew->lock)
        pthread_mutex_destroy(&own);
    return status;
}

#ifdef __cplusplus
}
#endif

#endif
