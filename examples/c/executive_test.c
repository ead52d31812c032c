/* Tries the book of furnacelime.h beside a plain one in C, call by call in any order, and the executive of furnacelime_exec.h: each status,
   failures, windows, and a lock of the program's own. It says each line at which something isn't as it should be, and ends with 1 then. */
#ifndef _GNU_SOURCE
#define _GNU_SOURCE
#endif
#include "furnacelime.h"
#include "furnacelime_exec.h"

#include <stdio.h>
#include <string.h>
#include <time.h>

static int bad;
#define WANT(x) do { if (!(x)) { bad = 1; printf("executive_test.c line %d: %s\n", __LINE__, #x); } } while (0)

/* Two tasks on one processor; three on two, of which one migrates; and five on three, of which one is idle now and then. */
static const char one[] = "processors = 1\nhorizon = 60\ntask = [{name = \"a\", work = 1, period = 3}, {name = \"b\", work = 2, period = 5}]\n";
static const char three[] = "processors = 2\nhorizon = 12\ntask = [{name = \"a\", work = 2, period = 3}, {name = \"b\", work = 2, period = 3}, "
                            "{name = \"c\", work = 2, period = 3}]\n";
static const char five[] = "processors = 3\nhorizon = 60\ntask = [{name = \"a\", work = 3, period = 4}, {name = \"b\", work = 3, period = 5}, "
                           "{name = \"c\", work = 4, period = 6}, {name = \"d\", work = 3, period = 10}, {name = \"e\", work = 1, period = 2}]\n";
enum { ONE = sizeof one - 1, THREE = sizeof three - 1, FIVE = sizeof five - 1 };

/* ---- The statuses of the book. */

/* Takes and posts that many rows, for the processors in turn, and answers how many there were before all were over. */
static uint64_t run_rows(struct fl_exec *exec, uint32_t processors, uint64_t most)
{
    int out[FL_PROCESSORS] = {0}, over[FL_PROCESSORS] = {0};
    uint32_t left = processors, p;
    uint64_t rows = 0;
    struct fl_row row;
    while (left > 0 && rows < most)
        for (p = 0; p < processors; p++)
            if (!over[p]) {
                const int status = out[p] ? fl_post_and_take(exec, p, &row) : fl_take(exec, p, &row);
                out[p] = status == FL_DONE;
                over[p] = status == FL_OVER;
                rows += status == FL_DONE;
                left -= status == FL_OVER;
                WANT(status == FL_DONE || status == FL_OVER || status == FL_WAIT);
            }
    return rows;
}

/* Sets with more rows than a table may have: one runs past them, the other to its end. */
static void try_long_sets(void)
{
    static const char longest[] = "processors = 2\nhorizon = 4294967295\ntask = [{name = \"a\", work = 1, period = 2}, "
                                  "{name = \"b\", work = 1, period = 3}]\n";
    static const char long_one[] = "processors = 2\nhorizon = 1100001\ntask = [{name = \"a\", work = 2, period = 3}, "
                                   "{name = \"b\", work = 2, period = 3}, {name = \"c\", work = 2, period = 3}]\n";
    struct fl_exec exec = FL_NO_EXEC;
    struct fl_exec_about about;
    struct fl_exec_end end;
    uint64_t posted[2];
    struct fl_ticks ticks[3];
    WANT(fl_exec_open(&exec, longest, sizeof longest - 1, 1024, &about) == FL_DONE);
    WANT(run_rows(&exec, about.processors, 2097154) >= 2097154);
    fl_exec_close(&exec);
    WANT(fl_exec_open(&exec, long_one, sizeof long_one - 1, FL_WINDOW, &about) == FL_DONE && about.repeats == 1);
    WANT(run_rows(&exec, about.processors, UINT64_MAX) == 2200002);
    WANT(fl_exec_tell(&exec, posted, 2, ticks, 3, &end) == FL_DONE && !end.halted && posted[0] == 1100001 && posted[1] == 1100001);
    WANT(ticks[0].low == 2200002 && ticks[1].low == 2200002 && ticks[2].low == 2200002);
    fl_exec_close(&exec);
}

static void try_opening(void)
{
    struct fl_exec exec = FL_NO_EXEC;
    struct fl_exec_about about;
    char *set = (char *)malloc(1048577);
    const char overloaded[] = "processors = 1\nhorizon = 6\ntask = [{name = \"a\", work = 2, period = 3}, {name = \"b\", work = 1, period = 2}]\n";
    const char primes[] = "processors = 1\nhorizon = 6\ntask = [{name = \"a\", work = 1, period = 4294967291}, "
                          "{name = \"b\", work = 1, period = 4294967279}, {name = \"c\", work = 1, period = 4294967231}]\n";
    WANT(fl_exec_open(NULL, three, THREE, 1, &about) == FL_WRONG_CALL);
    WANT(fl_exec_open(&exec, three, THREE, 1, NULL) == FL_WRONG_CALL);
    WANT(fl_exec_open(&exec, NULL, 1, 1, &about) == FL_WRONG_CALL);
    WANT(fl_exec_open(&exec, three, SIZE_MAX, 1, &about) == FL_WRONG_CALL);
    WANT(fl_exec_open(&exec, three, THREE, 0, &about) == FL_WRONG_CALL && !exec.at);
    WANT(fl_exec_open(&exec, three, THREE, 1025, &about) == FL_WRONG_CALL && !exec.at);
    WANT(fl_exec_open(&exec, three, THREE, UINT32_MAX, &about) == FL_WRONG_CALL && !exec.at);
    WANT(fl_exec_open(&exec, NULL, 0, 1, &about) == FL_BAD_INPUT && !exec.at);
    WANT(fl_exec_open(&exec, "x", 1, 1, &about) == FL_BAD_INPUT && !exec.at);
    WANT(fl_exec_open(&exec, overloaded, sizeof overloaded - 1, 1, &about) == FL_OVERLOAD && !exec.at);
    WANT(fl_exec_open(&exec, primes, sizeof primes - 1, 1, &about) == FL_SCALE_TOO_LARGE && !exec.at);
    WANT(set != NULL);
    if (set) {
        memset(set, '#', 1048577);
        WANT(fl_exec_open(&exec, set, 1048577, 1, &about) == FL_INPUT_TOO_LONG && !exec.at);
        WANT(fl_exec_open(&exec, set, 1048576, 1, &about) == FL_BAD_INPUT && !exec.at);
    }
    free(set);
    WANT(fl_exec_open(&exec, three, THREE, 1, &about) == FL_DONE && exec.at);
    WANT(about.processors == 2 && about.tasks == 3 && about.end.low == 36 && about.scale.low == 3 && about.end.high == 0 && about.repeats == 1);
    WANT(fl_exec_open(&exec, three, THREE, 1, &about) == FL_WRONG_CALL && exec.at);
    fl_exec_close(&exec);
    WANT(!exec.at);
    fl_exec_close(&exec);
    fl_exec_close(NULL);
}

static void try_closed_calls(void)
{
    struct fl_exec exec = FL_NO_EXEC;
    struct fl_exec_end end;
    struct fl_row row;
    struct fl_want want;
    uint64_t posted[2];
    struct fl_ticks ticks[3];
    WANT(fl_take(&exec, 0, &row) == FL_WRONG_CALL && fl_take(NULL, 0, &row) == FL_WRONG_CALL);
    WANT(fl_post(&exec, 0) == FL_WRONG_CALL && fl_post(NULL, 0) == FL_WRONG_CALL);
    WANT(fl_post_and_take(&exec, 0, &row) == FL_WRONG_CALL && fl_post_and_take(NULL, 0, &row) == FL_WRONG_CALL);
    WANT(fl_halt(&exec, 0, 1) == FL_WRONG_CALL && fl_halt(NULL, 0, 1) == FL_WRONG_CALL);
    WANT(fl_exec_tell(&exec, posted, 2, ticks, 3, &end) == FL_WRONG_CALL && fl_exec_tell(NULL, posted, 2, ticks, 3, &end) == FL_WRONG_CALL);
    WANT(fl_exec_want(&exec, 0, &want) == FL_WRONG_CALL && fl_exec_want(NULL, 0, &want) == FL_WRONG_CALL);
}

/* By hand: two processors and a window of one round. */
static void try_by_hand(void)
{
    struct fl_exec exec = FL_NO_EXEC;
    struct fl_exec_about about;
    struct fl_exec_end end;
    struct fl_row row, other;
    struct fl_want want;
    uint64_t posted[FL_PROCESSORS];
    struct fl_ticks ticks[FL_TASKS];
    WANT(fl_exec_open(&exec, three, THREE, 1, &about) == FL_DONE);
    WANT(fl_take(&exec, 0, NULL) == FL_WRONG_CALL);
    WANT(fl_take(&exec, 2, &row) == FL_WRONG_CALL && fl_take(&exec, UINT32_MAX, &row) == FL_WRONG_CALL);
    WANT(fl_post(&exec, 0) == FL_WRONG_CALL && fl_post(&exec, 77) == FL_WRONG_CALL && fl_halt(&exec, 0, 1) == FL_WRONG_CALL);
    WANT(fl_take(&exec, 0, &row) == FL_DONE && row.start.low == 0 && row.end.low == 3 && row.task == 1);
    WANT(fl_take(&exec, 0, &other) == FL_WRONG_CALL);                            /* its row is out */
    WANT(fl_take(&exec, 1, &other) == FL_DONE && other.start.low == 0 && other.task == 2);
    WANT(fl_post_and_take(&exec, 1, NULL) == FL_WRONG_CALL);
    WANT(fl_post_and_take(&exec, 1, &other) == FL_WAIT && other.waits_for == 0); /* posted, and past the window */
    WANT(fl_post_and_take(&exec, 1, &other) == FL_WRONG_CALL);                   /* nothing is out */
    WANT(fl_take(&exec, 1, &other) == FL_WAIT && other.waits_for == 0);
    WANT(fl_exec_want(&exec, 1, &want) == FL_DONE && want.task == FL_NO_TASK); /* its round isn't computed */
    WANT(fl_exec_want(&exec, 2, &want) == FL_WRONG_CALL && fl_exec_want(&exec, 0, NULL) == FL_WRONG_CALL);
    WANT(fl_exec_want(&exec, 0, &want) == FL_DONE && want.task == 1 && want.before.low == 0 && want.before.high == 0);
    WANT(fl_post(&exec, 0) == FL_DONE && fl_post(&exec, 0) == FL_WRONG_CALL);
    WANT(fl_take(&exec, 1, &other) == FL_DONE);
    WANT(fl_exec_tell(&exec, posted, 1, ticks, 3, &end) == FL_WRONG_CALL);
    WANT(fl_exec_tell(&exec, posted, 2, ticks, 2, &end) == FL_WRONG_CALL);
    WANT(fl_exec_tell(&exec, NULL, 2, ticks, 3, &end) == FL_WRONG_CALL && fl_exec_tell(&exec, posted, 2, NULL, 3, &end) == FL_WRONG_CALL);
    WANT(fl_exec_tell(&exec, posted, 2, ticks, 3, NULL) == FL_WRONG_CALL);
    WANT(fl_exec_tell(&exec, posted, 2, ticks, 3, &end) == FL_DONE && !end.halted && posted[0] == 1 && posted[1] == 1);
    WANT(ticks[0].low == 0 && ticks[1].low == 3 && ticks[2].low == 3);
    WANT(fl_take(&exec, 0, &row) == FL_DONE);
    WANT(fl_halt(&exec, 1, 5) == FL_DONE && fl_halt(&exec, 1, 5) == FL_WRONG_CALL);
    WANT(fl_take(&exec, 1, &other) == FL_HALTED);
    WANT(fl_exec_tell(&exec, posted, 2, ticks, 3, &end) == FL_DONE && end.halted);
    WANT(end.processor == 1 && end.why == 5 && end.task == other.task && end.start.low == other.start.low && end.end.low == other.end.low);
    WANT(fl_halt(&exec, 0, 6) == FL_DONE);                                       /* a row that was out fails too */
    WANT(fl_exec_tell(&exec, posted, 2, ticks, 3, &end) == FL_DONE && end.processor == 0 && end.why == 6 && end.start.low == row.start.low);
    WANT(posted[0] == 1 && posted[1] == 1);
    fl_exec_close(&exec);
    WANT(fl_exec_open(&exec, three, THREE, 1, &about) == FL_DONE);               /* and again: one that was out is posted after a halt */
    WANT(fl_take(&exec, 0, &row) == FL_DONE && fl_take(&exec, 1, &other) == FL_DONE && fl_halt(&exec, 0, UINT32_MAX) == FL_DONE);
    WANT(fl_post_and_take(&exec, 1, &other) == FL_HALTED);
    WANT(fl_exec_tell(&exec, posted, 2, ticks, 3, &end) == FL_DONE && end.why == UINT32_MAX && posted[0] == 0 && posted[1] == 1);
    fl_exec_close(&exec);
}

/* ---- The book beside a plain one. */

enum { MOST_ROUNDS = 512 };

struct plain {
    struct fl_round rounds[MOST_ROUNDS];
    uint32_t tasks[MOST_ROUNDS][FL_PROCESSORS];
    uint64_t count, posted[FL_PROCESSORS], ticks[FL_TASKS];
    uint32_t processors, window, why[FL_PROCESSORS];
    int out[FL_PROCESSORS], failed[FL_PROCESSORS], halted;
};

static void read_rounds(struct plain *book, const char *set, size_t length, uint32_t window)
{
    struct fl_plan plan = FL_NO_PLAN;
    struct fl_about about;
    memset(book, 0, sizeof *book);
    WANT(fl_open(&plan, set, length, &about) == FL_DONE);
    book->processors = about.processors;
    book->window = window;
    while (book->count < MOST_ROUNDS && fl_next(&plan, &book->rounds[book->count], book->tasks[book->count], FL_PROCESSORS) == FL_DONE)
        book->count++;
    WANT(book->count > 0 && book->count < MOST_ROUNDS);
    fl_close(&plan);
}

/* Whether the next row of processor p has to wait for processor q. */
static int waits_for(const struct plain *book, uint32_t p, uint32_t q)
{
    const uint64_t k = book->posted[p];
    uint64_t j;
    if (book->posted[q] + book->window <= k)
        return 1;
    for (j = book->posted[q]; j < k; j++)
        if (book->tasks[k][p] != FL_NO_TASK && book->tasks[j][q] == book->tasks[k][p])
            return 1;
    return 0;
}

static int status_of_take(const struct plain *book, uint32_t p)
{
    uint32_t q;
    if (p >= book->processors || book->out[p])
        return FL_WRONG_CALL;
    if (book->halted)
        return FL_HALTED;
    if (book->posted[p] == book->count)
        return FL_OVER;
    for (q = 0; q < book->processors; q++)
        if (waits_for(book, p, q))
            return FL_WAIT;
    return FL_DONE;
}

/* Whether the other book tells of processor p what it wants: the ticks of its task's earlier rows, unless its round is behind all that were computed. */
static void want_beside(const struct plain *book, struct fl_exec *exec, uint32_t p, int computed)
{
    struct fl_want want;
    const int status = fl_exec_want(exec, p, &want);
    uint64_t before = 0, k, j;
    uint32_t q;
    WANT(status == (p < book->processors ? FL_DONE : FL_WRONG_CALL));
    if (p >= book->processors)
        return;
    k = book->posted[p];
    if (k == book->count || (!computed && want.task == FL_NO_TASK)) {
        WANT(want.task == FL_NO_TASK);
        return;
    }
    WANT(want.task == book->tasks[k][p]);
    for (j = 0; j < k && want.task != FL_NO_TASK; j++)
        for (q = 0; q < book->processors; q++)
            if (book->tasks[j][q] == want.task)
                before += book->rounds[j].end.low - book->rounds[j].start.low;
    if (want.task != FL_NO_TASK)
        WANT(want.before.low == before && want.before.high == 0);
}

/* A take of the plain book, and whether the row that the other one gave is right. */
static void take_beside(struct plain *book, uint32_t p, int status, const struct fl_row *row)
{
    const uint64_t k = p < book->processors ? book->posted[p] : 0;
    WANT(status == status_of_take(book, p));
    if (status == FL_WAIT)
        WANT(row->waits_for < book->processors && waits_for(book, p, row->waits_for));
    if (status == FL_DONE) {
        WANT(row->start.low == book->rounds[k].start.low && row->end.low == book->rounds[k].end.low && row->task == book->tasks[k][p]);
        book->out[p] = 1;
    }
}

/* Puts back the row that is out on processor p: posted, or failed. */
static void put_back(struct plain *book, uint32_t p, int failed, uint32_t why)
{
    const uint64_t k = book->posted[p];
    book->out[p] = 0;
    if (failed) {
        book->halted = book->failed[p] = 1;
        book->why[p] = why;
    } else {
        book->posted[p]++;
        if (book->tasks[k][p] != FL_NO_TASK)
            book->ticks[book->tasks[k][p]] += book->rounds[k].end.low - book->rounds[k].start.low;
    }
}

static void compare_ends(const struct plain *book, struct fl_exec *exec, uint32_t tasks)
{
    uint64_t posted[FL_PROCESSORS];
    struct fl_ticks ticks[FL_TASKS];
    struct fl_exec_end end;
    uint32_t p, t;
    WANT(fl_exec_tell(exec, posted, FL_PROCESSORS, ticks, FL_TASKS, &end) == FL_DONE && !end.halted == !book->halted);
    for (p = 0; p < book->processors; p++)
        WANT(posted[p] == book->posted[p]);
    for (t = 0; t < tasks; t++)
        WANT(ticks[t].low == book->ticks[t] && ticks[t].high == 0);
    for (p = 0; p < book->processors && !book->failed[p]; p++)
        continue;
    if (p < book->processors)
        WANT(end.processor == p && end.why == book->why[p] && end.start.low == book->rounds[posted[p]].start.low &&
             end.task == book->tasks[posted[p]][p]);
}

/* Calls in any order, which goes by the seed: most are takes and posts, some are wrong, and with `halts` some halt. */
static void try_any_order(const char *set, size_t length, uint32_t window, uint32_t seed, int halts)
{
    static struct plain book;
    struct fl_exec exec = FL_NO_EXEC;
    struct fl_exec_about about;
    struct fl_row row;
    int call, status;
    read_rounds(&book, set, length, window);
    WANT(fl_exec_open(&exec, set, length, window, &about) == FL_DONE);
    for (call = 0; call < 4000; call++) {
        uint32_t p, out;
        seed = seed * 1664525u + 1013904223u;
        p = (seed >> 16) % (book.processors + (seed % 64 == 0));
        out = p < book.processors && book.out[p];
        if (halts && seed >> 24 == 7) {
            status = fl_halt(&exec, p, seed);
            WANT(status == (out ? FL_DONE : FL_WRONG_CALL));
            if (out)
                put_back(&book, p, 1, seed);
        } else if (seed >> 24 < 100) {
            status = fl_take(&exec, p, &row);
            take_beside(&book, p, status, &row);
            want_beside(&book, &exec, p, status == FL_DONE);
        } else if (seed >> 24 < 180) {
            status = fl_post(&exec, p);
            WANT(status == (out ? FL_DONE : FL_WRONG_CALL));
            if (out)
                put_back(&book, p, 0, 0);
        } else {
            status = fl_post_and_take(&exec, p, &row);
            if (out) {
                put_back(&book, p, 0, 0);
                take_beside(&book, p, status, &row);
            } else {
                WANT(status == FL_WRONG_CALL);
            }
        }
        if (call % 64 == 0)
            compare_ends(&book, &exec, about.tasks);
    }
    compare_ends(&book, &exec, about.tasks);
    fl_exec_close(&exec);
}

/* ---- The executive. */

/* What a crew does and sees. Jobs write their own places without a lock; the gates' notes have one. */
struct crew_notes {
    pthread_mutex_t lock;
    pthread_cond_t met;
    uint64_t rows[FL_PROCESSORS]; /* by the gates: how many were begun, and where the last one ended */
    uint64_t ends[FL_PROCESSORS];
    uint64_t ticks[FL_TASKS];     /* by the jobs */
    uint64_t last[FL_TASKS];
    uint32_t processors, window;
    uint32_t blocked;             /* whose gate blocks at which of so many rows, until the other one is so far ahead */
    uint64_t at, of, ahead, whole;
    uint32_t bad_processor, waiting; /* which processor's gate fails at which row; all fail together where it is FL_PROCESSORS */
    uint64_t bad_row;
    uint32_t bad_task;
    int begun, wrong;
};

static void clear(struct crew_notes *notes, uint32_t window)
{
    memset(notes->rows, 0, sizeof notes->rows);
    memset(notes->ends, 0, sizeof notes->ends);
    memset(notes->ticks, 0, sizeof notes->ticks);
    memset(notes->last, 0, sizeof notes->last);
    notes->processors = notes->waiting = 0;
    notes->window = window;
    notes->blocked = notes->bad_processor = notes->bad_task = FL_NO_TASK;
    notes->bad_row = 0;
    notes->begun = notes->wrong = 0;
}

static void note_begin(const struct fl_exec_about *about, void *user)
{
    struct crew_notes *notes = (struct crew_notes *)user;
    notes->processors = about->processors;
    notes->begun++;
}

static int note_gate(uint32_t p, const struct fl_row *row, void *user)
{
    struct crew_notes *notes = (struct crew_notes *)user;
    uint32_t q;
    int why = 0;
    pthread_mutex_lock(&notes->lock);
    notes->wrong |= row->start.low != notes->ends[p] || notes->begun != 1;
    for (q = 0; q < notes->processors; q++) /* those that are in the window have begun all rows before it */
        notes->wrong |= notes->rows[q] + notes->window < notes->rows[p] + 1;
    pthread_cond_broadcast(&notes->met);
    while (notes->blocked == p && notes->rows[p] % notes->of == notes->at && notes->rows[p] + notes->ahead <= notes->whole &&
           notes->rows[1 - p] < notes->rows[p] + notes->ahead)
        pthread_cond_wait(&notes->met, &notes->lock);
    if (notes->bad_processor == p && notes->bad_row == notes->rows[p])
        why = 7;
    if (notes->bad_processor == FL_PROCESSORS) {
        for (notes->waiting++; notes->waiting < notes->processors;)
            pthread_cond_wait(&notes->met, &notes->lock);
        pthread_cond_broadcast(&notes->met);
        why = 20 + (int)p;
    }
    if (why == 0) {
        notes->ends[p] = row->end.low;
        notes->rows[p]++;
    }
    pthread_mutex_unlock(&notes->lock);
    return why;
}

static int note_job(uint32_t task, const struct fl_row *row, void *user)
{
    struct crew_notes *notes = (struct crew_notes *)user;
    if (task == notes->bad_task)
        return -9;
    if (row->start.low < notes->last[task])
        notes->wrong = 1;
    notes->last[task] = row->end.low;
    notes->ticks[task] += row->end.low - row->start.low;
    return 0;
}

static struct fl_crew crew_of(struct crew_notes *notes, uint32_t window)
{
    struct fl_crew crew = FL_NO_CREW;
    clear(notes, window ? window : FL_WINDOW);
    crew.gate = note_gate;
    crew.job = note_job;
    crew.begin = note_begin;
    crew.user = notes;
    crew.window = window;
    return crew;
}

/* All windows, over both sets, and up to three frames: what ran is what the gates and jobs saw. */
static void try_windows(struct crew_notes *notes)
{
    static struct fl_ended ended;
    uint32_t window, p, t;
    for (window = 0; window <= 1024; window++) {
        const int long_one = window % 8 == 1;
        const uint64_t frames = 1 + window % 3;
        struct fl_crew crew = crew_of(notes, window);
        crew.frames = frames;
        WANT(fl_execute(long_one ? five : three, long_one ? FIVE : THREE, &crew, &ended) == FL_DONE && !notes->wrong && notes->begun == 1);
        WANT(ended.about.processors == (long_one ? 3 : 2) && !ended.end.halted && ended.error == 0 && ended.frames == frames);
        for (p = 0; p < ended.about.processors; p++)
            WANT(ended.posted[p] == notes->rows[p] && notes->ends[p] == frames * ended.about.end.low);
        for (t = 0; t < ended.about.tasks; t++)
            WANT(ended.ticks[t].low == notes->ticks[t] && notes->ticks[t] > 0);
    }
}

/* Two tasks that have a processor each: the other one goes on a quarter of a window ahead of a gate that blocks. And where a task migrates, the other
   processor goes on at the post of its earlier row, while the next gate there blocks. */
static void try_blocking(struct crew_notes *notes)
{
    static const char two[] = "processors = 2\nhorizon = 64\ntask = [{name = \"a\", work = 1, period = 1}, {name = \"b\", work = 1, period = 1}]\n";
    static struct fl_ended ended;
    uint32_t window, p;
    for (window = 1; window <= 24; window++)
        for (p = 0; p < 2; p++) {
            struct fl_crew crew = crew_of(notes, window);
            notes->blocked = p;
            notes->of = 10;
            notes->at = 9;
            notes->ahead = (window + 2) / 4;
            notes->whole = 64;
            WANT(fl_execute(two, sizeof two - 1, &crew, &ended) == FL_DONE && !notes->wrong);
            WANT(ended.posted[0] == 64 && ended.posted[1] == 64 && ended.ticks[0].low == 64);
        }
    for (window = 2; window <= 24; window++) {
        struct fl_crew crew = crew_of(notes, window);
        notes->blocked = 0;
        notes->of = 3;
        notes->at = 1;
        notes->ahead = 2;
        notes->whole = 12;
        WANT(fl_execute(three, THREE, &crew, &ended) == FL_DONE && !notes->wrong);
    }
}

/* Without gates: what ran is what the jobs saw, over some windows and up to three frames, on one processor too; and a job that fails. */
static void try_without_gates(struct crew_notes *notes)
{
    static const char *const sets[] = {one, three, five};
    static struct fl_ended ended;
    uint32_t window, t;
    for (window = 0; window <= 96; window++) {
        const char *set = sets[window % 3];
        struct fl_crew crew = crew_of(notes, window);
        crew.gate = NULL;
        crew.frames = 1 + window % 4 % 3;
        WANT(fl_execute(set, strlen(set), &crew, &ended) == FL_DONE && !notes->wrong && notes->begun == 1 && ended.frames == crew.frames);
        for (t = 0; t < ended.about.tasks; t++)
            WANT(ended.ticks[t].low == notes->ticks[t] && notes->ticks[t] > 0);
        for (t = 1; t < ended.about.processors; t++)
            WANT(ended.posted[t] == ended.posted[0]);
        crew = crew_of(notes, window);
        crew.gate = NULL;
        notes->bad_task = window % 2;
        WANT(fl_execute(set, strlen(set), &crew, &ended) == FL_HALTED && ended.end.task == window % 2 && ended.end.why == (uint32_t)-9);
        WANT(ended.ticks[window % 2].low == 0 && notes->ticks[window % 2] == 0);
    }
}

/* A job that waits until the other task's has begun as many rows. */
static int meet(uint32_t task, const struct fl_row *row, void *user)
{
    struct crew_notes *notes = (struct crew_notes *)user;
    (void)row;
    pthread_mutex_lock(&notes->lock);
    notes->rows[task]++;
    pthread_cond_broadcast(&notes->met);
    while (notes->rows[1 - task] < notes->rows[task])
        pthread_cond_wait(&notes->met, &notes->lock);
    pthread_mutex_unlock(&notes->lock);
    return 0;
}

static void try_meeting(struct crew_notes *notes)
{
    static const char two[] = "processors = 2\nhorizon = 64\ntask = [{name = \"a\", work = 1, period = 1}, {name = \"b\", work = 1, period = 1}]\n";
    static struct fl_ended ended;
    uint32_t window;
    for (window = 1; window <= 24; window++) {
        struct fl_crew crew = crew_of(notes, window);
        crew.gate = NULL;
        crew.job = meet;
        WANT(fl_execute(two, sizeof two - 1, &crew, &ended) == FL_DONE && notes->rows[0] == 64 && notes->rows[1] == 64);
    }
}

/* A job that waits until those of all other processors have begun as many rows, or where its task is to block, as many more. */
static int meet_all(uint32_t task, const struct fl_row *row, void *user)
{
    struct crew_notes *notes = (struct crew_notes *)user;
    uint32_t q;
    uint64_t least;
    (void)row;
    pthread_mutex_lock(&notes->lock);
    least = ++notes->rows[task];
    if (notes->blocked == task && least == notes->at)
        least += notes->ahead;
    pthread_cond_broadcast(&notes->met);
    for (q = 0; q < notes->processors; q++)
        while ((notes->blocked == FL_NO_TASK || least > notes->rows[task]) && q != task && notes->rows[q] < least)
            pthread_cond_wait(&notes->met, &notes->lock);
    pthread_mutex_unlock(&notes->lock);
    return 0;
}

/* Without gates, six tasks that have a processor each: their jobs meet at each row; and one blocks until the others are a quarter of a window ahead. */
static void try_meeting_all(struct crew_notes *notes)
{
    static const char six[] = "processors = 6\nhorizon = 40\ntask = [{name = \"a\", work = 1, period = 1}, {name = \"b\", work = 1, period = 1}, "
                              "{name = \"c\", work = 1, period = 1}, {name = \"d\", work = 1, period = 1}, {name = \"e\", work = 1, period = 1}, "
                              "{name = \"f\", work = 1, period = 1}]\n";
    static struct fl_ended ended;
    uint32_t window, t;
    for (window = 1; window <= 64; window++) {
        struct fl_crew crew = crew_of(notes, window);
        crew.gate = NULL;
        crew.job = meet_all;
        if (window % 2 == 0) {
            notes->blocked = window % 6;
            notes->at = 20;
            notes->ahead = (window + 2) / 4;
        }
        WANT(fl_execute(six, sizeof six - 1, &crew, &ended) == FL_DONE);
        for (t = 0; t < 6; t++)
            WANT(notes->rows[t] == 40 && ended.ticks[t].low == 40 && ended.posted[t] == 40);
    }
}

/* A job that sleeps at some rows and works at others for a while. */
static int note_uneven_job(uint32_t task, const struct fl_row *row, void *user)
{
    struct crew_notes *notes = (struct crew_notes *)user;
    const struct timespec nap = {0, 300000};
    volatile uint32_t work;
    const int why = note_job(task, row, user);
    if (notes->ticks[task] % 100 == 0)
        nanosleep(&nap, NULL);
    for (work = 0; notes->ticks[task] % 50 > 25 && work < 1000; work++)
        continue;
    return why;
}

/* Without gates, jobs that are short and long by turns, so that now one thread runs the rows and now several. */
static void try_uneven_jobs(struct crew_notes *notes)
{
    static struct fl_ended ended;
    uint32_t window, t;
    for (window = 1; window <= 48; window++) {
        struct fl_crew crew = crew_of(notes, window);
        crew.gate = NULL;
        crew.job = note_uneven_job;
        crew.frames = 20;
        WANT(fl_execute(five, FIVE, &crew, &ended) == FL_DONE && !notes->wrong && notes->begun == 1 && ended.frames == 20);
        for (t = 0; t < 5; t++)
            WANT(ended.ticks[t].low == notes->ticks[t] && notes->ticks[t] > 0);
    }
}

/* A gate fails at each of its rows, a job at each of its task's first ones, and both processors' gates at once. */
static void try_failures(struct crew_notes *notes)
{
    static struct fl_ended ended;
    struct fl_crew crew;
    uint32_t window, p, t;
    uint64_t row;
    for (p = 0; p < 2; p++)
        for (row = 0; row < 8; row++)
            for (window = 1; window < 40; window += 19) {
                crew = crew_of(notes, window);
                notes->bad_processor = p;
                notes->bad_row = row;
                WANT(fl_execute(three, THREE, &crew, &ended) == FL_HALTED && !notes->wrong);
                WANT(ended.end.halted && ended.end.processor == p && ended.end.why == 7 && ended.posted[p] == row);
                WANT(ended.posted[1 - p] == notes->rows[1 - p]);
            }
    for (t = 0; t < 3; t++)
        for (window = 1; window <= 64; window++) {
            crew = crew_of(notes, window);
            notes->bad_task = t;
            WANT(fl_execute(three, THREE, &crew, &ended) == FL_HALTED && ended.end.task == t && ended.end.why == (uint32_t)-9);
            WANT(ended.ticks[t].low == 0 && notes->ticks[t] == 0);
        }
    for (window = 1; window <= 64; window++) {
        crew = crew_of(notes, window);
        notes->bad_processor = FL_PROCESSORS;
        WANT(fl_execute(three, THREE, &crew, &ended) == FL_HALTED && ended.end.processor == 0 && ended.end.why == 20);
        WANT(ended.posted[0] == 0 && ended.posted[1] == 0 && notes->waiting == 2);
    }
}

/* Frames: the schedule one time after the other; a failure in a later one; and a set that can't be repeated. */
static void try_frames(struct crew_notes *notes)
{
    static const char open_end[] = "processors = 1\nhorizon = 4\ntask = [{name = \"a\", work = 1, period = 3}]\n";
    static struct fl_ended once, ended;
    struct fl_crew crew = crew_of(notes, 3);
    uint32_t p, t;
    WANT(fl_execute(five, FIVE, &crew, &once) == FL_DONE && once.frames == 1 && !notes->wrong);
    crew = crew_of(notes, 3);
    crew.frames = 7;
    WANT(fl_execute(five, FIVE, &crew, &ended) == FL_DONE && ended.frames == 7 && ended.about.repeats == 1 && !notes->wrong);
    for (p = 0; p < 3; p++)
        WANT(ended.posted[p] == 7 * once.posted[p] && notes->rows[p] == ended.posted[p] && notes->ends[p] == 7 * ended.about.end.low);
    for (t = 0; t < 5; t++)
        WANT(ended.ticks[t].low == 7 * once.ticks[t].low && notes->ticks[t] == ended.ticks[t].low);
    crew = crew_of(notes, 3);
    crew.frames = 7;
    notes->bad_processor = 1;
    notes->bad_row = 2 * once.posted[1] + 1;
    WANT(fl_execute(five, FIVE, &crew, &ended) == FL_HALTED && ended.frames == 2 && ended.end.processor == 1 && ended.end.why == 7);
    WANT(ended.posted[1] == notes->bad_row && ended.end.start.low == notes->ends[1] && ended.end.start.low > 2 * ended.about.end.low && !notes->wrong);
    crew = crew_of(notes, 0);
    crew.frames = 2;
    WANT(fl_execute(open_end, sizeof open_end - 1, &crew, &ended) == FL_NO_REPEAT && ended.about.repeats == 0 && notes->begun == 0);
    crew.frames = 1;
    WANT(fl_execute(open_end, sizeof open_end - 1, &crew, &ended) == FL_DONE && ended.frames == 1);
}

/* One processor: three frames, and a gate that fails at each row of them. */
static void try_one(struct crew_notes *notes)
{
    static struct fl_ended once, ended;
    struct fl_crew crew = crew_of(notes, 1);
    uint64_t row, rows;
    WANT(fl_execute(one, ONE, &crew, &once) == FL_DONE && !notes->wrong && notes->rows[0] == once.posted[0] && once.waits == 0);
    for (row = 0, rows = once.posted[0]; row <= 3 * rows; row++) {
        const int all = row == 3 * rows;
        crew = crew_of(notes, row % 2 ? 1 : 32);
        crew.frames = 3;
        notes->bad_processor = 0;
        notes->bad_row = row;
        WANT(fl_execute(one, ONE, &crew, &ended) == (all ? FL_DONE : FL_HALTED) && !notes->wrong && ended.frames == row / rows);
        WANT(ended.posted[0] == row && ended.ticks[0].low == notes->ticks[0] && ended.ticks[1].low == notes->ticks[1]);
        WANT(all || (ended.end.start.low == notes->ends[0] && ended.end.why == 7));
    }
}

/* What isn't executed: nothing ran, and no gate or job was called. */
static void try_refusals(struct crew_notes *notes)
{
    static struct fl_ended ended;
    static const int no_cpus[FL_PROCESSORS] = {-1}, far_cpus[FL_PROCESSORS] = {CPU_SETSIZE};
    struct fl_crew crew = crew_of(notes, 0);
    WANT(fl_execute(three, THREE, NULL, &ended) == FL_WRONG_CALL && fl_execute(three, THREE, &crew, NULL) == FL_WRONG_CALL);
    WANT(fl_execute(NULL, 1, &crew, &ended) == FL_WRONG_CALL);
    WANT(fl_execute("x", 1, &crew, &ended) == FL_BAD_INPUT && ended.error == 0);
    crew.window = 1025;
    WANT(fl_execute(three, THREE, &crew, &ended) == FL_WRONG_CALL);
    crew.window = 0;
    crew.priority = 1000;
    WANT(fl_execute(three, THREE, &crew, &ended) == FL_NO_THREAD && ended.error == EINVAL && ended.posted[0] == 0);
    crew.priority = 0;
    crew.cpus = no_cpus;
    WANT(fl_execute(three, THREE, &crew, &ended) == FL_NO_THREAD && ended.error == EINVAL);
    crew.cpus = far_cpus;
    WANT(fl_execute(three, THREE, &crew, &ended) == FL_NO_THREAD && ended.error == EINVAL);
    WANT(notes->begun == 0 && notes->rows[0] == 0 && notes->rows[1] == 0);
}

/* A crew of nothing; threads that are pinned, where there are as many CPUs; and the second thread that can't be started. */
static void try_crews(struct crew_notes *notes)
{
    static struct fl_ended ended;
    static int cpus[FL_PROCESSORS];
    struct fl_crew crew = FL_NO_CREW;
    cpu_set_t set;
    WANT(fl_execute(three, THREE, &crew, &ended) == FL_DONE && ended.ticks[2].low == 24 && ended.posted[0] == ended.posted[1]);
    CPU_ZERO(&set);
    WANT(sched_getaffinity(0, sizeof set, &set) == 0);
    while (cpus[0] < CPU_SETSIZE - 1 && !CPU_ISSET((size_t)cpus[0], &set))
        cpus[0]++;
    cpus[1] = cpus[0];
    crew = crew_of(notes, 0);
    crew.cpus = cpus;
    WANT(fl_execute(three, THREE, &crew, &ended) == FL_DONE && !notes->wrong);
    cpus[1] = -1;
    crew = crew_of(notes, 0);
    crew.cpus = cpus;
    WANT(fl_execute(three, THREE, &crew, &ended) == FL_NO_THREAD && ended.error == EINVAL && notes->begun == 0 && notes->rows[0] == 0);
}

/* Another thread uses the library meanwhile, with the lock that the crew has too. It naps between two calls: a lock is nobody's by turns, and who takes
   it again at once may keep all others from it for minutes. */
struct other {
    pthread_mutex_t lock;
    int stop, wrong, calls;
};

static void *rate_on(void *argument)
{
    struct other *other = (struct other *)argument;
    const struct timespec nap = {0, 20000};
    int stop = 0;
    while (!stop) {
        struct fl_text text;
        pthread_mutex_lock(&other->lock);
        other->wrong |= fl_rate(three, THREE, &text) != FL_DONE;
        fl_free(&text);
        other->calls++;
        stop = other->stop;
        pthread_mutex_unlock(&other->lock);
        nanosleep(&nap, NULL);
    }
    return NULL;
}

static void try_lock(struct crew_notes *notes)
{
    static struct fl_ended ended;
    struct other other = {PTHREAD_MUTEX_INITIALIZER, 0, 0, 0};
    pthread_t thread;
    int i;
    WANT(pthread_create(&thread, NULL, rate_on, &other) == 0);
    for (i = 0; i < 20; i++) {
        struct fl_crew crew = crew_of(notes, 4);
        crew.lock = &other.lock;
        WANT(fl_execute(i % 2 ? one : five, i % 2 ? ONE : FIVE, &crew, &ended) == FL_DONE && !notes->wrong);
    }
    pthread_mutex_lock(&other.lock);
    other.stop = 1;
    pthread_mutex_unlock(&other.lock);
    pthread_join(thread, NULL);
    WANT(!other.wrong && other.calls > 0);
    pthread_mutex_destroy(&other.lock);
}

static void try_times(void)
{
    const struct fl_ticks three_ticks = {0, 3}, one = {0, 1}, high = {1, 0}, higher = {3, 0}, none = {0, 0};
    WANT(fl_time_of(none, three_ticks, 1000) == 0 && fl_time_of(one, three_ticks, 1000) == 333 && fl_time_of(one, three_ticks, 2000) == 667);
    WANT(fl_time_of(three_ticks, one, 10000000) == 30000000 && fl_time_of(higher, high, 10000000) == 30000000);
}

int main(void)
{
    static struct crew_notes notes;
    uint32_t seed;
    pthread_mutex_init(&notes.lock, NULL);
    pthread_cond_init(&notes.met, NULL);
    try_opening();
    try_long_sets();
    try_closed_calls();
    try_by_hand();
    for (seed = 1; seed <= 64; seed++) {
        try_any_order(three, THREE, 1 + seed % 9, seed, seed % 2);
        try_any_order(five, FIVE, seed % 5 ? 1 + seed % 7 : 1024, seed, seed % 4 == 0);
    }
    try_windows(&notes);
    try_blocking(&notes);
    try_without_gates(&notes);
    try_meeting(&notes);
    try_meeting_all(&notes);
    try_uneven_jobs(&notes);
    try_failures(&notes);
    try_frames(&notes);
    try_one(&notes);
    try_refusals(&notes);
    try_crews(&notes);
    try_lock(&notes);
    try_times();
    return bad;
}
