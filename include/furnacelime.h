/* Furnacelime for C: the proved schedules of periodic tasks on several processors.
 *
 * What C must keep, since no proof reaches it:
 *  - A pointer and the length behind it name memory that the caller may use: what is read holds that many bytes, what is written has room
 *    for as many. No two of the areas that one call is handed overlap.
 *  - One call at a time: no two threads are inside the library at once, and it isn't called from a signal handler, nor in the child
 *    of a fork of a process with threads.
 *  - malloc, realloc and free come from one allocator, and align a block to each power of two up to 16 that divides its size.
 *  - A struct fl_exec is treated as a struct fl_plan; the calls of one book may come from several threads, one at a time, with a lock
 *    around each.
 *  - A struct fl_plan is FL_NO_PLAN before fl_open, and no other part of the program changes or copies it; fl_close gives its memory back.
 *  - A struct fl_text that a call wrote is given back by fl_free, once, at FL_NO_MEMORY too.
 *  - A call takes up to 128 KiB of the stack of its thread.
 *
 * No call starts a thread or waits, and each returns. Between two calls an open plan and a text hold memory, and nothing else is kept.
 */
#ifndef FURNACELIME_H
#define FURNACELIME_H

#include <stddef.h>
#include <stdint.h>
#include <stdlib.h>

#define FL_VERSION "1.0.0"

#ifdef __cplusplus
extern "C" {
#endif

/* How a call ended. Numbers below 64 are the program's exit statuses. */
enum fl_status {
    FL_DONE = 0,
    FL_INVALID = 1,         /* fl_check: the rows are no valid schedule, and the text says where and why */
    FL_NO_MEMORY = 5,
    FL_BAD_INPUT = 6,       /* the bytes are no task set, for fl_check and fl_draw no trace text, for fl_follow no tree text */
    FL_OVERLOAD = 7,        /* the tasks ask for more than the processors have */
    FL_SCALE_TOO_LARGE = 8, /* a unit would have more than 2^94 ticks */
    FL_TOO_LONG = 9,        /* fl_trace, fl_table ..: the schedule has more than 2,097,152 rows, one for each processor and round */
    FL_INPUT_TOO_LONG = 12, /* more than 1,048,576 bytes, or for fl_check and fl_draw more than 536,870,912 */
    FL_BAD_TREE = 16,       /* fl_follow: the tree is no reduction tree of its set */
    FL_TOO_WIDE = 17,       /* fl_table: the schedule has 2^64 ticks or more */
    FL_WRONG_CALL = 64,     /* a null pointer beside a length that isn't 0, a length past PTRDIFF_MAX, a plan that is open already or isn't
                               open, or too little room for the tasks; of a book a window that isn't from 1 to 1024, a processor that
                               isn't there, a take while the processor's row is out or after 2^64 - 1 rounds, a post or halt while none
                               is: nothing was done */
    FL_OVER = 65,           /* fl_next: the last round was told before; fl_take: all rows of the processor are posted */
    FL_WAIT = 66,           /* fl_take: an earlier row must be posted first */
    FL_HALTED = 67          /* fl_take: a row failed before */
};

/* Whether a pointer and a length can name memory. */
static inline int fl_is_area(const void *at, size_t length)
{
    return length <= PTRDIFF_MAX && (at || !length);
}

/* ---- The program's commands that take no lock, over bytes in memory.
 *
 *     struct fl_text text;
 *     int status = fl_trace(set, length, &text);
 *     fwrite(text.bytes, 1, text.length, status == FL_DONE ? stdout : stderr);
 *     fl_free(&text);
 */

/* What a command answers: at FL_DONE and FL_INVALID its text, at another status the line that says why there is none. At FL_NO_MEMORY and
 * FL_WRONG_CALL there is no text. Behind it stands a byte of 0, which isn't counted; where there is no text, `bytes` may be a null pointer. */
struct fl_text {
    char *bytes;
    size_t length;
};

/* What is asked: the number of a command, and which units fl_draw draws. */
struct fl_question {
    uint32_t command;
    uint64_t from;
    uint64_t units;
};

enum fl_command {
    FL_RATE = 1,
    FL_TREE = 2,
    FL_TRACE = 3,
    FL_TRACE_MET = 4,
    FL_TRACE_WRAP = 5,
    FL_TABLE = 6,
    FL_CHECK = 7,
    FL_FOLLOW = 8,
    FL_DRAW = 9
};

/* An answer that is kept until its text is told. */
struct fl_answer {
    void *at;
};

uint8_t furnacelime_ask(const struct fl_question *question, const uint8_t *bytes, size_t length, struct fl_answer *kept, size_t *text_length);
uint8_t furnacelime_tell(struct fl_answer answer, uint8_t *text, size_t room);

/* Asks, and makes room for the text. */
static inline int fl_ask(struct fl_question question, const void *bytes, size_t length, struct fl_text *text)
{
    struct fl_answer answer = {NULL};
    uint8_t none = 0;
    int status;
    if (text) {
        text->bytes = NULL;
        text->length = 0;
    }
    if (!text || !fl_is_area(bytes, length))
        return FL_WRONG_CALL;
    status = furnacelime_ask(&question, bytes ? (const uint8_t *)bytes : &none, length, &answer, &text->length);
    if (!answer.at)
        return status;
    text->bytes = (char *)malloc(text->length + 1);
    if (!text->bytes) {
        furnacelime_tell(answer, &none, 0); /* gives the answer back */
        text->length = 0;
        return FL_NO_MEMORY;
    }
    furnacelime_tell(answer, (uint8_t *)text->bytes, text->length);
    text->bytes[text->length] = 0;
    return status;
}

static inline int fl_ask_plainly(enum fl_command command, const void *bytes, size_t length, struct fl_text *text)
{
    struct fl_question question = {0, 0, 0};
    question.command = (uint32_t)command;
    return fl_ask(question, bytes, length, text);
}

/* Of a task set: its scale, rates, total and room. */
static inline int fl_rate(const void *set, size_t length, struct fl_text *text)
{
    return fl_ask_plainly(FL_RATE, set, length, text);
}

/* Of a task set: its tree of servers and duals. */
static inline int fl_tree(const void *set, size_t length, struct fl_text *text)
{
    return fl_ask_plainly(FL_TREE, set, length, text);
}

/* Of a task set: its schedule, as a trace text. */
static inline int fl_trace(const void *set, size_t length, struct fl_text *text)
{
    return fl_ask_plainly(FL_TRACE, set, length, text);
}

/* The same, with when each period was done. */
static inline int fl_trace_met(const void *set, size_t length, struct fl_text *text)
{
    return fl_ask_plainly(FL_TRACE_MET, set, length, text);
}

/* Of a task set: its wrapped schedule, as a trace text. */
static inline int fl_trace_wrap(const void *set, size_t length, struct fl_text *text)
{
    return fl_ask_plainly(FL_TRACE_WRAP, set, length, text);
}

/* Of a task set: its schedule as C source. */
static inline int fl_table(const void *set, size_t length, struct fl_text *text)
{
    return fl_ask_plainly(FL_TABLE, set, length, text);
}

/* Of a trace text: whether its rows are a valid schedule of its set. */
static inline int fl_check(const void *trace, size_t length, struct fl_text *text)
{
    return fl_ask_plainly(FL_CHECK, trace, length, text);
}

/* Of a tree text: the schedule of its tree, as a trace text. */
static inline int fl_follow(const void *tree, size_t length, struct fl_text *text)
{
    return fl_ask_plainly(FL_FOLLOW, tree, length, text);
}

/* Of a trace text: a picture of it as SVG, from this unit on, of at most so many units; 0 for as many as are easily looked at. */
static inline int fl_draw(const void *trace, size_t length, uint64_t from, uint64_t units, struct fl_text *text)
{
    struct fl_question question = {FL_DRAW, 0, 0};
    question.from = from;
    question.units = units;
    return fl_ask(question, trace, length, text);
}

/* Gives the memory of a text back. */
static inline void fl_free(struct fl_text *text)
{
    if (text) {
        free(text->bytes);
        text->bytes = NULL;
        text->length = 0;
    }
}

/* ---- The schedule of a task set round by round, of any length. Between two rounds nothing changes.
 *
 *     struct fl_plan plan = FL_NO_PLAN;
 *     if (fl_open(&plan, set, length, &about) == FL_DONE) {
 *         while (fl_next(&plan, &round, tasks, FL_PROCESSORS) == FL_DONE)
 *             ... from round.start up to round.end processor q runs tasks[q] ...
 *         fl_close(&plan);
 *     }
 */

/* A plan between two rounds. */
struct fl_plan {
    void *at;
};

#define FL_NO_PLAN {NULL}

/* The most processors of a set. */
#define FL_PROCESSORS 32

/* Stands for the number of a task where a processor runs none. Tasks are numbered from 0, in the order of the set. */
#define FL_NO_TASK UINT32_MAX

/* Ticks: high * 2^64 + low. Most sets have a high of 0. */
struct fl_ticks {
    uint64_t high;
    uint64_t low;
};

/* What a plan is about: the ticks of a unit, the tick at which the last round ends, and the number of processors. */
struct fl_about {
    struct fl_ticks scale;
    struct fl_ticks end;
    uint32_t processors;
};

/* A round, in ticks. The end is excluded, and is the start of the next round. */
struct fl_round {
    struct fl_ticks start;
    struct fl_ticks end;
};

uint8_t furnacelime_open(const uint8_t *set, size_t length, struct fl_plan *plan, struct fl_about *about);
uint8_t furnacelime_next(struct fl_plan plan, struct fl_plan *kept, uint32_t *tasks, size_t room, struct fl_round *round);
void furnacelime_close(struct fl_plan plan);

/* Opens the plan of a task set, before its first round. Where it isn't opened, it stays FL_NO_PLAN. */
static inline int fl_open(struct fl_plan *plan, const void *set, size_t length, struct fl_about *about)
{
    uint8_t none = 0;
    if (!plan || plan->at || !about || !fl_is_area(set, length))
        return FL_WRONG_CALL;
    return furnacelime_open(set ? (const uint8_t *)set : &none, length, plan, about);
}

/* Tells the next round, and the task on each processor of the set: `tasks` has room for that many numbers. It never answers FL_NO_MEMORY. */
static inline int fl_next(struct fl_plan *plan, struct fl_round *round, uint32_t *tasks, size_t room)
{
    if (!plan || !plan->at || !round || !tasks || room > PTRDIFF_MAX / sizeof *tasks)
        return FL_WRONG_CALL;
    return furnacelime_next(*plan, plan, tasks, room, round);
}

/* Gives the memory of a plan back. It may be opened again. */
static inline void fl_close(struct fl_plan *plan)
{
    if (plan && plan->at) {
        furnacelime_close(*plan);
        plan->at = NULL;
    }
}

/* ---- The executive's book: which rows of a task set's schedule are out and which are posted, for threads, gates and jobs of the
 * program's own. furnacelime_exec.h makes an executive of it.
 *
 *     struct fl_exec exec = FL_NO_EXEC;
 *     if (fl_exec_open(&exec, set, length, FL_WINDOW, &about) == FL_DONE) {
 *         ... the thread of processor p, in a loop, with one lock around each call:
 *         status = fl_take(&exec, p, &row);            FL_DONE: run the row, without the lock; then
 *         status = fl_post_and_take(&exec, p, &row);   or, where it failed, fl_halt(&exec, p, why)
 *         ... FL_WAIT: come again when processor row.waits_for has posted a row; FL_OVER, FL_HALTED: end
 *         fl_exec_tell(&exec, posted, FL_PROCESSORS, ticks, FL_TASKS, &end);
 *         fl_exec_close(&exec);
 *     }
 *
 * Whatever is called, and in whichever order: a row is handed out once and in the order of its processor; no two rows that are out at
 * once are of one task; a task's row is handed out once its earlier rows, on whatever processors, are posted; no row is `window` rounds or
 * more ahead of the processor that is furthest behind; the posted rows are a front of the schedule, which is valid. */

/* A book. */
struct fl_exec {
    void *at;
};

#define FL_NO_EXEC {NULL}

/* The most tasks of a set. */
#define FL_TASKS 256

/* The window of the program's `exec`; a window is from 1 to 1024. */
#define FL_WINDOW 32

/* As fl_about, with the number of tasks, and whether the schedule can be run again and again: no period is open at its start or at its end. */
struct fl_exec_about {
    struct fl_ticks scale;
    struct fl_ticks end;
    uint32_t processors;
    uint32_t tasks;
    uint32_t repeats; /* 1 or 0 */
};

/* A row: from `start` up to `end` the processor runs `task`, or FL_NO_TASK. At FL_WAIT `waits_for` is a processor, and the rest is as
 * it was. */
struct fl_row {
    struct fl_ticks start;
    struct fl_ticks end;
    uint32_t task;
    uint32_t waits_for;
};

/* The failure of the lowest processor that had one: its row, and the number that fl_halt was given. */
struct fl_exec_end {
    struct fl_ticks start;
    struct fl_ticks end;
    uint32_t task;
    uint32_t processor;
    uint32_t why;
    uint32_t halted; /* 0: there was none, and the rest says nothing */
};

/* What the next row of a processor wants: `before` ticks of its task are posted before it. FL_NO_TASK where it has no task, and where its round
 * isn't computed yet, as behind the end of the window; `before` says nothing then. */
struct fl_want {
    struct fl_ticks before;
    uint32_t task;
};

uint8_t furnacelime_exec_open(const uint8_t *set, size_t length, uint32_t window, struct fl_exec *exec, struct fl_exec_about *about);
uint8_t furnacelime_take(struct fl_exec exec, struct fl_exec *kept, uint32_t processor, struct fl_row *row);
uint8_t furnacelime_post(struct fl_exec exec, struct fl_exec *kept, uint32_t processor);
uint8_t furnacelime_post_and_take(struct fl_exec exec, struct fl_exec *kept, uint32_t processor, struct fl_row *row);
uint8_t furnacelime_halt(struct fl_exec exec, struct fl_exec *kept, uint32_t processor, uint32_t why);
uint8_t furnacelime_exec_tell(struct fl_exec exec, struct fl_exec *kept, uint64_t *posted, size_t processors, struct fl_ticks *ticks,
                              size_t tasks, struct fl_exec_end *end);
uint8_t furnacelime_exec_want(struct fl_exec exec, struct fl_exec *kept, uint32_t processor, struct fl_want *want);
void furnacelime_exec_close(struct fl_exec exec);

/* Opens the book of a task set, before its first row. Where it isn't opened, it stays FL_NO_EXEC. All memory is taken here. */
static inline int fl_exec_open(struct fl_exec *exec, const void *set, size_t length, uint32_t window, struct fl_exec_about *about)
{
    uint8_t none = 0;
    if (!exec || exec->at || !about || !fl_is_area(set, length))
        return FL_WRONG_CALL;
    return furnacelime_exec_open(set ? (const uint8_t *)set : &none, length, window, exec, about);
}

/* Hands out the next row of a processor. */
static inline int fl_take(struct fl_exec *exec, uint32_t processor, struct fl_row *row)
{
    if (!exec || !exec->at || !row)
        return FL_WRONG_CALL;
    return furnacelime_take(*exec, exec, processor, row);
}

/* Posts the row that is out on a processor: it has run. */
static inline int fl_post(struct fl_exec *exec, uint32_t processor)
{
    if (!exec || !exec->at)
        return FL_WRONG_CALL;
    return furnacelime_post(*exec, exec, processor);
}

/* Both at once. At FL_WRONG_CALL nothing was done; at each other status the row is posted, and the status is that of the take. */
static inline int fl_post_and_take(struct fl_exec *exec, uint32_t processor, struct fl_row *row)
{
    if (!exec || !exec->at || !row)
        return FL_WRONG_CALL;
    return furnacelime_post_and_take(*exec, exec, processor, row);
}

/* The row that is out on a processor failed, for a reason of the program's own number. It isn't posted, and no further row is handed out. */
static inline int fl_halt(struct fl_exec *exec, uint32_t processor, uint32_t why)
{
    if (!exec || !exec->at)
        return FL_WRONG_CALL;
    return furnacelime_halt(*exec, exec, processor, why);
}

/* Tells how many rows each processor has posted, of each task the ticks of its posted rows, and the first failure. */
static inline int fl_exec_tell(struct fl_exec *exec, uint64_t *posted, size_t processors, struct fl_ticks *ticks, size_t tasks,
                               struct fl_exec_end *end)
{
    if (!exec || !exec->at || !posted || !ticks || !end || processors > PTRDIFF_MAX / sizeof *posted || tasks > PTRDIFF_MAX / sizeof *ticks)
        return FL_WRONG_CALL;
    return furnacelime_exec_tell(*exec, exec, posted, processors, ticks, tasks, end);
}

/* Tells what the next row of a processor wants. One that waits behind an earlier row of its task may go on once as many ticks are posted. */
static inline int fl_exec_want(struct fl_exec *exec, uint32_t processor, struct fl_want *want)
{
    if (!exec || !exec->at || !want)
        return FL_WRONG_CALL;
    return furnacelime_exec_want(*exec, exec, processor, want);
}

/* Gives the memory of a book back. It may be opened again. */
static inline void fl_exec_close(struct fl_exec *exec)
{
    if (exec && exec->at) {
        furnacelime_exec_close(*exec);
        exec->at = NULL;
    }
}

#ifdef __cplusplus
}
#endif

#endif
