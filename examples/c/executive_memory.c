/* Refuses each allocation of the library once, of a book that is opened and of an execution, of one frame and of three: each time the answer is
   FL_NO_MEMORY, no block is lost, and no row ran but those of whole frames; an open book takes no memory. It says each line at which that isn't
   so, and ends with 1 then. It is linked with -Wl,--wrap=malloc,--wrap=realloc,--wrap=free, so that the library's calls come here. */
#ifndef _POSIX_C_SOURCE
#define _POSIX_C_SOURCE 200809L
#endif
#include "furnacelime.h"
#include "furnacelime_exec.h"

#include <stdio.h>

void *__real_malloc(size_t size);
void *__real_realloc(void *block, size_t size);
void __real_free(void *block);
void *__wrap_malloc(size_t size);
void *__wrap_realloc(void *block, size_t size);
void __wrap_free(void *block);

static long calls, refused, blocks; /* how many allocations were asked for, which one is refused, and how many blocks there are */

/* Whether this allocation is given. */
static int is_given(void) { return ++calls != refused; }

void *__wrap_malloc(size_t size)
{
    void *block = is_given() ? __real_malloc(size) : NULL;
    blocks += block != NULL;
    return block;
}

void *__wrap_realloc(void *block, size_t size)
{
    void *other = is_given() ? __real_realloc(block, size) : NULL;
    blocks += !block && other;
    return other;
}

void __wrap_free(void *block)
{
    blocks -= block != NULL;
    __real_free(block);
}

static int bad;
#define WANT(x) do { if (!(x)) { bad = 1; printf("executive_memory.c line %d, allocation %ld: %s\n", __LINE__, refused, #x); } } while (0)

static const char set[] = "processors = 3\nhorizon = 60\ntask = [{name = \"a\", work = 3, period = 4}, {name = \"b\", work = 3, period = 5}, "
                          "{name = \"c\", work = 4, period = 6}, {name = \"d\", work = 3, period = 10}, {name = \"e\", work = 1, period = 2}]\n";

/* Takes and posts all rows of a book in turn, and answers how many there were. */
static uint64_t run_all(struct fl_exec *exec, uint32_t processors)
{
    int out[FL_PROCESSORS] = {0}, over[FL_PROCESSORS] = {0};
    uint32_t left = processors, p;
    uint64_t rows = 0;
    struct fl_row row;
    while (left > 0)
        for (p = 0; p < processors; p++)
            if (!over[p]) {
                const int status = out[p] ? fl_post_and_take(exec, p, &row) : fl_take(exec, p, &row);
                out[p] = status == FL_DONE;
                rows += status == FL_DONE;
                over[p] = status == FL_OVER;
                left -= status == FL_OVER;
            }
    return rows;
}

/* Opens a book with each allocation refused in turn, and with none; answers how many there are. */
static long try_book(uint32_t window)
{
    int status = FL_NO_MEMORY;
    for (refused = 1; status == FL_NO_MEMORY; refused++) {
        struct fl_exec exec = FL_NO_EXEC;
        struct fl_exec_about about;
        calls = 0;
        status = fl_exec_open(&exec, set, sizeof set - 1, window, &about);
        WANT(status == FL_DONE || (status == FL_NO_MEMORY && !exec.at && blocks == 0));
        WANT(status != FL_DONE || calls < refused); /* a refusal is never passed over */
        if (status == FL_DONE) {
            const long before = calls;
            WANT(blocks > 0 && run_all(&exec, about.processors) > 0 && calls == before);
        }
        fl_exec_close(&exec);
        WANT(blocks == 0);
    }
    return refused - 2;
}

static int rows_ran; /* with the lock of the crew */

/* The gate of each processor, or the job of each task. */
static int count_row(uint32_t number, const struct fl_row *row, void *user)
{
    pthread_mutex_t *lock = (pthread_mutex_t *)user;
    (void)number;
    (void)row;
    pthread_mutex_lock(lock);
    rows_ran++;
    pthread_mutex_unlock(lock);
    return 0;
}

/* The same of an execution of so many frames, with gates or without, each of which opens a book: those before the refusal ran whole, and no row of
 * another one did. */
static long try_execution(uint32_t window, uint64_t frames, int gated)
{
    static struct fl_ended ended;
    static int frame_rows; /* of a frame, by the call for one alone, which comes first */
    pthread_mutex_t lock = PTHREAD_MUTEX_INITIALIZER;
    int status = FL_NO_MEMORY;
    for (refused = 1; status == FL_NO_MEMORY; refused++) {
        struct fl_crew crew = FL_NO_CREW;
        crew.gate = gated ? count_row : NULL;
        crew.job = gated ? NULL : count_row;
        crew.user = &lock;
        crew.window = window;
        crew.frames = frames;
        calls = 0;
        rows_ran = 0;
        status = fl_execute(set, sizeof set - 1, &crew, &ended);
        if (frames == 1 && status == FL_DONE)
            frame_rows = rows_ran;
        WANT(status == FL_DONE ? ended.frames == frames && frame_rows > 0 : status == FL_NO_MEMORY && ended.frames < frames);
        WANT(rows_ran == (int)ended.frames * frame_rows && (ended.frames > 0 || ended.posted[0] == 0));
        WANT(blocks == 0);
    }
    pthread_mutex_destroy(&lock);
    return refused - 2;
}

int main(void)
{
    const uint32_t windows[] = {1, 32, 1024};
    size_t i;
    for (i = 0; i < sizeof windows / sizeof *windows; i++) {
        const long allocations = try_book(windows[i]);
        WANT(allocations > 10);
        WANT(try_execution(windows[i], 1, 1) == allocations);
        WANT(try_execution(windows[i], 3, 1) == 3 * allocations);
        WANT(try_execution(windows[i], 1, 0) == allocations);
        WANT(try_execution(windows[i], 3, 0) == 3 * allocations);
    }
    return bad;
}
