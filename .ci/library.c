/* The library for C where memory is refused: over each file that is named each call is done once without a fault, and then once for each allocation,
   which is refused alone or with all behind it. A call then answers as without the fault or FL_NO_MEMORY, without a text; and when the text is freed, or
   the plan closed, no more memory is held than before. Blocks are of just the length that is asked for, so that the sanitizers see what reads past them.

     cc -fsanitize=address,undefined -Wl,--wrap=malloc,--wrap=realloc,--wrap=free -I include library.c libfurnacelime_c.a */
#include "furnacelime.h"

#include <stdio.h>
#include <string.h>

void *__real_malloc(size_t);
void *__real_realloc(void *, size_t);
void __real_free(void *);

static long calls, first = -1, last, held, done, wrong;

static int refused(void)
{
    calls++;
    return first <= calls && calls <= last;
}

void *__wrap_malloc(size_t size)
{
    void *block = refused() ? NULL : __real_malloc(size);
    if (block) {
        held++;
        memset(block, 0xA5, size);
    }
    return block;
}

void *__wrap_realloc(void *block, size_t size)
{
    void *moved = refused() ? NULL : __real_realloc(block, size);
    held += moved && !block;
    return moved;
}

void __wrap_free(void *block)
{
    held -= block != NULL;
    __real_free(block);
}

typedef int command(const void *bytes, size_t length, struct fl_text *text);

static int draw_all(const void *bytes, size_t length, struct fl_text *text)
{
    return fl_draw(bytes, length, 0, 0, text);
}

static int draw_part(const void *bytes, size_t length, struct fl_text *text)
{
    return fl_draw(bytes, length, 1, 2, text);
}

/* Goes through the rounds, and gives for a text the sum of all that they tell. */
static int rounds(const void *bytes, size_t length, struct fl_text *text)
{
    struct fl_plan plan = FL_NO_PLAN;
    struct fl_about about;
    struct fl_round round;
    uint32_t tasks[FL_PROCESSORS], q;
    static unsigned long long sum[2];
    long before;
    int status = fl_open(&plan, bytes, length, &about);
    text->bytes = NULL;
    text->length = 0;
    if (status != FL_DONE)
        return status;
    before = calls;
    sum[0] = sum[1] = 0;
    while ((status = fl_next(&plan, &round, tasks, FL_PROCESSORS)) == FL_DONE && sum[1]++ < 100000)
        for (q = 0; q < about.processors; q++)
            sum[0] = sum[0] * 31 + tasks[q] + round.start.low + 7 * round.end.low;
    wrong += calls != before || status != FL_OVER;
    fl_close(&plan);
    fl_close(&plan);
    text->length = sizeof sum;
    text->bytes = __real_malloc(sizeof sum);
    held++;
    memcpy(text->bytes, sum, sizeof sum);
    return FL_DONE;
}

static const struct {
    const char *name;
    command *call;
} commands[] = {
    {"rate", fl_rate}, {"tree", fl_tree}, {"trace", fl_trace}, {"trace --met", fl_trace_met}, {"trace --by wrap", fl_trace_wrap},
    {"table", fl_table}, {"check", fl_check}, {"follow", fl_follow}, {"draw", draw_all}, {"draw, a part", draw_part}, {"rounds", rounds},
};

static void judge(const char *what, int right, int number, const char *file, long from, long to)
{
    if (right)
        return;
    if (wrong++ < 20)
        printf("library: %s, over %s, allocations %ld to %ld refused: %s\n", commands[number].name, file, from, to, what);
}

/* Does a command with these allocations refused. */
static void with_fault(int number, const char *file, const void *bytes, size_t length, int status, const struct fl_text *without, long from, long to)
{
    long before = held;
    struct fl_text text = {NULL, 0};
    int got;
    calls = 0;
    first = from;
    last = to;
    got = commands[number].call(bytes, length, &text);
    first = -1;
    last = 0;
    done++;
    if (got == FL_NO_MEMORY)
        judge("a text beside FL_NO_MEMORY", text.length == 0, number, file, from, to);
    else
        judge("another answer",
              got == status && text.length == without->length && (!text.length || !memcmp(text.bytes, without->bytes, text.length)),
              number, file, from, to);
    fl_free(&text);
    judge("memory isn't given back", held == before, number, file, from, to);
}

/* What the header refuses. */
static void try_wrong_calls(void)
{
    static const char set[] = "processors = 2\nhorizon = 1\n";
    struct fl_text text = {NULL, 0};
    struct fl_plan none = FL_NO_PLAN, plan = FL_NO_PLAN;
    struct fl_about about;
    struct fl_round round;
    uint32_t tasks[FL_PROCESSORS];
    int right = fl_rate(NULL, 3, &text) == FL_WRONG_CALL && fl_rate("", (size_t)-1, &text) == FL_WRONG_CALL && fl_rate("", 0, NULL) == FL_WRONG_CALL &&
                fl_ask_plainly((enum fl_command)0, set, sizeof set - 1, &text) == FL_WRONG_CALL &&
                fl_open(NULL, set, sizeof set - 1, &about) == FL_WRONG_CALL &&
                fl_open(&none, set, sizeof set - 1, NULL) == FL_WRONG_CALL && fl_open(&none, NULL, 1, &about) == FL_WRONG_CALL &&
                fl_next(&none, &round, tasks, FL_PROCESSORS) == FL_WRONG_CALL && fl_open(&plan, set, sizeof set - 1, &about) == FL_DONE &&
                fl_open(&plan, set, sizeof set - 1, &about) == FL_WRONG_CALL && fl_next(&plan, &round, tasks, 1) == FL_WRONG_CALL &&
                fl_next(&plan, NULL, tasks, 2) == FL_WRONG_CALL && fl_next(&plan, &round, NULL, 2) == FL_WRONG_CALL &&
                fl_next(&plan, &round, tasks, 2) == FL_DONE && fl_next(&plan, &round, tasks, 2) == FL_OVER;
    fl_close(&plan);
    fl_close(NULL);
    fl_free(&text);
    fl_free(NULL);
    if (!right) {
        printf("library: a call that the header refuses is answered otherwise\n");
        wrong++;
    }
}

int main(int count, char **words)
{
    static unsigned char room[1 << 20];
    int file, number;
    for (file = 1; file < count; file++) {
        FILE *from = fopen(words[file], "rb");
        size_t length = from ? fread(room, 1, sizeof room, from) : 0;
        unsigned char *bytes = __real_malloc(length ? length : 1);
        if (from)
            fclose(from);
        memcpy(bytes, room, length);
        for (number = 0; number < (int)(sizeof commands / sizeof *commands); number++) {
            struct fl_text without = {NULL, 0};
            long all, call;
            int status;
            calls = 0;
            status = commands[number].call(bytes, length, &without);
            all = calls;
            for (call = 1; call <= all; call++) {
                with_fault(number, words[file], bytes, length, status, &without, call, call);
                with_fault(number, words[file], bytes, length, status, &without, call, all);
            }
            fl_free(&without);
        }
        __real_free(bytes);
    }
    try_wrong_calls();
    printf("library: %ld calls with an allocation refused, %ld answers wrong, %ld blocks still held\n", done, wrong, held);
    return wrong > 0 || held != 0;
}
