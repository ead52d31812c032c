/* Reads a task set from a file, and steps through its schedule round by round, as an executive would. */
#include "furnacelime.h"

#include <inttypes.h>
#include <stdio.h>
#include <stdlib.h>

/* The whole file, and its length; a null pointer where it can't be read. */
static unsigned char *read_file(const char *name, size_t *length)
{
    const size_t most = 1048577; /* one more than a set may have, so that a longer one is refused */
    FILE *file = fopen(name, "rb");
    unsigned char *bytes = file ? malloc(most) : NULL;
    if (bytes)
        *length = fread(bytes, 1, most, file);
    if (file)
        fclose(file);
    return bytes;
}

/* Ticks below 2^64, which is what most sets have; others are printed by their halves. */
static void print_ticks(struct fl_ticks ticks)
{
    if (ticks.high)
        printf(" %" PRIu64 "*2^64+%" PRIu64, ticks.high, ticks.low);
    else
        printf(" %" PRIu64, ticks.low);
}

/* Prints each round: its start, its end, and the task on each processor. */
static int print_rounds(const unsigned char *set, size_t length)
{
    struct fl_plan plan = FL_NO_PLAN;
    struct fl_about about;
    struct fl_round round;
    uint32_t tasks[FL_PROCESSORS];
    int status = fl_open(&plan, set, length, &about);
    if (status != FL_DONE) {
        fprintf(stderr, "the set is refused with status %d\n", status);
        return status;
    }
    while ((status = fl_next(&plan, &round, tasks, FL_PROCESSORS)) == FL_DONE) {
        uint32_t q;
        printf("round");
        print_ticks(round.start);
        print_ticks(round.end);
        for (q = 0; q < about.processors; q++)
            tasks[q] == FL_NO_TASK ? (void)printf(" -") : (void)printf(" %" PRIu32, tasks[q]);
        printf("\n");
    }
    fl_close(&plan);
    return status == FL_OVER ? FL_DONE : status;
}

int main(int count, char **words)
{
    size_t length = 0;
    unsigned char *set = count == 2 ? read_file(words[1], &length) : NULL;
    int status;
    if (!set) {
        fprintf(stderr, "rounds FILE: FILE is a task set\n");
        return 2;
    }
    status = print_rounds(set, length);
    free(set);
    return status;
}
