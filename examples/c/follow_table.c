/* Follows a table with one thread for each processor, and says what each processor ran:

     ./furnacelime table < examples/three-tasks.toml > table.h
     cc -std=c99 -I. -pthread examples/c/follow_table.c -o follow_table && ./follow_table

   `./follow_table 1000000` takes a unit for 1,000,000 nanoseconds: each row waits for its start. Without a number, or with 0, no time passes.
   `./follow_table 1000000 20` follows the table 20 times, and `./follow_table 1000000 0` for ever: from the second time on what comes before
   repeat_from is left out. A table whose rows don't come again is followed once. `./follow_table 0 20 rows` writes the rows that were run, as a
   trace has them. It is C and C++. */
#ifndef _POSIX_C_SOURCE
#define _POSIX_C_SOURCE 200809L
#endif
#include <errno.h>
#include <inttypes.h>
#include <pthread.h>
#include <stdio.h>
#include <stdlib.h>
#include <string.h>
#include <time.h>
#include "table.h"

enum { MOST_PROCESSORS = 32, MOST_TASKS = 256 };

/* What was run: a task, or none where it is -1, from a tick up to another. */
struct ran_row {
  uint64_t start, end;
  int task;
};

struct worker {
  pthread_t thread;
  uint32_t processor;
  uint64_t ran[MOST_TASKS + 1]; /* the ticks of each task, and behind them those in which none ran */
  uint64_t latest;              /* by how many nanoseconds a row began too late, at most */
  struct ran_row *rows;         /* what was run, where that is to be written */
  size_t row_count, room;
};

static const struct furnacelime_table *const table = &furnacelime_table;
static struct worker workers[MOST_PROCESSORS];
static struct timespec begin;
static uint64_t unit_length; /* in nanoseconds, or 0 */
static uint64_t turns = 1;   /* how often the table is followed, or 0 for ever */
static int keeps_rows;

static const char *name_of(int task) { return task < 0 ? "-" : table->tasks[task].name; }

/* whole * part / all, rounded down, for a part that is below all: the product may have 128 bits, so it is divided bit by bit. */
static uint64_t share_of(uint64_t whole, uint64_t part, uint64_t all) {
  uint64_t quotient = 0, rest = 0;
  for (int bit = 63; bit >= 0; bit--) {
    const int twice = rest >= all - rest;
    rest = twice ? rest - (all - rest) : rest + rest;
    quotient = quotient + quotient + (uint64_t)twice;
    if ((whole >> bit & 1u) && part > 0) {
      const int once = rest >= all - part;
      rest = once ? rest - (all - part) : rest + part;
      quotient += (uint64_t)once;
    }
  }
  return quotient;
}

/* Waits until a tick begins, and notes how late that is seen. */
static void wait_for(struct worker *own, uint64_t tick) {
  const uint64_t second = 1000000000u;
  const uint64_t nanoseconds =
      (uint64_t)begin.tv_nsec + tick / table->scale * unit_length + share_of(unit_length, tick % table->scale, table->scale);
  struct timespec at = begin, now;
  at.tv_sec += (time_t)(nanoseconds / second);
  at.tv_nsec = (long)(nanoseconds % second);
  while (clock_nanosleep(CLOCK_MONOTONIC, TIMER_ABSTIME, &at, NULL) == EINTR) continue;
  clock_gettime(CLOCK_MONOTONIC, &now);
  const uint64_t late = (uint64_t)(now.tv_sec - at.tv_sec) * second + (uint64_t)now.tv_nsec - (uint64_t)at.tv_nsec;
  if (late > own->latest) own->latest = late;
}

/* Runs a task from a tick up to another. A program of your own has the task's code run here, and takes the processor from it at `end`. */
static void run(struct worker *own, int task, uint64_t start, uint64_t end) {
  own->ran[task < 0 ? table->task_count : (uint32_t)task] += end - start;
  if (!keeps_rows) return;
  if (own->row_count == own->room) {
    own->room = own->room == 0 ? 1024 : 2 * own->room;
    own->rows = (struct ran_row *)realloc(own->rows, own->room * sizeof *own->rows);
    if (own->rows == NULL) abort();
  }
  struct ran_row *row = &own->rows[own->row_count++];
  row->start = start;
  row->end = end;
  row->task = task;
}

static void *follow(void *argument) {
  struct worker *own = (struct worker *)argument;
  const struct furnacelime_processor *processor = &table->processors[own->processor];
  uint64_t later = 0; /* the ticks by which this turn's rows come later than the table says */
  for (uint64_t turn = 0; turns == 0 || turn < turns; turn++) {
    for (uint32_t i = 0; i < processor->row_count; i++) {
      const struct furnacelime_row *row = &processor->rows[i];
      uint64_t start = row->start * table->step;
      const uint64_t end = row->end * table->step;
      if (turn > 0 && end <= table->repeat_from) continue; /* what comes before repeat_from comes once */
      if (turn > 0 && start < table->repeat_from) start = table->repeat_from;
      if (unit_length > 0) wait_for(own, later + start);
      run(own, row->task, later + start, later + end);
    }
    if (table->repeat_from == table->ticks) break; /* the rows don't come again */
    later += table->ticks - table->repeat_from;
  }
  return NULL;
}

/* Writes the rows that a processor ran. */
static void write_rows(const struct worker *worker) {
  for (size_t i = 0; i < worker->row_count; i++) {
    const struct ran_row *row = &worker->rows[i];
    printf("row %" PRIu32 " %" PRIu64 " %" PRIu64 " %s\n", worker->processor, row->start, row->end, name_of(row->task));
  }
}

/* Says what a processor ran, and in real time how late its rows began at most. */
static void write_sums(const struct worker *worker) {
  printf("processor %" PRIu32 " ran", worker->processor);
  for (uint32_t j = 0; j <= table->task_count; j++)
    if (worker->ran[j] > 0) printf(" %s %" PRIu64, name_of(j < table->task_count ? (int)j : -1), worker->ran[j]);
  if (unit_length > 0) printf(", late at most %" PRIu64 " ns", worker->latest);
  printf("\n");
}

int main(int count, char **words) {
  if (count > 1) unit_length = strtoull(words[1], NULL, 10);
  if (count > 2) turns = strtoull(words[2], NULL, 10);
  keeps_rows = count > 3 && strcmp(words[3], "rows") == 0 && turns > 0;
  clock_gettime(CLOCK_MONOTONIC, &begin);
  for (uint32_t p = 0; p < table->processor_count; p++) {
    workers[p].processor = p;
    if (pthread_create(&workers[p].thread, NULL, follow, &workers[p]) != 0) return EXIT_FAILURE;
  }
  for (uint32_t p = 0; p < table->processor_count; p++) pthread_join(workers[p].thread, NULL);
  for (uint32_t p = 0; p < table->processor_count; p++) {
    if (keeps_rows) write_rows(&workers[p]); else write_sums(&workers[p]);
    free(workers[p].rows);
  }
  return EXIT_SUCCESS;
}
