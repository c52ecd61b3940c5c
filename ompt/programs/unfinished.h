/* What the programs share: each task marks itself when its last statement has run, and behind a wait the program looks
   which tasks have not. So a run tells by itself whether a wait ended too early. */
#ifndef UNFINISHED_H
#define UNFINISHED_H

#include <stdatomic.h>
#include <stdio.h>
#include <unistd.h>

enum { MOST_TASKS = 64, TASK_MICROSECONDS = 2000, TEAM = 4 };

static _Atomic int is_done[MOST_TASKS];

/* Of the library that breaks the runtime, where that is loaded: which task of the program runs here. */
__attribute__((weak)) void taskaudit_is_task(int task);

static inline void is_task(int task) {
    if (taskaudit_is_task) taskaudit_is_task(task);
}

static inline void mark(int task) {
    atomic_store(&is_done[task], 1);
}

/* The last statement of each task. It comes late, so that a wait that does not wait ends before it. */
static void finish(int task) {
    is_task(task);
    usleep(TASK_MICROSECONDS);
    mark(task);
}

/* Prints which of so many tasks from the first on are not done yet, at once. */
static void print_unfinished_from(const char *wait, int first, int count) {
    char line[256];
    int length = snprintf(line, sizeof line, "%s: unfinished:", wait);
    for (int task = first; task < first + count; task++)
        if (!atomic_load(&is_done[task])) length += snprintf(line + length, sizeof line - length, " %d", task);
    line[length++] = '\n';
    if (write(STDOUT_FILENO, line, length) < 0) _exit(1);
}

/* The same for the tasks 0 to count - 1. */
static inline void print_unfinished(const char *wait, int count) {
    print_unfinished_from(wait, 0, count);
}

#endif
