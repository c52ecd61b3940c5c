/* What the libraries share that break a runtime on purpose: which fault is asked for, and where the members of a team meet
   without waiting for tasks. */
#ifndef TASKAUDIT_BREAKING_H
#define TASKAUDIT_BREAKING_H

#include <pthread.h>
#include <stdbool.h>
#include <stdlib.h>
#include <string.h>

/* Whether this word is among those of TASKAUDIT_BREAK. */
static bool breaks(const char *what) {
    const char *words = getenv("TASKAUDIT_BREAK");
    size_t length = strlen(what);
    for (const char *at = words; at && (at = strstr(at, what)); at += length)
        if ((at == words || at[-1] == ',') && (at[length] == ',' || at[length] == 0)) return true;
    return false;
}

/* How many members of a team have arrived, in which round of their meetings. */
struct arrivals {
    int count;
    unsigned round;
};
/* All meetings have one lock. */
static pthread_mutex_t meeting = PTHREAD_MUTEX_INITIALIZER;
static pthread_cond_t all_arrived = PTHREAD_COND_INITIALIZER;

/* Waits until so many members have arrived. This thread has the lock. */
static void await_all(struct arrivals *here, int size) {
    unsigned round = here->round;
    if (++here->count == size) {
        here->count = 0;
        here->round++;
        pthread_cond_broadcast(&all_arrived);
    }
    while (here->round == round) pthread_cond_wait(&all_arrived, &meeting);
}

#endif
