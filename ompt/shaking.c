/* Changes the timing of the program that is recorded, so that its runs differ more than they do by themselves. How often a
   way of it shows a fault depends on the fault, the program and the machine, so runs take the ways by turns. Which way a
   run takes, and what it does where, is drawn from a seed and the number of the run. */
#define _GNU_SOURCE
#include "recorder.h"

#include <sched.h>
#include <stdlib.h>
#include <time.h>

/* The longest delay, in nanoseconds; the most yields at one place; and at how many of its places a thread is delayed in
   any case. Later places are taken ever more seldom, so that long runs end too: of n places about
   FIRST_PLACES * (1 + log(n / FIRST_PLACES)). */
enum { LONGEST_DELAY = 1000000, MOST_YIELDS = 7, FIRST_PLACES = 256 };

static const char *const ways[WAYS] = {"as it is", "yields", "delays at begins", "delays at ends", "fewer cores"};

const char *name_of_way(void) {
    return ways[settings.way];
}

/* The next number after this one (splitmix64). */
static uint64_t following(uint64_t *state) {
    uint64_t drawn = *state += 0x9e3779b97f4a7c15;
    drawn = (drawn ^ drawn >> 30) * 0xbf58476d1ce4e5b9;
    drawn = (drawn ^ drawn >> 27) * 0x94d049bb133111eb;
    return drawn ^ drawn >> 31;
}

/* Where the numbers of a run begin. */
static uint64_t begin_of_run(void) {
    uint64_t state = settings.seed;
    return following(&state) + settings.run_number;
}

/* Draws a number below the bound. */
static uint64_t draw(struct thread *thread, uint64_t bound) {
    if (!thread->random) thread->random = begin_of_run() * MAX_THREADS + (uint64_t)thread->number + 1;
    return following(&thread->random) % bound;
}

/* The processors that the threads of a run share: one, or in some runs up to half of those that the process may use. */
static cpu_set_t shared;

static void choose_processors(void) {
    cpu_set_t all;
    uint64_t random = begin_of_run();
    CPU_ZERO(&shared);
    if (sched_getaffinity(0, sizeof all, &all) != 0) return;
    int left = CPU_COUNT(&all), most = left < 4 || following(&random) % 2 ? 1 : left / 2;
    int wanted = 1 + (int)(following(&random) % (uint64_t)most);
    for (int number = 0; number < CPU_SETSIZE && wanted; number++) {
        if (!CPU_ISSET(number, &all)) continue;
        /* each choice of so many has the same chance */
        if ((int)(following(&random) % (uint64_t)left--) < wanted) CPU_SET(number, &shared), wanted--;
    }
}

static bool take_number(const char **text, uint64_t *number) {
    char *end;
    if (**text < '0' || **text > '9') return false;
    *number = strtoull(*text, &end, 10);
    *text = end;
    return *number <= INT64_MAX;
}

bool take_shaking(const char *text) {
    settings.run_number = 1;
    if (!take_number(&text, &settings.seed)) return false;
    if (*text == ':' && (text++, !take_number(&text, &settings.run_number))) return false;
    if (*text) return false;
    /* runs behind one another take each way once, and runs of other seeds begin with another one */
    settings.way = (enum way)((settings.seed % WAYS + settings.run_number % WAYS) % WAYS);
    if (settings.way == FEWER_CORES) choose_processors();
    return settings.is_shaken = true;
}

/* Draws whether the thread is delayed at this place. */
static bool is_taken(struct thread *thread) {
    return draw(thread, ++thread->places) < FIRST_PLACES;
}

static void yield(struct thread *thread) {
    if (!is_taken(thread)) return;
    for (uint64_t left = draw(thread, MOST_YIELDS + 1); left; left--) sched_yield();
}

static void delay(struct thread *thread) {
    if (is_taken(thread)) nanosleep(&(struct timespec){.tv_nsec = (long)draw(thread, LONGEST_DELAY)}, NULL);
}

/* Leaves the thread fewer processors. The runtime has counted the processors before, so teams stay as large as they
   were. */
static void bind(struct thread *thread) {
    thread->is_bound = true;
    sched_setaffinity(0, sizeof shared, &shared);
}

void shake_at(struct thread *thread, enum place place) {
    switch (settings.way) {
    case YIELDS:
        if (place != MEMBER_BEGINS) yield(thread);
        break;
    case DELAYS_AT_BEGINS:
        if (place == BEFORE_WAIT) delay(thread);
        break;
    case DELAYS_AT_ENDS:
        if (place == BEFORE_FINISH || place == BEHIND_WAIT) delay(thread);
        break;
    case FEWER_CORES:
        if (place == MEMBER_BEGINS && !thread->is_bound) bind(thread);
        break;
    default:
        break;
    }
}
